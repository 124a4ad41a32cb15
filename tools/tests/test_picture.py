"""The picture of the README's first screen."""
import unittest
from xml.etree import ElementTree

from support import TOOLS
from picture import coloured, picture

PICTURE = TOOLS.parent / "docs" / "live.svg"
SVG = "{http://www.w3.org/2000/svg}"


def lines(text: str) -> list[tuple[str, str | None]]:
    """The texts of a picture, each with the colour that it begins with."""
    found = ElementTree.fromstring(text).iter(f"{SVG}text")
    return [("".join(line.itertext()), line[0].get("fill")) for line in found]


class Picture(unittest.TestCase):
    def test_lines_with_their_colours(self):
        drawn = picture([coloured("\x1b[31ma <b> & c\x1b[0m"), coloured("plain"), []], "500 No\nUncaught E\n")
        self.assertEqual([text for text, _ in lines(drawn)][:2], ["a <b> & c", "plain"])
        self.assertEqual(lines(drawn)[-1][0], "Uncaught E")
        self.assertEqual([colour for _, colour in lines(drawn)][:2], ["#ff6b6b", "#d8d8d8"])

    def test_the_picture_shows_what_the_readme_says(self):
        found = lines(PICTURE.read_text())
        self.assertEqual(found[0][0], "$ tools/resin live demo")
        denied = [text for text, colour in found if colour == "#ff6b6b"]
        self.assertRegex(denied[0], r"^[\d:]{8}  DENIED  policy PasswordPolicy#3, channel http, bytes 0-2, by PolicyException, request 3: GET /password\.php$")
        self.assertEqual([text for text, _ in found][-2:], ["http://127.0.0.1:8080/password.php", "Uncaught PolicyException"])
        self.assertIn("](docs/live.svg)", (TOOLS.parent / "README.md").read_text())


if __name__ == "__main__":
    unittest.main()
