"""The lines on the terminal."""
import io
import os
import unittest
from unittest import mock

from support import get
from resin_tools.denials import Denial
from resin_tools.streams import requests
from resin_tools.terminal import Terminal, shown

DENIAL = Denial(7, 2, "http", "policy", "PasswordPolicy#2", "0-2", "PolicyException")
[REQUEST] = requests(get("/a"))


class Screen(io.StringIO):
    """A terminal."""

    def isatty(self) -> bool:
        return True


class Gone(Screen):
    """A terminal that went away."""

    def write(self, text: str) -> int:
        raise BrokenPipeError


class Lines(unittest.TestCase):
    def lines(self, screen: io.StringIO) -> list[str]:
        terminal = Terminal(screen)
        terminal.answer(REQUEST, 200, 3, 0.0021)
        terminal.denial(DENIAL, REQUEST)
        terminal.flush()
        return [line.partition("  ")[2] for line in screen.getvalue().splitlines()]

    def test_a_denial_is_red_on_a_terminal_alone(self):
        denial = "DENIED  policy PasswordPolicy#2, channel http, bytes 0-2, by PolicyException, request 7: GET /a"
        answer = "GET  /a  200  3 bytes  2.1 ms"
        with mock.patch.dict(os.environ):
            os.environ.pop("NO_COLOR", None)
            self.assertEqual(self.lines(io.StringIO()), [answer, denial])
            screen = Screen()
            self.assertEqual(self.lines(screen), [answer, denial + "\x1b[0m"])
            self.assertTrue(screen.getvalue().splitlines()[1].startswith("\x1b[31m"))
            os.environ["NO_COLOR"] = "1"
            self.assertEqual(self.lines(Screen()), [answer, denial])

    def test_a_terminal_that_went_away_is_no_fault(self):
        terminal = Terminal(Gone())
        for _ in range(2):
            terminal.say("words")
            terminal.flush()

    def test_bytes_that_a_terminal_would_obey(self):
        self.assertEqual(shown(b"a\x1b[2J\r\n\x07\xff\xc3\xa4"), "a\\x1b[2J\\x0d\\x0a\\x07\\xffä")
        self.assertEqual(shown("x" * 300), "x" * 197 + "...")


if __name__ == "__main__":
    unittest.main()
