"""`resin report`, on journals written by hand from docs/FORMATS.md."""
import html.parser
import re
import subprocess
import unittest
from unittest import mock
from pathlib import Path

from support import Folder, engine_or_skip, get, make_site, run
from test_show import response
from resin_tools.labelled import Labelled, Run
from resin_tools.records import Answer, answer_text, end_text, piece_text

DENIED = b"500 Internal Server Error"


def journal(*answers: bytes) -> bytes:
    """A journal file of the events of each answer."""
    return b"".join(b"request %d\n%b" % (number, events) for number, events in enumerate(answers, 1))


def sent(write: int, channel: str, *runs: tuple[bytes, tuple[int, ...]]) -> bytes:
    """The event of a text that went out, of runs with the policies that their bytes carry."""
    lines = [b"sent %d %b %d %d" % (write, channel.encode(), sum(len(data) for data, _ in runs), len(runs))]
    lines += [b" ".join(b"%d" % number for number in (len(data), *policies)) for data, policies in runs]
    return b"\n".join([*lines, b"".join(data for data, _ in runs), b""])


MAIL = sent(1, "email", (b"u@foo.com\ns\n", ()), (b"pw", (2,)))
PAGE = sent(3, "http", (b"<p>", ())) + b"passed 4 1\npassed 4 2\n" + sent(4, "http", (b"an", (1, 2)), (b"\xff", (2,)))
ANSWERS = [
    ("/note.txt", response(b"a note"), sent(1, "http", (b"a note", ()))),
    ("/nothing", response(b"Not found\n", b"404 Not Found"), b""),
    ("/mail.php", response(b"Uncaught E\n", DENIED), b"passed 1 2\n" + MAIL + b"denied 2 http 2 PasswordPolicy 0 2 E\n"),
    ("/hello.php?n=<b>", response(b"<p>an\xff"), sent(1, "header", (b"X: 1", ())) + b"filter 2 http 1 NoTags 3 F\n" + PAGE),
]


class Reports(Folder):
    def setUp(self) -> None:
        super().setUp()
        self.page = self.folder / "page.html"
        self.write(ANSWERS)

    def write(self, answers: list[tuple[str, bytes, bytes]]) -> None:
        """Writes the files of a run in which one connection asked for each of these."""
        self.trace = self.put("trace", b"".join(piece_text(3, get(target)) for target, _, _ in answers) + end_text(3))
        self.answers = self.put("answers", b"".join(answer_text(Answer(3, text)) for _, text, _ in answers))
        self.journal = self.put("journal.log", journal(*(events for _, _, events in answers)))

    def report(self, *words: str | Path):
        return run("report", self.trace, self.answers, self.journal, *words)

    def lines(self, *words: str | Path) -> list[str]:
        """What stands on the terminal."""
        done = self.report(*words)
        self.assertEqual((done.returncode, done.stderr), (0, b""))
        return done.stdout.decode().splitlines()

    def html(self) -> str:
        """The page."""
        self.lines("--html", self.page)
        return self.page.read_text()

    def wrong(self) -> str:
        """The line that a wrong use gets."""
        done = self.report()
        self.assertEqual((done.returncode, done.stdout, done.stderr.count(b"\n")), (2, b"", 1))
        return done.stderr.decode().removeprefix("resin: ").rstrip()


class Screen(Reports):
    def test_counts_denials_and_what_left(self):
        lines = self.lines()
        self.assertEqual(lines[0], "4 requests; 5 writes left with 30 bytes, 5 of them labelled; 2 denials")
        rows = [line.split() for line in lines]
        at = lines.index("denied:")
        self.assertEqual(rows[at + 1], "request write bytes policy or filter exception".split())
        self.assertEqual(rows[at + 2], "3 GET /mail.php 2 http 0-2 PasswordPolicy#2 E".split())
        self.assertEqual(rows[at + 3], "4 GET /hello.php?n=<b> 2 http 0-3 filter NoTags#1 F".split())
        wanted = ("1 GET /note.txt 200 6", "2 GET /nothing 404 0", "3 GET /mail.php 500 14 2 2", "4 GET /hello.php?n=<b> 200 10 3 1 2")
        self.assertEqual(rows[lines.index("what left:") + 2 :], [row.split() for row in wanted])

    def test_it_fits_the_screen(self):
        self.write(ANSWERS * 40 + [("/" + "long" * 100 + ".php", response(b"\x1b[31m"), sent(1, "http", (b"\x1b[31m", (9,))))])
        for width, height in ((80, 24), (200, 60), (60, 12), (1, 1)):
            with self.subTest(width=width), mock.patch.dict("os.environ", {"COLUMNS": str(width), "LINES": str(height)}):
                lines = self.lines()
                self.assertLess(len(lines), max(height, 13))
                self.assertFalse([line for line in lines if len(line) > max(width, 60) or not line.isprintable()])
                self.assertEqual(sum("(cut: " in line for line in lines), 2)
                # What tells nothing of policies gives way.
                self.assertNotIn("/note.txt", "".join(lines))

    def test_nothing_was_denied(self):
        self.write(ANSWERS[:1])
        self.assertEqual(self.lines()[:3], ["1 request; 1 write left with 6 bytes, 0 of them labelled; 0 denials", "", "what left:"])

    def test_an_empty_run(self):
        self.write([])
        self.assertEqual(self.lines()[0], "0 requests; 0 writes left with 0 bytes, 0 of them labelled; 0 denials")


class Files(Reports):
    def test_a_journal_of_another_trace(self):
        self.journal.write_bytes(self.journal.read_bytes() + b"request 5\n")
        self.assertEqual(self.wrong(), "the journal is of another trace: it has 5 requests, and the trace 4")

    def test_a_journal_of_another_run(self):
        for other in (b"", journal(ANSWERS[0][2])):
            self.journal.write_bytes(other)
            self.assertIn("the journal is of another run: it has ", self.wrong())
        for other in (response(b"a not"), response(b"b note"), response(b"a note!"), response(b"a noteUncaught E")):
            self.write([("/note.txt", other, ANSWERS[0][2])])
            self.assertEqual(self.wrong(), "the journal is of another run: the body of answer 1 isn't what it sent")

    def test_no_journal(self):
        self.journal.write_bytes(b"deny request=1 write=1 channel=http policy=NoExport#1 bytes=0-1 by=E\n")
        self.assertEqual(self.wrong(), "the journal is none: it doesn't begin with `request 1`")

    def test_a_journal_that_is_cut_off(self):
        text = self.journal.read_bytes()
        self.journal.write_bytes(text[: text.index(b"pw")])
        done = self.report()
        at = text.index(b"sent 1 email")
        notes = f"resin: journal: no whole item at byte {at}; what follows is left out\nresin: requests of the trace without a journal: 1\n"
        self.assertEqual((done.returncode, done.stderr.decode()), (0, notes))
        self.assertIn("3 requests; 1 write left", done.stdout.decode())

    def test_a_run_that_stopped_before_the_last_answer(self):
        self.answers.write_bytes(b"".join(answer_text(Answer(3, text)) for _, text, _ in ANSWERS[:3]))
        done = self.report("--html", self.page)
        self.assertEqual((done.returncode, done.stderr), (0, b"resin: 1 requests have no answer\n"))
        self.assertRegex(done.stdout.decode(), r"4  GET /hello.php\?n=<b> +none ")
        self.assertIn("<p>not answered: the run ended before, connection 3</p>", self.page.read_text())

    def test_a_page_takes_the_place_of_a_report_alone(self):
        self.html()
        self.html()
        for path in (self.trace, self.answers, self.journal, self.folder, self.folder / "none" / "page.html"):
            before = path.read_bytes() if path.is_file() else None
            done = self.report("--html", path)
            self.assertEqual((done.returncode, done.stdout, done.stderr.count(b"\n")), (2, b"", 1))
            self.assertEqual(path.read_bytes() if path.is_file() else None, before)


class Reader(html.parser.HTMLParser):
    """What a browser makes of the page: its texts, those of `mark` elements with their policies, and whatever could load or run something."""

    def __init__(self) -> None:
        super().__init__()
        self.open: list[str] = []
        self.marks: list[tuple[str, str]] = []
        self.pres: list[str] = []
        self.links: list[str] = []
        self.ids: list[str] = []
        self.cells: list[list[str]] = []
        self.bad: list[str] = []

    def handle_starttag(self, tag: str, attrs: list[tuple[str, str | None]]) -> None:
        values = dict(attrs)
        self.bad += [tag] if tag in ("script", "img", "link", "iframe", "object", "embed", "base", "form", "svg") else []
        self.bad += [name for name, value in attrs if name.startswith("on") or name in ("src", "srcset", "action") or "url(" in (value or "")]
        self.links += [values["href"] or ""] if "href" in values else []
        self.ids += [values["id"] or ""] if "id" in values else []
        if tag == "mark":
            self.marks.append((values["data-p"] or "", ""))
        elif tag == "pre":
            self.pres.append("")
        elif tag == "tr":
            self.cells.append([])
        elif tag in ("td", "th"):
            self.cells[-1].append("")
        self.open.append(tag)

    def handle_endtag(self, tag: str) -> None:
        while self.open.pop() != tag:
            pass
        if tag == "table":
            self.open = [it for it in self.open if it not in ("tr", "td", "th")]

    def handle_data(self, data: str) -> None:
        if "mark" in self.open:
            self.marks[-1] = (self.marks[-1][0], self.marks[-1][1] + data)
        if "pre" in self.open:
            self.pres[-1] += data
        elif "td" in self.open or "th" in self.open:
            self.cells[-1][-1] += data


def read(page: str) -> Reader:
    reader = Reader()
    reader.feed(page)
    return reader


class Pages(Reports):
    def test_the_table_of_denials(self):
        found = read(self.html())
        rows = [[cell.strip() for cell in row] for row in found.cells]
        self.assertEqual(rows[0], ["request", "write", "channel", "policy or filter", "exception", "bytes"])
        self.assertEqual(rows[1], ["3 GET /mail.php HTTP/1.1", "2", "http", "policy PasswordPolicy#2", "E", "0-2"])
        self.assertEqual(rows[2], ["4 GET /hello.php?n=<b> HTTP/1.1", "2", "http", "filter NoTags#1", "F", "0-3"])
        self.assertEqual(found.links, ["#request-3", "#request-4"])
        self.assertEqual(found.ids, [f"request-{number}" for number in (1, 2, 3, 4)])

    def test_texts_with_their_labelled_ranges(self):
        found = read(self.html())
        texts = [text.removeprefix("\n") for text in found.pres]
        self.assertEqual(texts, ["a note", "Not found\n", "u@foo.com\ns\npw", "Uncaught E\n", "X: 1", "<p>an\\xff"])
        self.assertEqual(found.marks, [("2", "pw"), ("1 2", "an"), ("2", "\\xff")])

    def test_a_legend_tells_each_policy(self):
        page = re.sub(r"<[^>]+>", "", self.html())
        self.assertIn("2 policy PasswordPolicy#2: 2 bytes left; returned in write 1; denied in write 2\n", page)
        self.assertIn("1 policy 1: 2 bytes left; returned in write 4\n2 policy 2: 3 bytes left; returned in write 4\n", page)

    def test_colours_are_those_of_the_legend(self):
        section = self.html().split("<section ")[4]
        one, two = re.findall(r"<span class=swatch style='background:(#\w+)'>", section)
        self.assertNotEqual(one, two)
        stripes, other = re.findall(r"<mark style='background:(.+?)' data-p", section)
        self.assertEqual((stripes, other), (f"repeating-linear-gradient(135deg,{one} 0px 8px,{two} 8px 16px)", two))

    def test_no_script_and_no_outside_link(self):
        attack = b"</pre><script>alert(1)</script><img src='http://x/' onerror=alert(1)>\"'&amp;\x00\r\n\xe2\x80\xae"
        name = "A\u202e"
        events = sent(1, "http", (attack, (1,))) + f"denied 2 email 3 {name} 0 2 {name}\n".encode()
        self.write([("/?a=</code><script>x('\"", response(attack + b"Uncaught <script>\n", DENIED), events)])
        page = self.html()
        found = read(page)
        self.assertEqual((found.bad, found.links), ([], ["#request-1"]))
        self.assertEqual(found.marks, [("1", attack[:-5].decode().replace("\x00", "\\x00") + "\\x0d\n\\u{202e}")])
        self.assertFalse([character for character in page if character != "\n" and not character.isprintable()])
        self.assertIn("content=\"default-src 'none'; style-src 'unsafe-inline'\"", page)

    def test_writes_of_a_page_stand_together(self):
        events = sent(1, "http", (b"a", ())) + sent(2, "http", (b"b", ())) + sent(3, "header", (b"X: 1", ())) + sent(4, "http", (b"c", ()))
        self.write([("/", response(b"abc"), events)])
        heads = re.findall(r"<h3>(.*?)</h3>", self.html())
        self.assertEqual(heads, ["http, writes 1 to 2: 2 bytes", "header, write 3: 4 bytes", "http, write 4: 1 byte"])

    def test_a_head_request_has_no_body(self):
        self.write([("/", response(b""), sent(1, "http", (b"abc", ())))])
        self.trace.write_bytes(piece_text(3, get("/").replace(b"GET", b"HEAD")))
        self.assertIn("<p class=note>The answer to HEAD left its body out.</p>", self.html())

    def test_long_texts_are_cut_with_a_note(self):
        text = b"a" * 100_000
        runs = ((text, ()), (b"secret", (1,)), (text, (2,)))
        self.write([("/", response(b"".join(data for data, _ in runs)), b"passed 1 1\npassed 1 2\n" + sent(1, "http", *runs))])
        page = self.html()
        self.assertLess(len(page), 10_000)
        self.assertIn("<i>(cut: 99488 bytes)</i>", page)
        self.assertIn("<i>(cut: 97952 bytes, 97952 of them labelled)</i>", page)
        self.assertIn(("1", "secret"), read(page).marks)

    def test_a_long_run_is_cut_with_a_note(self):
        labelled = ("/hello.php", response(b"x" * 8000), sent(1, "http", (b"x" * 8000, (1,))))
        self.write([ANSWERS[0]] * 100 + [labelled] * 600)
        page = self.html()
        self.assertLess(len(page), 5_000_000)
        self.assertIn("<p class=note>(cut: 200 of 700 requests aren't shown; those with labelled bytes or denials come first)</p>", page)
        self.assertEqual(read(page).ids, [f"request-{number}" for number in range(101, 601)])


SITE = {
    "boot.php": "<?php class Mailed extends Policy { function export_check($c) { if ($c['type'] == 'http') throw new PolicyException('no'); } }",
    "buffer.php": "<?php ob_start(); echo 'kept ', policy_add('s', new Mailed()); ob_get_clean(); header('X-A: 1'); header('Location: /x'); echo 'é';",
    "status.php": "<?php http_response_code(404); echo ''; echo 'gone'; exit;",
    "fault.php": "<?php echo 'front '; $a = [1]; echo $a . 'x';",
    "mail.php": "<?php mail('a@b.c', 's', policy_add('pw', new Mailed())); try { echo policy_add('x', new Mailed()); } catch (PolicyException $e) { echo 'caught'; }",
    "bytes.bin": "\x00\x01\n",
}


class Engine(Reports):
    """Runs of the engine's own `record`."""

    def record(self, *raw: bytes) -> list[list[str]]:
        """What the report tells of a run over these requests, in words."""
        engine = engine_or_skip()
        self.trace.write_bytes(b"".join(piece_text(number, request) for number, request in enumerate(raw, 1)))
        done = subprocess.run([engine, "record"], cwd=self.folder, input=self.trace.read_bytes(), capture_output=True, check=False)
        if done.returncode == 2:
            self.skipTest("the engine has no word record yet")
        self.assertEqual(done.returncode, 0, done.stderr)
        self.answers.write_bytes(done.stdout)
        return [line.split() for line in self.lines("--html", self.page)]

    def test_a_run_of_record(self):
        make_site(self.folder)
        targets = ["/echo.php?n=1", "/secret.php", "/none", "/note.txt", "/long.php"]
        rows = self.record(*map(get, targets))
        self.assertRegex(" ".join(rows[0]), r"^5 requests; \d+ writes left with 4194313 bytes, 0 of them labelled; 1 denial$")
        self.assertIn("2 GET /secret.php 1 http 1-7 NoExport#1 PolicyException".split(), rows)

    def test_each_kind_of_answer(self):
        for name, text in SITE.items():
            self.put(f"site/{name}", text)
        asked = [get(f"/{name}") for name in SITE] + [get("/status.php").replace(b"GET", b"HEAD"), get("/none").replace(b"GET", b"HEAD")]
        rows = self.record(*asked, get("/", "Transfer-Encoding: chunked").replace(b"GET", b"HEAD"), b"none\r\n\r\n")
        left = [" ".join(row) for row in rows[rows.index(["what", "left:"]) + 2 :]]
        names = ["1 GET /boot.php 404 0", "2 GET /buffer.php 302 20", "3 GET /status.php 404 7", "4 GET /fault.php 500 6", "5 GET /mail.php 200 16 2 1"]
        names += ["6 GET /bytes.bin 200 3", "7 HEAD /status.php 404 7", "8 HEAD /none 404 0", "9 HEAD / 501 0", "10 none 400 0"]
        self.assertEqual(left, names)
        self.assertIn("5 GET /mail.php 2 http 0-1 Mailed#2 PolicyException".split(), rows)


if __name__ == "__main__":
    unittest.main()
