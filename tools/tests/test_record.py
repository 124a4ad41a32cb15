"""Runs that the engine records, and audits of what they leave (docs/FORMATS.md, "The journal file").

The sites and traces are made at random, each from the number of its test. What a journal file tells is read here once more, from that document, and
compared with the answers and with the denials that `serve` logs of the same run.
"""
import random
import subprocess
import unittest
from dataclasses import dataclass, field
from pathlib import Path

from support import Folder, engine_or_skip
from resin_tools.records import end_text, piece_text, read_answers

RUNS = 200

BOOT = """<?php
class Pass extends Policy { }
class Deny extends Policy { function export_check($c) { throw new PolicyException('no'); } }
class OnlyMail extends Policy { function export_check($c) { if ($c['type'] != 'email') throw new MailOnly('no'); } }
class MailOnly extends Exception { }
class Careful extends Filter { function filter_write($data, $c) { if (strpos($data, '!') !== false) throw new PolicyException('!'); return $data; } }
class Marks extends Filter { function filter_write($data, $c) { return policy_add($data, new Pass()); } }
function plain($x) { return $x; }
"""

TEXTS = ["a", "hello", "<b>", "!", "", "request 1\\n", "sent 1 http 2 1\\n2\\nhi\\n", "\\0\\xff\\r\\n", "denied 1 http 1 Deny 0 1 E\\n"]

STATEMENTS = [
    "echo {a};",
    "echo {a}, {b}, {a};",
    "echo policy_add({a}, new Pass());",
    "echo {a} . policy_add({b}, new Pass()) . policy_add({a}, new Pass());",
    "$p = new Pass(); echo policy_add(policy_add({a}, $p), new Pass()) . {b} . policy_add({b}, $p);",
    "echo str_repeat(policy_add('x', new Pass()) . 'y', 60);",
    "echo policy_add({a}, new Deny());",
    "try {{ echo {a} . policy_add({b}, new Deny()) . {a}; }} catch (PolicyException $e) {{ echo 'caught'; }}",
    "try {{ echo policy_add(policy_add('ab', new Pass()), new OnlyMail()); }} catch (MailOnly $e) {{ }}",
    "mail('u@foo.com', 's', policy_add({a}, new OnlyMail()) . {b});",
    "header('X-A: ' . policy_add('v', new Pass()));",
    "try {{ header('X-B: ' . policy_add('v', new Deny())); }} catch (PolicyException $e) {{ header('X-B: none'); }}",
    "http_response_code(404);",
    "filter_add('http', new Careful());",
    "filter_add('http', new Marks());",
    "try {{ filter_add('func:plain', new Careful()); echo plain({a}); }} catch (Exception $e) {{ echo 'no'; }}",
    "ob_start(); echo {a}; echo ob_get_clean();",
    "echo $_GET['n'] ?? {a};",
    "echo strlen(policy_add({a}, new Deny()));",
    "echo {a}; exit;",
    "undefined_function();",
]

REQUESTS = [
    "GET /p{n}.php HTTP/1.1\r\nHost: x\r\n\r\n",
    "GET /p{n}.php?n=%3Cb%3E HTTP/1.1\r\nHost: x\r\n\r\n",
    "HEAD /p{n}.php HTTP/1.1\r\nHost: x\r\n\r\n",
    "POST /p{n}.php HTTP/1.1\r\nHost: x\r\nContent-Length: 3\r\n\r\nn=1",
    "GET /none.php HTTP/1.1\r\n\r\n",
    "GET /note.txt HTTP/1.1\r\n\r\n",
    "nonsense\r\n\r\n",
]


@dataclass
class Journal:
    """What a journal file tells of an answer."""

    request: int
    events: int = 0
    denials: list[bytes] = field(default_factory=list)


def read_journals(text: bytes) -> list[Journal]:
    """The journals of a file, read item by item. An item that is none is a failure of the test."""
    found: list[Journal] = []
    at = 0

    def line() -> list[bytes]:
        nonlocal at
        end = text.index(b"\n", at)
        fields, at = text[at:end].split(b" "), end + 1
        return fields

    while at < len(text):
        verb, *fields = line()
        if verb == b"request":
            found.append(Journal(int(fields[0])))
            continue
        journal = found[-1]
        journal.events += 1
        if verb == b"sent":
            length, runs = int(fields[2]), int(fields[3])
            assert sum(int(line()[0]) for _ in range(runs)) == length
            assert text[at + length : at + length + 1] == b"\n"
            at += length + 1
        elif verb == b"denied":
            write, channel, number, name, begin, end, by = fields
            journal.denials.append(b"write=%b channel=%b policy=%b#%b bytes=%b-%b by=%b" % (write, channel, name, number, begin, end, by))
        elif verb == b"filter":
            write, channel, number, name, length, by = fields
            journal.denials.append(b"write=%b channel=%b filter=%b#%b bytes=0-%b by=%b" % (write, channel, name, number, length, by))
        else:
            assert verb == b"passed" and len(fields) == 2
    return found


class Recorded(Folder):
    """A folder with a site, in which the engine runs."""

    def setUp(self) -> None:
        super().setUp()
        self.engine = engine_or_skip()

    def engine_run(self, words: str, given: bytes, folder: Path | None = None) -> tuple[int, bytes]:
        """The status and the output of the engine with these words over what it is given."""
        done = subprocess.run([self.engine, *words.split()], input=given, capture_output=True, cwd=folder or self.folder, timeout=60)
        return done.returncode, done.stdout

    def audited(self, text: bytes) -> tuple[int, bytes]:
        """The status and the line of an audit."""
        return self.engine_run("audit", text)

    def put_site(self, chosen: random.Random) -> None:
        """A site of three scripts made at random."""
        self.put("site/boot.php", BOOT)
        self.put("site/note.txt", "a note\n")
        for number in range(3):
            parts = [chosen.choice(STATEMENTS) for _ in range(chosen.randint(1, 6))]
            quoted = lambda: '"' + chosen.choice(TEXTS) + '"'
            self.put(f"site/p{number}.php", "<?php " + "\n".join(part.format(a=quoted(), b=quoted()) for part in parts))

    def trace(self, chosen: random.Random) -> bytes:
        """A trace of up to ten requests on three connections, cut into pieces."""
        records = []
        for _ in range(chosen.randint(1, 10)):
            connection = chosen.randint(1, 3)
            text = chosen.choice(REQUESTS).format(n=chosen.randint(0, 2)).encode()
            cut = chosen.randint(0, len(text))
            records += [piece_text(connection, part) for part in (text[:cut], text[cut:]) if part]
            if chosen.random() < 0.2:
                records.append(end_text(connection))
        return b"".join(records)


class Random(Recorded):
    def test_an_audit_of_a_recorded_run_says_yes(self):
        events = denials = 0
        for number in range(RUNS):
            with self.subTest(run=number):
                chosen = random.Random(number)
                self.put_site(chosen)
                trace = self.trace(chosen)
                (self.folder / "denial.log").unlink(missing_ok=True)
                served = self.engine_run("serve", trace)
                recorded = self.engine_run("record", trace)
                self.assertEqual(recorded, served)
                self.assertEqual(recorded[0], 0)
                text = (self.folder / "journal.log").read_bytes()
                journals = read_journals(text)
                count = sum(journal.events for journal in journals)
                self.assertEqual([journal.request for journal in journals], list(range(1, len(list(read_answers(recorded[1]))) + 1)))
                self.assertEqual(self.audited(text), (0, b"audit ok: requests=%d events=%d\n" % (len(journals), count)))
                lines = [b"deny request=%d %b" % (journal.request, denial) for journal in journals for denial in journal.denials]
                self.assertEqual((self.folder / "denial.log").read_bytes().splitlines(), lines)
                events, denials = events + count, denials + len(lines)
        self.assertGreater(events, 1000)
        self.assertGreater(denials, 100)


class Files(Recorded):
    def test_a_journal_is_made_anew_and_no_denial_is_logged(self):
        self.put("site/a.php", "hi")
        trace = piece_text(1, b"GET /a.php HTTP/1.1\r\nHost: x\r\n\r\n")
        for _ in range(2):
            self.engine_run("record", trace)
            self.assertEqual((self.folder / "journal.log").read_bytes(), b"request 1\nsent 1 http 2 1\n2\nhi\n")
        self.assertFalse((self.folder / "denial.log").exists())

    def test_a_front_of_a_file_is_refused_amid_an_item(self):
        text = b"request 1\nsent 1 http 2 1\n2\nhi\nrequest 2\n"
        ends = {0: (0, 0), 10: (1, 0), 31: (1, 1), 41: (2, 1)}
        for length in range(len(text) + 1):
            with self.subTest(length=length):
                last = max(end for end in ends if end <= length)
                wanted = (0, b"audit ok: requests=%d events=%d\n" % ends[last]) if last == length else (9, b"audit refused: offset=%d\n" % last)
                self.assertEqual(self.audited(text[:length]), wanted)

    def test_an_audit_leaves_the_logs(self):
        self.put("denial.log", "a line\n")
        self.put("outbox.txt", "a mail\n")
        self.assertEqual(self.audited(b"request 2\n"), (9, b"audit refused: offset=0\n"))
        self.assertEqual((self.folder / "denial.log").read_bytes(), b"a line\n")
        self.assertEqual((self.folder / "outbox.txt").read_bytes(), b"a mail\n")
        self.assertFalse((self.folder / "journal.log").exists())


if __name__ == "__main__":
    unittest.main()
