"""Journal files: what is read of them, and where reading stops."""
import re
import unittest

from support import TOOLS
from resin_tools.denials import Denial
from resin_tools.journal import Journal, Passed, Sent, read_journals
from resin_tools.labelled import Cut, Labelled, Run, excerpt, joined
from resin_tools.records import BadRecord

ROWS = TOOLS.parent / "crates" / "resin_audit_table" / "stdout"

# The example of docs/FORMATS.md.
FILE = b"""\
request 1
passed 1 1
sent 1 http 2 2
1
1 1
hi
request 2
denied 1 http 3 NoExport 0 7 PolicyException
"""


def read(text: bytes) -> tuple[list[Journal], int | None]:
    """The journals of a text, and the place where it stops being a file."""
    found: list[Journal] = []
    try:
        for journal in read_journals(text):
            found.append(journal)
    except BadRecord as bad:
        return found, bad.at
    return found, None


def unescaped(field: str) -> bytes:
    return re.sub(r"\\(.)", lambda found: {"n": "\n", "r": "\r", "t": "\t"}.get(found[1], found[1]), field, flags=re.S).encode()


class Reading(unittest.TestCase):
    def test_the_example_of_the_formats(self):
        first = Journal(1, [Passed(1, 1), Sent(1, "http", Labelled(b"hi", (Run(1, ()), Run(1, (1,)))))])
        second = Journal(2, [Denial(2, 1, "http", "policy", "NoExport#3", "0-7", "PolicyException")])
        self.assertEqual(read(FILE), ([first, second], None))
        self.assertEqual(second.denials, second.events)

    def test_it_stands_in_the_formats(self):
        page = (TOOLS.parent / "docs" / "FORMATS.md").read_text()
        self.assertIn("\n".join("    " + line for line in FILE.decode().splitlines()), page)

    def test_a_denial_by_a_filter(self):
        found, at = read(b"request 1\nfilter 0 func 4294967295 N\xc3\xa9 0 E\n")
        self.assertEqual((found[0].events, at), ([Denial(1, 0, "func", "filter", "Né#4294967295", "0-0", "E")], None))

    def test_each_row_of_the_audit(self):
        """A text is read to its end exactly where the audit says that it is a file, and else to the place that the audit tells."""
        rows = [line.rpartition(" = ") for line in ROWS.read_text().splitlines() if line.startswith("audit|")]
        self.assertGreater(len(rows), 300)
        for row, _, verdict in rows:
            with self.subTest(row=row):
                kind, *numbers = verdict.split()
                found, at = read(unescaped(row.removeprefix("audit|")))
                if kind == "form":
                    self.assertEqual([f"offset={at}"], numbers)
                else:
                    self.assertIsNone(at)
                if kind == "yes":
                    self.assertEqual([f"requests={len(found)}", f"events={sum(len(it.events) for it in found)}"], numbers)

    def test_what_stands_before_the_place_is_given(self):
        for cut in range(len(FILE)):
            found, _ = read(FILE[:cut])
            whole, _ = read(FILE)
            self.assertEqual([it.number for it in found], [1, 2][: len(found)])
            for journal, other in zip(found, whole):
                self.assertEqual(journal.events, other.events[: len(journal.events)])


class Texts(unittest.TestCase):
    def test_join_makes_one_run_of_neighbours(self):
        one, other = Labelled(b"ab", (Run(1, ()), Run(1, (2,)))), Labelled(b"cde", (Run(2, (2,)), Run(1, (2, 3))))
        self.assertEqual(joined([one, Labelled(b"", ()), other]), Labelled(b"abcde", (Run(1, ()), Run(3, (2,)), Run(1, (2, 3)))))
        self.assertEqual(joined([]), Labelled(b"", ()))
        self.assertEqual(other.labelled, 3)

    def test_a_short_text_is_shown_whole(self):
        text = Labelled(b"abc", (Run(1, ()), Run(2, (1,))))
        self.assertEqual(excerpt(text, 100), [(b"a", ()), (b"bc", (1,))])

    def test_a_long_text_keeps_the_edges_of_its_runs(self):
        text = Labelled(b"a" * 10_000 + b"secret" + b"b" * 10_000, (Run(10_000, ()), Run(6, (1,)), Run(10_000, ())))
        edge, cut = 256, Cut(10_000 - 512, 0)
        wanted = [(b"a" * edge, ()), cut, (b"a" * edge, ()), (b"secret", (1,)), (b"b" * edge, ()), cut, (b"b" * edge, ())]
        self.assertEqual(excerpt(text, 65_536), wanted)

    def test_a_long_labelled_run_is_cut_and_counted(self):
        text = Labelled("é".encode() * 6000, (Run(12_000, (7,)),))
        front, cut, end = excerpt(text, 65_536)
        self.assertIsInstance(cut, Cut)
        self.assertEqual((len(front[0]) + cut.length + len(end[0]), cut.labelled), (12_000, cut.length))
        for data, _ in (front, end):
            data.decode()  # no character is cut

    def test_many_runs_are_cut(self):
        text = Labelled(b"ab" * 5000, (Run(1, ()), Run(1, (1,))) * 5000)
        *shown, cut = excerpt(text, 65_536)
        self.assertEqual((len(shown), cut), (400, Cut(9600, 4800)))

    def test_no_room_is_left(self):
        self.assertEqual(excerpt(Labelled(b"abc", (Run(3, (1,)),)), 0), [Cut(3, 3)])
        self.assertEqual(excerpt(Labelled(b"", ()), 0), [])

    def test_bytes_that_are_no_characters(self):
        text = Labelled(b"\x80" * 10_000, (Run(10_000, ()),))
        self.assertEqual([len(part[0]) for part in excerpt(text, 65_536) if not isinstance(part, Cut)], [256, 256])


if __name__ == "__main__":
    unittest.main()
