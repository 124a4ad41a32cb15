"""The records of traces and answers."""
import unittest

import support  # noqa: F401
from resin_tools.denials import Denial, read_denial
from resin_tools.records import Answer, AnswerReader, BadRecord, End, Piece, answer_text, end_text, piece_text, read_answers, read_trace


class Trace(unittest.TestCase):
    def test_the_trace_of_docs_formats(self):
        self.assertEqual(list(read_trace(b"1 2\nab\n1000 0\n\n1 end\n")), [Piece(1, b"ab"), Piece(1000, b""), End(1)])

    def test_written_records_are_read_back(self):
        data = b"1 end\n" * 400_000
        text = piece_text(7, data) + end_text(7)
        *pieces, end = read_trace(text)
        self.assertEqual(b"".join(piece.data for piece in pieces), data)
        self.assertEqual(max(len(piece.data) for piece in pieces), 1_048_576)
        self.assertEqual(end, End(7))
        self.assertEqual(piece_text(7, b""), b"")

    def test_what_is_no_record(self):
        whole = b"1 2\nab\n"
        for rest in (b"x", b"0 1\na\n", b"01 1\na\n", b"1001 1\na\n", b"1001 end\n", b"1 01\na\n", b"1 1\nab\n", b"1 1\na", b"1 en", b"1 1048577\n" + b"a" * 1048577 + b"\n"):
            with self.subTest(rest=rest[:20]):
                with self.assertRaises(BadRecord) as caught:
                    list(read_trace(whole + rest))
                self.assertEqual(caught.exception.at, len(whole))


class Answers(unittest.TestCase):
    answers = [Answer(1, b"HTTP/1.1 200 OK\r\n\r\n"), Answer(1000, b""), Answer(2, b"a\n3 1\nb\n")]

    def test_any_cutting_gives_the_same_answers(self):
        text = b"".join(map(answer_text, self.answers))
        self.assertEqual(list(read_answers(text)), self.answers)
        for size in (1, 2, 3, 7, len(text)):
            reader = AnswerReader()
            found = [answer for at in range(0, len(text), size) for answer in reader.feed(text[at : at + size])]
            self.assertEqual(found, self.answers)

    def test_what_is_no_answer(self):
        for text in (b"x\n", b"1 2\nabc", b"1001 1\na\n", b"1 2 3\n", b"x" * 100):
            with self.subTest(text=text), self.assertRaises(BadRecord):
                AnswerReader().feed(text)


class Denials(unittest.TestCase):
    def test_the_lines_of_docs_formats(self):
        line = "deny request=6 write=1 channel=http policy=NoExport#2 bytes=1-7 by=PolicyException"
        self.assertEqual(read_denial(line), Denial(6, 1, "http", "policy", "NoExport#2", "1-7", "PolicyException"))
        line = "deny request=9 write=0 channel=func filter=NoForeignTags#1 bytes=0-0 by=E"
        self.assertEqual(read_denial(line), Denial(9, 0, "func", "filter", "NoForeignTags#1", "0-0", "E"))
        self.assertIsNone(read_denial("deny request=6"))


if __name__ == "__main__":
    unittest.main()
