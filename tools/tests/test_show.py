"""`resin show` and `resin diff`."""
import json
import unittest

from support import Folder, get, run
from resin_tools.records import Answer, answer_text, end_text, piece_text


def response(body: bytes, status: bytes = b"200 OK", *fields: bytes) -> bytes:
    head = [b"HTTP/1.1 " + status, b"Content-Type: text/plain", *fields, b"Content-Length: %d" % len(body), b"", b""]
    return b"\r\n".join(head) + body


class Show(Folder):
    def setUp(self) -> None:
        super().setUp()
        first, second = get("/first"), b"POST /second HTTP/1.1\r\nContent-Length: 3\r\n\r\n\xff\x1b\n" + b"x\r\n\r\n"
        # The request on connection 2 is whole before that on connection 1.
        trace = piece_text(1, first[:10]) + piece_text(2, second) + piece_text(1, first[10:]) + end_text(1)
        answers = [Answer(2, response(b"two\x1b[31m\n")), Answer(2, response(b"no\n", b"400 Bad Request")), Answer(1, response(b"one\n" * 100))]
        self.trace = self.put("trace", trace)
        self.answers = self.put("answers", b"".join(map(answer_text, answers)))

    def show(self, *words) -> list[str]:
        done = run("show", self.trace, self.answers, *words)
        self.assertEqual((done.returncode, done.stderr), (0, b""))
        return done.stdout.decode().splitlines()

    def test_side_by_side(self):
        lines = self.show()
        heads = [line for line in lines if line.startswith("──")]
        self.assertEqual([head.strip("─ ") for head in heads], ["request 1, connection 2", "request 2, connection 2", "request 3, connection 1"])
        self.assertRegex(lines[1], r"^POST /second HTTP/1\.1 +│ HTTP/1\.1 200 OK$")
        self.assertIn("│ two\\x1b[31m", "\n".join(lines))
        self.assertRegex("\n".join(lines), r"\(refused: 400\) +│ HTTP/1\.1 400 Bad Request")
        self.assertFalse([line for line in lines if "\x1b" in line or len(line) > 80])

    def test_long_bodies_are_cut_unless_asked_for(self):
        self.assertEqual(sum("│ one" in line for line in self.show()), 24)
        self.assertEqual(sum("(cut; the body has 400 bytes" in line for line in self.show()), 1)
        self.assertEqual(sum("│ one" in line for line in self.show("--whole")), 100)

    def test_json(self):
        found = json.loads("\n".join(self.show("--json")))
        self.assertEqual([(it["number"], it["connection"], it["request"]["target"]) for it in found], [(1, 2, "/second"), (2, 2, ""), (3, 1, "/first")])
        self.assertEqual(found[0]["request"]["body"], {"base64": "/xsK"})
        self.assertEqual(found[1]["request"]["refused"], 400)
        self.assertEqual(found[0]["answer"]["body"], {"text": "two\x1b[31m\n"})
        self.assertEqual((found[2]["answer"]["status"], found[2]["answer"]["headers"][1]), (200, {"name": "Content-Length", "value": "400"}))
        self.assertEqual(found[2]["request"]["headers"], [{"name": "Host", "value": "test"}])

    def test_answers_that_end_early(self):
        self.answers.write_bytes(self.answers.read_bytes()[:-5])
        done = run("show", self.trace, self.answers)
        self.assertEqual(done.returncode, 0)
        self.assertIn("(no answer)", done.stdout.decode())
        self.assertIn("1 requests have no answer", done.stderr.decode())

    def test_answers_of_another_trace(self):
        self.answers.write_bytes(answer_text(Answer(1, response(b"x"))))
        done = run("show", self.trace, self.answers)
        self.assertEqual((done.returncode, done.stdout), (2, b""))
        self.assertIn("the answers are of another trace: answer 1 is on connection 1", done.stderr.decode())


class Diff(Folder):
    def diff(self, old: list[Answer], new: list[Answer]) -> tuple[int, list[str]]:
        files = [self.put(name, b"".join(map(answer_text, answers))) for name, answers in (("old", old), ("new", new))]
        done = run("diff", *files)
        self.assertEqual(done.stderr, b"")
        return done.returncode, done.stdout.decode().splitlines()

    def test_the_same(self):
        answers = [Answer(1, response(b"a")), Answer(2, response(b"b"))]
        self.assertEqual(self.diff(answers, answers), (0, ["the same 2 answers"]))

    def test_a_line_a_header_and_bytes(self):
        old = [Answer(1, response(b"a\nb\n")), Answer(1, response(b"same")), Answer(2, response(b"c", b"200 OK", b"X: 1")), Answer(3, response(b"\xff\x00\x01"))]
        new = [Answer(1, response(b"a\nB\n")), Answer(1, response(b"same")), Answer(2, response(b"c", b"404 Not Found", b"X: 2")), Answer(3, response(b"\xff\x00\x02"))]
        status, lines = self.diff(old, new)
        self.assertEqual(status, 1)
        changes = [line.strip() for line in lines if line.startswith(("  -", "  +"))]
        self.assertEqual(changes, ["-b", "+B", "-HTTP/1.1 200 OK", "+HTTP/1.1 404 Not Found", "-X: 1", "+X: 2"])
        self.assertEqual([line for line in lines if line.startswith("answer")][0], "answer 1, connection 1: HTTP/1.1 200 OK")
        self.assertEqual(lines[-1], "  bodies of 3 and 3 bytes differ from byte 2")

    def test_one_more(self):
        status, lines = self.diff([Answer(1, response(b"a"))], [Answer(1, response(b"a")), Answer(4, response(b"b"))])
        self.assertEqual((status, lines), (1, ["answer 2, connection 4: only in the second file, HTTP/1.1 200 OK"]))

    def test_another_connection(self):
        status, lines = self.diff([Answer(1, response(b"a"))], [Answer(2, response(b"a"))])
        self.assertEqual((status, lines), (1, ["answer 1: on connection 1, HTTP/1.1 200 OK, and on connection 2, HTTP/1.1 200 OK"]))

    def test_no_answers(self):
        done = run("diff", self.put("a", "x"), self.put("b", ""))
        self.assertEqual((done.returncode, done.stdout), (2, b""))


if __name__ == "__main__":
    unittest.main()
