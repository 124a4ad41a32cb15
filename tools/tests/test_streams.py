"""How streams are cut into requests: by RFC 9112 in the profile of docs/FORMATS.md, and as the engine does it."""
import random
import unittest

from support import Folder, engine_or_skip, get
from resin_tools.engine import serve_trace
from resin_tools.records import end_text, piece_text, read_answers, read_trace
from resin_tools.responses import status_of
from resin_tools.streams import RequestReader, requests, served


class Requests(unittest.TestCase):
    def test_a_request_with_its_parts(self):
        raw = b"POST /a?b HTTP/1.0\r\nHost: x\r\nX-Y:  a b\t\r\ncontent-length: 3\r\n\r\nabc"
        [request] = requests(raw + b"GET")
        self.assertEqual((request.raw, request.method, request.target, request.minor), (raw, b"POST", b"/a?b", 0))
        self.assertEqual(request.fields, [(b"Host", b"x"), (b"X-Y", b"a b"), (b"content-length", b"3")])
        self.assertEqual((request.body, request.refused), (b"abc", 0))

    def test_refusals(self):
        rows = {
            431: [b"GET / HTTP/1.1\r\nX: " + b"a" * 16_384, b"GET / HTTP/1.1\r\n" + b"A: b\r\n" * 65 + b"\r\n"],
            400: [
                b"\r\n\r\n", b"GET / HTTP/1.2\r\n\r\n", b"GET  / HTTP/1.1\r\n\r\n", b"GET x HTTP/1.1\r\n\r\n", b"GET /\xff HTTP/1.1\r\n\r\n",
                b"GET / HTTP/1.1\r\nA : b\r\n\r\n", b"GET / HTTP/1.1\r\nA: \x01\r\n\r\n", b"GET / HTTP/1.1\nA: b\n\nX: y\r\n\r\n",
                b"GET / HTTP/1.1\r\nContent-Length: 1\r\nContent-Length: 1\r\n\r\na", b"GET / HTTP/1.1\r\nContent-Length: +1\r\n\r\na",
                b"GET / HTTP/1.1\r\nContent-Length: 12345678901\r\n\r\n", b"GET / HTTP/1.1\r\nContent-Length:\r\n\r\n",
            ],
            501: [b"PUT / HTTP/1.1\r\n\r\n", b"get / HTTP/1.1\r\n\r\n", b"POST / HTTP/1.1\r\nTransfer-Encoding: chunked\r\nContent-Length: 9999999\r\n\r\n"],
            413: [b"POST / HTTP/1.1\r\nContent-Length: 1048577\r\n\r\n"],
        }
        for status, streams in rows.items():
            for stream in streams:
                with self.subTest(stream=stream[:60]):
                    self.assertEqual([request.refused for request in requests(stream + get("/"))], [status])

    def test_what_is_taken(self):
        rows = [b"\r\n\nGET / HTTP/1.1\nA: b\nC:d\r\n\r\n", b"HEAD /\xc3\xa4 HTTP/1.0\r\n\r\n", b"GET / HTTP/1.1\r\n" + b"A: b\r\n" * 64 + b"\r\n"]
        for stream in rows:
            self.assertEqual([(request.refused, request.raw) for request in requests(stream)], [(0, stream)])

    def test_any_cutting_gives_the_same_requests(self):
        stream = get("/1") + b"POST /2 HTTP/1.1\r\nContent-Length: 6\r\n\r\n\r\n\r\nab" + get("/3") + b"PUT / HTTP/1.1\r\n\r\n" + get("/4")
        whole = requests(stream)
        self.assertEqual([(it.target, it.refused) for it in whole], [(b"/1", 0), (b"/2", 0), (b"/3", 0), (b"/", 501)])
        for size in (1, 2, 5, 50):
            reader, found = RequestReader(), []
            for at in range(0, len(stream), size):
                reader.feed(stream[at : at + size])
                found += iter(reader.next, None)
            self.assertEqual(found, whole)

    def test_who_closes(self):
        rows = {get("/"): False, get("/", "Connection: keep-alive"): False, get("/", "Connection: a, CLOSE"): True, get("/", version="1.0"): True, b"x\r\n\r\n": True}
        for stream, closes in rows.items():
            self.assertEqual(requests(stream)[0].closes, closes)

    def test_expect(self):
        reader = RequestReader()
        reader.feed(b"POST / HTTP/1.1\r\nContent-Length: 1\r\nExpect: 100-Continue\r\n\r\n")
        self.assertIsNone(reader.next())
        self.assertTrue(reader.expects)
        reader.feed(b"a")
        self.assertFalse(reader.expects)


class AsTheEngine(Folder):
    """Heads with random mistakes, which the tools have to take or refuse as the engine does, since they match answers by it."""

    def test_mutated_heads(self):
        engine = engine_or_skip()
        self.put("site/note.txt", "a note")
        chance = random.Random(8)
        trace = b"".join(piece_text(1, mutated(chance)) + end_text(1) for _ in range(3000))
        asked = [request.refused for _, request in served(read_trace(trace))]
        answers, cause = serve_trace(engine, self.folder, trace)
        self.assertIsNone(cause)
        given = [status_of(answer.response) for answer in read_answers(answers)]
        self.assertEqual([status if status in (400, 413, 431, 501) else 0 for status in given], asked)
        self.assertGreater(len(set(given)), 5, "all kinds of answers came")






PARTS = [b"\r\n", b"\n", b"\r", b" ", b"\t", b":", b"\x00", b"\x7f", b"\xff", b"\xc3\xa4", b"Content-Length: 3\r\n", b"Content-Length", b"Transfer-Encoding: x\r\n", b"HEAD", b"/", b"?", b"1", b"0", b"9999999"]


def mutated(chance: random.Random) -> bytes:
    stream = b"POST /note.txt HTTP/1.1\r\nHost: test\r\nContent-Length: 3\r\nX-Y: a b\r\n\r\nabc" + get("/note.txt")
    if chance.random() < 0.05:
        stream = stream.replace(b"X-Y: a b\r\n", b"X: y\r\n" * chance.randrange(58, 70))
    if chance.random() < 0.05:
        stream = stream.replace(b"a b", b"a" * chance.randrange(16_200, 16_400))
    for _ in range(chance.randrange(3)):
        at, end = chance.randrange(len(stream)), chance.randrange(3)
        stream = stream[:at] + chance.choice(PARTS) + stream[at + end :]
    return stream


if __name__ == "__main__":
    unittest.main()
