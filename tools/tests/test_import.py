"""`resin import`."""
import json
import subprocess
import unittest
from pathlib import Path

from support import Done, Folder, engine_or_skip, run
from resin_tools.records import End, Piece, read_trace
from resin_tools.sent import Sent, trace_records
from resin_tools.streams import served

DATA = Path(__file__).parent / "data"
CHROME_HEAD = b"Accept: text/html\r\nConnection: keep-alive\r\nHost: localhost:8080\r\n"
FIREFOX_HEAD = (
    b"Host: localhost:8080\r\nUser-Agent: Mozilla/5.0 (X11; Linux x86_64; rv:128.0) Gecko/20100101 Firefox/128.0\r\nConnection: keep-alive\r\n"
)
FORM = b"Content-Type: application/x-www-form-urlencoded\r\n"


def notes(done: Done) -> list[str]:
    return done.stderr.decode().splitlines()


class Har(Folder):
    def test_chrome(self):
        done = run("import", DATA / "chrome.har")
        self.assertEqual(done.returncode, 0, done.stderr)
        post = b"POST /login.php HTTP/1.1\r\n" + CHROME_HEAD + FORM + b"Cookie: s=1; t=2\r\nContent-Length: 21\r\n\r\nuser=ann&pw=caf%C3%A9"
        # Connections 77 and 81 of the file; the second ends behind its only request that a trace can hold.
        wanted = [
            Piece(1, b"GET / HTTP/1.1\r\n" + CHROME_HEAD + b"\r\n"),
            Piece(1, b"GET /style.css?v=2 HTTP/1.1\r\n" + CHROME_HEAD + b"\r\n"),
            Piece(2, b"GET /logo.png HTTP/1.1\r\n" + CHROME_HEAD + b"\r\n"),
            End(2),
            Piece(1, post),
            End(1),
        ]
        self.assertEqual(list(read_trace(done.stdout)), wanted)

    def test_chrome_names_what_is_left_out(self):
        told = notes(run("import", DATA / "chrome.har"))
        reasons = {4: "cache", 7: "multipart", 8: "chunked", 9: "it is ws", 10: "no answer"}
        for number, reason in reasons.items():
            [line] = [line for line in told if f"entry {number} is left out" in line]
            self.assertIn(reason, line)
        self.assertTrue(any("1 requests to cdn.example are left out" in line for line in told))
        self.assertEqual(told[-1], "resin: a trace of 4 requests, " + told[-1].split(", ")[1])
        self.assertEqual(len(told), 7)

    def test_another_host_by_http_2(self):
        done = run("import", DATA / "chrome.har", "--host", "cdn.example")
        self.assertEqual(list(read_trace(done.stdout)), [Piece(1, b"GET /lib.js HTTP/1.1\r\nHost: cdn.example\r\n\r\n"), End(1)])

    def test_firefox(self):
        done = run("import", DATA / "firefox.har")
        # The file names the server's port for a connection. a.css was under way as b.css was asked for, so there are two.
        post = b"POST /note.php HTTP/1.1\r\n" + FIREFOX_HEAD + FORM + b"Content-Length: 20\r\n\r\nnote=gr%C3%BC%C3%9Fe"
        wanted = [
            Piece(1, b"GET /index.php?q=%3Cb%3E HTTP/1.1\r\n" + FIREFOX_HEAD + b"\r\n"),
            Piece(1, b"GET /a.css HTTP/1.1\r\n" + FIREFOX_HEAD + b"\r\n"),
            Piece(2, b"GET /b.css HTTP/1.1\r\n" + FIREFOX_HEAD + b"\r\n"),
            End(2),
            Piece(1, post),
            End(1),
        ]
        self.assertEqual(list(read_trace(done.stdout)), wanted)
        [first, last] = notes(done)
        self.assertIn("entry 4 is left out: GET http://localhost:8080/c.css: the browser took it from its cache", first)

    def test_a_body_that_is_not_whole(self):
        har = json.loads((DATA / "firefox.har").read_text())
        har["log"]["entries"][4]["request"]["postData"]["text"] = "note=gr"
        done = run("import", self.put("cut.har", json.dumps(har)))
        self.assertIn("entry 5 is left out: POST http://localhost:8080/note.php: its body doesn't stand whole in the file", done.stderr.decode())

    def test_the_engine_serves_an_imported_trace(self):
        engine = engine_or_skip()
        self.put("site/login.php", "<?php echo $_POST['user'], ' ', $_POST['pw'], ' ', $_COOKIE['t'];")
        trace = run("import", DATA / "chrome.har").stdout
        done = subprocess.run([engine, "serve"], cwd=self.folder, input=trace, capture_output=True, check=False)
        self.assertEqual(done.returncode, 0)
        self.assertTrue(done.stdout.endswith("\r\n\r\nann café 2\n".encode()))

    def test_files_that_are_no_har(self):
        for text in ("{", "{}", '{"log": {}}', '{"log": {"entries": [{}]}}', '{"log": {"entries": [{"request": {"method": "GET", "url": "http://x/"}}]}}'):
            with self.subTest(text=text):
                done = run("import", self.put("x.har", text))
                self.assertEqual((done.returncode, done.stdout, len(notes(done))), (2, b"", 1))


class Raw(Folder):
    def test_files_are_connections(self):
        one, two = b"GET /a HTTP/1.1\r\n\r\nPOST /b HTTP/1.1\r\nContent-Length: 2\r\n\r\nhi", b"GET /c HTTP/1.1\r\n\r\n"
        done = run("import", self.put("one", one), self.put("two", two))
        wanted = [Piece(1, one[:19]), Piece(1, one[19:]), End(1), Piece(2, two), End(2)]
        self.assertEqual(list(read_trace(done.stdout)), wanted)

    def test_chunked_and_multipart_bodies_are_left_out(self):
        chunked = b"POST /a HTTP/1.1\r\nTransfer-Encoding: chunked\r\n\r\n3\r\nabc\r\nA;x=y\r\n0123456789\r\n0\r\n\r\n"
        multipart = b"POST /b HTTP/1.1\r\nContent-Type: multipart/form-data; boundary=x\r\nContent-Length: 7\r\n\r\n--x--\r\n"
        plain = b"GET /c HTTP/1.1\r\n\r\n"
        done = run("import", self.put("file", chunked + multipart + plain))
        self.assertEqual(list(read_trace(done.stdout)), [Piece(1, plain), End(1)])
        [first, second, _] = notes(done)
        self.assertIn("request 1, at byte 0 is left out: POST /a: its body is chunked", first)
        self.assertIn(f"request 2, at byte {len(chunked)} is left out: POST /b: its body is multipart", second)

    def test_what_is_not_whole(self):
        for rest in (b"GET /b HTT", b"POST /b HTTP/1.1\r\nContent-Length: 9\r\n\r\nabc", b"GET /b HTTP/1.1\n\n", b"POST / HTTP/1.1\r\nTransfer-Encoding: chunked\r\n\r\n3\r\nab"):
            done = run("import", self.put("file", b"GET /a HTTP/1.1\r\n\r\n" + rest))
            self.assertEqual(list(read_trace(done.stdout)), [Piece(1, b"GET /a HTTP/1.1\r\n\r\n"), End(1)])
            self.assertIn("request 2, at byte 19 is left out: it isn't whole", notes(done)[0])

    def test_a_refused_request_takes_no_later_one_with_it(self):
        stream = b"PUT /a HTTP/1.1\r\n\r\nGET /b HTTP/1.1\r\n\r\n"
        done = run("import", self.put("file", stream))
        self.assertEqual([request.target for _, request in served(read_trace(done.stdout))], [b"/a", b"/b"])


class Numbers(unittest.TestCase):
    def test_more_connections_than_numbers(self):
        raw = b"GET / HTTP/1.1\r\n\r\n"
        sent = [Sent(float(n), float(n), str(n), raw, "") for n in range(2500)]
        records = list(read_trace(b"".join(trace_records(sent))))
        self.assertEqual([record.connection for record in records[::2]], [n % 1000 + 1 for n in range(2500)])


if __name__ == "__main__":
    unittest.main()
