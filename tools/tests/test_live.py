"""`resin live` over real sockets."""
import contextlib
import http.client
import os
import select
import signal
import socket
import struct
import threading
import time
import unittest
from collections import Counter
from concurrent.futures import ThreadPoolExecutor

from support import Live, SharedLive, get, is_closed, read_response, run
from resin_tools.bridge import raise_file_limit
from resin_tools.engine import serve_trace
from resin_tools.records import read_answers, read_trace
from resin_tools.streams import served

raise_file_limit()


class Requests(SharedLive):
    """What a client asks for, it gets."""

    def test_many_kept_connections_at_once(self):
        together = threading.Barrier(50)

        def four_requests(worker: int) -> list[tuple[int, bytes]]:
            connection = http.client.HTTPConnection("127.0.0.1", self.server.port, timeout=60)
            together.wait(20)
            found = []
            for i in range(4):
                connection.request("GET", f"/echo.php?n={worker}.{i}")
                response = connection.getresponse()
                found.append((response.status, response.read()))
            connection.close()
            return found

        with ThreadPoolExecutor(50) as pool:
            answers = list(pool.map(four_requests, range(50)))
        self.assertEqual(answers, [[(200, f"n={worker}.{i}".encode()) for i in range(4)] for worker in range(50)])

    def test_head_cut_at_every_byte(self):
        connection = self.connect()
        request = get("/echo.php?n=cut")
        for cut in range(1, len(request)):
            connection.sendall(request[:cut])
            time.sleep(0.002)
            connection.sendall(request[cut:])
            self.assertEqual(read_response(connection), (200, b"n=cut"))

    def test_one_byte_at_a_time(self):
        connection = self.connect()
        for byte in get("/echo.php?n=bytes"):
            connection.sendall(bytes([byte]))
            time.sleep(0.001)
        self.assertEqual(read_response(connection), (200, b"n=bytes"))

    def test_pipelining(self):
        connection = self.connect()
        connection.sendall(b"".join(get(f"/echo.php?n={n}") for n in range(300)))
        for n in range(300):
            self.assertEqual(read_response(connection), (200, f"n={n}".encode()))

    def test_post_with_its_body_in_pieces(self):
        connection = self.connect()
        body = b"a=" + b"x" * 200_000
        head = f"POST /post.php HTTP/1.1\r\nHost: test\r\nContent-Type: application/x-www-form-urlencoded\r\nContent-Length: {len(body)}\r\n\r\n"
        connection.sendall(head.encode())
        for at in range(0, len(body), 9_999):
            connection.sendall(body[at : at + 9_999])
        self.assertEqual(read_response(connection), (200, body + b" method=POST"))
        self.echo(connection, "after")

    def test_a_client_that_waits_for_100_continue(self):
        connection = self.connect()
        fields = "Content-Type: application/x-www-form-urlencoded\r\nContent-Length: 3\r\nExpect: 100-continue"
        connection.sendall(f"POST /post.php HTTP/1.1\r\nHost: test\r\n{fields}\r\n\r\n".encode())
        self.assertEqual(connection.recv(100), b"HTTP/1.1 100 Continue\r\n\r\n")
        connection.sendall(b"a=b")
        self.assertEqual(read_response(connection), (200, b"a=b method=POST"))

    def test_head_leaves_the_body_out(self):
        connection = self.connect()
        connection.sendall(b"HEAD /note.txt HTTP/1.1\r\nHost: test\r\n\r\n")
        self.assertEqual(read_response(connection, has_body=False), (200, b""))
        self.echo(connection, "after")

    def test_refused_streams_are_closed_after_the_answer(self):
        refused = {
            b"PUT / HTTP/1.1\r\nHost: test\r\n\r\n": 501,
            b"no head\r\n\r\n": 400,
            b"POST / HTTP/1.1\r\nContent-Length: 9999999\r\n\r\n": 413,
            b"GET / HTTP/1.1\r\nX: " + b"x" * 20_000: 431,
        }
        for stream, status in refused.items():
            with self.subTest(status=status):
                connection = self.connect()
                connection.sendall(stream)
                self.assertEqual(read_response(connection), (status, f"Request refused: {status}\n".encode()))
                self.assertTrue(is_closed(connection))

    def test_requests_before_a_refusal_are_answered_and_none_behind_it(self):
        connection = self.connect()
        connection.sendall(get("/echo.php?n=1") + b"PUT / HTTP/1.1\r\nHost: test\r\n\r\n" + get("/echo.php?n=2"))
        self.assertEqual(read_response(connection), (200, b"n=1"))
        self.assertEqual(read_response(connection)[0], 501)
        self.assertTrue(is_closed(connection))

    def test_close_and_http_1_0_are_honoured(self):
        for request in (get("/echo.php?n=1", "Connection: close"), get("/echo.php?n=1", "Connection: x, Close"), get("/echo.php?n=1", version="1.0")):
            connection = self.connect()
            connection.sendall(request)
            self.assertEqual(read_response(connection), (200, b"n=1"))
            self.assertTrue(is_closed(connection))

    def test_a_client_that_sends_its_end_first_is_answered(self):
        connection = self.connect()
        connection.sendall(get("/echo.php?n=1") + get("/echo.php?n=2") + b"GET /half")
        connection.shutdown(socket.SHUT_WR)
        self.assertEqual(read_response(connection), (200, b"n=1"))
        self.assertEqual(read_response(connection), (200, b"n=2"))
        self.assertTrue(is_closed(connection))

    def test_a_denial_is_told(self):
        connection = self.connect()
        connection.sendall(get("/secret.php"))
        self.assertEqual(read_response(connection)[0], 500)
        line = self.server.wait_line("DENIED")
        for words in ("policy NoExport#1", "channel http", "bytes 1-7", ": GET /secret.php"):
            self.assertIn(words, line)
        self.assertRegex(self.server.wait_line("/secret.php"), r"^[\d:]{8}  GET  /secret\.php  500  25 bytes  [\d.]+ ms$")

    def test_a_target_cannot_write_on_the_terminal(self):
        connection = self.connect()
        connection.sendall("GET /\u009b31m HTTP/1.1\r\nHost: test\r\n\r\n".encode())
        self.assertEqual(read_response(connection)[0], 404)
        self.assertIn("\\x9b31m", self.server.wait_line("31m"))

    def test_nothing_outside_of_the_site_is_served(self):
        (self.data / "denial.log").write_text("x")
        for target in ("/../denial.log", "/%2e%2e/denial.log", "/.resin/x", "//etc/passwd", "/boot.php"):
            connection = self.connect()
            connection.sendall(get(target))
            self.assertEqual(read_response(connection), (404, b"Not found\n"))


class Clients(Live):
    """Clients that are slow, many, or gone."""

    def test_clients_that_go_away_in_the_middle(self):
        self.start()
        for i in range(30):
            connection = self.connect()
            connection.sendall(get("/long.php") if i % 2 else b"POST /post.php HTTP/1.1\r\nContent-Length: 100\r\n\r\na=")
            # Closed by a reset, with the answer unread.
            connection.setsockopt(socket.SOL_SOCKET, socket.SO_LINGER, struct.pack("ii", 1, 0))
            connection.close()
            self.echo(self.connect(), i)

    def test_a_number_is_used_again_behind_the_answers_and_the_end_of_its_connection(self):
        self.start("--quiet")
        for i in range(1100):
            connection = socket.create_connection(("127.0.0.1", self.server.port), timeout=60)
            # An answer that isn't awaited, the front of a request that never becomes whole, and a whole exchange.
            connection.sendall([get(f"/echo.php?n={i}"), get("/echo.php")[:-1], get(f"/echo.php?n={i}")][i % 3])
            if i % 3 == 2:
                self.assertEqual(read_response(connection), (200, f"n={i}".encode()))
            connection.close()
        self.echo(self.connect(), "last")

    def test_a_slow_client_holds_up_no_other(self):
        self.start()
        slow = self.connect()
        slow.setsockopt(socket.SOL_SOCKET, socket.SO_RCVBUF, 65536)
        slow.sendall(get("/long.php") * 3)
        late = self.connect()
        late.sendall(b"GET /echo.php?n=late HT")
        other = self.connect()
        for i in range(20):
            self.echo(other, i)
        late.sendall(b"TP/1.1\r\nHost: test\r\n\r\n")
        self.assertEqual(read_response(late), (200, b"n=late"))
        whole = b"0123456789abcdef" * 262144
        for _ in range(3):
            self.assertTrue(read_response(slow) == (200, whole))

    def test_unfinished_requests_are_bounded_and_outlast_an_engine(self):
        self.start("--limit", "300000")
        size = 1_000_000
        connections = [self.connect() for _ in range(72)]
        for connection in connections:
            with contextlib.suppress(OSError):
                connection.sendall(b"POST /note.txt HTTP/1.1\r\nContent-Length: %d\r\n\r\n" % size + b"x" * (size - 1))
        # 64 MiB of unfinished requests are kept. One beyond is answered at once, and closed.
        self.assertTrue(select.select(connections, [], [], 60)[0])
        self.server.wait_line("the engine is started anew")
        answers = []
        while answers.count((200, b"a note")) < 5:
            connection = connections.pop()
            # What is still sent to a closed connection may take its answer away.
            with contextlib.suppress(ConnectionError):
                connection.sendall(b"y")
                answers.append(read_response(connection))
        self.assertLessEqual(set(answers), {(200, b"a note"), (503, b"Too many unfinished requests\n")})

    def test_more_connections_than_numbers_wait(self):
        self.start("--quiet")
        connections = []
        for n in range(1100):
            connection = socket.create_connection(("127.0.0.1", self.server.port), timeout=60)
            connection.sendall(get(f"/echo.php?n={n}"))
            connections.append(connection)
        for n, connection in enumerate(connections):
            self.assertEqual(read_response(connection), (200, f"n={n}".encode()))
            if n < 500:
                connection.close()
        for connection in connections[500:]:
            connection.close()

    def test_idle_connections_give_way_to_those_that_wait(self):
        self.start("--quiet")
        idle = [self.connect() for _ in range(1000)]
        for n, connection in enumerate(idle):
            self.echo(connection, n)
        self.echo(self.connect(), "waited")


class Ends(Live):
    """The engine is started anew, and the server ends."""

    def test_an_engine_that_is_killed_in_the_middle(self):
        self.start("--fuel", "100000000")
        waiting = [self.connect() for _ in range(3)]
        half = self.connect()
        half.sendall(b"GET /echo.php?n=ha")
        self.echo(self.connect(), 1)
        for connection in waiting:
            connection.sendall(get("/slow.php") * 2)
        time.sleep(0.1)
        os.kill(self.server.engine_pid(), signal.SIGKILL)
        found = [read_response(connection) for connection in waiting]
        self.assertIn((503, b"The engine ended\n"), found)
        self.assertLessEqual(set(found), {(503, b"The engine ended\n"), (200, b"slow")})
        self.server.wait_line("the engine ended with signal SIGKILL")
        self.echo(self.connect(), 2)
        half.sendall(b"lf HTTP/1.1\r\nHost: test\r\n\r\n")
        self.assertEqual(read_response(half), (200, b"n=half"))

    def test_no_request_is_lost_or_doubled_where_the_engine_is_started_anew(self):
        kept = self.folder / "kept"
        self.start("--limit", "1500", "--keep", kept)

        def ask(worker: int) -> None:
            connection = socket.create_connection(("127.0.0.1", self.server.port), timeout=60)
            for i in range(20):
                request = get(f"/echo.php?n={worker}.{i}")
                cut = (7 * i + worker) % len(request)
                connection.sendall(request[:cut])
                time.sleep(0.001)
                connection.sendall(request[cut:] + get(f"/echo.php?n={worker}.{i}.next"))
                self.assertEqual(read_response(connection), (200, f"n={worker}.{i}".encode()))
                self.assertEqual(read_response(connection), (200, f"n={worker}.{i}.next".encode()))
            connection.close()

        with ThreadPoolExecutor(10) as pool:
            list(pool.map(ask, range(10)))
        self.assertEqual(self.server.end(), 0)
        traces = sorted(self.folder.glob("kept*"))
        self.assertGreater(len(traces), 10)
        targets: Counter[bytes] = Counter()
        for trace in traces:
            self.assertLess(trace.stat().st_size, 1500)
            targets.update(request.target for _, request in served(read_trace(trace.read_bytes())))
        wanted = [f"/echo.php?n={worker}.{i}{more}".encode() for worker in range(10) for i in range(20) for more in ("", ".next")]
        self.assertEqual(targets, Counter(wanted))

    def test_a_body_longer_than_the_limit(self):
        self.start("--limit", "1024")
        connection = self.connect()
        for size in (10, 5000, 100_000, 10):
            body = b"a=" + b"x" * size
            fields = f"Content-Type: application/x-www-form-urlencoded\r\nContent-Length: {len(body)}"
            connection.sendall(f"POST /post.php HTTP/1.1\r\nHost: test\r\n{fields}\r\n\r\n".encode() + body)
            self.assertEqual(read_response(connection), (200, body + b" method=POST"))

    def test_the_kept_trace_serves_again(self):
        kept = self.folder / "kept"
        self.start("--keep", kept)
        first, second = self.connect(), self.connect()
        bodies = []
        for i in range(5):
            for connection in (first, second):
                connection.sendall(get(f"/echo.php?n={i}"))
                bodies.append(read_response(connection)[1])
        first.close()
        self.server.end()
        again, cause = serve_trace(self.engine, self.data, kept.read_bytes())
        self.assertIsNone(cause)
        self.assertEqual([answer.response.partition(b"\r\n\r\n")[2] for answer in read_answers(again)], bodies)

    def test_ctrl_c_lets_open_answers_finish(self):
        self.start("--fuel", "100000000")
        connection = self.connect()
        idle = self.connect()
        self.echo(idle, 1)
        connection.sendall(get("/slow.php"))
        time.sleep(0.1)
        # As a terminal does it, to all processes of the group.
        os.killpg(self.server.process.pid, signal.SIGINT)
        self.assertEqual(read_response(connection), (200, b"slow"))
        self.assertTrue(is_closed(connection))
        self.assertTrue(is_closed(idle))
        self.assertEqual(self.server.end(None), 0)

    def test_a_denial_log_that_is_taken_away(self):
        self.start("--limit", "1024")
        self.echo(self.connect(), 1)
        (self.data / "denial.log").unlink()
        for number in range(60):
            connection = self.connect()
            connection.sendall(get(f"/secret.php?n={number}"))
            self.assertEqual(read_response(connection)[0], 500)
        self.server.wait_line("request 1: GET /secret.php?n=")
        self.assertTrue((self.data / "denial.log").read_text().startswith("deny request=1 "))

    def test_no_engine_is_left_behind(self):
        self.start()
        pid = self.server.engine_pid()
        self.assertEqual(self.server.end(signal.SIGTERM), 0)
        with self.assertRaises(ProcessLookupError):
            os.kill(pid, 0)

    def test_an_engine_that_cannot_be_started(self):
        program = self.put("engine", self.engine.read_bytes())
        program.chmod(0o755)
        self.engine = program
        self.start()
        self.echo(self.connect(), 1)
        program.unlink()
        os.kill(self.server.engine_pid(), signal.SIGKILL)
        self.server.wait_line("the engine ended")
        connection = self.connect()
        connection.sendall(get("/note.txt"))
        self.assertEqual(read_response(connection)[0], 503)


class Starts(Live):
    """Wrong uses of `live`."""

    def complaint(self, *words) -> str:
        done = run("live", *words)
        self.assertEqual((done.returncode, done.stdout), (2, b""))
        lines = done.stderr.decode().splitlines()
        self.assertEqual(len(lines), 1, lines)
        return lines[0]

    def test_a_port_in_use(self):
        self.start()
        self.assertIn("Address already in use", self.complaint(self.data, "--port", str(self.server.port)))

    def test_folders_that_cannot_be_served(self):
        self.assertIn("is no folder", self.complaint(self.folder / "none"))
        self.assertIn("has no folder site/", self.complaint(self.data / "site"))
        (self.data / "site" / "out").symlink_to("/etc")
        self.assertIn("leads out of", self.complaint(self.data))
        (self.folder / "other").mkdir()
        (self.folder / "other" / "site").symlink_to(self.data / "site")
        (self.data / "site" / "out").unlink()
        self.assertIn("leads out of", self.complaint(self.folder / "other"))

    def test_links_within_the_site_are_served(self):
        (self.data / "site" / "same.txt").symlink_to("note.txt")
        (self.data / "site" / "loop").symlink_to("loop")
        self.start()
        connection = self.connect()
        connection.sendall(get("/same.txt"))
        self.assertEqual(read_response(connection), (200, b"a note"))

    def test_a_link_that_leads_out_ends_the_server(self):
        self.start()
        connection = self.connect()
        self.echo(connection, 1)
        (self.data / "site" / "out").symlink_to("/etc")
        self.server.wait_line("leads out of")
        self.assertEqual(self.server.end(None), 2)
        self.assertTrue(is_closed(connection))

    def test_a_trace_that_is_there_is_not_written_over(self):
        kept = self.put("kept", "mine")
        self.assertIn("is there already", self.complaint(self.data, "--keep", kept))
        self.assertEqual(kept.read_text(), "mine")

    def test_an_absent_engine(self):
        self.assertIn("is no program", self.complaint(self.data, "--engine", self.folder / "none"))

    def test_only_loopback_is_bound(self):
        self.start()
        with open(f"/proc/{self.server.process.pid}/net/tcp", encoding="ascii") as table:
            bound = [line.split()[1] for line in table if line.split()[1].endswith(f":{self.server.port:04X}") and line.split()[3] == "0A"]
        self.assertEqual(bound, [f"0100007F:{self.server.port:04X}"])


if __name__ == "__main__":
    unittest.main()
