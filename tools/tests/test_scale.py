"""What docs/SCALE.md tells, run as it stands there."""
import http.client
import re
import shutil
import socket
import subprocess
import time
import unittest

from support import TOOLS, Folder, Server, engine_or_skip, get
from resin_tools.records import end_text, piece_text

PAGE = (TOOLS.parent / "docs" / "SCALE.md").read_text()


def blocks(kind: str) -> list[str]:
    return re.findall(rf"^```{kind}\n(.*?)^```$", PAGE, re.M | re.S)


def need(program: str) -> str:
    path = shutil.which(program)
    if not path:
        raise unittest.SkipTest(f"there is no {program} on the path")
    return path


def free_port() -> int:
    with socket.socket() as found:
        found.bind(("127.0.0.1", 0))
        return found.getsockname()[1]


class Proxy(Folder):
    def setUp(self) -> None:
        super().setUp()
        nginx, engine = need("nginx"), engine_or_skip()
        self.port = free_port()
        [text] = blocks("nginx")
        text = text.replace("127.0.0.1:8080", f"127.0.0.1:{self.port}")
        for name, port in (("one", "8081"), ("two", "8082")):
            self.put(f"{name}/site/index.php", f"<?php echo '{name} ', $_POST['a'] ?? $_SERVER['REQUEST_URI'];")
            server = Server(self.folder / name, engine)
            self.addCleanup(server.end)
            text = text.replace(f"127.0.0.1:{port}", f"127.0.0.1:{server.port}")
        self.put("nginx.conf", text)
        command = [nginx, "-p", str(self.folder), "-c", "nginx.conf", "-g", "daemon off;"]
        process = subprocess.Popen(command, stderr=subprocess.PIPE)
        self.addCleanup(process.communicate)
        self.addCleanup(process.terminate)
        self.wait_for_port(process)

    def wait_for_port(self, process: subprocess.Popen) -> None:
        for _ in range(200):
            try:
                socket.create_connection(("127.0.0.1", self.port)).close()
                return
            except ConnectionRefusedError:
                self.assertIsNone(process.poll(), "nginx ended")
                time.sleep(0.05)
        self.fail("nginx doesn't listen")

    def ask(self, host: str, method: str = "GET", body=None, **fields: str) -> tuple[int, str]:
        connection = http.client.HTTPConnection("127.0.0.1", self.port, timeout=30)
        self.addCleanup(connection.close)
        connection.request(method, "/?q=1", body, {"Host": host, **fields}, encode_chunked=False)
        response = connection.getresponse()
        return response.status, response.read().decode()

    def test_sites_by_name_and_visitors_by_address(self):
        for _ in range(20):
            self.assertEqual(self.ask("one.example"), (200, "one /?q=1"))
            self.assertEqual(self.ask("two.example"), (200, "two /?q=1"))
        self.assertEqual(len({self.ask("both.example") for _ in range(20)}), 1)

    def test_chunked_bodies_come_with_their_length(self):
        fields = {"Content-Type": "application/x-www-form-urlencoded", "Transfer-Encoding": "chunked"}
        self.assertEqual(self.ask("one.example", "POST", b"3\r\na=b\r\n0\r\n\r\n", **fields), (200, "one b"))


class Traces(Folder):
    def setUp(self) -> None:
        super().setUp()
        self.put("mysite/site/index.php", "<?php echo $_GET['n']; echo policy_add('s', new NoExport());")
        for n in range(6):
            self.put(f"traces/{n}.trace", piece_text(1, get(f"/?n={n}")) + end_text(1))

    def run_lines(self, line: str) -> None:
        functions = blocks("sh")[0]
        engine = str(engine_or_skip())
        done = subprocess.run(["bash", "-c", f"export RESIN={engine}\n{functions}\n{line}"], cwd=self.folder, capture_output=True, timeout=300, check=False)
        self.assertEqual(done.returncode, 0, done.stderr)
        for n in range(6):
            self.assertTrue((self.folder / f"traces/{n}.trace.answers").read_text().endswith(f"\n\n{n}Uncaught PolicyException\n\n"))
            denial = "deny request=1 write=2 channel=http policy=NoExport#1 bytes=0-1 by=PolicyException\n"
            self.assertEqual((self.folder / f"traces/{n}.trace.denials").read_text(), denial)
            self.assertEqual((self.folder / f"traces/{n}.trace.words").read_text(), "")

    def test_xargs(self):
        self.run_lines(blocks("sh")[1])

    def test_parallel(self):
        need("parallel")
        self.run_lines(blocks("sh")[2])
        self.assertEqual(len((self.folder / "traces/log").read_text().splitlines()), 7)


if __name__ == "__main__":
    unittest.main()
