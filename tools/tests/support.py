"""What the tests share: the engine, a served folder, and raw connections."""
import contextlib
import io
import os
import re
import select
import signal
import socket
import subprocess
import sys
import tempfile
import time
import unittest
from dataclasses import dataclass
from pathlib import Path

TOOLS = Path(__file__).resolve().parents[1]
sys.dont_write_bytecode = True
sys.path.insert(0, str(TOOLS))

from resin_tools.cli import main  # noqa: E402
from resin_tools.fault import Wrong  # noqa: E402
from resin_tools.programs import CHECKER, ENGINE, Program  # noqa: E402

COMMAND = [sys.executable, str(TOOLS / "resin")]


def engine_or_skip() -> Path:
    """The engine; the test is skipped where none is built."""
    return _program_or_skip(ENGINE)


def checker_or_skip() -> Path:
    """The checker; the test is skipped where none is built."""
    return _program_or_skip(CHECKER)


def _program_or_skip(program: Program) -> Path:
    try:
        return program.find()
    except Wrong as wrong:
        raise unittest.SkipTest(str(wrong)) from None


@dataclass
class Done:
    """What a command left."""

    returncode: int
    stdout: bytes
    stderr: bytes


def run(*words: str | Path) -> Done:
    """Runs `tools/resin` with these words, in this process."""
    out, err = io.BytesIO(), io.BytesIO()
    texts = [io.TextIOWrapper(it, "utf-8", write_through=True) for it in (out, err)]
    with contextlib.redirect_stdout(texts[0]), contextlib.redirect_stderr(texts[1]):
        try:
            status = main([str(word) for word in words])
        except SystemExit as end:  # argparse ends --help by it
            status = int(end.code or 0)
    return Done(status, out.getvalue(), err.getvalue())


class Folder(unittest.TestCase):
    """A test with a folder of its own."""

    def setUp(self) -> None:
        made = tempfile.TemporaryDirectory(prefix="resin-test-")
        self.addCleanup(made.cleanup)
        self.folder = Path(made.name)

    def put(self, name: str, text: str | bytes) -> Path:
        """Writes a file of the folder."""
        path = self.folder / name
        path.parent.mkdir(parents=True, exist_ok=True)
        path.write_bytes(text if isinstance(text, bytes) else text.encode())
        return path


PAGES = {
    "echo.php": "<?php echo 'n=', $_GET['n'];",
    "post.php": "<?php echo 'a=', $_POST['a'], ' method=', $_SERVER['REQUEST_METHOD'];",
    "long.php": "<?php echo str_repeat('0123456789abcdef', 262144);",
    "slow.php": "<?php for ($i = 0; $i < 400000; $i++) { } echo 'slow';",
    "secret.php": "<?php echo 'a' . policy_add('secret', new NoExport()) . 'b';",
    "note.txt": "a note",
}


class Server:
    """`tools/resin live` over a folder, on a free port."""

    def __init__(self, data: Path, engine: Path, *words: str | Path):
        command = [*COMMAND, "live", str(data), "--port", "0", "--engine", str(engine), *map(str, words)]
        self.process = subprocess.Popen(command, stdout=subprocess.PIPE, stderr=subprocess.STDOUT, start_new_session=True)
        assert self.process.stdout
        self._out = self.process.stdout
        self._text = b""
        found = re.search(r"http://127\.0\.0\.1:(\d+)", self.wait_line(" at http://"))
        assert found
        self.port = int(found[1])

    @property
    def lines(self) -> list[str]:
        """What the terminal got so far."""
        return self._text.decode().splitlines()

    def wait_line(self, words: str, seconds: float = 60) -> str:
        """The first line of the terminal that holds these words."""
        until = time.monotonic() + seconds
        while not (found := [line for line in self.lines if words in line]):
            ready, _, _ = select.select([self._out], [], [], max(0, until - time.monotonic()))
            data = os.read(self._out.fileno(), 65536) if ready else b""
            if not data:
                raise AssertionError(f"no line with {words!r} came: {self.lines}")
            self._text += data
        return found[0]

    def end(self, number: int | None = signal.SIGINT) -> int:
        """Ends the server, or waits for its end, and answers its exit status."""
        if number is not None and self.process.poll() is None:
            self.process.send_signal(number)
        if not self._out.closed:
            self._text += self.process.communicate(timeout=60)[0]
        return self.process.returncode

    def engine_pid(self) -> int:
        """The process of the engine."""
        [child] = Path(f"/proc/{self.process.pid}/task/{self.process.pid}/children").read_text().split()
        return int(child)


class Live(Folder):
    """A test against a server over a small site."""

    def setUp(self) -> None:
        super().setUp()
        self.engine = engine_or_skip()
        self.data = self.folder / "data"
        make_site(self.data)

    def start(self, *words: str | Path) -> None:
        """Starts the server."""
        self.server = Server(self.data, self.engine, *words)
        self.addCleanup(self.server.end)

    def connect(self) -> socket.socket:
        """A raw connection."""
        made = socket.create_connection(("127.0.0.1", self.server.port), timeout=60)
        made.setsockopt(socket.IPPROTO_TCP, socket.TCP_NODELAY, 1)
        self.addCleanup(made.close)
        return made

    def echo(self, connection: socket.socket, n: object) -> None:
        """Asks for the page that answers n, and looks at the answer."""
        connection.sendall(get(f"/echo.php?n={n}"))
        self.assertEqual(read_response(connection), (200, f"n={n}".encode()))


class SharedLive(Live):
    """Tests against one server."""

    shared: Path

    @classmethod
    def setUpClass(cls) -> None:
        engine = engine_or_skip()
        made = tempfile.TemporaryDirectory(prefix="resin-test-")
        cls.addClassCleanup(made.cleanup)
        cls.shared = Path(made.name)
        make_site(cls.shared)
        cls.server = Server(cls.shared, engine)
        cls.addClassCleanup(cls.server.end)

    def setUp(self) -> None:
        self.data = self.shared


def make_site(data: Path) -> None:
    """Writes the pages into the site of a folder."""
    (data / "site").mkdir(parents=True)
    for name, text in PAGES.items():
        (data / "site" / name).write_text(text)


def get(target: str, *fields: str, version: str = "1.1") -> bytes:
    """A GET request."""
    lines = [f"GET {target} HTTP/{version}", "Host: test", *fields, "", ""]
    return "\r\n".join(lines).encode()


def read_response(connection: socket.socket, has_body: bool = True) -> tuple[int, bytes]:
    """One response and no byte more: its status and body."""
    head = b""
    while (end := head.find(b"\r\n\r\n")) < 0:
        more = connection.recv(4096, socket.MSG_PEEK)
        if len(more) == len(head) and more:
            time.sleep(0.001)
        if not more:
            raise EOFError(head)
        head = more
    connection.recv(end + 4)
    found = re.search(rb"\r\nContent-Length: (\d+)\r\n", head)
    assert found
    length = int(found[1]) if has_body else 0
    body = bytearray()
    while len(body) < length:
        part = connection.recv(min(1 << 16, length - len(body)))
        if not part:
            raise EOFError(bytes(body))
        body += part
    return int(head[9:12]), bytes(body)


def is_closed(connection: socket.socket) -> bool:
    """Whether the server closes, and sends nothing before."""
    try:
        return connection.recv(1) == b""
    except ConnectionResetError:
        return True
