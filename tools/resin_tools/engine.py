"""The engine: the program `resin_cli` as a process that takes records and gives answers."""
import os
import signal
import subprocess
import tempfile
from pathlib import Path
from typing import BinaryIO

from .records import Answer, AnswerReader

_READ = 1 << 18


def serve_words(engine: Path, fuel: int | None) -> list[str]:
    """The command line that serves a trace."""
    return [str(engine), "serve"] + (["--fuel", str(fuel)] if fuel else [])


class Engine:
    """A running engine. Its pipes don't block; bytes that it doesn't take yet are kept."""

    def __init__(self, words: list[str], folder: Path, kept: BinaryIO | None = None):
        self._words_of_its_own = tempfile.TemporaryFile()
        # A session of its own, so that Ctrl-C on the terminal doesn't end it before open answers are out.
        self._process = subprocess.Popen(
            words, cwd=folder, stdin=subprocess.PIPE, stdout=subprocess.PIPE, stderr=self._words_of_its_own, bufsize=0, start_new_session=True
        )
        assert self._process.stdin and self._process.stdout
        self.input = self._process.stdin.fileno()
        self.output = self._process.stdout.fileno()
        os.set_blocking(self.input, False)
        os.set_blocking(self.output, False)
        self._answers = AnswerReader()
        self._queue = bytearray()
        self._kept = kept
        self._closing = False
        self.closed = False
        """Whether its input was closed, or broke."""
        self.given = 0
        """The length of the trace so far."""

    @property
    def pid(self) -> int:
        """The number of the process."""
        return self._process.pid

    @property
    def queued(self) -> int:
        """How many bytes it didn't take yet."""
        return len(self._queue)

    def give(self, records: bytes) -> None:
        """Puts records at the end of the trace."""
        self.given += len(records)
        self._queue += records
        if self._kept:
            self._kept.write(records)

    def push(self) -> None:
        """Writes what the engine takes now of the trace."""
        if self._kept:
            self._kept.flush()
        while self._queue and not self.closed:
            try:
                count = os.write(self.input, self._queue)
            except BlockingIOError:
                return
            except OSError:
                self._shut()
                return
            del self._queue[:count]
        if self._closing:
            self._shut()

    def finish(self) -> None:
        """Ends the trace, once all of it is written."""
        self._closing = True
        self.push()

    def pull(self) -> list[Answer] | None:
        """The answers that came, None at the end of them. Raises BadRecord where the engine gives no records."""
        try:
            data = os.read(self.output, _READ)
        except BlockingIOError:
            return []
        return self._answers.feed(data) if data else None

    def kill(self) -> None:
        """Ends the process at once."""
        self._process.kill()

    def wait(self) -> str | None:
        """Waits for the end of the process, and tells why it ended, None where it served its whole trace."""
        self._shut()
        assert self._process.stdout
        self._process.stdout.close()
        try:
            status = self._process.wait(timeout=10)
        except subprocess.TimeoutExpired:
            self._process.kill()
            status = self._process.wait()
        self._words_of_its_own.seek(0)
        words = self._words_of_its_own.read(4096).decode("utf-8", "backslashreplace").strip()
        self._words_of_its_own.close()
        if self._kept:
            self._kept.close()
        if status == 0:
            return None
        cause = f"signal {signal.Signals(-status).name}" if status < 0 else f"status {status}"
        return f"{cause}: {words}" if words else cause

    def _shut(self) -> None:
        if not self.closed:
            self.closed = True
            self._queue.clear()
            assert self._process.stdin
            try:
                self._process.stdin.close()
            except OSError:
                pass


def serve_trace(engine: Path, folder: Path, trace: bytes, fuel: int | None = None) -> tuple[bytes, str | None]:
    """Serves a whole trace: the answers, and why the engine ended before the end of the trace if it did."""
    done = subprocess.run(serve_words(engine, fuel), cwd=folder, input=trace, capture_output=True, check=False)
    words = done.stderr.decode("utf-8", "backslashreplace").strip()
    return done.stdout, None if done.returncode == 0 else f"status {done.returncode}: {words}"
