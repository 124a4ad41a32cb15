"""What the measures of this folder share: a run of resin over a site that is made for it, perhaps under a tool of valgrind."""
import os
import re
import subprocess
import sys
import tempfile
from dataclasses import dataclass
from pathlib import Path

HERE = Path(__file__).resolve().parent
sys.path.insert(0, str(HERE.parent / "tools"))

from resin_tools.fault import Wrong  # noqa: E402
from resin_tools.programs import ENGINE  # noqa: E402
from resin_tools.records import end_text, piece_text, read_answers  # noqa: E402
from resin_tools.responses import Response, read_response  # noqa: E402

FUEL = 100_000_000
LOOPS = "GLIBC_TUNABLES=glibc.cpu.x86_rep_stosb_threshold=1000000000:glibc.cpu.x86_rep_movsb_threshold=1000000000"
"""Has the C library fill and copy memory by loops: callgrind counts each byte of a `rep stosb` or `rep movsb` as an instruction."""
CALLGRIND = ("env", LOOPS, "valgrind", "--tool=callgrind", "--callgrind-out-file=/dev/null")


@dataclass(frozen=True)
class Done:
    """What a process gave, and the seconds of a processor that it took."""

    out: bytes
    error: bytes
    seconds: float

    def instructions(self) -> int:
        """What callgrind counted."""
        return int(re.search(rb"Collected : (\d+)", self.error)[1])

    def response(self) -> Response:
        """The first answer of a trace that was served. Raises Wrong where it isn't a page as it should be."""
        response = read_response(next(read_answers(self.out)).response)
        if response.status != 200:
            raise Wrong(f"a page ended with {response.status}: {response.body[-300:].decode(errors='replace')}")
        return response


def call(words: list[str], folder: Path, given: bytes = b"") -> Done:
    """Runs a program to its end. Raises Wrong where it fails."""
    with tempfile.TemporaryFile() as source, tempfile.TemporaryFile() as out, tempfile.TemporaryFile() as error:
        source.write(given)
        source.seek(0)
        process = subprocess.Popen(words, cwd=folder, stdin=source, stdout=out, stderr=error)
        _, status, used = os.wait4(process.pid, 0)
        process.returncode = os.waitstatus_to_exitcode(status)
        out.seek(0)
        error.seek(0)
        done = Done(out.read(), error.read(), used.ru_utime + used.ru_stime)
    if process.returncode != 0:
        raise Wrong(f"{' '.join(words)} ended with status {process.returncode}: {done.error[-300:].decode(errors='replace')}")
    return done


def get(target: str) -> bytes:
    """A request for a target."""
    return f"GET {target} HTTP/1.1\r\nHost: bench\r\n\r\n".encode()


class Resin:
    """The program."""

    def __init__(self, program: Path):
        self._words = [str(program), "serve", "--fuel", str(FUEL)]

    def serve(self, files: dict[str, str], request: bytes, times: int = 1, tool: tuple[str, ...] = ()) -> Done:
        """Serves a request so many times to a site of these files, perhaps under a tool of valgrind."""
        trace = (piece_text(1, request) + end_text(1)) * times
        with tempfile.TemporaryDirectory(prefix="resin-bench-") as name:
            folder = Path(name)
            (folder / "site").mkdir()
            for path, text in files.items():
                (folder / "site" / path).write_text(text)
            return call([*tool, *self._words], folder, trace)
