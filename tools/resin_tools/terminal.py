"""What goes to the terminal."""
import os
import sys
import time
from typing import TextIO

from .denials import Denial
from .streams import Request

_RED, _YELLOW, _PLAIN = "\x1b[31m", "\x1b[33m", "\x1b[0m"


def shown(data: bytes | str, most: int = 200) -> str:
    """A text without bytes that a terminal would obey, cut to `most` characters."""
    text = data if isinstance(data, str) else data.decode("utf-8", "backslashreplace")
    if not text.isprintable():
        text = "".join(c if c.isprintable() else f"\\x{ord(c):02x}" for c in text)
    return text if len(text) <= most else text[: most - 3] + "..."


class Terminal:
    """The lines of a server: an answer's, a denial's, and words. They are kept until `flush`."""

    def __init__(self, out: TextIO, quiet: bool = False):
        self._out: TextIO | None = out
        self._quiet = quiet
        self._colours = out.isatty() and "NO_COLOR" not in os.environ
        self._lines: list[str] = []

    def answer(self, request: Request, status: int, length: int, seconds: float) -> None:
        """The line of an answer."""
        if self._quiet:
            return
        what = f"{shown(request.method, 10) or '?':4} {shown(request.target) or '(no request)'}"
        line = f"{_clock()}  {what}  {status}  {length} bytes  {seconds * 1000:.1f} ms"
        self._put(line, _YELLOW if status >= 500 else "")

    def denial(self, denial: Denial, request: Request | None) -> None:
        """The line of a denial, in red."""
        what = f"{shown(request.method, 10)} {shown(request.target)}" if request else "?"
        where = f"{denial.kind} {denial.name}, channel {denial.channel}, bytes {denial.bytes}, by {denial.by}"
        self._put(f"{_clock()}  DENIED  {where}, request {denial.request}: {what}", _RED)

    def say(self, words: str) -> None:
        """A line of the server's own."""
        self._put(f"{_clock()}  {words}", "")

    def warn(self, words: str) -> None:
        """A line that the user ought to look at."""
        self._put(f"{_clock()}  {words}", _RED)

    def finding(self, line: str) -> None:
        """A line of what `check` found; the one that names the place is red."""
        self._put(line, _RED if ": error: " in line or ": warning: " in line else "")

    def flush(self) -> None:
        """Writes the lines that are kept. A terminal that went away takes nothing more."""
        text = "".join(self._lines)
        self._lines.clear()
        if not text or not self._out:
            return
        try:
            self._out.write(text)
            self._out.flush()
        except OSError:
            self._out = None

    def _put(self, line: str, colour: str) -> None:
        self._lines.append(f"{colour}{line}{_PLAIN}\n" if colour and self._colours else f"{line}\n")


def _clock() -> str:
    return time.strftime("%H:%M:%S")


def complain(words: str) -> None:
    """A line on standard error."""
    print(f"resin: {words}", file=sys.stderr)
