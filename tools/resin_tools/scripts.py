"""Scripts as the tools look at them, and what is found in them."""
import unicodedata
from dataclasses import dataclass, field
from pathlib import Path

from .checker import Fault
from .php import Lines, Token, tokens

_MOST_SHOWN = 160


@dataclass(frozen=True)
class Finding:
    """Something at a place of a file."""

    path: Path
    line: int
    column: int
    """From 1, in characters."""
    text: str
    """The line."""
    words: str
    notes: tuple[str, ...] = ()
    is_error: bool = True

    def lines(self) -> list[str]:
        """As a compiler shows it."""
        text, column = _cut(_printable(self.text), self.column)
        head = f"{self.path}:{self.line}:{self.column}: {'error' if self.is_error else 'warning'}: {self.words}"
        return [head, *(f"    {line}" for line in (text, " " * _width(text[: column - 1]) + "^", *self.notes))]


def _printable(text: str) -> str:
    """A line with a blank for each character that a terminal would obey."""
    return "".join(c if c.isprintable() else " " for c in text)


def _cut(text: str, column: int) -> tuple[str, int]:
    """The part of a long line round a column, and the column there."""
    if len(text) <= _MOST_SHOWN:
        return text, column
    first = max(0, min(column - _MOST_SHOWN // 2, len(text) - _MOST_SHOWN))
    front, end = "..." if first else "", "..." if first + _MOST_SHOWN < len(text) else ""
    return front + text[first : first + _MOST_SHOWN] + end, column - first + len(front)


def _width(text: str) -> int:
    """How many columns of a terminal a text takes."""
    return sum(0 if unicodedata.combining(c) else 2 if unicodedata.east_asian_width(c) in "WF" else 1 for c in text)


@dataclass
class Script:
    """A file of the site, with what its tokens tell."""

    path: Path
    source: str
    fault: Fault | None = None
    tokens: list[Token] = field(init=False)
    read: list[Token] = field(init=False)
    """The tokens before its fault, or all."""
    lines: Lines = field(init=False)

    def __post_init__(self) -> None:
        self.tokens = list(tokens(self.source))
        self.read = [token for token in self.tokens if not self.fault or token.start < self.fault.offset]
        self.lines = Lines(self.source)

    def error(self, place: int, words: str, *notes: str) -> Finding:
        """An error at a byte."""
        line, column = self.lines.place(place)
        return Finding(self.path, line, column, self.lines.text(line), words, notes)

    def warning(self, place: int, words: str, *notes: str) -> Finding:
        """A warning at a byte."""
        line, column = self.lines.place(place)
        return Finding(self.path, line, column, self.lines.text(line), words, notes, is_error=False)
