"""The tokens of scripts, as far as the tools look at them. What a script means, and whether it is a program, the engine alone tells."""
import re
from collections.abc import Iterator
from dataclasses import dataclass

_OPEN = re.compile(r"<\?(?:php(?:\r\n|[ \t\r\n]|\Z)|=)", re.I)
_CLOSE = re.compile(r"\?>(?:\r\n|\r|\n)?")
_BLANKS = re.compile(r"(?:[ \t\r\n]+|/\*.*?\*/|(?://|#(?!\[))(?:(?!\?>)[^\r\n])*)+", re.S)
_NAME = r"[A-Za-z_\x80-\xff][A-Za-z0-9_\x80-\xff]*"
_CODE = re.compile(
    rf"(?P<variable>\${_NAME})|(?P<name>{_NAME})|(?P<number>\d+\.\d*(?:e[+-]?\d+)?|\.\d+|\d\w*)|(?P<text>'(?:\\.|[^'\\])*')"
    r"|(?P<op>\?\?=|===|!==|<=>|\?->|<<<|\*\*|\.\.\.|::|\?\?|->|=>|==|=|!=|<>|<=|>=|\+\+|\+=|--|-=|\*=|/=|%=|\.=|&&|\|\||#\[|.)",
    re.S,
)
_LINE_END = re.compile(r"\r\n|\r|\n")


@dataclass(frozen=True)
class Token:
    """A token with the place where it stands."""

    kind: str
    """`inline`, `open`, `close`, `variable`, `name`, `number`, `text` or `op`."""
    text: str
    start: int

    @property
    def end(self) -> int:
        """The place behind it."""
        return self.start + len(self.text)


def tokens(source: str) -> Iterator[Token]:
    """The tokens of a script, without blanks and comments. Each character stands for one byte."""
    at = 0
    while at < len(source):
        opened = _OPEN.search(source, at)
        end = opened.start() if opened else len(source)
        if end > at:
            yield Token("inline", source[at:end], at)
        if not opened:
            return
        yield Token("open", opened[0], end)
        at = opened.end()
        for token in _code(source, at):
            yield token
            at = token.end
        if not source[:at].endswith(("?>", "?>\n", "?>\r")):
            return


def _code(source: str, at: int) -> Iterator[Token]:
    """The tokens of code up to the one that closes it."""
    while True:
        if blanks := _BLANKS.match(source, at):
            at = blanks.end()
        if at >= len(source):
            return
        token = _token(source, at)
        yield token
        at = token.end
        if token.kind == "close":
            return


def _token(source: str, at: int) -> Token:
    if closed := _CLOSE.match(source, at):
        return Token("close", closed[0], at)
    if source[at] == '"':
        return Token("text", source[at : _quoted_end(source, at + 1)], at)
    found = _CODE.match(source, at)
    assert found and found.lastgroup
    return Token(found.lastgroup, found[0], at)


def _quoted_end(source: str, at: int) -> int:
    """Where a text in double quotes ends, in whose interpolations quotes may stand."""
    while at < len(source):
        if source[at] == "\\":
            at += 2
        elif source.startswith("{$", at):
            at = _interpolation_end(source, at + 1)
        elif source[at] == '"':
            return at + 1
        else:
            at += 1
    return len(source)


def _interpolation_end(source: str, at: int) -> int:
    depth = 1
    for token in _code(source, at):
        depth += (token.text == "{") - (token.text == "}")
        if depth == 0 or token.kind == "close":
            return token.end
    return len(source)


class Lines:
    """The lines of a script, which LF, CR LF and a lone CR end."""

    def __init__(self, source: str):
        self._source = source
        self._starts = [0] + [found.end() for found in _LINE_END.finditer(source)]

    def place(self, at: int) -> tuple[int, int]:
        """The line and the column of a byte, from 1. The column counts characters of UTF-8."""
        line = self.line_of(at)
        front = self._source[self._starts[line - 1] : at]
        return line, len(_characters(front)) + 1

    def line_of(self, at: int) -> int:
        """The line of a byte, from 1."""
        low, high = 0, len(self._starts)
        while high - low > 1:
            middle = (low + high) // 2
            low, high = (middle, high) if self._starts[middle] <= at else (low, middle)
        return low + 1

    def end_of(self, line: int) -> int:
        """The place behind the last byte of a line that isn't its end."""
        start = self._starts[min(line, len(self._starts)) - 1]
        found = _LINE_END.search(self._source, start)
        return found.start() if found else len(self._source)

    def text(self, line: int) -> str:
        """A line without its end."""
        start = self._starts[min(line, len(self._starts)) - 1]
        return _characters(self._source[start : self.end_of(line)])


def _characters(text: str) -> str:
    return text.encode("latin-1").decode("utf-8", "replace")


def read_source(data: bytes) -> str:
    """A script as a text with a character for each byte."""
    return data.decode("latin-1")
