"""The records of traces and answers (docs/FORMATS.md, "The trace" and "Answers")."""
import re
from collections import deque
from collections.abc import Iterator
from dataclasses import dataclass

MOST_CONNECTIONS = 1000
MOST_PIECE = 1_048_576
MOST_TRACE = 67_108_864

_PIECE = re.compile(rb"([1-9][0-9]{0,3}) (0|[1-9][0-9]{0,6})\n")
_END = re.compile(rb"([1-9][0-9]{0,3}) end\n")
_ANSWER = re.compile(rb"([1-9][0-9]{0,3}) (0|[1-9][0-9]{0,9})\n")
_LONGEST_HEAD = 16


@dataclass(frozen=True)
class Piece:
    """A piece of the stream of a connection."""

    connection: int
    data: bytes


@dataclass(frozen=True)
class End:
    """The end of a connection."""

    connection: int


@dataclass(slots=True)
class Answer:
    """A whole response to a connection."""

    connection: int
    response: bytes


class BadRecord(ValueError):
    """No record stands at the offset `at`."""

    def __init__(self, at: int):
        super().__init__(f"no whole record at byte {at}")
        self.at = at


def piece_text(connection: int, data: bytes) -> bytes:
    """The records that give `data` to a connection: one, or more where it is longer than a piece may be."""
    parts = [data[at : at + MOST_PIECE] for at in range(0, len(data), MOST_PIECE)]
    return b"".join(b"%d %d\n%b\n" % (connection, len(part), part) for part in parts)


def end_text(connection: int) -> bytes:
    """The record that ends a connection."""
    return b"%d end\n" % connection


def answer_text(answer: Answer) -> bytes:
    """The record of an answer."""
    return b"%d %d\n%b\n" % (answer.connection, len(answer.response), answer.response)


def read_trace(trace: bytes) -> Iterator[Piece | End]:
    """The records of a trace in order. Raises BadRecord at the place after the last whole one, where bytes are left."""
    at = 0
    while at < len(trace):
        if found := _END.match(trace, at):
            record: Piece | End = End(_number(found, at))
            at = found.end()
        else:
            found, data = _body(_PIECE, trace, at)
            if len(data) > MOST_PIECE:
                raise BadRecord(at)
            record = Piece(_number(found, at), data)
            at = found.end() + len(data) + 1
        yield record


def read_answers(answers: bytes) -> Iterator[Answer]:
    """The records of answers in order. Raises BadRecord at the place after the last whole one, where bytes are left."""
    at = 0
    while at < len(answers):
        found, response = _body(_ANSWER, answers, at)
        yield Answer(_number(found, at), response)
        at = found.end() + len(response) + 1


def _number(found: re.Match, at: int) -> int:
    number = int(found[1])
    if number > MOST_CONNECTIONS:
        raise BadRecord(at)
    return number


def _body(head: re.Pattern, text: bytes, at: int) -> tuple[re.Match, bytes]:
    found = head.match(text, at)
    if not found:
        raise BadRecord(at)
    end = found.end() + int(found[2])
    if text[end : end + 1] != b"\n":
        raise BadRecord(at)
    return found, text[found.end() : end]


class AnswerReader:
    """Reads answers that come in pieces."""

    def __init__(self) -> None:
        self._text = bytearray()

    def feed(self, data: bytes) -> list[Answer]:
        """The answers that `data` completes. Raises BadRecord where what came is no record."""
        self._text += data
        answers = []
        at = 0
        while (answer := self._next(at)) is not None:
            answers.append(answer[0])
            at = answer[1]
        del self._text[:at]
        return answers

    def _next(self, at: int) -> tuple[Answer, int] | None:
        found = _ANSWER.match(self._text, at)
        if not found:
            if self._text.find(b"\n", at) >= 0 or len(self._text) - at > _LONGEST_HEAD:
                raise BadRecord(at)
            return None
        end = found.end() + int(found[2])
        if len(self._text) <= end:
            return None
        if self._text[end] != 0x0A:
            raise BadRecord(at)
        return Answer(_number(found, at), bytes(memoryview(self._text)[found.end() : end])), end + 1


class Numbers:
    """The numbers that connections may have; one that was given back is used again last."""

    def __init__(self) -> None:
        self._free = deque(range(1, MOST_CONNECTIONS + 1))

    def __bool__(self) -> bool:
        return bool(self._free)

    def take(self) -> int:
        """A free number."""
        return self._free.popleft()

    def give_back(self, number: int) -> None:
        """Frees a number."""
        self._free.append(number)
