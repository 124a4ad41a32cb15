"""Journal files (docs/FORMATS.md, "The journal file")."""
import re
from collections.abc import Iterator
from dataclasses import dataclass, field

from .denials import Denial
from .labelled import Labelled, Policies, Run
from .records import BadRecord

MOST_SENT = 16_777_216
_MOST_NUMBER = 2**64 - 1
_MOST_OBJECT = 2**32 - 1


@dataclass(frozen=True, slots=True)
class Passed:
    """In this write a policy was asked, and returned."""

    write: int
    policy: int


@dataclass(frozen=True, slots=True)
class Sent:
    """A text that went out."""

    write: int
    channel: str
    text: Labelled


Event = Passed | Sent | Denial


@dataclass
class Journal:
    """What the writes and filters of one answer did, in order."""

    number: int
    events: list[Event] = field(default_factory=list)

    @property
    def sent(self) -> list[Sent]:
        """The texts that went out."""
        return [event for event in self.events if isinstance(event, Sent)]

    @property
    def denials(self) -> list[Denial]:
        """What policies and filters denied."""
        return [event for event in self.events if isinstance(event, Denial)]


def _line(*fields: bytes) -> re.Pattern:
    return re.compile(b" ".join(fields) + rb"\n")


_NUMBER = rb"(0|[1-9][0-9]{0,19})"
_NAME = rb"([A-Za-z_\x80-\xff][0-9A-Za-z_\x80-\xff]*)"
_CHANNEL = rb"(http|header|email|file|sql|code|input|func)"

_REQUEST = _line(b"request", _NUMBER)
_PASSED = _line(b"passed", _NUMBER, _NUMBER)
_SENT = _line(b"sent", _NUMBER, _CHANNEL, _NUMBER, _NUMBER)
_RUN = _line(_NUMBER + rb"((?: (?:0|[1-9][0-9]{0,9}))*)")
_DENIED = _line(b"denied", _NUMBER, _CHANNEL, _NUMBER, _NAME, _NUMBER, _NUMBER, _NAME)
_FILTER = _line(b"filter", _NUMBER, _CHANNEL, _NUMBER, _NAME, _NUMBER, _NAME)


class _NoItem(ValueError):
    """What stands here is no item."""


def read_journals(text: bytes) -> Iterator[Journal]:
    """The journals of a file in order. Raises BadRecord at the place after the last whole item, where bytes are left; the journal under way was
    given before."""
    at, journal = 0, None
    while at < len(text):
        try:
            if found := _REQUEST.match(text, at):
                begun = _next_journal(found, journal)
                if journal:
                    yield journal
                journal, at = begun, found.end()
            elif journal:
                event, at = _event(text, at, journal.number)
                journal.events.append(event)
            else:
                raise _NoItem
        except _NoItem:
            if journal:
                yield journal
            raise BadRecord(at) from None
    if journal:
        yield journal


def _next_journal(found: re.Match, before: Journal | None) -> Journal:
    number = _number(found[1])
    if number != (before.number if before else 0) + 1:
        raise _NoItem
    return Journal(number)


def _event(text: bytes, at: int, request: int) -> tuple[Event, int]:
    """The event that stands at a place, and the place behind it."""
    if found := _PASSED.match(text, at):
        return Passed(_number(found[1]), _object(found[2])), found.end()
    if found := _SENT.match(text, at):
        labelled, at = _labelled(text, found.end(), _number(found[3], MOST_SENT), _number(found[4]))
        return Sent(_number(found[1]), found[2].decode(), labelled), at
    if found := _DENIED.match(text, at):
        name, span = _told(found[4], _object(found[3])), f"{_number(found[5])}-{_number(found[6])}"
        return Denial(request, _number(found[1]), found[2].decode(), "policy", name, span, _told(found[7])), found.end()
    if found := _FILTER.match(text, at):
        name, span = _told(found[4], _object(found[3])), f"0-{_number(found[5])}"
        return Denial(request, _number(found[1]), found[2].decode(), "filter", name, span, _told(found[6])), found.end()
    raise _NoItem


def _labelled(text: bytes, at: int, length: int, count: int) -> tuple[Labelled, int]:
    """The text of so many bytes and runs that stands at a place, and the place behind it."""
    runs: list[Run] = []
    total, before, known = 0, None, dict[bytes, Policies]()
    while len(runs) < count:
        found = _RUN.match(text, at)
        if not found:
            raise _NoItem
        size, digits = found.groups()
        if digits not in known:
            known[digits] = _rising([_object(number) for number in digits.split()])
        if size == b"0" or digits == before:
            raise _NoItem
        runs.append(Run(_number(size, MOST_SENT), known[digits]))
        total, before, at = total + runs[-1].length, digits, found.end()
    end = at + length
    if total != length or text[end : end + 1] != b"\n":
        raise _NoItem
    return Labelled(text[at:end], tuple(runs)), end + 1


def _rising(numbers: list[int]) -> Policies:
    if any(one >= other for one, other in zip(numbers, numbers[1:])):
        raise _NoItem
    return tuple(numbers)


def _number(digits: bytes, most: int = _MOST_NUMBER) -> int:
    number = int(digits)
    if number > most:
        raise _NoItem
    return number


def _object(digits: bytes) -> int:
    return _number(digits, _MOST_OBJECT)


def _told(name: bytes, number: int | None = None) -> str:
    """A class as it is shown, and where there is one the number of its object."""
    text = name.decode("utf-8", "backslashreplace")
    return text if number is None else f"{text}#{number}"
