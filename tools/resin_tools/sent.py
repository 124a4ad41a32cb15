"""Requests that were recorded elsewhere, and the trace that they make."""
from collections.abc import Iterator
from dataclasses import dataclass

from .fault import Wrong
from .records import Numbers, end_text, piece_text
from .streams import requests


@dataclass(frozen=True)
class Sent:
    """A request with the time and the connection of its sending."""

    start: float
    """Seconds, by a clock that all requests of an import share."""
    end: float
    """When its answer was there."""
    connection: str | None
    """A name of its connection, None where the recording doesn't tell it."""
    raw: bytes
    name: str
    """What a person finds it by."""


def trace_records(sent: list[Sent]) -> Iterator[bytes]:
    """The records of the requests in the order of their times. A connection ends behind its last request, or behind one after which the
    engine takes nothing more of it."""
    ordered = with_connections(sorted(sent, key=lambda it: it.start))
    last = {name: at for at, (name, _) in enumerate(ordered)}
    numbers, opened = Numbers(), {}
    for at, (name, request) in enumerate(ordered):
        if name not in opened:
            if not numbers:
                raise Wrong(f"{request.name}: more connections are open at once than a trace can number")
            opened[name] = numbers.take()
        yield piece_text(opened[name], request.raw)
        if last[name] == at or closes(request.raw):
            number = opened.pop(name)
            yield end_text(number)
            numbers.give_back(number)


def closes(raw: bytes) -> bool:
    """Whether a connection ends with these requests."""
    return any(request.closes for request in requests(raw))


def with_connections(ordered: list[Sent]) -> list[tuple[str, Sent]]:
    """The requests with names of connections. One whose connection isn't known takes one that stands idle, or a new one, as browsers do."""
    named: list[tuple[str, Sent]] = []
    pool: list[float] = []
    for request in ordered:
        name = request.connection
        if name is None:
            slot = next((at for at, until in enumerate(pool) if until <= request.start), len(pool))
            pool[slot : slot + 1] = [request.end]
            name = f"unknown {slot}"
        named.append((name, request))
    return named
