"""Texts whose bytes carry policies, told by runs, and what of a long one is shown."""
from collections.abc import Iterator
from dataclasses import dataclass
from functools import cached_property
from typing import NamedTuple

WHOLE = 8192
"""A text of at most so many bytes is shown whole."""
_EDGE = 256
_LABELLED_EDGE = 1024
_MOST_RUNS = 400

Policies = tuple[int, ...]
"""The numbers of the policies that a byte carries, rising."""


class Run(NamedTuple):
    """So many bytes that carry these policies."""

    length: int
    policies: Policies


@dataclass(frozen=True)
class Labelled:
    """A text, and the runs that its bytes make up."""

    data: bytes
    runs: tuple[Run, ...]

    @cached_property
    def labelled(self) -> int:
        """How many of its bytes carry a policy."""
        return sum(run.length for run in self.runs if run.policies)

    def pieces(self) -> Iterator[tuple[bytes, Policies]]:
        """The bytes of each run with their policies."""
        at = 0
        for run in self.runs:
            yield self.data[at : at + run.length], run.policies
            at += run.length


def joined(texts: list[Labelled]) -> Labelled:
    """One text of several, in order. Neighbours with the same policies become one run."""
    runs: list[Run] = []
    for text in texts:
        front, *rest = text.runs or (Run(0, ()),)
        if runs and runs[-1].policies == front.policies:
            runs[-1] = Run(runs[-1].length + front.length, front.policies)
        elif front.length:
            runs.append(front)
        runs += rest
    return Labelled(b"".join(text.data for text in texts), tuple(runs))


@dataclass(frozen=True, slots=True)
class Cut:
    """So many bytes that aren't shown, and how many of them carry a policy."""

    length: int
    labelled: int


Shown = tuple[bytes, Policies] | Cut


def excerpt(text: Labelled, most: int) -> list[Shown]:
    """What is shown of a text: all of it where it is short, else the front and the end of each run, and not much more than `most` bytes."""
    if len(text.data) <= min(WHOLE, most):
        return list(text.pieces())
    parts: list[Shown] = []
    passed, labelled, room = 0, 0, most
    for data, policies in text.pieces():
        if room <= 0 or len(parts) >= _MOST_RUNS:
            break
        shown = _edges(data, policies)
        parts += shown
        room -= sum(len(part[0]) for part in shown if not isinstance(part, Cut))
        passed += len(data)
        labelled += len(data) if policies else 0
    if passed < len(text.data):
        parts.append(Cut(len(text.data) - passed, text.labelled - labelled))
    return parts


def _edges(data: bytes, policies: Policies) -> list[Shown]:
    """The front and the end of a long run with a note between them, or the whole of a short one."""
    edge = _LABELLED_EDGE if policies else _EDGE
    if len(data) <= 3 * edge:
        return [(data, policies)]
    front, end = _character(data, edge), _character(data, len(data) - edge)
    return [(data[:front], policies), Cut(end - front, end - front if policies else 0), (data[end:], policies)]


def _character(data: bytes, at: int) -> int:
    """The place `at`, or up to three bytes before it where it is within a character of UTF-8."""
    return next((start for start in range(at, at - 4, -1) if data[start] & 0xC0 != 0x80), at)
