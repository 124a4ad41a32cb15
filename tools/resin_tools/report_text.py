"""The report of a run on one screen of a terminal."""
from collections.abc import Iterator
from dataclasses import dataclass

from .denials import Denial
from .report import Page, Report
from .terminal import shown

_LEAST_WIDTH = 60
_LEAST_HEIGHT = 12
_LONGEST_CELL = 28
_SHORTEST_LINE = 16
_MOST_POLICIES = 6

_DENIED = ("", "request", "write", "bytes", "policy or filter", "exception")
_LEFT = ("", "request", "status", "bytes", "labelled", "policies")
_LINE = 1
"""The column with the request line, which takes what the others leave of the width."""
_NUMBERS = ("", "status", "bytes", "labelled")


@dataclass(frozen=True)
class _Row:
    cells: tuple[str, ...]
    tells: bool = True
    """Whether the row is kept before others where not all have room."""


def report_text(report: Report, width: int, height: int) -> Iterator[str]:
    """Lines that fit a terminal of this size."""
    width, height = max(_LEAST_WIDTH, width), max(_LEAST_HEIGHT, height)
    denied, left = [_denied(*it) for it in report.denials], [_left(page) for page in report.pages]
    # The counts, a prompt, and for each table a blank line, its name and its heading.
    room = height - (8 if denied else 5)
    half = max(room - len(left), room // 2) if denied else 0
    yield shown(report.summary, width)
    if denied:
        yield from ("", *_table("denied", _DENIED, denied, half, width))
    yield from ("", *_table("what left", _LEFT, left, room - min(half, len(denied)), width))


def _denied(page: Page, denial: Denial) -> _Row:
    by = denial.name if denial.kind == "policy" else f"filter {denial.name}"
    cells = (shown(it, _LONGEST_CELL) for it in (f"{denial.write} {denial.channel}", denial.bytes, by, denial.by))
    return _Row((str(denial.request), _line(page), *cells))


def _left(page: Page) -> _Row:
    response = page.exchange.response
    numbers = sorted({number for policies in {run.policies for sent in page.journal.sent for run in sent.text.runs} for number in policies})
    names = " ".join(map(str, numbers[:_MOST_POLICIES])) + (" ..." if len(numbers) > _MOST_POLICIES else "")
    status = str(response.status) if response else "none"
    return _Row((str(page.exchange.number), _line(page), status, str(page.length), str(page.labelled or ""), names), page.tells)


def _line(page: Page) -> str:
    return shown(page.line.removesuffix(b" HTTP/1.1"))


def _table(name: str, heads: tuple[str, ...], rows: list[_Row], room: int, width: int) -> Iterator[str]:
    """The rows that have room, those first that tell of policies, in their order; a note tells how many have none."""
    kept = rows
    if len(rows) > room:
        first = sorted(range(len(rows)), key=lambda at: not rows[at].tells)[: max(room - 1, 0)]
        kept = [rows[at] for at in sorted(first)]
    table = [heads, *(row.cells for row in kept)]
    sizes = [max(map(len, column)) for column in zip(*table)]
    others = sum(sizes) - sizes[_LINE] + 2 * len(sizes)
    sizes[_LINE] = min(sizes[_LINE], max(_SHORTEST_LINE, width - others))
    yield f"{name}:"
    for cells in table:
        cut = (shown(cell, size) for cell, size in zip(cells, sizes))
        padded = (f"{cell:>{size}}" if head in _NUMBERS else f"{cell:{size}}" for head, cell, size in zip(heads, cut, sizes))
        yield shown("  " + "  ".join(padded), width).rstrip()
    if len(kept) < len(rows):
        yield f"  (cut: {len(rows) - len(kept)} of {len(rows)} aren't shown)"
