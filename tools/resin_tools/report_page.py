"""The report of a run as one HTML page, which runs no script and loads nothing."""
import re
from collections.abc import Iterator
from html import escape
from pathlib import Path

from .denials import Denial
from .fault import Wrong
from .labelled import Cut, Labelled, Policies, Shown, excerpt
from .report import Left, Page, Policy, Report, counted

_MOST_PAGES = 500
_MOST_DENIALS = 2000
_MOST_TEXT = 1 << 16
_MOST_TEXTS = 1 << 22
_MOST_LEGEND = 40
_MOST_WRITES = 12
_COLOURS = ("#ffd966", "#9ee6ab", "#a8d1ff", "#f9b4d8", "#d8c3ff", "#ffbf9b", "#9fe3dc", "#d9d48a")

_KEEP = """The texts below are what left, with the secrets that a policy let through: keep this page as you would keep those. Of what was denied a
journal holds no byte, and it names the class of a policy only where that denied."""

_TITLE = "What left, and what was denied"

_HEAD = f"""<!doctype html>
<html lang="en">
<meta charset="utf-8">
<meta http-equiv="Content-Security-Policy" content="default-src 'none'; style-src 'unsafe-inline'">
<meta name="viewport" content="width=device-width">
<title>{_TITLE}</title>
<style>
:root {{ color-scheme: light }}
body {{ font: 15px/1.45 sans-serif; margin: 2em auto; max-width: 70em; padding: 0 1em; color: #222; background: #fff }}
table {{ border-collapse: collapse; width: 100% }}
th, td {{ text-align: left; padding: .25em .6em; border-bottom: 1px solid #ddd; vertical-align: top; overflow-wrap: anywhere }}
code, pre {{ font: 13px/1.5 monospace; overflow-wrap: anywhere }}
pre {{ white-space: pre-wrap; background: #f7f7f7; border: 1px solid #ddd; padding: .6em; margin: .3em 0 1em }}
section {{ border-top: 3px solid #ddd; margin-top: 1.5em }}
h2 {{ font-size: 1.2em }}
h3 {{ margin: 1em 0 0; font-size: 1em }}
mark {{ color: inherit; border-radius: 2px }}
mark[data-p]::after {{ content: attr(data-p); font-size: 9px; vertical-align: super; padding: 0 1px }}
.swatch {{ display: inline-block; min-width: 1.6em; padding: 0 .3em; text-align: center; border-radius: 2px }}
.denied {{ color: #a40000; font-weight: bold }}
.note, i {{ color: #666 }}
ul {{ list-style: none; padding: 0; margin: .5em 0 }}
</style>
"""


def report_page(report: Report, files: str) -> Iterator[str]:
    """The parts of the page. The files are those that it was made from."""
    yield _HEAD
    yield f"<h1>{_TITLE}</h1>\n<p>{escape(report.summary)}.</p>\n"
    yield f"<p class=note>Made by <code>tools/resin report</code> from {_text(files)}. {_KEEP}</p>\n"
    for note in report.notes:
        yield f"<p class=note>{_text(note)}</p>\n"
    pages = _chosen(report.pages)
    yield from _denials(report, {page.exchange.number for page in pages})
    room = _MOST_TEXTS
    for page in pages:
        part = _Section(page, room)
        yield from part.lines()
        room = part.room
    if len(pages) < len(report.pages):
        missing = f"{len(report.pages) - len(pages)} of {len(report.pages)} requests aren't shown"
        yield f"<p class=note>(cut: {missing}; those with labelled bytes or denials come first)</p>\n"
    yield "</html>\n"


def write_page(path: Path, parts: Iterator[str]) -> None:
    """Writes a page. Raises Wrong where something else stands there, or where it can't be written."""
    try:
        if path.exists() and f"<title>{_TITLE}</title>".encode() not in path.read_bytes()[:4096]:
            raise Wrong(f"{path} is there already, and is no report: give --html a new name")
        with open(path, "w", encoding="utf-8", newline="\n") as page:
            page.writelines(parts)
    except OSError as error:
        raise Wrong(f"{path}: {error.strerror}") from None


def _chosen(pages: list[Page]) -> list[Page]:
    """The pages that are shown: where they are too many, those first on which something labelled left or something was denied."""
    first = sorted(pages, key=lambda page: not page.tells)[:_MOST_PAGES]
    return sorted(first, key=lambda page: page.exchange.number)


# ---- denials


def _denials(report: Report, there: set[int]) -> Iterator[str]:
    found = report.denials
    yield "<h2>Denied</h2>\n"
    if not found:
        yield "<p>Nothing was denied.</p>\n"
        return
    heads = ("request", "write", "channel", "policy or filter", "exception", "bytes")
    yield "<table>\n<tr>" + "".join(f"<th>{head}" for head in heads) + "\n"
    for page, denial in found[:_MOST_DENIALS]:
        number = f"<a href=#request-{denial.request}>{denial.request}</a>" if denial.request in there else str(denial.request)
        who, by = f"{denial.kind} <code>{_text(denial.name)}</code>", f"<code>{_text(denial.by)}</code>"
        cells = (str(denial.write), denial.channel, who, by, denial.bytes)
        yield f"<tr><td>{number} {_line(page)}" + "".join(f"<td>{cell}" for cell in cells) + "\n"
    yield "</table>\n"
    if len(found) > _MOST_DENIALS:
        yield f"<p class=note>(cut: {len(found) - _MOST_DENIALS} of {len(found)} denials aren't shown)</p>\n"


def _line(page: Page) -> str:
    return f"<code>{_bytes(page.line[:300])}{'...' if len(page.line) > 300 else ''}</code>"


# ---- one answer


class _Section:
    """What left with one answer, coloured by policy."""

    def __init__(self, page: Page, room: int):
        self._page = page
        self._policies = page.policies
        self._colours = {policy.number: _COLOURS[at % len(_COLOURS)] for at, policy in enumerate(self._policies)}
        self.room = room
        """How many bytes of texts may still be shown."""

    def lines(self) -> Iterator[str]:
        """The parts of the section."""
        exchange = self._page.exchange
        response = exchange.response
        answer = f"answered with <code>{_bytes(response.line)}</code>" if response else "not answered: the run ended before"
        yield f"<section id=request-{exchange.number}>\n<h2>Request {exchange.number}: {_line(self._page)}</h2>\n"
        yield f"<p>{answer}, connection {exchange.connection}</p>\n"
        yield from self._legend()
        for part in self._page.story:
            yield from self._denial(part) if isinstance(part, Denial) else self._left(part)
        if self._page.added:
            yield f"<h3>added by the runtime</h3>\n<pre>{_bytes(self._page.added)}</pre>\n"
        if exchange.request.method == b"HEAD" and not exchange.request.refused:
            yield "<p class=note>The answer to HEAD left its body out.</p>\n"
        yield "</section>\n"

    def _legend(self) -> Iterator[str]:
        if not self._policies:
            return
        yield "<ul>\n"
        for policy in self._policies[:_MOST_LEGEND]:
            swatch = f"<span class=swatch style='background:{self._colours[policy.number]}'>{policy.number}</span>"
            name = f"<code>{_text(policy.name)}</code>" if policy.name else str(policy.number)
            yield f"<li>{swatch} policy {name}: {_told(policy)}\n"
        if len(self._policies) > _MOST_LEGEND:
            yield f"<li class=note>(cut: {len(self._policies) - _MOST_LEGEND} of {len(self._policies)} policies aren't shown)\n"
        yield "</ul>\n"

    def _left(self, left: Left) -> Iterator[str]:
        writes = f"write {left.first}" if left.first == left.last else f"writes {left.first} to {left.last}"
        text = left.text
        length = counted(len(text.data), "byte") + (f", {text.labelled} of them labelled" if text.labelled else "")
        yield f"<h3>{left.channel}, {writes}: {length}</h3>\n"
        if text.data:
            yield f"<pre>\n{''.join(self._texts(text))}</pre>\n"  # the first newline in a pre is dropped

    def _texts(self, text: Labelled) -> Iterator[str]:
        for part in excerpt(text, min(_MOST_TEXT, self.room)):
            yield self._shown(part)
            if not isinstance(part, Cut):
                self.room -= len(part[0])

    def _shown(self, part: Shown) -> str:
        if isinstance(part, Cut):
            labelled = f", {part.labelled} of them labelled" if part.labelled else ""
            return f"<i>(cut: {counted(part.length, 'byte')}{labelled})</i>"
        data, policies = part
        if not policies:
            return _bytes(data)
        numbers = " ".join(map(str, policies))
        return f"<mark style='background:{self._colour(policies)}' data-p='{numbers}' title='policy {numbers}'>{_bytes(data)}</mark>"

    def _colour(self, policies: Policies) -> str:
        """The colour of a policy, or stripes of the colours of several."""
        colours = [self._colours[number] for number in policies[: len(_COLOURS)]]
        if len(colours) == 1:
            return colours[0]
        stripes = (f"{colour} {8 * at}px {8 * at + 8}px" for at, colour in enumerate(colours))
        return f"repeating-linear-gradient(135deg,{','.join(stripes)})"

    @staticmethod
    def _denial(denial: Denial) -> Iterator[str]:
        where = f"write {denial.write}" if denial.write else "no write"
        who = f"{denial.kind} <code>{_text(denial.name)}</code>"
        yield f"<p class=denied>{denial.channel}, {where}: denied by {who} with <code>{_text(denial.by)}</code>, bytes {denial.bytes}</p>\n"


def _told(policy: Policy) -> str:
    parts = [f"{counted(policy.length, 'byte')} left"] if policy.length else ["no byte left"]
    for writes, word in ((policy.passed, "returned"), (policy.denied, "denied")):
        if writes:
            numbers = ", ".join(map(str, writes[:_MOST_WRITES])) + (" and more" if len(writes) > _MOST_WRITES else "")
            parts.append(f"{word} in write {numbers}" if len(writes) == 1 else f"{word} in writes {numbers}")
    return "; ".join(parts)


_OTHER = re.compile(r"[^\n\t\x20-\x7e]")


def _bytes(data: bytes) -> str:
    """Bytes as text of the page. Those that are no characters of UTF-8, and characters that don't print, are told by their numbers."""
    return _OTHER.sub(_visible, escape(data.decode("utf-8", "surrogateescape")))


def _text(text: str) -> str:
    """A text of the page."""
    return _bytes(text.encode("utf-8", "surrogateescape"))


def _visible(found: re.Match) -> str:
    code = ord(found[0])
    if 0xDC80 <= code <= 0xDCFF:
        return f"<i>\\x{code - 0xDC00:02x}</i>"
    if found[0].isprintable():
        return found[0]
    return f"<i>\\x{code:02x}</i>" if code < 0x80 else f"<i>\\u{{{code:x}}}</i>"
