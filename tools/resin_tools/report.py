"""`resin report`: what left in a run, and what was denied."""
import re
from collections.abc import Iterator
from dataclasses import dataclass, field
from functools import cached_property

from .denials import Denial
from .fault import Wrong
from .journal import Journal, Passed, Sent, read_journals
from .labelled import Labelled, joined
from .records import BadRecord
from .show import Exchange, exchanges

# What the runtime itself puts behind the texts that a page sent (docs/FORMATS.md, "Answers").
_ADDED = re.compile(rb"(?:Uncaught [^\n]+|Script fault \w+ at line \d+|Keeper fault|Not found|Request refused: \d+)\n")


@dataclass(frozen=True)
class Left:
    """A text that left by one write, or by several of the channel `http` that follow each other."""

    channel: str
    first: int
    last: int
    text: Labelled


@dataclass
class Policy:
    """What a journal tells of one policy."""

    number: int
    name: str = ""
    """Its class and its number, where a denial tells them."""
    length: int = 0
    """How many bytes left that carry it."""
    passed: list[int] = field(default_factory=list)
    """The writes in which it was asked and returned."""
    denied: list[int] = field(default_factory=list)


@dataclass(frozen=True)
class Page:
    """One answer and its journal."""

    exchange: Exchange
    journal: Journal
    added: bytes
    """What the runtime added to the body."""

    @property
    def line(self) -> bytes:
        """The request line, as it came."""
        request = self.exchange.request
        if not request.method:
            return request.raw.partition(b"\r\n")[0]
        return b"%b %b HTTP/1.%d" % (request.method, request.target, request.minor)

    @cached_property
    def length(self) -> int:
        """How many bytes left, on every channel."""
        return sum(len(sent.text.data) for sent in self.journal.sent)

    @cached_property
    def labelled(self) -> int:
        """How many of them carry a policy."""
        return sum(sent.text.labelled for sent in self.journal.sent)

    @property
    def tells(self) -> bool:
        """Whether something labelled left, or something was denied."""
        return bool(self.labelled or self.journal.denials)

    @property
    def story(self) -> Iterator[Left | Denial]:
        """What left and what was denied, in order."""
        together: list[Sent] = []
        for event in self.journal.events:
            if together and not (isinstance(event, Passed) or isinstance(event, Sent) and event.channel == together[0].channel == "http"):
                yield _left(together)
                together = []
            if isinstance(event, Sent):
                together.append(event)
            elif isinstance(event, Denial):
                yield event
        if together:
            yield _left(together)

    @property
    def policies(self) -> list[Policy]:
        """The policies that texts carried or that were asked, as they come."""
        found: dict[int, Policy] = {}
        for event in self.journal.events:
            if isinstance(event, Passed):
                _policy(found, event.policy).passed.append(event.write)
            elif isinstance(event, Sent):
                for run in event.text.runs:
                    for number in run.policies:
                        _policy(found, number).length += run.length
            elif event.kind == "policy":
                policy = _policy(found, int(event.name.rpartition("#")[2]))
                policy.name = event.name
                policy.denied.append(event.write)
        return list(found.values())


@dataclass(frozen=True)
class Report:
    """The answers of a run with their journals, and what is wrong with the files."""

    pages: list[Page]
    notes: list[str]

    @property
    def denials(self) -> list[tuple[Page, Denial]]:
        """Each denial, with the page on which it came."""
        return [(page, denial) for page in self.pages for denial in page.journal.denials]

    @property
    def summary(self) -> str:
        """A line with the counts."""
        writes, length, labelled = (sum(counts) for counts in zip((0, 0, 0), *((len(it.journal.sent), it.length, it.labelled) for it in self.pages)))
        left = f"{counted(writes, 'write')} left with {counted(length, 'byte')}, {labelled} of them labelled"
        return f"{counted(len(self.pages), 'request')}; {left}; {counted(len(self.denials), 'denial')}"


def report(trace: bytes, answers: bytes, journal: bytes) -> Report:
    """What a run of `record` left. Raises Wrong where the three files aren't of one run."""
    found, notes = exchanges(trace, answers)
    journals, cut = _journals(journal, notes)
    if len(journals) > len(found):
        raise Wrong(f"the journal is of another trace: it has {counted(len(journals), 'request')}, and the trace {len(found)}")
    answered = sum(exchange.response is not None for exchange in found)
    if len(journals) < answered and not cut:
        raise Wrong(f"the journal is of another run: it has {counted(len(journals), 'request')}, and {answered} have answers")
    if len(journals) < len(found):
        notes.append(f"requests of the trace without a journal: {len(found) - len(journals)}")
    last = len(journals) if cut else None
    return Report([Page(it, own, b"" if own.number == last else _added(it, own)) for it, own in zip(found, journals)], notes)


def _journals(text: bytes, notes: list[str]) -> tuple[list[Journal], bool]:
    """The journals at the front of a file, and whether they were cut off."""
    journals: list[Journal] = []
    try:
        for journal in read_journals(text):
            journals.append(journal)
    except BadRecord as bad:
        if not journals:
            raise Wrong("the journal is none: it doesn't begin with `request 1`") from None
        notes.append(f"journal: no whole item at byte {bad.at}; what follows is left out")
        return journals, True
    return journals, False


def _added(exchange: Exchange, journal: Journal) -> bytes:
    """What the body of an answer has behind what the journal sent. Raises Wrong where it is anything but a text of the runtime's own."""
    request, response = exchange.request, exchange.response
    if response is None or request.method == b"HEAD" and not request.refused:
        return b""
    sent = b"".join(it.text.data for it in journal.sent if it.channel == "http")
    added = response.body.removeprefix(sent)
    if not response.body.startswith(sent) or added and not _ADDED.fullmatch(added):
        raise Wrong(f"the journal is of another run: the body of answer {exchange.number} isn't what it sent")
    return added


def _left(together: list[Sent]) -> Left:
    return Left(together[0].channel, together[0].write, together[-1].write, joined([sent.text for sent in together]))


def _policy(found: dict[int, Policy], number: int) -> Policy:
    return found.setdefault(number, Policy(number))


def counted(number: int, noun: str) -> str:
    """A number with its noun."""
    return f"{number} {noun}" if number == 1 else f"{number} {noun}s"
