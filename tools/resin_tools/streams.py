"""The requests of a stream, cut and refused as the engine does it (docs/FORMATS.md, "Requests")."""
import re
from collections.abc import Iterator
from dataclasses import dataclass

from .records import End, Piece

MOST_HEAD = 16_384
MOST_LINES = 66
MOST_FIELDS = 64
MOST_BODY = 1_048_576

_TOKEN = rb"[0-9A-Za-z!#$%&'*+\-.^_`|~]+"
_HEAD = re.compile(
    rb"(?:\r?\n)*(" + _TOKEN + rb") ([^\x00-\x20\x7f]+) HTTP/1\.([01])\r?\n"
    rb"((?:" + _TOKEN + rb":[\t\x20-\x7e\x80-\xff]*\r?\n)*)\r?\n"
)
_LENGTH = re.compile(rb"[0-9]{1,10}")
_METHODS = (b"GET", b"HEAD", b"POST")

Fields = list[tuple[bytes, bytes]]


@dataclass(slots=True)
class Request:
    """One request of a stream, or the part of a stream that is refused."""

    raw: bytes
    """All its bytes, as they came."""
    method: bytes
    """Empty, as the target is, where the head is none."""
    target: bytes
    minor: int
    """The digit after `HTTP/1.`."""
    fields: Fields
    body: bytes
    refused: int
    """The status of a refusal, or 0."""

    def values(self, name: bytes) -> list[bytes]:
        """The values of the fields of that name in lower case."""
        return values(self.fields, name)

    @property
    def closes(self) -> bool:
        """Whether the connection ends with the answer: the client says so, speaks HTTP/1.0, or is refused."""
        return self.refused != 0 or self.minor == 0 or b"close" in _options(self.values(b"connection"))


def values(fields: Fields, name: bytes) -> list[bytes]:
    """The values of the fields of that name in lower case, in order."""
    return [value for key, value in fields if key.lower() == name]


def _options(lists: list[bytes]) -> list[bytes]:
    return [word.strip(b" \t").lower() for line in lists for word in line.split(b",")]


@dataclass
class Head:
    """A head that was read: where it ends, what it says, and how many bytes of body it announces."""

    end: int
    method: bytes
    target: bytes
    minor: int
    fields: Fields
    length: int
    refused: int


class RequestReader:
    """Cuts a stream that comes in pieces into requests. After a refusal it gives nothing more."""

    def __init__(self) -> None:
        self._text = bytearray()
        self._searched = 0
        self._head: Head | None = None
        self._refused = False

    def feed(self, data: bytes) -> None:
        """Adds bytes to the stream."""
        if not self._refused:
            self._text += data

    def __len__(self) -> int:
        """How many bytes wait: those of the request under way, and of whole ones that `next` did not give yet."""
        return len(self._text)

    def rest(self, start: int) -> bytes:
        """The waiting bytes from `start` on."""
        return bytes(memoryview(self._text)[start:])

    @property
    def expects(self) -> bool:
        """Whether the client waits for `100 Continue` before it sends the body."""
        head = self._head
        return head is not None and len(self._text) == head.end and b"100-continue" in _options(values(head.fields, b"expect"))

    def next(self) -> Request | None:
        """The next whole request or refusal, None where more bytes decide it."""
        if self._head is None and self._text:
            self._head = self._read_head()
        head = self._head
        if head is None or len(self._text) < head.end + head.length:
            return None
        return self._take(head)

    def _take(self, head: Head) -> Request:
        raw = bytes(memoryview(self._text)[: head.end + head.length])
        del self._text[: len(raw)]
        if head.refused:
            self._refused = True
            self._text.clear()
        self._head, self._searched = None, 0
        return Request(raw, head.method, head.target, head.minor, head.fields, raw[head.end :], head.refused)

    def _read_head(self) -> Head | None:
        found = self._text.find(b"\r\n\r\n", max(0, self._searched - 3), MOST_HEAD)
        if found >= 0:
            return read_head(bytes(memoryview(self._text)[: found + 4]))
        if len(self._text) >= MOST_HEAD:
            return Head(MOST_HEAD, b"", b"", 1, [], 0, 431)
        self._searched = len(self._text)
        return None


def read_head(text: bytes) -> Head:
    """What a head says that ends with the end of `text`. The first rule that applies decides."""
    head = Head(len(text), b"", b"", 1, [], 0, 0)
    if text.count(b"\r\n") > MOST_LINES:
        head.refused = 431
        return head
    found = _HEAD.fullmatch(text)
    if not found:
        head.refused = 400
        return head
    head.method, head.target, head.minor = found[1], found[2], int(found[3])
    head.fields = _fields(found[4])
    head.refused = _refusal(head)
    return head


def _fields(block: bytes) -> Fields:
    fields = []
    for line in block.split(b"\n")[:-1]:
        name, _, raw = line.partition(b":")
        fields.append((name, raw.removesuffix(b"\r").strip(b" \t")))
    return fields


def _refusal(head: Head) -> int:
    lengths = values(head.fields, b"content-length")
    if len(head.fields) > MOST_FIELDS or not head.target.startswith(b"/") or not is_text(head.target):
        return 400
    if len(lengths) > 1 or not all(_LENGTH.fullmatch(length) for length in lengths):
        return 400
    if head.method not in _METHODS or values(head.fields, b"transfer-encoding"):
        return 501
    length = int(lengths[0]) if lengths else 0
    if length > MOST_BODY:
        return 413
    head.length = length
    return 0


def is_text(data: bytes) -> bool:
    """Whether bytes are UTF-8."""
    try:
        data.decode()
    except UnicodeDecodeError:
        return False
    return True


def requests(stream: bytes) -> list[Request]:
    """The whole requests of a stream, and the refusal that ends it if there is one."""
    reader = RequestReader()
    reader.feed(stream)
    return list(iter(reader.next, None))


def served(records: Iterator[Piece | End]) -> Iterator[tuple[int, Request]]:
    """What a trace is answered for, in order: the number of a connection, and its request or refusal."""
    readers: dict[int, RequestReader] = {}
    for record in records:
        if isinstance(record, End):
            readers.pop(record.connection, None)
            continue
        reader = readers.setdefault(record.connection, RequestReader())
        reader.feed(record.data)
        for request in iter(reader.next, None):
            yield record.connection, request
