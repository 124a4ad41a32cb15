"""`resin import`: a trace from what was recorded elsewhere."""
import json
from collections.abc import Iterator
from dataclasses import dataclass, field
from pathlib import Path

from .fault import Wrong
from .har import har_requests
from .raw import raw_requests
from .records import MOST_TRACE
from .sent import Sent, trace_records


@dataclass
class Import:
    """A trace, how many requests it has, and a line for each thing that was left out."""

    trace: bytes = b""
    requests: int = 0
    notes: list[str] = field(default_factory=list)


def import_files(paths: list[Path], host: str | None) -> Import:
    """A trace of HAR files, and of files of raw requests with one connection each."""
    made = Import()
    sent = [request for number, path in enumerate(paths) for request in _read(path, number, host, made.notes)]
    made.requests = len(sent)
    made.trace = b"".join(trace_records(sent))
    if len(made.trace) > MOST_TRACE:
        raise Wrong(f"the trace would have {len(made.trace)} bytes, and may have {MOST_TRACE}")
    return made


def _read(path: Path, number: int, host: str | None, notes: list[str]) -> Iterator[Sent]:
    data = read_file(path)
    if data.lstrip(b"\xef\xbb\xbf \t\r\n").startswith(b"{"):
        yield from har_requests(path, _json(path, data), number, host, notes)
    else:
        yield from raw_requests(path, data, number, notes)


def read_file(path: Path) -> bytes:
    """The bytes of a file that the user named."""
    try:
        return path.read_bytes()
    except OSError as error:
        raise Wrong(f"{path}: {error.strerror}") from None


def _json(path: Path, data: bytes) -> object:
    try:
        return json.loads(data.decode("utf-8-sig"))
    except (ValueError, RecursionError) as error:
        raise Wrong(f"{path} is no HAR file: {error}") from None
