"""Files of raw requests: what one connection sent, byte by byte."""
import re
from collections.abc import Iterator
from pathlib import Path

from .sent import Sent
from .streams import MOST_HEAD, Head, read_head, values

_CHUNK = re.compile(rb"([0-9A-Fa-f]{1,8})[^\r\n]*\r\n")


def raw_requests(path: Path, data: bytes, file: int, notes: list[str]) -> Iterator[Sent]:
    """The requests of a file, on one connection. What can't stand in a trace is noted and left out, and so is what follows a request whose
    end can't be found."""
    at, number = 0, 0
    while at < len(data):
        number += 1
        name = f"{path}: request {number}, at byte {at}"
        found = data.find(b"\r\n\r\n", at, at + MOST_HEAD)
        head = read_head(data[at : found + 4]) if found >= 0 else None
        end = _end(data, found + 4, head) if head else None
        if head is None or end is None or end > len(data):
            notes.append(f"{name} is left out: it isn't whole (a head ends with CR LF CR LF, within {MOST_HEAD} bytes)")
            return
        if why := _why_left_out(head):
            notes.append(f"{name} is left out: {head.method.decode()} {head.target.decode('utf-8', 'replace')}: {why}")
        else:
            yield Sent(float(file), float(file), f"file {file}", data[at:end], name)
        at = end


def _end(data: bytes, at: int, head: Head) -> int | None:
    """Where a request ends whose body begins there, None where its chunks are none."""
    if not values(head.fields, b"transfer-encoding"):
        return at + head.length
    while chunk := _CHUNK.match(data, at):
        at = chunk.end() + int(chunk[1], 16)
        if int(chunk[1], 16) == 0:
            end = data.find(b"\r\n\r\n", chunk.end() - 2)
            return end + 4 if end >= 0 else None
        at += 2
    return None


def _why_left_out(head: Head) -> str:
    if values(head.fields, b"transfer-encoding"):
        return "its body is chunked, which a trace can't hold"
    if any(kind.lower().startswith(b"multipart/") for kind in values(head.fields, b"content-type")):
        return "its body is multipart, which the engine doesn't read"
    return ""
