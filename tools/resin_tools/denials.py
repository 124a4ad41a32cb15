"""The lines of the denial log (docs/FORMATS.md, "The other outputs")."""
import os
import re
from dataclasses import dataclass
from pathlib import Path

_LINE = re.compile(
    r"deny request=(?P<request>\d+) write=(?P<write>\d+) channel=(?P<channel>\w+) "
    r"(?P<kind>policy|filter)=(?P<name>[^ ]+#\d+) bytes=(?P<bytes>\d+-\d+) by=(?P<by>[^ ]+)"
)


@dataclass(frozen=True)
class Denial:
    """One denied write or refused call."""

    request: int
    write: int
    channel: str
    kind: str
    """`policy` or `filter`."""
    name: str
    """The class and the number of the object, as `NoExport#2`."""
    bytes: str
    by: str
    """The class of the exception."""


def read_denial(line: str) -> Denial | None:
    """The denial of a line, None where it is none."""
    found = _LINE.fullmatch(line)
    if not found:
        return None
    return Denial(
        int(found["request"]), int(found["write"]), found["channel"], found["kind"], found["name"], found["bytes"], found["by"]
    )


class DenialLog:
    """Follows a denial log from the end that it has now."""

    def __init__(self, path: Path):
        self._file = open(path, "a+b", buffering=0)
        self._at = self._file.seek(0, os.SEEK_END)
        self._rest = b""

    def news(self) -> list[Denial]:
        """The denials whose lines were added since the last call."""
        size = os.fstat(self._file.fileno()).st_size
        if size == self._at:
            return []
        if size < self._at:
            self._at, self._rest = 0, b""
        self._file.seek(self._at)
        data = self._file.read(size - self._at) or b""
        self._at += len(data)
        *lines, self._rest = (self._rest + data).split(b"\n")
        found = (read_denial(line.decode("utf-8", "backslashreplace")) for line in lines)
        return [denial for denial in found if denial]

    def close(self) -> None:
        """Lets go of the file."""
        self._file.close()
