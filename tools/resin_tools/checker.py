"""The checker: the program resin_check, which tells whether a source text is a program, and where not."""
import re
import subprocess
from dataclasses import dataclass
from pathlib import Path

from .fault import Wrong

MOST_BYTES = 16_777_216
_FAULT = re.compile(rb"(Syntax|TooDeep) at (\d+), line \d+, column \d+\n")
_SECONDS = 60


@dataclass(frozen=True)
class Fault:
    """Why a text is no program."""

    kind: str
    """`Syntax`, `TooDeep` or `TooLong`."""
    offset: int


def find_fault(checker: Path, source: bytes) -> Fault | None:
    """What is wrong with a source text, None where it is a program. Raises Wrong where the checker can't tell."""
    try:
        done = subprocess.run([checker], input=source, capture_output=True, timeout=_SECONDS, check=False)
    except (OSError, subprocess.TimeoutExpired) as error:
        raise Wrong(f"{checker} doesn't answer: {error}") from None
    if done.returncode == 0:
        return None
    if done.returncode == 1 and (found := _FAULT.fullmatch(done.stdout)):
        return Fault(found[1].decode(), int(found[2]))
    if done.returncode == 6:
        return Fault("TooLong", MOST_BYTES)
    words = done.stderr.decode("utf-8", "backslashreplace").strip()
    raise Wrong(f"{checker} ended with status {done.returncode}{': ' + words if words else ''}")
