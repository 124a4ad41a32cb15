"""`resin diff`: what differs between two files of answers."""
import difflib
from collections.abc import Iterator
from itertools import zip_longest
from pathlib import Path

from .fault import Wrong
from .records import Answer, BadRecord, read_answers
from .responses import Response, read_response
from .streams import is_text
from .terminal import shown

_CONTEXT = 2
_MOST_LINES = 60


def read_answer_file(path: Path, data: bytes) -> list[Answer]:
    """The answers of a file. Raises Wrong where it isn't one."""
    try:
        return list(read_answers(data))
    except BadRecord as error:
        raise Wrong(f"{path} is no file of answers: {error}") from None


def differences(old: list[Answer], new: list[Answer]) -> Iterator[str]:
    """Lines that tell each answer that differs; none where the two are the same."""
    for number, (one, other) in enumerate(zip_longest(old, new), 1):
        if one == other:
            continue
        if one is None or other is None:
            only = one or other
            yield f"answer {number}, connection {only.connection}: only in the {'first' if one else 'second'} file, {_line(only)}"
        elif one.connection != other.connection:
            yield f"answer {number}: on connection {one.connection}, {_line(one)}, and on connection {other.connection}, {_line(other)}"
        else:
            yield f"answer {number}, connection {one.connection}: {_line(one)}"
            yield from _parts(read_response(one.response), read_response(other.response))


def _line(answer: Answer) -> str:
    return shown(read_response(answer.response).line)


def _parts(old: Response, new: Response) -> Iterator[str]:
    yield from _changes(_head(old), _head(new))
    if old.body == new.body:
        return
    if is_text(old.body) and is_text(new.body):
        yield from _changes(old.body.decode().split("\n"), new.body.decode().split("\n"))
    else:
        same = next((at for at, (a, b) in enumerate(zip(old.body, new.body)) if a != b), min(len(old.body), len(new.body)))
        yield f"  bodies of {len(old.body)} and {len(new.body)} bytes differ from byte {same}"


def _head(response: Response) -> list[str]:
    fields = (name + b": " + value for name, value in response.fields)
    return [line.decode("utf-8", "backslashreplace") for line in (response.line, *fields)]


def _changes(old: list[str], new: list[str]) -> Iterator[str]:
    lines = list(difflib.unified_diff(old, new, lineterm="", n=_CONTEXT))[2:]
    for line in lines[:_MOST_LINES]:
        yield "  " + (line if line.startswith("@@") else shown(line))
    if len(lines) > _MOST_LINES:
        yield f"  (cut: {len(lines) - _MOST_LINES} lines more)"
