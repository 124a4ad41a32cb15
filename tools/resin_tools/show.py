"""`resin show`: the requests of a trace beside their answers."""
import base64
import json
import textwrap
from collections.abc import Iterator
from dataclasses import dataclass
from itertools import zip_longest

from .fault import Wrong
from .records import Answer, BadRecord, read_answers, read_trace
from .responses import Response, read_response
from .streams import Fields, Request, is_text, served
from .terminal import shown

_MOST_LINES = 24
_LEAST_WIDTH = 60


@dataclass(frozen=True)
class Exchange:
    """One request or refusal, and its answer; None where the answers end before it."""

    number: int
    connection: int
    request: Request
    response: Response | None


def exchanges(trace: bytes, answers: bytes) -> tuple[list[Exchange], list[str]]:
    """The requests of a trace with their answers, and what is wrong with the two files. Raises Wrong where the answers are of another
    trace."""
    notes: list[str] = []
    asked = list(served(_whole(read_trace(trace), "trace", notes)))
    given: list[Answer] = list(_whole(read_answers(answers), "answers", notes))
    for number, (answer, request) in enumerate(zip_longest(given, asked), 1):
        if answer and (request is None or answer.connection != request[0]):
            raise Wrong(f"the answers are of another trace: answer {number} is on connection {answer.connection}")
    if len(given) < len(asked):
        notes.append(f"{len(asked) - len(given)} requests have no answer")
    paired = zip_longest(asked, given)
    return [
        Exchange(number, connection, request, read_response(answer.response) if answer else None)
        for number, ((connection, request), answer) in enumerate(paired, 1)
    ], notes


def _whole(records: Iterator, name: str, notes: list[str]) -> Iterator:
    """The whole records at the front of a file; a note tells where others follow."""
    try:
        yield from records
    except BadRecord as error:
        notes.append(f"{name}: {error}; what follows is left out")


# ---- for a person


def show_text(found: list[Exchange], width: int, whole: bool) -> Iterator[str]:
    """Lines with requests on the left and answers on the right."""
    column = max(_LEAST_WIDTH, width) // 2 - 2
    for exchange in found:
        yield f"── request {exchange.number}, connection {exchange.connection} ".ljust(max(_LEAST_WIDTH, width), "─")
        left = _lines(_request_head(exchange.request), exchange.request.body, column, whole)
        right = ["(no answer)"]
        if response := exchange.response:
            right = _lines([response.line, *_field_lines(response.fields)], response.body, column, whole)
        for one, other in zip_longest(left, right, fillvalue=""):
            yield f"{one:{column}} │ {other}".rstrip()


def _request_head(request: Request) -> list[bytes]:
    if not request.method:
        return [b"(refused: %d)" % request.refused, *request.raw.split(b"\r\n")]
    line = b"%b %b HTTP/1.%d" % (request.method, request.target, request.minor)
    return [line, *_field_lines(request.fields)] + ([b"(refused: %d)" % request.refused] if request.refused else [])


def _field_lines(fields: Fields) -> list[bytes]:
    return [name + b": " + value for name, value in fields]


def _lines(head: list[bytes], body: bytes, column: int, whole: bool) -> list[str]:
    lines = [part for line in head for part in _wrapped(line, column)]
    if body:
        lines += ["", *_body_lines(body, column, whole)]
    return lines


def _body_lines(body: bytes, column: int, whole: bool) -> list[str]:
    text = body if whole else body[: column * _MOST_LINES * 4]
    lines = [part for line in text.replace(b"\r\n", b"\n").removesuffix(b"\n").split(b"\n") for part in _wrapped(line, column)]
    if whole or len(text) == len(body) and len(lines) <= _MOST_LINES:
        return lines
    return [*lines[:_MOST_LINES], f"(cut; the body has {len(body)} bytes, --whole shows all)"[:column]]


def _wrapped(line: bytes, column: int) -> list[str]:
    text = shown(line.replace(b"\t", b"    "), most=1 << 24)
    return textwrap.wrap(text, column, drop_whitespace=False, replace_whitespace=False, break_on_hyphens=False) or [""]


# ---- for programs


def show_json(found: list[Exchange]) -> str:
    """The same as a JSON list."""
    return json.dumps([_exchange(exchange) for exchange in found], indent=1)


def _exchange(exchange: Exchange) -> dict:
    request, response = exchange.request, exchange.response
    return {
        "number": exchange.number,
        "connection": exchange.connection,
        "request": {
            "method": _text(request.method),
            "target": _text(request.target),
            "version": f"HTTP/1.{request.minor}",
            "headers": _fields(request.fields),
            "body": _bytes(request.body),
            "refused": request.refused or None,
        },
        "answer": response and {"status": response.status, "headers": _fields(response.fields), "body": _bytes(response.body)},
    }


def _text(data: bytes) -> str:
    return data.decode("utf-8", "backslashreplace")


def _fields(fields: Fields) -> list[dict]:
    return [{"name": _text(name), "value": _text(value)} for name, value in fields]


def _bytes(data: bytes) -> dict:
    """Bytes as a text where they are UTF-8, else in base64."""
    return {"text": data.decode()} if is_text(data) else {"base64": base64.b64encode(data).decode()}
