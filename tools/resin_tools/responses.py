"""Responses: those that the tools write themselves, and the parts of those of the engine."""
from dataclasses import dataclass
from http import HTTPStatus

from .streams import Fields

CONTINUE = b"HTTP/1.1 100 Continue\r\n\r\n"


def plain_response(status: int, text: str, head_only: bool = False) -> bytes:
    """A response of the tools' own, after which the connection closes."""
    body = text.encode() + b"\n"
    head = (
        f"HTTP/1.1 {status} {HTTPStatus(status).phrase}\r\nContent-Type: text/plain; charset=UTF-8\r\n"
        f"Content-Length: {len(body)}\r\nConnection: close\r\n\r\n"
    )
    return head.encode() + (b"" if head_only else body)


@dataclass(frozen=True)
class Response:
    """The parts of a response."""

    status: int
    """0 where the bytes are no response."""
    line: bytes
    fields: Fields
    body: bytes


def read_response(text: bytes) -> Response:
    """The parts of a response that is there as a whole."""
    head, _, body = text.partition(b"\r\n\r\n")
    line, *rest = head.split(b"\r\n")
    fields = [(name, value.strip(b" \t")) for name, _, value in (field.partition(b":") for field in rest)]
    return Response(status_of(text), line, fields, body)


def status_of(response: bytes) -> int:
    """The status of a response, 0 where it has none."""
    digits = response[9:12]
    return int(digits) if response.startswith(b"HTTP/1.") and digits.isdigit() else 0


def body_length(response: bytes) -> int:
    """How many bytes of body a response holds."""
    end = response.find(b"\r\n\r\n")
    return len(response) - end - 4 if end >= 0 else 0
