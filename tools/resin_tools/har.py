"""HAR files, as Firefox and Chrome export them (HTTP Archive 1.2)."""
from collections import Counter
from collections.abc import Iterator
from datetime import datetime
from pathlib import Path
from urllib.parse import SplitResult, quote, urlsplit

from .fault import Wrong
from .sent import Sent

_TARGET_BYTES = "!\"#$%&'()*+,-./:;<=>?@[\\]^_`{|}~"


class LeftOut(Exception):
    """Why an entry can't stand in a trace."""


def har_requests(path: Path, har: object, file: int, host: str | None, notes: list[str]) -> Iterator[Sent]:
    """The requests of a HAR file that went to one host: the given one, or that of the first entry. What can't stand in a trace is noted."""
    log = _part(har, "log", dict, path)
    entries = _part(log, "entries", list, path)
    is_firefox = "firefox" in str((log.get("creator") or {}).get("name", "")).lower()
    elsewhere: Counter[str] = Counter()
    for number, entry in enumerate(entries, 1):
        try:
            url = _url(entry)
            host = host or url.netloc
            if url.netloc != host:
                elsewhere[url.netloc] += 1
                continue
            yield _sent(entry, url, file, number, is_firefox)
        except LeftOut as why:
            notes.append(f"{path}: entry {number} is left out: {_called(entry)}: {why}")
        except (KeyError, TypeError, ValueError, AttributeError) as error:
            raise Wrong(f"{path}: entry {number} is no entry of a HAR file ({type(error).__name__}: {error})") from None
    notes += [f"{path}: {count} requests to {name} are left out" for name, count in elsewhere.items()]


def _part(of: object, name: str, kind: type, path: Path):
    found = of.get(name) if isinstance(of, dict) else None
    if not isinstance(found, kind):
        raise Wrong(f"{path} is no HAR file: it has no {name}")
    return found


def _called(entry: dict) -> str:
    request = entry["request"]
    return f"{request['method']} {request['url'][:200]}"


def _url(entry: dict) -> SplitResult:
    url = urlsplit(entry["request"]["url"])
    if url.scheme not in ("http", "https"):
        raise LeftOut(f"it is {url.scheme or 'nothing'}, not http")
    return url


def _sent(entry: dict, url: SplitResult, file: int, number: int, is_firefox: bool) -> Sent:
    if _is_from_cache(entry, is_firefox):
        raise LeftOut("the browser took it from its cache")
    if entry["response"]["status"] == 0:
        raise LeftOut("it has no answer: it was blocked or broken off")
    start = datetime.fromisoformat(entry["startedDateTime"]).timestamp()
    end = start + max(0.0, float(entry["time"])) / 1000
    return Sent(start, end, _connection(entry, file, is_firefox), _raw(entry["request"], url), f"entry {number}")


def _is_from_cache(entry: dict, is_firefox: bool) -> bool:
    # Chrome names the cache. Firefox gives `cache` a member for these entries alone.
    return bool(entry.get("_fromCache")) or is_firefox and "afterRequest" in (entry.get("cache") or {})


def _connection(entry: dict, file: int, is_firefox: bool) -> str | None:
    # Chrome's is the number of the socket; Firefox's is the port of the server, which tells connections not apart.
    name = entry.get("connection")
    return None if is_firefox or name in (None, "", "0") else f"{file} {name}"


def _raw(request: dict, url: SplitResult) -> bytes:
    """The bytes of a request as HTTP/1.1 sends it."""
    fields = [(field["name"], field["value"]) for field in request["headers"] if not field["name"].startswith(":")]
    _refuse_encodings(fields, request)
    body = _body(request, fields)
    fields = [(name, value) for name, value in fields if name.lower() != "content-length"]
    if not any(name.lower() == "host" for name, _ in fields):
        fields.insert(0, ("Host", url.netloc))
    if body or request["method"] == "POST":
        fields.append(("Content-Length", str(len(body))))
    head = [f"{request['method']} {_target(url)} HTTP/1.1", *(f"{name}: {value}" for name, value in fields), "", ""]
    if any("\r" in line or "\n" in line for line in head):
        raise LeftOut("a line of its head has a line end")
    return "\r\n".join(head).encode() + body


def _refuse_encodings(fields: list[tuple[str, str]], request: dict) -> None:
    told = {name.lower(): value.lower() for name, value in fields}
    if "transfer-encoding" in told:
        raise LeftOut("its body is chunked, which a trace can't hold")
    kind = told.get("content-type") or str((request.get("postData") or {}).get("mimeType", "")).lower()
    if kind.startswith("multipart/"):
        raise LeftOut("its body is multipart, which the engine doesn't read")


def _body(request: dict, fields: list[tuple[str, str]]) -> bytes:
    posted = request.get("postData") or {}
    body = str(posted.get("text") or "").encode("utf-8", "surrogatepass")
    told = [value for name, value in fields if name.lower() == "content-length"]
    if told and told[0].strip() != str(len(body)) or posted.get("params") and not body:
        raise LeftOut("its body doesn't stand whole in the file")
    return body


def _target(url: SplitResult) -> str:
    return quote(url.path or "/", safe=_TARGET_BYTES) + (f"?{quote(url.query, safe=_TARGET_BYTES)}" if url.query else "")
