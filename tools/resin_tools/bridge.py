"""The bridge between clients and the engine: one thread, which waits for sockets and the engine's pipes by `selectors`."""
import resource
import select
import selectors
import signal
import socket
import time
from collections import deque
from collections.abc import Callable
from dataclasses import dataclass
from pathlib import Path

from .clients import Client, Lingering
from .denials import Denial, DenialLog
from .engine import Engine, serve_words
from .fault import Wrong
from .records import MOST_TRACE, Answer, BadRecord, Numbers, end_text, piece_text
from .responses import CONTINUE, body_length, plain_response, status_of
from .streams import Request
from .terminal import Terminal

READ, WRITE = selectors.EVENT_READ, selectors.EVENT_WRITE

USUAL_LIMIT = MOST_TRACE - (4 << 20)
"""The length of a trace after which the engine is started anew."""
LEAST_LIMIT = 1024
MOST_LIMIT = USUAL_LIMIT
_MARGIN = 64 * 1024
_MOST_QUEUED = 1 << 22
_MOST_UNFINISHED = 64 << 20
_MOST_UNREAD = 256 << 20
_IDLE_SECONDS = 60.0
_IDLE_SECONDS_WHERE_OTHERS_WAIT = 1.0
_CLOSED_AT_A_TIME = 64
_STOP_SECONDS = 10.0
_BACKLOG = 1024


@dataclass(frozen=True)
class Settings:
    """What `live` was told."""

    engine: Path
    folder: Path
    address: str = "127.0.0.1"
    port: int = 8080
    fuel: int | None = None
    keep: Path | None = None
    limit: int = USUAL_LIMIT


@dataclass(slots=True)
class Due:
    """A request that the engine has, and that waits for its answer."""

    client: Client
    request: Request
    since: float


class NotDue(Exception):
    """The engine answered a connection whose answer isn't the next one."""


class Bridge:
    """Serves a folder. Answers come in the order in which the engine was given the requests, so the first that is due is the one that
    comes next; its connection's number has to be that of the answer."""

    def __init__(self, settings: Settings, terminal: Terminal):
        self._settings = settings
        self._news: Callable[[], list[str]] = list
        self._terminal = terminal
        self._selector = selectors.DefaultSelector()
        self._listener = open_listener(settings.address, settings.port)
        self._numbers = Numbers()
        self._clients: set[Client] = set()
        self._lingering = Lingering()
        self._stalled: set[Client] = set()
        self._unfinished = 0
        self._log = DenialLog(settings.folder / "denial.log")
        self._engine: Engine | None = None
        self._due: deque[Due] = deque()
        self._answers = 0
        self._renewing = False
        self._input_watched = False
        self._stopping: float | None = None
        self._wrong: Wrong | None = None
        self._listening = False
        self._next_tick = 0.0

    @property
    def url(self) -> str:
        """Where it serves."""
        host, port = self._listener.getsockname()[:2]
        return f"http://[{host}]:{port}" if ":" in host else f"http://{host}:{port}"

    # ---- the loop

    def run(self, news: Callable[[], list[str]]) -> None:
        """Serves until a signal ends it. The terminal gets the news, which are asked for once a second. Where these raise Wrong it ends as by a
        signal, and raises that."""
        self._news = news
        raise_file_limit()
        wake, woken = socket.socketpair()
        for end in (wake, woken):
            end.setblocking(False)
        signal.set_wakeup_fd(woken.fileno(), warn_on_full_buffer=False)
        for number in (signal.SIGINT, signal.SIGTERM):
            signal.signal(number, lambda *_: None)
        self._selector.register(wake, READ, lambda _: self._signalled(wake))
        self._start_engine()
        self._listen(True)
        while not self._is_over():
            for key, mask in self._selector.select(1.0):
                key.data(mask)
            self._end_turn()
        self._close_engine()
        self._terminal.flush()
        if self._wrong:
            raise self._wrong

    def _end_turn(self) -> None:
        if self._stalled and self._is_ready():
            self._resume()
        if self._engine:
            self._engine.push()
            self._watch_input()
        if time.monotonic() >= self._next_tick:
            self._next_tick = time.monotonic() + 1.0
            self._tick()
        self._terminal.flush()

    def _is_over(self) -> bool:
        return self._stopping is not None and (not self._clients or time.monotonic() > self._stopping)

    def _signalled(self, wake: socket.socket) -> None:
        wake.recv(64)
        if self._stopping is not None:
            self._stopping = 0.0
        else:
            self._stop()

    def _stop(self) -> None:
        """Takes no further requests, and lets open answers finish."""
        self._stopping = time.monotonic() + _STOP_SECONDS
        self._listen(False)
        self._listener.close()
        waiting = len(self._due)
        self._terminal.say(f"stopping: {waiting} answers are open" if waiting else "stopping")
        for client in self._clients - self._stalled:
            client.finished = True
            self._settle(client)

    # ---- clients

    def _listen(self, wanted: bool) -> None:
        if wanted and not self._listening and self._stopping is None:
            self._selector.register(self._listener, READ, lambda _: self._accept())
        elif not wanted and self._listening:
            self._selector.unregister(self._listener)
        else:
            return
        self._listening = wanted

    def _accept(self) -> None:
        while self._numbers:
            try:
                connection, _ = self._listener.accept()
            except BlockingIOError:
                return
            except OSError:
                break  # no descriptor is left: the next tick tries again
            self._welcome(connection)
        self._listen(False)

    def _welcome(self, connection: socket.socket) -> None:
        number = self._numbers.take()
        try:
            client = Client(connection, number)
        except OSError:  # it went away already
            connection.close()
            self._numbers.give_back(number)
            return
        self._clients.add(client)
        self._watch(client)

    def _on_client(self, client: Client, mask: int) -> None:
        try:
            if mask & WRITE:
                client.write()
            if mask & READ:
                client.read()
        except OSError:
            self._lose(client)
            return
        self._pump(client)
        if len(client.reader) and self._unfinished > _MOST_UNFINISHED:
            self._dismiss(client, 503, "Too many unfinished requests")
        self._settle(client)

    def _pump(self, client: Client) -> None:
        """Gives the engine what came: whole requests, and the front of the next one."""
        batch = bytearray()
        while client.has_room and not client.gone:
            if not self._may_give(client, len(batch) + len(client.reader)):
                break
            request = client.reader.next()
            if request is None:
                batch += self._front(client)
                break
            batch += request.raw[client.given :]
            client.given, client.held, client.continued = 0, False, False
            client.open += 1
            client.finished = request.closes
            self._due.append(Due(client, request, time.monotonic()))
        if batch and self._engine:
            client.streamed = True
            self._engine.give(piece_text(client.number, batch))

    def _front(self, client: Client) -> bytes:
        """What goes to the engine of a request that isn't whole yet."""
        if client.ended:
            client.finished = True
            return b""
        if client.reader.expects and not client.continued and client.open == 0:
            client.continued = True
            client.out += CONTINUE
        if client.held:
            return b""
        front = client.reader.rest(client.given)
        client.given += len(front)
        return front

    def _send(self, client: Client, data: bytes) -> None:
        if client.gone:
            return
        client.out += data
        try:
            client.write()
        except OSError:
            self._lose(client)
            return
        if client.out:
            self._bound_unread()

    def _bound_unread(self) -> None:
        """Drops the clients that read the least, where too many bytes wait for clients."""
        while sum(len(client.out) for client in self._clients) > _MOST_UNREAD:
            slowest = max(self._clients, key=lambda client: len(client.out))
            self._terminal.warn(f"a client with {len(slowest.out)} unread bytes was dropped")
            self._lose(slowest)

    def _dismiss(self, client: Client, status: int, words: str) -> None:
        """Answers a client without the engine, and takes nothing more from it."""
        client.finished = True
        self._send(client, plain_response(status, words))

    def _settle(self, client: Client) -> None:
        """What follows for a client from what happened."""
        if client.finished and not client.gone and client.out:
            try:
                client.write()
            except OSError:
                self._lose(client)
        if client.is_done and not client.gone:
            self._part(client)
        elif client.gone and client.open == 0:
            self._release(client)
        self._watch(client)

    def _watch(self, client: Client) -> None:
        """Waits for what may happen next with a client."""
        if client not in self._clients:
            return
        self._unfinished += len(client.reader) - client.counted
        client.counted = len(client.reader)
        if client.gone:
            return
        mask = WRITE if client.out else 0
        if client.has_room and not client.ended and client not in self._stalled:
            mask |= READ
        if mask == client.mask:
            return
        if not client.mask:
            self._selector.register(client.socket, mask, lambda seen: self._on_client(client, seen))
        elif not mask:
            self._selector.unregister(client.socket)
        else:
            self._selector.modify(client.socket, mask, lambda seen: self._on_client(client, seen))
        client.mask = mask

    def _leave(self, client: Client) -> None:
        """The bridge has nothing to do with the client's socket any more."""
        if client.mask:
            self._selector.unregister(client.socket)
            client.mask = 0
        client.gone = client.finished = True
        client.out.clear()
        self._stalled.discard(client)

    def _lose(self, client: Client) -> None:
        """The client went away. Its number is free once the engine answered what it has."""
        if client.gone:
            return
        self._leave(client)
        client.socket.close()
        if client.open == 0:
            self._release(client)

    def _part(self, client: Client) -> None:
        """Closes a connection whose answers are all out."""
        self._leave(client)
        if client.ended or self._stopping is not None:
            client.socket.close()
        else:
            self._linger(client.socket)
        self._release(client)

    def _release(self, client: Client) -> None:
        if client not in self._clients:
            return
        self._clients.discard(client)
        self._unfinished -= client.counted
        if client.streamed and self._engine and not self._renewing:
            self._engine.give(end_text(client.number))
        self._numbers.give_back(client.number)
        self._listen(True)

    def _linger(self, connection: socket.socket) -> None:
        try:
            connection.shutdown(socket.SHUT_WR)
        except OSError:
            connection.close()
            return
        self._selector.register(connection, READ, lambda _: self._on_lingering(connection))
        for other in self._lingering.add(connection):
            self._drop_lingering(other)

    def _on_lingering(self, connection: socket.socket) -> None:
        # One that was dropped in this turn may have had an event too.
        if connection in self._lingering and self._lingering.is_over(connection):
            self._drop_lingering(connection)

    def _drop_lingering(self, connection: socket.socket) -> None:
        self._selector.unregister(connection)
        self._lingering.remove(connection)

    # ---- time

    def _tick(self) -> None:
        self._tell_news()
        for connection in self._lingering.late():
            self._drop_lingering(connection)
        now = time.monotonic()
        for client in [it for it in self._clients - self._stalled if it.open == 0 and now - it.active > _IDLE_SECONDS]:
            self._give_up(client)
        if self._numbers:
            self._listen(True)
        elif self._stopping is None and select.select([self._listener], [], [], 0)[0]:
            self._make_room(now)

    def _tell_news(self) -> None:
        if self._stopping is not None:
            return
        try:
            for line in self._news():
                self._terminal.finding(line)
        except Wrong as wrong:
            self._wrong = wrong
            self._stop()

    def _give_up(self, client: Client) -> None:
        """Ends a connection on which nothing came or went for long."""
        if client.out or client.gone:
            self._lose(client)
            return
        if len(client.reader):
            self._dismiss(client, 408, "Request timeout")
        client.finished = True
        self._settle(client)

    def _make_room(self, now: float) -> None:
        """Closes the connections that stand longest between two requests, as others wait for a number."""
        idle = [it for it in self._clients if it.is_idle and now - it.active > _IDLE_SECONDS_WHERE_OTHERS_WAIT]
        for client in sorted(idle, key=lambda it: it.active)[:_CLOSED_AT_A_TIME]:
            client.finished = True
            self._settle(client)

    # ---- the engine

    def _start_engine(self) -> bool:
        kept = None
        try:
            # Anew with each engine, as the log may have been taken away.
            self._log.close()
            self._log = DenialLog(self._settings.folder / "denial.log")
            if keep := self._settings.keep:
                kept = open(free_path(keep), "xb")
            engine = Engine(serve_words(self._settings.engine, self._settings.fuel), self._settings.folder, kept)
        except OSError as error:
            self._terminal.warn(f"the engine can't be started: {error}")
            return False
        self._engine, self._answers, self._renewing = engine, 0, False
        self._selector.register(engine.output, READ, lambda _: self._on_answers(engine))
        return True

    def _is_ready(self) -> bool:
        """Whether requests may go on to the engine."""
        return not self._renewing and (self._engine is None or self._engine.queued <= _MOST_QUEUED)

    def _may_give(self, client: Client, length: int) -> bool:
        """Whether the engine may take so many bytes more of a client. It is started where there is none, and renewed where its trace would
        come near the limit."""
        if self._is_ready() and self._engine is None and not self._start_engine():
            self._dismiss(client, 503, "No engine")
            return False
        if self._is_ready() and self._would_pass_limit(length):
            self._renew()
        if not self._is_ready():
            self._stalled.add(client)
            return False
        return True

    def _would_pass_limit(self, length: int) -> bool:
        given = self._engine.given if self._engine else 0
        margin = min(_MARGIN, self._settings.limit // 16)
        return given > 0 and given + length + margin > self._settings.limit

    def _renew(self) -> None:
        """Lets the engine answer what it has, and ends it; the requests that come meanwhile wait for the next one."""
        self._renewing = True
        if not self._due:
            self._finish_engine()

    def _finish_engine(self) -> None:
        assert self._engine
        self._engine.finish()
        self._watch_input()

    def _resume(self) -> None:
        """The engine takes requests again."""
        stalled, self._stalled = self._stalled, set()
        for client in stalled:
            self._pump(client)
            if self._stopping is not None and client not in self._stalled:
                client.finished = True
            self._settle(client)

    def _watch_input(self) -> None:
        engine = self._engine
        wanted = engine is not None and not engine.closed and engine.queued > 0
        if wanted == self._input_watched or engine is None:
            return
        if wanted:
            self._selector.register(engine.input, WRITE, lambda _: None)
        else:
            self._selector.unregister(engine.input)
        self._input_watched = wanted

    def _on_answers(self, engine: Engine) -> None:
        try:
            answers = engine.pull()
            if answers is None:
                self._engine_ended()
                return
            for answer in answers:
                self._on_answer(answer)
        except (BadRecord, NotDue) as error:
            self._terminal.warn(f"the engine is ended, as it gave what isn't due: {error}")
            engine.kill()
            self._engine_ended()
            return
        if self._renewing and not self._due:
            self._finish_engine()

    def _on_answer(self, answer: Answer) -> None:
        if not self._due or self._due[0].client.number != answer.connection:
            raise NotDue(f"an answer on connection {answer.connection}")
        due = self._due.popleft()
        self._answers += 1
        client, response = due.client, answer.response
        self._terminal.answer(due.request, status_of(response), body_length(response), time.monotonic() - due.since)
        self._show_denials(due.request)
        client.open -= 1
        self._send(client, response)
        if client.has_room and (len(client.reader) or client.ended):
            self._pump(client)
        self._settle(client)

    def _show_denials(self, answered: Request | None) -> None:
        for denial in self._log.news():
            self._terminal.denial(denial, self._request_of(denial, answered))

    def _request_of(self, denial: Denial, answered: Request | None) -> Request | None:
        """The request that a denial belongs to: the one that was answered just now, or one of those that are due."""
        ahead = denial.request - self._answers
        if ahead == 0:
            return answered
        return self._due[ahead - 1].request if 0 < ahead <= len(self._due) else None

    def _engine_ended(self) -> None:
        cause = self._leave_engine()
        if not self._renewing or cause or self._due:
            self._terminal.warn(f"the engine ended with {cause or 'status 0'}, and is started anew; answered with 503: {len(self._due)}")
        elif self._stopping is None:
            self._terminal.say("the engine is started anew, as its trace was near its limit")
        self._renewing = False
        self._show_denials(None)
        for client in self._clients:
            client.forget_engine()
        self._answer_503()

    def _leave_engine(self) -> str | None:
        """Lets go of an engine that ended, or is to end."""
        engine = self._engine
        assert engine
        if self._input_watched:
            self._selector.unregister(engine.input)
            self._input_watched = False
        self._selector.unregister(engine.output)
        self._engine = None
        return engine.wait()

    def _answer_503(self) -> None:
        """Answers the first request that waits of each client, and closes its connection, as no one knows how far the engine came."""
        waiting, self._due = self._due, deque()
        answered: set[Client] = set()
        for due in waiting:
            due.client.open -= 1
            response = plain_response(503, "The engine ended", due.request.method == b"HEAD")
            self._terminal.answer(due.request, 503, body_length(response), time.monotonic() - due.since)
            if due.client not in answered:
                answered.add(due.client)
                due.client.finished = True
                self._send(due.client, response)
            self._settle(due.client)

    def _close_engine(self) -> None:
        """Ends the engine behind the last answer."""
        if self._engine is None:
            return
        self._engine.push()
        cut_off = bool(self._due or self._engine.queued)
        if cut_off:
            self._engine.kill()
        cause = self._leave_engine()
        if cause and not cut_off:
            self._terminal.warn(f"the engine ended with {cause}")


def open_listener(address: str, port: int) -> socket.socket:
    """A socket that listens. Raises OSError."""
    family, *_, place = socket.getaddrinfo(address, port, type=socket.SOCK_STREAM, flags=socket.AI_PASSIVE)[0]
    listener = socket.socket(family, socket.SOCK_STREAM)
    try:
        listener.setsockopt(socket.SOL_SOCKET, socket.SO_REUSEADDR, 1)
        listener.bind(place)
        listener.listen(_BACKLOG)
        listener.setblocking(False)
    except OSError:
        listener.close()
        raise
    return listener


def free_path(path: Path) -> Path:
    """The path, or where something is there the first of PATH.2, PATH.3 and so on that is free."""
    free, number = path, 1
    while free.exists():
        number += 1
        free = path.with_name(f"{path.name}.{number}")
    return free


def raise_file_limit() -> None:
    """Allows as many open files as the system lets."""
    soft, hard = resource.getrlimit(resource.RLIMIT_NOFILE)
    wanted = 4096 if hard == resource.RLIM_INFINITY else min(4096, hard)
    if soft != resource.RLIM_INFINITY and soft < wanted:
        resource.setrlimit(resource.RLIMIT_NOFILE, (wanted, hard))
