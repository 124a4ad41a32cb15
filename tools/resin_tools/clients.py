"""The side of the bridge that browsers see: their connections."""
import socket
import time

from .streams import RequestReader

READ_SIZE = 1 << 16
MOST_OPEN = 32
"""The most requests of one connection that wait for answers at a time."""
MOST_OUT = 1 << 18
"""A connection that has more bytes than this to read is not read from."""


class Client:
    """A connection of a client, with the number that the engine knows it by."""

    def __init__(self, connection: socket.socket, number: int):
        connection.setblocking(False)
        if connection.family != socket.AF_UNIX:
            connection.setsockopt(socket.IPPROTO_TCP, socket.TCP_NODELAY, 1)
        self.socket = connection
        self.number = number
        self.reader = RequestReader()
        self.out = bytearray()
        self.given = 0
        """How many bytes of the request under way the engine has."""
        self.held = False
        """Whether the request under way goes to the engine only once it is whole: an engine that ended had a part of it."""
        self.streamed = False
        """Whether the running engine has a stream of this number."""
        self.open = 0
        """How many requests wait for their answers."""
        self.ended = False
        """Whether the client sends nothing more."""
        self.finished = False
        """Whether no further request is taken."""
        self.gone = False
        """Whether the socket is closed, or lingers without a number."""
        self.continued = False
        self.active = time.monotonic()
        self.mask = 0
        self.counted = 0

    @property
    def has_room(self) -> bool:
        """Whether a further request may be taken."""
        return not self.finished and self.open < MOST_OPEN and len(self.out) < MOST_OUT

    @property
    def is_idle(self) -> bool:
        """Whether it stands between two requests."""
        return self.open == 0 and not self.out and len(self.reader) == 0 and not self.finished

    @property
    def is_done(self) -> bool:
        """Whether all that it is owed is out."""
        return self.finished and self.open == 0 and not self.out

    def read(self) -> None:
        """Takes what the client sent. Raises OSError where it went away."""
        try:
            data = self.socket.recv(READ_SIZE)
        except BlockingIOError:
            return
        if data:
            self.reader.feed(data)
            self.active = time.monotonic()
        else:
            self.ended = True

    def write(self) -> None:
        """Sends what the client takes now. Raises OSError where it went away."""
        try:
            while self.out:
                count = self.socket.send(self.out)
                del self.out[:count]
                self.active = time.monotonic()
        except BlockingIOError:
            pass

    def forget_engine(self) -> None:
        """The engine ended, and has nothing of this connection any more."""
        self.held = self.held or self.given > 0
        self.given = 0
        self.streamed = False


class Lingering:
    """Closed connections whose clients may still send. They are read for a moment, as a close with unread bytes would take the last
    answer from the client (RFC 9112, "Tear-down")."""

    SECONDS = 2.0
    MOST = 256

    def __init__(self) -> None:
        self._until: dict[socket.socket, float] = {}

    def __contains__(self, connection: socket.socket) -> bool:
        return connection in self._until

    def add(self, connection: socket.socket) -> list[socket.socket]:
        """Takes a connection that is to be read. Answers those that are to be closed, as too many linger."""
        self._until[connection] = time.monotonic() + self.SECONDS
        return [next(iter(self._until))] if len(self._until) > self.MOST else []

    def is_over(self, connection: socket.socket) -> bool:
        """Reads and drops what came, and tells whether the client closed."""
        try:
            return not connection.recv(READ_SIZE)
        except BlockingIOError:
            return False
        except OSError:
            return True

    def remove(self, connection: socket.socket) -> None:
        """Lets go of a connection and closes it."""
        self._until.pop(connection, None)
        connection.close()

    def late(self) -> list[socket.socket]:
        """Those that lingered long enough."""
        now = time.monotonic()
        return [connection for connection, until in self._until.items() if until <= now]
