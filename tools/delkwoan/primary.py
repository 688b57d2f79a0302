"""The way to a primary: lines to it, and its replies, each whole, over a connection that is made anew where it breaks.

Nothing in here waits: a selector tells when there is something to do. Written from docs/PROTOCOL.md.
"""

import selectors
import socket
import time
from typing import Any, Callable, NamedTuple

from .address import Address
from .replies import MOST_RECORD

PIECE = 1 << 20
"""The bytes that are read at once."""
MOST_HEAD = 4096
"""Bytes without a line feed that are the head of no reply."""
SILENCE = 20
"""Seconds for which a sent byte may stay untaken, a peer be silent whose machine may be gone, or a connection be asked for."""
USER_TIMEOUT = 18
"""The system's number of TCP_USER_TIMEOUT, which not each type checker knows."""
PAUSES = (0.05, 2.0)
"""Seconds before the second try of a connection, and the most before any."""


class Reply(NamedTuple):
    """A reply's words, and all its bytes."""

    words: list[bytes]
    text: bytes

    @property
    def length(self) -> int:
        """The history's length that it tells; 0 where it tells none."""
        word = self.words[1] if len(self.words) > 1 else b""
        return int(word) if word.isdigit() and len(word) < 20 else 0

    @property
    def is_entry(self) -> bool:
        return self.words[0] == b"ok" and self.words[2:3] == [b"entry"] and len(self.words) == 5

    @property
    def record(self) -> bytes:
        """An entry's record, with the line feed behind it."""
        return self.text.partition(b"\n")[2]


def size_behind(words: list[bytes]) -> int:
    """How many bytes follow a head; behind one of no entry, or of one that is too long, nothing does."""
    if len(words) != 5 or words[2] != b"entry" or not words[4].isdigit() or len(words[4]) > len(str(MOST_RECORD)):
        return 0
    size = int(words[4])
    return size + 1 if size <= MOST_RECORD else 0


class Inbox:
    """Bytes of which the whole replies are taken; what can be none is given as it is."""

    def __init__(self) -> None:
        self.rest = bytearray()
        self.wanted = 0

    def take(self, piece: bytes) -> list[Reply]:
        """The replies that are whole now."""
        self.rest += piece
        found: list[Reply] = []
        at, length = 0, len(self.rest)
        while length - at > self.wanted:
            feed = self.rest.find(b"\n", at, at + MOST_HEAD)
            end = feed + 1
            if feed < 0:
                if length - at < MOST_HEAD:
                    break
                end = length
            words = bytes(self.rest[at : end - 1]).split(b" ")
            end += size_behind(words) if feed >= 0 else 0
            if end > length:
                self.wanted = end - at - 1
                break
            self.wanted = 0
            found.append(Reply(words, bytes(self.rest[at:end])))
            at = end
        del self.rest[:at]
        return found


class Primary:
    """A connection to a primary, or the next try to get one. What is told of it: that it stands, that it broke, and replies."""

    def __init__(self, address: Address, selector: selectors.BaseSelector) -> None:
        self.address = address
        self.selector = selector
        self.made: Callable[[], None] = lambda: None
        self.broke: Callable[[], None] = lambda: None
        self.came: Callable[[list[Reply]], None] = lambda _: None
        self.socket: socket.socket | None = None
        self.is_open = False
        self.inbox = Inbox()
        self.unsent = bytearray()
        self.places: list[tuple[Any, ...]] = []
        self.pause = PAUSES[0]
        self.due: float | None = None
        """When the next try is due."""

    def begin(self) -> None:
        """Asks for a connection: at the next of the address's places, or at its first."""
        self.due = None
        try:
            if not self.places:
                self.places = [*socket.getaddrinfo(*self.address, type=socket.SOCK_STREAM)]
            family, kind, protocol, _, place = self.places.pop(0)
            self.socket = socket.socket(family, kind | socket.SOCK_NONBLOCK, protocol)
            self.socket.setsockopt(socket.IPPROTO_TCP, socket.TCP_NODELAY, 1)
            self.socket.setsockopt(socket.IPPROTO_TCP, USER_TIMEOUT, 1000 * SILENCE)
            self.socket.setsockopt(socket.SOL_SOCKET, socket.SO_KEEPALIVE, 1)
            self.socket.setsockopt(socket.IPPROTO_TCP, socket.TCP_KEEPIDLE, SILENCE)
            self.socket.setsockopt(socket.IPPROTO_TCP, socket.TCP_KEEPINTVL, SILENCE)
            self.socket.connect_ex(place)
            self.selector.register(self.socket, selectors.EVENT_WRITE, self.work)
        except (OSError, ValueError):
            self.end()

    def work(self, events: int) -> None:
        """Does what can be done at the socket."""
        try:
            if not self.is_open:
                self.open()
            else:
                if events & selectors.EVENT_WRITE:
                    self.flush()
                if events & selectors.EVENT_READ:
                    self.read()
        except BlockingIOError:
            pass
        except OSError:
            self.end()

    def open(self) -> None:
        """Looks what became of the connection that was asked for."""
        assert self.socket is not None
        fault = self.socket.getsockopt(socket.SOL_SOCKET, socket.SO_ERROR)
        # where nobody listens, a port that the system hands out may be connected to itself
        if fault or self.socket.getsockname() == self.socket.getpeername():
            raise OSError(fault, "no connection")
        self.is_open = True
        self.places, self.pause = [], PAUSES[0]
        self.selector.modify(self.socket, selectors.EVENT_READ, self.work)
        self.made()

    def read(self) -> None:
        assert self.socket is not None
        piece = self.socket.recv(PIECE)
        if not piece:
            raise ConnectionResetError
        if found := self.inbox.take(piece):
            self.came(found)

    def send(self, lines: bytes) -> None:
        """Sends lines over a connection that stands."""
        self.unsent += lines
        try:
            self.flush()
        except BlockingIOError:
            pass
        except OSError:
            self.end()

    def flush(self) -> None:
        if self.socket is None:
            return
        try:
            while self.unsent:
                del self.unsent[: self.socket.send(self.unsent)]
        finally:
            writing = selectors.EVENT_WRITE if self.unsent else 0
            if self.selector.get_key(self.socket).events != selectors.EVENT_READ | writing:
                self.selector.modify(self.socket, selectors.EVENT_READ | writing, self.work)

    def close(self) -> None:
        """Ends the connection, or the try, without another one."""
        self.due = None
        if self.socket is not None:
            if self.socket.fileno() in self.selector.get_map():
                self.selector.unregister(self.socket)
            self.socket.close()
        self.socket, self.is_open, self.inbox = None, False, Inbox()
        self.unsent.clear()

    def end(self) -> None:
        """Ends what broke; the next try is due at once where the address has another place, else behind a pause."""
        self.close()
        self.due = time.monotonic()
        if not self.places:
            self.due += self.pause
            self.pause = min(2 * self.pause, PAUSES[1])
        self.broke()
