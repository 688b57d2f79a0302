"""A connection to a `serve`, over which lines go ahead of their replies, which are matched in their order.

Each call's HELLO goes before its lines. The service keeps the last speaker where a HELLO is refused, so a name and key go ahead only
where this connection has accepted them before: it leads to one process, whose roster stays.
"""

import asyncio
import logging
import time
from collections import deque
from typing import Sequence, cast

from .. import replies
from .doubt import shows_stop
from .fields import Reply

MOST_SENT = 536_870_912
"""The bytes behind which a connection is given up for a new one, which is half of what a session takes."""
LONGEST = 60.0
"""How many seconds a reply may take, unless its command is slow."""

log = logging.getLogger("delkwoan.gateway")


class Lost(Exception):
    """The connection ended while replies were due: their lines were answered, or they were not."""


class Unsent(Exception):
    """The connection ended before anything was sent that counts."""


class BadKey(Exception):
    """The service does not know the name with this key."""


class Batch:
    """Lines that were sent together, and their replies so far."""

    __slots__ = ("count", "end", "replies", "done")

    def __init__(self, count: int, seconds: float | None) -> None:
        self.count = count
        self.end = None if seconds is None else time.monotonic() + seconds
        self.replies: list[Reply] = []
        self.done: asyncio.Future[list[Reply]] = asyncio.get_running_loop().create_future()


class Connection(asyncio.Protocol):
    """A connection, with what is due over it. `closed` is done once it has ended."""

    def __init__(self) -> None:
        self.closed: asyncio.Future[None] = asyncio.get_running_loop().create_future()
        self.transport: asyncio.Transport | None = None
        self.due: deque[Batch] = deque()
        self.greeted: set[tuple[str, str]] = set()
        self.taken = 0
        """How many calls have it."""
        self.is_alone = False
        """Whether the call that has it wants no other behind it."""
        self.sent = 0
        self.position = 0
        self.is_stopped = False
        """Whether a reply has told that the service makes no more changes."""
        self.rest = b""
        self.lines: list[bytes] = []
        self.missing = 0

    def connection_made(self, transport: asyncio.BaseTransport) -> None:
        self.transport = cast(asyncio.Transport, transport)

    def connection_lost(self, _: Exception | None) -> None:
        self.transport = None
        while self.due:
            batch = self.due.popleft()
            if not batch.done.done():
                batch.done.set_exception(Lost())
        if not self.closed.done():
            self.closed.set_result(None)

    def close(self) -> None:
        if self.transport is not None:
            self.transport.abort()

    @property
    def is_open(self) -> bool:
        return self.transport is not None and not self.transport.is_closing()

    @property
    def is_spent(self) -> bool:
        """Whether it is to be given up for a new one."""
        return self.sent > MOST_SENT

    def is_late(self) -> bool:
        """Whether the reply that is due is."""
        return bool(self.due) and self.due[0].end is not None and time.monotonic() > self.due[0].end

    def data_received(self, data: bytes) -> None:
        *lines, self.rest = (self.rest + data).split(b"\n")
        at = 0
        try:
            while at < len(lines):
                if not self.lines:
                    self.missing = 1 + replies.count_of(lines[at].decode("ascii"))
                end = min(at + self.missing, len(lines))
                self.lines += lines[at:end]
                self.missing -= end - at
                at = end
                if not self.missing:
                    self.complete()
        except (ValueError, IndexError, replies.BadReply):
            log.error("what the service sent is no reply")
            self.close()

    def complete(self) -> None:
        """Gives a whole reply to the lines that it is due to."""
        text = b"\n".join(self.lines).decode("ascii")
        self.lines = []
        position = replies.position_of(text.partition("\n")[0])
        if position is None:
            raise replies.BadReply(text)
        self.position = max(self.position, position)
        self.is_stopped = self.is_stopped or shows_stop(text)
        batch = self.due[0]
        batch.replies.append(Reply(text, position))
        if len(batch.replies) == batch.count:
            self.due.popleft()
            if not batch.done.done():
                batch.done.set_result(batch.replies)

    async def ask(self, lines: Sequence[str], seconds: float | None = LONGEST) -> list[Reply]:
        """The replies to lines that nothing comes in between of."""
        if self.transport is None or self.transport.is_closing():
            raise Unsent
        batch = Batch(len(lines), seconds)
        self.due.append(batch)
        text = "".join(f"{line}\n" for line in lines).encode("ascii")
        self.sent += len(text)
        self.transport.write(text)
        return await batch.done

    async def probe(self) -> None:
        """An empty line, which changes nothing: its reply tells that there is a seat, and the history's length."""
        await self.ask([""], None)

    async def greet(self, name: str, key: str) -> None:
        """Has a name and key accepted, so that they may go ahead."""
        if (name, key) in self.greeted:
            return
        try:
            (reply,) = await self.ask([f"HELLO {name} {key}"])
        except Lost:
            raise Unsent from None
        if not reply.text.startswith("ok "):
            raise BadKey
        self.greeted.add((name, key))

    async def say(self, speaker: tuple[str, str], lines: Sequence[str], seconds: float | None = LONGEST) -> list[Reply]:
        """The replies to a speaker's lines."""
        await self.greet(*speaker)
        hello, *told = await self.ask([f"HELLO {' '.join(speaker)}", *lines], seconds)
        if not hello.text.startswith("ok "):
            log.critical("a greeting was refused that was accepted before: %s", speaker[0])
            self.close()
            raise Lost
        return told
