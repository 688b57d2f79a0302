"""The connections to a service, each with a seat of it, and which call gets which.

A connection counts once the service has answered an empty line over it: it has a seat then. A call that gets none in time has sent
nothing.
"""

import asyncio
import logging
from collections import deque
from contextlib import asynccontextmanager
from typing import AsyncIterator, Callable, TypeVar

from ..address import Address
from .connection import Connection, Lost, Unsent

MOST_AHEAD = 64
"""How many calls may have a connection at a time."""
PAUSES = (0.05, 2.0)
"""The seconds before a connection is tried again: at first, and at most."""
QUIET = 10
"""The seconds behind which a silent connection sends an empty line, so that it is not ended, and its end is seen."""

log = logging.getLogger("delkwoan.gateway")

T = TypeVar("T")


class NoSeat(Exception):
    """No connection had a seat for the call in time; nothing was sent."""


class Seats:
    """So many connections, each of which is made again where it ends."""

    def __init__(self, address: Address, count: int, wait: float) -> None:
        self.address = address
        self.count = count
        self.wait = wait
        self.ready: list[Connection] = []
        self.waiting: deque[asyncio.Future[None]] = deque()
        self.keepers: list[asyncio.Task[None]] = []
        self.position = 0

    def start(self) -> None:
        self.keepers = [asyncio.create_task(self.keep()) for _ in range(self.count)]

    async def stop(self) -> None:
        for keeper in self.keepers:
            keeper.cancel()
        await asyncio.gather(*self.keepers, return_exceptions=True)

    @property
    def queue(self) -> int:
        """How many calls wait for a connection."""
        return sum(not waiter.done() for waiter in self.waiting)

    @property
    def busy(self) -> int:
        """How many connections have a call."""
        return sum(connection.taken > 0 for connection in self.ready)

    def knows(self, speaker: tuple[str, str]) -> bool:
        """Whether the service has taken this name and key over a connection that still stands, which leads to one process of it."""
        return any(speaker in connection.greeted and connection.is_open for connection in self.ready)

    @property
    def is_stopped(self) -> bool:
        """Whether a connection that still stands was told that the service makes no more changes."""
        return any(connection.is_stopped for connection in self.ready)

    async def have_told(self) -> None:
        """Waits until what is due now over all connections has come; a command that may take long shares nothing with others."""
        if due := [batch.done for it in self.ready for batch in it.due if batch.end is not None]:
            await asyncio.wait(due)

    async def keep(self) -> None:
        """Keeps one connection, for ever."""
        pause = PAUSES[0]
        while True:
            connection = await self.connect()
            if connection is None:
                await asyncio.sleep(pause)
                pause = min(2 * pause, PAUSES[1])
                continue
            pause = PAUSES[0]
            self.ready.append(connection)
            self.wake()
            try:
                await self.watch(connection)
            finally:
                self.ready.remove(connection)
                connection.close()

    async def connect(self) -> Connection | None:
        """A connection that has a seat, or none where it ended before."""
        connection = None
        try:
            loop = asyncio.get_running_loop()
            _, connection = await loop.create_connection(Connection, *self.address)
            await connection.probe()
            return connection
        except (OSError, Lost, Unsent):
            return None
        except asyncio.CancelledError:
            if connection is not None:
                connection.close()
            raise

    async def watch(self, connection: Connection) -> None:
        """Waits for a connection's end, and ends it where a reply is late, or where it has sent its most and nothing is due."""
        quiet, sent = 0, connection.sent
        while connection.is_open:
            await asyncio.wait([connection.closed], timeout=1)
            self.position = max(self.position, connection.position)
            quiet, sent = (quiet + 1, sent) if sent == connection.sent else (0, connection.sent)
            if connection.is_late():
                log.error("no reply in time: a connection is given up")
                connection.close()
            elif connection.is_spent and not connection.taken:
                connection.close()
            elif quiet >= QUIET and not connection.due:
                await self.look(connection)

    async def look(self, connection: Connection) -> None:
        """An empty line over a silent connection; where no reply comes, its end is seen."""
        try:
            await asyncio.wait_for(connection.probe(), QUIET)
        except (Lost, Unsent):
            pass
        except asyncio.TimeoutError:
            connection.close()

    def free(self, is_alone: bool) -> Connection | None:
        """The connection with the fewest calls that may take one more; one for a call that is alone leaves another for the rest."""
        open = [it for it in self.ready if it.is_open and not it.is_spent and not it.is_alone]
        if is_alone and len(open) < 2 and self.count > 1:
            return None
        best = min(open, key=lambda it: it.taken, default=None)
        return best if best is not None and best.taken < MOST_AHEAD else None

    def wake(self) -> None:
        """Has those look again who wait."""
        for _ in range(len(self.waiting)):
            waiter = self.waiting.popleft()
            if not waiter.done():
                waiter.set_result(None)

    async def until(self, found: Callable[[], T | None]) -> T:
        """What a function gives, once it gives something. It is asked again where a call has ended."""
        loop = asyncio.get_running_loop()
        end = loop.time() + self.wait
        while (it := found()) is None:
            waiter: asyncio.Future[None] = loop.create_future()
            self.waiting.append(waiter)
            try:
                await asyncio.wait_for(waiter, max(end - loop.time(), 0))
            except asyncio.TimeoutError:
                raise NoSeat from None
        return it

    @asynccontextmanager
    async def seat(self, is_alone: bool = False) -> AsyncIterator[Connection]:
        """A connection for a call, until it is done; for one that is alone, once the others before it are done."""
        connection = await self.until(lambda: self.free(is_alone))
        connection.is_alone = is_alone
        try:
            if is_alone:
                await self.until(lambda: None if connection.taken else connection)
            connection.taken += 1
            try:
                yield connection
            finally:
                connection.taken -= 1
        finally:
            if is_alone:
                connection.is_alone = False
            self.position = max(self.position, connection.position)
            if self.waiting:
                self.wake()
