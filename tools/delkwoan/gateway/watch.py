"""The history's length, followed for all pages by one poll, and told over WebSockets.

A page says its token as the first message, so that it is in no address. It is told the length at once and whenever it moves, and
none while the service does not answer.
"""

import asyncio
import logging
from contextlib import contextmanager
from typing import Iterator

from starlette.websockets import WebSocket, WebSocketDisconnect

from .connection import BadKey, Lost, Unsent
from .desk import Desk
from .seats import NoSeat, Seats
from .sessions import SignedIn

PERIOD = 0.5
"""The seconds between two looks, while anybody listens."""
LOOK = 5.0
"""The seconds behind which a page's session is looked at, where nothing moves."""
MOST_PAGES = 8
"""The pages of one session."""
NOT_SIGNED_IN, TOO_MANY, ODD = 4401, 4429, 1008
"""How a WebSocket is closed whose token is none any more, or has pages enough, or that says more than its token."""

log = logging.getLogger("delkwoan.gateway")


class Watch:
    """The length that was seen last, and who wants to know of the next."""

    def __init__(self, seats: Seats) -> None:
        self.seats = seats
        self.position: int | None = None
        self.waiting: set[asyncio.Event] = set()
        self.pages: dict[str, int] = {}

    async def run(self) -> None:
        """Looks for as long as the gateway runs."""
        while True:
            if self.pages:
                position = await self.look()
                if position != self.position:
                    self.position = position
                    for event in self.waiting:
                        event.set()
            await asyncio.sleep(PERIOD)

    async def look(self) -> int | None:
        """The history's length now; an empty line tells it, in nobody's name."""
        try:
            async with self.seats.seat() as connection:
                await asyncio.wait_for(connection.probe(), self.seats.wait)
                return connection.position
        except (NoSeat, Lost, Unsent, asyncio.TimeoutError):
            return None

    @contextmanager
    def page(self, session: SignedIn) -> Iterator[asyncio.Event]:
        """One more page of a session, with what is set when the length moves."""
        event = asyncio.Event()
        self.waiting.add(event)
        self.pages[session.token] = self.pages.get(session.token, 0) + 1
        try:
            yield event
        finally:
            self.waiting.discard(event)
            self.pages[session.token] -= 1
            if not self.pages[session.token]:
                del self.pages[session.token]


async def is_in(watch: Watch, desk: Desk, session: SignedIn) -> bool:
    """Whether a session is open, and the service, if it answers, still takes its key."""
    if watch.position is not None:
        try:
            await desk.confirm(session)
        except BadKey:
            desk.sessions.close_all(*session.speaker)
        except NoSeat:
            pass
    return desk.sessions.has(session)


async def tell(watch: Watch, desk: Desk, session: SignedIn, socket: WebSocket) -> None:
    """Tells a page the length, until its session ends."""
    with watch.page(session) as moved:
        while await is_in(watch, desk, session):
            await socket.send_json({"position": watch.position})
            moved.clear()
            while not moved.is_set() and await is_in(watch, desk, session):
                try:
                    await asyncio.wait_for(moved.wait(), LOOK)
                except asyncio.TimeoutError:
                    pass


async def token_of(socket: WebSocket, patience: float) -> str:
    """A page's first message. Where a peer is gone before its handshake has ended, `websockets` has nothing to receive by, and fails for
    want of it in place of telling so."""
    try:
        return await asyncio.wait_for(socket.receive_text(), patience)
    except AttributeError:
        raise WebSocketDisconnect from None


async def follow(watch: Watch, desk: Desk, patience: float, socket: WebSocket) -> None:
    """A page that follows the history."""
    await socket.accept()
    try:
        token = await token_of(socket, patience)
        session = desk.sessions.find(token)
        if session is None:
            await socket.close(NOT_SIGNED_IN)
            return
        if watch.pages.get(token, 0) >= MOST_PAGES:
            await socket.close(TOO_MANY)
            return
        telling = asyncio.create_task(tell(watch, desk, session, socket))
        ending = asyncio.create_task(socket.receive())
        try:
            await asyncio.wait([telling, ending], return_when=asyncio.FIRST_COMPLETED)
            is_over = telling.done() and telling.exception() is None
            is_odd = ending.done() and ending.exception() is None and ending.result()["type"] == "websocket.receive"
        finally:
            telling.cancel()
            ending.cancel()
            await asyncio.gather(telling, ending, return_exceptions=True)
        if is_over or is_odd:
            await socket.close(NOT_SIGNED_IN if is_over else ODD)
    except asyncio.TimeoutError:
        await socket.close(NOT_SIGNED_IN)
    except (WebSocketDisconnect, KeyError, RuntimeError):
        log.debug("a page is gone")
