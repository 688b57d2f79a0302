"""What has changed of a member's trades since its page asked last, so that a page is not sent the whole STATEMENT each time.

The service is asked for the whole still, each time. What was answered is kept in memory, of each member the last few, and of all no more
than a bound: a page whose statement is kept no more is answered the whole.
"""

import asyncio
from collections import OrderedDict
from typing import NamedTuple

from starlette.requests import Request
from starlette.responses import Response

from .answers import answer, refused
from .calls import BadWord
from .fields import refusal_of
from .parts import Parts
from .requests import session_of

LAST = 4
"""The statements that are kept of a member: as many of its pages may be at different positions."""
MOST_KEPT = 67_108_864
"""The bytes of all statements that are kept."""


class Book(NamedTuple):
    """A member's trades at a position: the lines of its STATEMENT."""

    position: int
    lines: tuple[str, ...]
    size: int


class Books:
    """The statements that were answered last, by member and position."""

    def __init__(self, most: int = MOST_KEPT) -> None:
        self.most = most
        self.kept: OrderedDict[tuple[str, int], Book] = OrderedDict()
        self.size = 0

    def of(self, name: str) -> list[Book]:
        return [book for (other, _), book in self.kept.items() if other == name]

    def drop(self, key: tuple[str, int]) -> None:
        self.size -= self.kept.pop(key).size

    def keep(self, name: str, book: Book) -> None:
        """Keeps a statement; the oldest go, of this member's and of all, if there are too many."""
        if (name, book.position) in self.kept:
            self.drop((name, book.position))
        self.kept[name, book.position] = book
        self.size += book.size
        for old in self.of(name)[:-LAST]:
            self.drop((name, old.position))
        while self.size > self.most:
            self.drop(next(iter(self.kept)))

    def find(self, name: str, position: int) -> Book | None:
        return self.kept.get((name, position))


def numbers_of(book: Book) -> set[str]:
    """The numbers of a statement's trades."""
    return {line.split(" ", 2)[1] for line in book.lines}


def changed(old: Book | None, new: Book) -> tuple[str, ...] | None:
    """The lines that a page lacks which has the old statement. A page puts each in the place of the one with its number. If a trade of
    the old is gone, which happens over another journal, there are none, and the page has to have the whole."""
    if old is None or not numbers_of(old) <= numbers_of(new):
        return None
    has = set(old.lines)
    return tuple(line for line in new.lines if line not in has)


def since_of(request: Request) -> int | None:
    """The position of the trades that a page has, if it has any."""
    since = request.query_params.get("since")
    if since is not None and not (since.isascii() and since.isdigit() and len(since) < 20):
        raise BadWord("since")
    return None if since is None else int(since)


async def book(parts: Parts, request: Request) -> Response:
    """The lines of a member's STATEMENT, or those that have changed since a position."""
    session = session_of(request, parts.sessions)
    since = since_of(request)
    reply = await parts.desk.question(session, "STATEMENT")
    if refusal_of(reply.text) is not None:
        return refused(reply, {})
    new = Book(reply.position, tuple(reply.text.split("\n")[1:]), len(reply.text))
    old = None if since is None else parts.books.find(session.name, since)
    parts.books.keep(session.name, new)
    lines = await asyncio.to_thread(changed, old, new)
    is_whole = lines is None
    return answer({"position": new.position, "since": None if is_whole else since, "lines": new.lines if is_whole else lines})
