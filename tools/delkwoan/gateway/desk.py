"""What becomes of a call's lines: they are sent once, and looked for if their replies were lost or leave them in doubt."""

import hashlib
import logging
from typing import Any, NamedTuple, Sequence

from .. import replies
from .calls import SLOW, TERMS, Call
from .connection import LONGEST, BadKey, Connection, Lost, Unsent
from .doubt import is_open, may_lean
from .fields import Reply, refusal_of, row_of
from .kept import Faulty, Kept, Row
from .seats import NoSeat, Seats
from .sessions import Sessions, SignedIn

TRIES = 5
"""How many connections are tried, where one after another ends before anything was sent that counts."""
MOST_UNSURE = 10_000
"""How many refusals wait until they are sure, at most; behind these the oldest stays open."""

log = logging.getLogger("delkwoan.gateway")


class Unknown(Exception):
    """A change's reply was lost, and whether it was made is not known; these trades may be it."""

    def __init__(self, candidates: list[dict[str, Any]]) -> None:
        super().__init__()
        self.candidates = candidates


def unknown(row: Row | None, candidates: list[dict[str, Any]]) -> "InDoubt":
    """What is told of a call that stays open: its refusal, where one came."""
    if row is None or row.doubt is None:
        raise Unknown(candidates)
    return InDoubt(reply_of(row.doubt), candidates)


class Running(Exception):
    """A call with this Idempotency-Key is being answered."""


class OtherLine(Exception):
    """The Idempotency-Key was used for another line."""


class Found(NamedTuple):
    """The trade that was taken for a lost reply's, and the position at which it was found."""

    trade: int
    position: int


class InDoubt(NamedTuple):
    """A refusal that leaves it open whether the change was made, and the trades that may be it."""

    reply: Reply
    candidates: list[dict[str, Any]]

    @property
    def text(self) -> str:
        return self.reply.text


class Unsure(NamedTuple):
    """A refusal that is sure once its connection shows a longer history: who stops makes no more changes."""

    connection: Connection
    reply: Reply
    line: str

    @property
    def is_sure(self) -> bool:
        return self.connection.position > self.reply.position


class NoteRefused(NamedTuple):
    """A line of a draft that was refused, so that nothing was posted."""

    line: str
    reply: Reply


class Asked(NamedTuple):
    """What a session asks: a call and its line, behind the lines of a draft if it posts one, and its Idempotency-Key if it has one."""

    session: SignedIn
    call: Call
    line: str
    notes: Sequence[str] = ()
    key: str = ""

    @property
    def who(self) -> tuple[str, str]:
        return self.session.name, self.key

    @property
    def text(self) -> str:
        """The line, with the digest of the draft."""
        return f"{self.line} {hashlib.sha256(chr(10).join(self.notes).encode()).hexdigest()}" if self.notes else self.line


Told = Reply | InDoubt | NoteRefused
"""What a line comes to that was sent."""
Outcome = Told | Found


def reply_of(text: str) -> Reply:
    return Reply(text, replies.position_of(text.partition("\n")[0]) or 0)


def largest_of(statement: str) -> int:
    """The largest trade number of a statement."""
    rows = statement.split("\n")[1:]
    return int(rows[-1].split(" ")[1]) if rows else 0


def candidates_of(statement: str, row: Row) -> list[dict[str, Any]]:
    """The trades of a statement that may be the one of a call: with its terms, and later than all that there were."""
    terms = row.line.split(" ")[1:]
    rows = (row_of(line) for line in statement.split("\n")[1:] if line.split(" ")[2:7] == terms)
    return [trade for trade in rows if trade["trade"] > (row.largest or 0)]


class Desk:
    """Asks the service, over any of its seats."""

    def __init__(self, seats: Seats, sessions: Sessions, kept: Kept) -> None:
        self.seats = seats
        self.sessions = sessions
        self.kept = kept
        self.running: set[tuple[str, str]] = set()
        self.unsure: dict[tuple[str, str], Unsure] = {}

    async def question(self, session: SignedIn, line: str) -> Reply:
        """The reply to a line that changes nothing, which is asked again where the connection ends."""
        for _ in range(TRIES):
            try:
                async with self.seats.seat() as connection:
                    return (await connection.say(session.speaker, [line]))[0]
            except (Unsent, Lost):
                continue
        raise NoSeat

    async def confirm(self, session: SignedIn) -> None:
        """Finds out whether the service still takes a session's key: a BadKey if it does not."""
        if self.seats.knows(session.speaker):
            return
        for _ in range(TRIES):
            try:
                async with self.seats.seat() as connection:
                    await connection.greet(*session.speaker)
                    return
            except Unsent:
                continue
        raise NoSeat

    async def change(self, asked: Asked) -> Told:
        """The reply to a line, which is sent once."""
        is_slow = asked.call.verb in SLOW
        for _ in range(TRIES):
            try:
                async with self.seats.seat(is_slow) as connection:
                    if asked.notes:
                        try:
                            noted = await connection.say(asked.session.speaker, asked.notes, None)
                        except Lost:
                            raise Unsent from None
                        for line, reply in zip(asked.notes, noted):
                            if refusal_of(reply.text) is not None:
                                return NoteRefused(line, reply)
                        return await self.judged(asked, (await connection.ask([asked.line], None))[0], connection)
                    return await self.sent(asked, connection, None if is_slow else LONGEST)
            except Unsent:
                continue
        raise NoSeat

    async def sent(self, asked: Asked, connection: Connection, seconds: float | None = LONGEST) -> Told:
        """What a line comes to over a connection."""
        (reply,) = await connection.say(asked.session.speaker, [asked.line], seconds)
        return await self.judged(asked, reply, connection)

    async def judged(self, asked: Asked, reply: Reply, connection: Connection) -> Told:
        """A reply, or what is in doubt by it. Another connection's reply may tell so, where its line was made together with this one."""
        verb, refusal = asked.call.verb, refusal_of(reply.text)
        if refusal is None:
            return reply
        if is_open(verb, refusal):
            return InDoubt(reply, [])
        if not may_lean(verb, refusal):
            return reply
        await self.seats.have_told()
        if self.seats.is_stopped:
            return InDoubt(reply, [])
        if asked.key:
            self.unsure[asked.who] = Unsure(connection, reply, asked.text)
            if len(self.unsure) > MOST_UNSURE:
                del self.unsure[next(iter(self.unsure))]
        return reply

    async def plainly(self, asked: Asked) -> Outcome:
        """A change without an Idempotency-Key."""
        if asked.call.verb == "TRADE":
            await self.kept.spoil(asked.line)
        try:
            return await self.change(asked)
        except Lost:
            raise Unknown([]) from None

    async def once(self, asked: Asked) -> Outcome:
        """A change with an Idempotency-Key: sent where the key is new, else what became of it."""
        if asked.who in self.running:
            raise Running
        self.running.add(asked.who)
        try:
            row = await self.kept.find(*asked.who)
            if row is None:
                return await self.first(asked)
            if row.line != asked.text:
                raise OtherLine
            if row.reply is not None:
                return reply_of(row.reply)
            return await self.look(asked)
        finally:
            self.running.discard(asked.who)

    async def first(self, asked: Asked) -> Outcome:
        """A change that is put down, sent, and put down with its reply."""
        name, is_trade = asked.session.name, asked.call.verb == "TRADE"
        largest = largest_of((await self.question(asked.session, "STATEMENT")).text) if is_trade else None
        await self.kept.begin(*asked.who, asked.text, largest, self.sessions.count(name) == 1)
        try:
            outcome = await self.change(asked)
        except Lost:
            return await self.look(asked)
        except (NoSeat, BadKey):
            await self.kept.forget(*asked.who, asked.text)
            raise
        await self.put_down(asked, outcome)
        return outcome

    async def put_down(self, asked: Asked, outcome: Told) -> None:
        """Puts down what a call came to. Where that fails, the call stays open, and the reply goes out all the same."""
        try:
            if isinstance(outcome, NoteRefused):
                await self.kept.forget(*asked.who, asked.text)
            elif isinstance(outcome, InDoubt) or asked.who in self.unsure:
                await self.kept.leave_open(*asked.who, outcome.text)
            else:
                await self.kept.end(*asked.who, asked.text, outcome.text)
        except Faulty:
            log.error("the file of calls failed: a reply is not in it")

    async def settle(self) -> None:
        """Puts down the refusals that have become sure."""
        for who, unsure in [*self.unsure.items()]:
            if unsure.is_sure:
                await self.kept.end(*who, unsure.line, unsure.reply.text)
                self.unsure.pop(who, None)
            elif not unsure.connection.is_open:
                self.unsure.pop(who, None)

    async def look(self, asked: Asked) -> Outcome:
        """What became of a call that is open."""
        await self.settle()
        row = await self.kept.find(*asked.who)
        if row is not None and row.reply is not None:
            return reply_of(row.reply)
        if asked.who in self.unsure and not self.seats.is_stopped:
            return self.unsure[asked.who].reply
        if row is None or asked.call.verb != "TRADE":
            return unknown(row, [])
        for _ in range(TRIES):
            try:
                async with self.seats.seat() as connection:
                    return await self.look_over(connection, asked)
            except (Unsent, Lost):
                continue
        raise NoSeat

    async def look_over(self, connection: Connection, asked: Asked) -> Outcome:
        """The trade of a call that is open, where it is the only one that can be. Where there is none, and a refusal left the call open, its
        line is under way no more; so over the very connection that has shown this it may be sent anew, and is made once."""
        (statement,) = await connection.say(asked.session.speaker, ["STATEMENT"])
        row = await self.kept.find(*asked.who)
        assert row is not None
        if row.found is not None:
            return Found(row.found, statement.position)
        candidates = candidates_of(statement.text, row)
        if len(candidates) == 1 and row.is_alone:
            trade: int = candidates[0]["trade"]
            await self.kept.end(*asked.who, asked.text, None, trade)
            return Found(trade, statement.position)
        if candidates or row.doubt is None:
            return unknown(row, candidates)
        await self.kept.leave_open(*asked.who, None)
        try:
            outcome = await self.sent(asked, connection)
        except Unsent:
            await self.kept.leave_open(*asked.who, row.doubt)
            raise
        await self.put_down(asked, outcome)
        return outcome
