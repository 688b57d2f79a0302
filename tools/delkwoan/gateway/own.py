"""The calls that are no line: sign-in and sign-out, where the cycle stands, health, and the figures."""

import asyncio
import logging
from typing import Any

from starlette.requests import Request
from starlette.responses import Response

from .answers import Problem, answer
from .calls import WORD, BadWord
from .connection import BadKey, Lost, Unsent
from .fields import refusal_of
from .guesses import place_of
from .parts import Parts
from .requests import HERE, address_of, given_by, session_of
from .seats import NoSeat
from .sessions import SignedIn

LOCAL = (HERE, "::1")
WRONG_PHASE, WRONG_CYCLE, BROKEN, NOT_OPERATOR = 17, 16, 21, 14

log = logging.getLogger("delkwoan.gateway")


async def sign_in(parts: Parts, request: Request) -> Response:
    """A token for a name and a key, which the service knows."""
    given = await given_by(request, parts.patience)
    name, key = given.get("name"), given.get("key")
    for field, word in (("name", name), ("key", key)):
        if not isinstance(word, str) or WORD.fullmatch(word) is None:
            raise BadWord(field)
    assert isinstance(name, str) and isinstance(key, str)
    address = address_of(request)
    place = place_of(address)
    lane = await parts.guesses.turn(name, place)
    try:
        is_operator, position = await role_of(parts, name, key)
    except BadKey:
        parts.figures.wrong_keys.inc()
        log.warning("wrong key: name %s, address %s", name, address)
        raise
    except NoSeat:
        lane.give_back()
        raise
    lane.give_back()
    parts.guesses.right(name, place)
    if parts.sessions.count(name):
        await parts.desk.kept.spoil_member(name)
    session = parts.sessions.open(name, key, is_operator)
    return answer({"token": session.token, **told_of(session), "idle": parts.sessions.idle, "position": position}, 201)


async def role_of(parts: Parts, name: str, key: str) -> tuple[bool, int]:
    """Whether a name is the operator's, and the history's length. LIMITS asks so, which changes nothing."""
    while True:
        try:
            async with parts.desk.seats.seat() as connection:
                (reply,) = await connection.say((name, key), ["LIMITS -"])
            break
        except (Lost, Unsent):
            continue
    refusal = refusal_of(reply.text)
    return refusal is None or refusal.number != NOT_OPERATOR, reply.position


def told_of(session: SignedIn) -> dict[str, Any]:
    return {"name": session.name, "role": "operator" if session.is_operator else "member"}


async def who(parts: Parts, request: Request) -> Response:
    """Who is signed in."""
    return answer(told_of(session_of(request, parts.sessions)))


async def sign_out(parts: Parts, request: Request) -> Response:
    """The session ends, and its key is forgotten."""
    parts.sessions.close(session_of(request, parts.sessions))
    return Response(status_code=204)


async def cycle(parts: Parts, request: Request) -> Response:
    """Where the last cycle stands: its number, its phase, and the version that is proposed, the trade that broke it,
    or how it ended, if that came through this gateway."""
    session = session_of(request, parts.sessions)
    reply = await parts.desk.question(session, "PLAN 0")
    refusal = refusal_of(reply.text)
    number = int(refusal.value) if refusal is not None and refusal.number == WRONG_CYCLE else 0
    fields: dict[str, Any] = {"cycle": number, "phase": "none"}
    if number:
        reply = await parts.desk.question(session, f"PLAN {number}")
        refusal = refusal_of(reply.text)
        if refusal is None:
            fields |= {"phase": "proposed", "version": int(reply.text.split(" ")[4])}
        elif refusal.number == BROKEN:
            fields |= {"phase": "broken", "trade": int(refusal.value)}
        elif refusal.number == WRONG_PHASE:
            fields["phase"] = refusal.value
            if refusal.value == "none" and (ended := parts.votes.ended(number)) is not None:
                fields["ended"] = ended
    return answer({"reply": reply.text, "position": reply.position, "kind": "cycle", "fields": fields})


async def health(parts: Parts, _: Request) -> Response:
    """Whether the service answers over a seat now."""
    async with parts.desk.seats.seat() as connection:
        try:
            await asyncio.wait_for(connection.probe(), parts.desk.seats.wait)
        except (Lost, Unsent, asyncio.TimeoutError):
            raise Problem(503, "no-seat") from None
    return answer({"position": connection.position})


async def metrics(parts: Parts, reading: asyncio.Lock, request: Request) -> Response:
    """The figures, for this machine and for the operator."""
    if address_of(request) not in LOCAL:
        session = session_of(request, parts.sessions)
        if not session.is_operator:
            raise Problem(403, "wrong-role")
        await parts.desk.confirm(session)
    async with reading:
        await asyncio.to_thread(parts.figures.look)
    return Response(parts.figures.text(), media_type="text/plain; version=0.0.4")
