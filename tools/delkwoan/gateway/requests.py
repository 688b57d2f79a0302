"""What a request gives: its body, its session, and who sends it."""

import asyncio
import json
from typing import Any

from starlette.requests import ClientDisconnect, Request

from .answers import Problem
from .sessions import Sessions, SignedIn

MOST_BODY = 16_384
MOST_DRAFT = 16_777_216
"""The bytes of a body, and of one with a draft."""
MOST_KEY = 128
HERE = "127.0.0.1"


async def body_of(request: Request, patience: float, most: int) -> bytes:
    """A request's body; a sender that takes too long for it is given up."""
    pieces = []
    size = 0
    try:
        async with asyncio.timeout(patience):
            async for piece in request.stream():
                pieces.append(piece)
                size += len(piece)
                if size > most:
                    raise Problem(413, "too-long", headers={"Connection": "close"})
    except TimeoutError:
        raise Problem(408, "too-slow", headers={"Connection": "close"}) from None
    except ClientDisconnect:
        raise Problem(400, "gone") from None
    return b"".join(pieces)


async def given_by(request: Request, patience: float, most: int = MOST_BODY) -> dict[str, Any]:
    """The fields of a request's body, which is none or an object."""
    body = await body_of(request, patience, most)
    try:
        given = json.loads(body) if body else {}
    except (ValueError, RecursionError):
        given = None
    if not isinstance(given, dict):
        raise Problem(422, "bad-body")
    return given


def session_of(request: Request, sessions: Sessions) -> SignedIn:
    """The session of a request's token."""
    scheme, _, token = request.headers.get("authorization", "").partition(" ")
    session = sessions.find(token) if scheme.lower() == "bearer" else None
    if session is None:
        raise Problem(401, "not-signed-in", headers={"WWW-Authenticate": "Bearer"})
    return session


def key_of(request: Request) -> str | None:
    """A request's Idempotency-Key, where it has one."""
    key: str | None = request.headers.get("idempotency-key")
    if key is not None and not (0 < len(key) <= MOST_KEY and key.isascii() and key.isprintable()):
        raise Problem(422, "bad-idempotency-key")
    return key


def address_of(request: Request) -> str:
    """Who sends a request: where a proxy of this machine does, who sent it to the proxy, and no name is given to this machine then."""
    return HERE if request.client is None else str(request.client.host or HERE)
