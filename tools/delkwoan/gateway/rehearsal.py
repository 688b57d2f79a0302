"""What a PROPOSE in each mode would be answered now, side by side; the service is asked for none of them."""

import asyncio
from typing import Any

from starlette.requests import Request
from starlette.responses import Response

from .answers import Problem, answer
from .calls import BadWord, word_of
from .fields import fields_of, kind_of, refusal_of
from .parts import Parts
from .requests import given_by, session_of
from .stage import Unplayed

MODES = ("conservative", "hybrid", "free")


def told_of(mode: str, reply: str) -> dict[str, Any]:
    fields = {} if refusal_of(reply) is not None else {"fields": fields_of(reply)}
    return {"mode": mode, "reply": reply, "kind": kind_of(reply), **fields}


async def rehearse(parts: Parts, busy: asyncio.Lock, request: Request) -> Response:
    """The replies to the operator, one for each mode, each as of the journal's copy."""
    session = session_of(request, parts.sessions)
    if not session.is_operator:
        raise Problem(403, "wrong-role")
    if parts.stage is None:
        raise Problem(404, "no-stage")
    given = await given_by(request, parts.patience)
    for field in given:
        if field != "cycle":
            raise BadWord(field)
    cycle = word_of("cycle", given)
    async with busy:
        try:
            replies = [await asyncio.to_thread(parts.stage.play, session.speaker, f"PROPOSE {cycle} {mode}") for mode in MODES]
        except Unplayed:
            raise Problem(503, "no-rehearsal") from None
    return answer({"modes": [told_of(mode, reply) for mode, reply in zip(MODES, replies)]})
