"""What is answered: a reply with its position and fields, or what is wrong, each as JSON."""

import asyncio
import json
import math
from typing import Any, Mapping

from starlette.responses import Response

from .calls import AGAIN, BadWord, Call
from .connection import BadKey
from .desk import Found, InDoubt, NoteRefused, OtherLine, Outcome, Running, Unknown
from .fields import Reply, fields_of, kind_of, refusal_of
from .guesses import Slowed
from .kept import Faulty
from .seats import NoSeat

BAD_LINE = 3
RETRY = "2"
"""The seconds behind which to ask again, where there was no seat."""
LARGE = 100_000
"""The bytes of a reply from which it is made into fields beside the other calls."""


class Problem(Exception):
    """A request can't be served: the status, a word for it, and what else is told."""

    def __init__(self, status: int, error: str, told: Mapping[str, Any] | None = None, headers: Mapping[str, str] | None = None) -> None:
        super().__init__(error)
        self.status = status
        self.error = error
        self.told = told or {}
        self.headers = headers or {}


def answer(content: Any, status: int = 200, headers: Mapping[str, str] | None = None) -> Response:
    body = json.dumps(content, separators=(",", ":"))
    return Response(body, status, {"Cache-Control": "no-store", **(headers or {})}, "application/json")


def refused(reply: Reply, told: Mapping[str, Any], error: str = "refused") -> Response:
    """A refusal, with its number and name."""
    refusal = refusal_of(reply.text)
    assert refusal is not None
    status = 422 if refusal.number == BAD_LINE else 409
    content = {"error": error, "reply": reply.text, "position": reply.position, **refusal._asdict(), **told}
    return answer(content, status)


def replied(call: Call, reply: Reply) -> Response:
    """A reply, with its fields."""
    if refusal_of(reply.text) is not None:
        return refused(reply, {})
    kind = kind_of(reply.text)
    if kind not in call.kinds:
        raise Problem(403, "wrong-role")
    return answer({"reply": reply.text, "position": reply.position, "kind": kind, "fields": fields_of(reply.text)})


async def answer_to(call: Call, outcome: Outcome) -> Response:
    """What is answered to a call."""
    if isinstance(outcome, NoteRefused):
        return refused(outcome.reply, {"line": outcome.line})
    if isinstance(outcome, InDoubt):
        return refused(outcome.reply, open_words(call, outcome.candidates), "unknown")
    if isinstance(outcome, Found):
        fields = {"trade": outcome.trade}
        return answer({"reply": None, "position": outcome.position, "kind": "trade", "fields": fields, "found": True})
    if len(outcome.text) > LARGE:
        return await asyncio.to_thread(replied, call, outcome)
    return replied(call, outcome)


def problem_of(fault: Exception, call: Call | None) -> Problem:
    """What a fault is to who asked."""
    if isinstance(fault, Problem):
        return fault
    if isinstance(fault, NoSeat):
        return Problem(503, "no-seat", headers={"Retry-After": RETRY})
    if isinstance(fault, Slowed):
        return Problem(429, "slowed", headers={"Retry-After": str(math.ceil(fault.seconds))})
    if isinstance(fault, Faulty):
        return Problem(503, "calls-file")
    if isinstance(fault, BadKey):
        return Problem(401, "bad-key", {"number": 2, "name": "bad-key"})
    if isinstance(fault, Running):
        return Problem(409, "running", headers={"Retry-After": RETRY})
    if isinstance(fault, OtherLine):
        return Problem(422, "other-line")
    if isinstance(fault, BadWord):
        return Problem(422, "bad-field", {"field": fault.field})
    if isinstance(fault, Unknown) and call is not None:
        return Problem(409, "unknown", open_words(call, fault.candidates))
    raise fault


def open_words(call: Call, candidates: list[dict[str, Any]]) -> dict[str, Any]:
    """What is told of a change that may have been made."""
    return {"candidates": candidates, "again": AGAIN.get(call.verb, again(call))}


def again(call: Call) -> str:
    """What comes of a line that is sent again, though its change was made."""
    return "alleges a second trade" if call.verb == "TRADE" else "is refused"


def told(problem: Problem) -> Response:
    return answer({"error": problem.error, **problem.told}, problem.status, problem.headers)
