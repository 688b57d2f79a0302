"""A member's own test of a proposal, as compress-check-mine makes it, over the texts that a page gives.

A page's notes may lack what was set by another program or browser. So what only they contradict is no `no`, and a `yes` wants the
member's word that they have all."""

import asyncio
from typing import Any, Mapping

from starlette.requests import Request
from starlette.responses import Response

from .. import own_part
from ..checker import Fault
from .answers import Problem, answer
from .calls import BadWord
from .parts import Parts
from .requests import MOST_DRAFT, given_by, session_of

TEXTS = ("roster", "notes", "proof", "plan")


def bytes_of(given: Mapping[str, Any], name: str) -> bytes:
    text = given.get(name)
    if not isinstance(text, str):
        raise BadWord(name)
    return text.encode("utf-8", "replace")


def part_by(member: str, given: Mapping[str, Any]) -> own_part.Part:
    """What the texts tell of a member's part."""
    try:
        roster = own_part.read_roster(bytes_of(given, "roster"))
        notes = own_part.read_notes(bytes_of(given, "notes"), roster)
        proof = own_part.read_proof(bytes_of(given, "proof"))
        plan = own_part.read_plan(bytes_of(given, "plan"))
    except Fault as fault:
        raise Problem(422, "fault", {"told": str(fault)}) from None
    if member not in roster.members:
        raise Problem(422, "not-in-roster")
    return own_part.Part(roster, member, notes, proof, plan)


def lacks_of(compared: own_part.Compared, proof: own_part.Proof, is_complete: bool) -> list[str]:
    """What could not be compared: tolerances that the notes may lack, and trades if they have none."""
    has_amounts = any(pair.now for pair in proof.pairs)
    return [*([] if is_complete else ["tolerances"]), *(["trades"] if has_amounts and not compared.trades else [])]


def verdict(member: str, given: Mapping[str, Any], is_complete: bool) -> dict[str, Any]:
    """`no` with a clash that no tolerance and no trade can explain. Else `yes` if all was compared and nothing clashes, by the member's
    word that the notes have all that it set; else `unsure`, with what the notes clash with, and what could not be compared."""
    part = part_by(member, given)
    doubt: own_part.Clash | None = None
    for clash in own_part.clashes(part):
        doubt = doubt or clash
        if not clash.is_by_notes:
            return {"verdict": "no", "clash": clash.words, "line": clash.line}
    counts = own_part.compared(part)
    lacks = lacks_of(counts, part.proof, is_complete)
    told = {"compared": counts._asdict(), "lacks": lacks, "all": own_part.hash_of_all(part)}
    if doubt is not None:
        return {"verdict": "unsure", "clash": doubt.words, "line": doubt.line, **told}
    return {"verdict": "unsure" if lacks else "yes", **told}


async def check(parts: Parts, busy: asyncio.Lock, request: Request) -> Response:
    """The verdict over a member's texts; a roster that is not given is the gateway's."""
    session = session_of(request, parts.sessions)
    given = await given_by(request, parts.patience, MOST_DRAFT)
    is_complete = given.pop("complete", False)
    if not isinstance(is_complete, bool):
        raise BadWord("complete")
    for field in given:
        if field not in TEXTS:
            raise BadWord(field)
    if given.get("roster") is None:
        if parts.roster is None:
            raise Problem(404, "no-roster")
        given["roster"] = parts.roster
    async with busy:
        return answer(await asyncio.to_thread(verdict, session.name, given, is_complete))


async def roster(parts: Parts, request: Request) -> Response:
    """The roster without keys, if the gateway was given one, and the currencies of its side file."""
    session_of(request, parts.sessions)
    if parts.roster is None:
        raise Problem(404, "no-roster")
    return answer({"roster": parts.roster, "currencies": parts.currencies})


async def votes(parts: Parts, request: Request) -> Response:
    """Who has voted through this gateway, for the operator."""
    if not session_of(request, parts.sessions).is_operator:
        raise Problem(403, "wrong-role")
    return answer(parts.votes.told())


async def vote(parts: Parts, request: Request) -> Response:
    """What the member voted through this gateway on the version that was voted on last."""
    return answer(parts.votes.told_of(session_of(request, parts.sessions).name))
