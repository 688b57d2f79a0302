"""The routes of the gateway, and what becomes of each request."""

import asyncio
import logging
import time
from contextlib import asynccontextmanager
from functools import partial
from typing import Any, AsyncIterator, Awaitable, Callable

from starlette.applications import Starlette
from starlette.middleware import Middleware
from starlette.requests import Request
from starlette.responses import Response
from starlette.routing import BaseRoute, Route, WebSocketRoute
from starlette.websockets import WebSocket

from . import document, page, verdict
from .answers import Problem, answer_to, problem_of, told
from .books import book
from .calls import CALLS, POSTING, POTENTIAL, ROW, BadWord, Call
from .compressed import Compressed
from .connection import BadKey
from .desk import Asked
from .fields import kind_of
from .kept import Faulty
from .origin import App, guarded
from .own import cycle, health, metrics, sign_in, sign_out, who
from .parts import Parts
from .rehearsal import rehearse
from .requests import MOST_DRAFT, given_by, key_of, session_of
from .watch import follow

MINUTE = 60.0
VOTES = ("ACCEPT", "DECLINE", "PROPOSE", "POST", "CANCEL")
"""The commands that are votes, or that may end a cycle."""

log = logging.getLogger("delkwoan.gateway")


Endpoint = Callable[[Request], Awaitable[Response]]


def problem_with(parts: Parts, verb: str, call: Call | None, fault: Exception, request: Request) -> Problem:
    """What a fault is to who asked: one that nobody has foreseen is the gateway's own, and its place goes into the log."""
    try:
        if isinstance(fault, BadKey) and verb != "HELLO":
            parts.sessions.close_all(*session_of(request, parts.sessions).speaker)
        return problem_of(fault, call)
    except Problem as problem:
        return problem
    except Exception as unforeseen:
        log.error("a fault of the gateway: %s", verb, exc_info=unforeseen)
        return Problem(500, "internal")


async def served(parts: Parts, verb: str, call: Call | None, serve: Endpoint, request: Request) -> Response:
    """The answer to a request, which is timed; a fault is answered as what it is to who asked."""
    begun = time.monotonic()
    try:
        return await serve(request)
    except Exception as fault:
        problem = problem_with(parts, verb, call, fault, request)
        parts.figures.faults.labels(problem.error).inc()
        return told(problem)
    finally:
        parts.figures.seconds.labels(verb).observe(time.monotonic() - begun)


def lines_of_draft(given: dict[str, Any]) -> list[str]:
    """The lines of a draft's rows and potentials, which are taken out of the fields."""
    lines = []
    for name, form in (("rows", ROW), ("potentials", POTENTIAL)):
        rows = given.pop(name, [])
        if not isinstance(rows, list) or not all(isinstance(row, dict) for row in rows):
            raise BadWord(name)
        lines += [form.line(row) for row in rows]
    return lines


async def call_of(parts: Parts, call: Call, request: Request) -> Response:
    """The answer to a call that is a line."""
    session = session_of(request, parts.sessions)
    given = {**await given_by(request, parts.patience, MOST_DRAFT), **request.path_params} if call is POSTING else None
    notes = lines_of_draft(given) if given is not None else []
    if given is None:
        given = {**(await given_by(request, parts.patience) if not call.is_question else {}), **request.path_params}
    asked = Asked(session, call, call.line(given), notes, (None if call.is_question else key_of(request)) or "")
    if call.is_question:
        outcome: Any = await parts.desk.question(session, asked.line)
    elif asked.key:
        outcome = await parts.desk.once(asked)
    else:
        outcome = await parts.desk.plainly(asked)
    text = getattr(outcome, "text", None)
    if text and call.verb in VOTES:
        parts.votes.take(session.name, asked.line, text)
    parts.figures.replies.labels(kind_of(text) if text else "found").inc()
    return await answer_to(call, outcome)


async def confirmed(parts: Parts, serve: Endpoint, request: Request) -> Response:
    """The answer to a call that is no line, if the service still takes the session's key: it may have been started again with another."""
    await parts.desk.confirm(session_of(request, parts.sessions))
    return await serve(request)


def fixed(content: str, kind: str) -> Callable[[Request], Response]:
    """An endpoint that always answers the same."""

    def endpoint(_: Request) -> Response:
        return Response(content, media_type=kind)

    return endpoint


def routes_of(parts: Parts) -> list[BaseRoute]:
    def route(path: str, method: str, verb: str, serve: Endpoint, call: Call | None = None) -> Route:
        return Route(path, partial(served, parts, verb, call, serve), methods=[method])

    own: list[tuple[str, str, str, Endpoint]] = [
        ("/api/session", "POST", "HELLO", partial(sign_in, parts)),
        ("/api/session", "GET", "who", partial(confirmed, parts, partial(who, parts))),
        ("/api/session", "DELETE", "sign-out", partial(sign_out, parts)),
        ("/api/cycle", "GET", "cycle", partial(cycle, parts)),
        ("/api/rehearsal", "POST", "rehearsal", partial(confirmed, parts, partial(rehearse, parts, asyncio.Lock()))),
        ("/api/book", "GET", "book", partial(book, parts)),
        ("/api/votes", "GET", "votes", partial(confirmed, parts, partial(verdict.votes, parts))),
        ("/api/votes/mine", "GET", "votes", partial(confirmed, parts, partial(verdict.vote, parts))),
        ("/api/roster", "GET", "roster", partial(confirmed, parts, partial(verdict.roster, parts))),
        ("/api/check", "POST", "check", partial(confirmed, parts, partial(verdict.check, parts, asyncio.Lock()))),
        ("/healthz", "GET", "health", partial(health, parts)),
        ("/metrics", "GET", "metrics", partial(metrics, parts, asyncio.Lock())),
    ]
    routes: list[BaseRoute] = [route(*it) for it in own]
    routes += [route(it.path, it.method, it.verb, partial(call_of, parts, it), it) for it in (*CALLS, POSTING)]
    routes.append(Route("/openapi.json", fixed(document.text(), "application/json")))
    routes += [Route("/api", fixed(document.page(), "text/html")), WebSocketRoute("/api/follow", follower(parts))]
    return [*routes, *page.routes()]


def follower(parts: Parts) -> Callable[[WebSocket], Awaitable[None]]:
    async def endpoint(socket: WebSocket) -> None:
        await follow(parts.watch, parts.desk, parts.patience, socket)

    return endpoint


async def tend(parts: Parts) -> None:
    """Drops what is over: idle sessions, and calls that were kept for long enough."""
    while True:
        try:
            await parts.desk.kept.purge()
            for _ in range(60):
                parts.sessions.sweep()
                await parts.desk.settle()
                await asyncio.sleep(MINUTE)
        except Faulty:
            log.error("the file of calls failed")
            await asyncio.sleep(MINUTE)


def routed(parts: Parts) -> Starlette:
    """The calls and pages, without the guard against other origins."""

    @asynccontextmanager
    async def lifespan(_: Starlette) -> AsyncIterator[None]:
        parts.desk.seats.start()
        tasks = [asyncio.create_task(tend(parts)), asyncio.create_task(parts.watch.run())]
        yield
        for task in tasks:
            task.cancel()
        await parts.desk.seats.stop()
        parts.desk.kept.close()

    return Starlette(routes=routes_of(parts), lifespan=lifespan, middleware=[Middleware(Compressed)])


def application(parts: Parts) -> App:
    return guarded(routed(parts))
