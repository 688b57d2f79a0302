"""What the pages of other origins may do, which is nothing, and what each answer says of itself.

A browser that is on another's page can send a request here in its user's name. A form or a simple script of that page has no token, but it
could guess keys from the user's address. So a request that may change something is refused if its `Origin` is not the `Host` that it goes
to, or if its body is not JSON, which a page of another origin can't send without asking first. So is a WebSocket. Who sends no `Origin`
is no browser on another's page.
"""

from typing import Any, Awaitable, Callable
from urllib.parse import urlsplit

from starlette.datastructures import Headers, MutableHeaders

from .answers import Problem, told

QUESTIONS = ("GET", "HEAD", "OPTIONS")
JSON = "application/json"
POLICY = "default-src 'none'; style-src 'unsafe-inline'; base-uri 'none'; form-action 'none'; frame-ancestors 'none'"
"""What an answer that is no page of ours may do if it is shown as one: nothing but look as it does."""
ALWAYS = {"X-Content-Type-Options": "nosniff", "Cache-Control": "no-store", "Referrer-Policy": "no-referrer"}
REFUSED = 4403
"""How a WebSocket of another origin is closed."""

Scope = dict[str, Any]
Message = dict[str, Any]
Receive = Callable[[], Awaitable[Message]]
Send = Callable[[Message], Awaitable[None]]
App = Callable[[Scope, Receive, Send], Awaitable[None]]


def is_own(headers: Headers) -> bool:
    """Whether a request comes from a page of this gateway, or from no page."""
    origin = headers.get("origin")
    if origin is None:
        return True
    try:
        own: str = headers.get("host", "").lower()
        return own != "" and urlsplit(origin).netloc.lower() == own
    except ValueError:
        return False


def fault_of(method: str, headers: Headers) -> Problem | None:
    """Why a request is not served, if it is not."""
    if method in QUESTIONS:
        return None
    if not is_own(headers):
        return Problem(403, "other-origin")
    has_body = headers.get("content-length", "0") != "0" or "transfer-encoding" in headers
    kind = headers.get("content-type", "").partition(";")[0].strip().lower()
    return Problem(415, "not-json") if has_body and kind != JSON else None


def guarded(app: App) -> App:
    """An application that serves no other origin, and whose answers have these headers."""

    async def serve(scope: Scope, receive: Receive, send: Send) -> None:
        if scope["type"] == "lifespan":
            await app(scope, receive, send)
            return
        headers = Headers(scope=scope)
        if scope["type"] == "websocket":
            if is_own(headers):
                await app(scope, receive, send)
            else:
                await send({"type": "websocket.close", "code": REFUSED})
            return

        async def answer(message: Message) -> None:
            if message["type"] == "http.response.start":
                given = MutableHeaders(scope=message)
                for name, value in ALWAYS.items():
                    given[name] = value
                given.setdefault("Content-Security-Policy", POLICY)
            await send(message)

        fault = fault_of(scope["method"], headers)
        await (app if fault is None else told(fault))(scope, receive, answer)

    return serve
