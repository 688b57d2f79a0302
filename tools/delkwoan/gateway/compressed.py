"""Answers in fewer bytes, for who takes gzip.

The length of what is compressed tells something of what stands beside each other in it. An answer with a token is not compressed. No other
has a token or a key; it goes only to who sends the token in a header, which no other site's page can have a browser do. Somebody else's
text does stand beside a member's own: what another alleges, in its statement. So each answer has padding of a random length in its
head, which covers the few bytes that a right guess saves.
"""

import secrets

from starlette.middleware.gzip import GZipMiddleware
from starlette.types import ASGIApp, Message, Receive, Scope, Send

LEAST = 1_000
"""The bytes from which on an answer is compressed."""
LEVEL = 3
"""How hard it is tried: a statement of 25,000 trades takes some 30 ms, and comes to a quarter."""
MOST_PADDING = 128
SECRET = "/api/session"
"""Whose answers have a token."""


def padded(send: Send) -> Send:
    """Sends with padding in an answer's head."""

    async def sent(message: Message) -> None:
        if message["type"] == "http.response.start":
            padding = b"0" * secrets.randbelow(MOST_PADDING)
            message["headers"] = [*message["headers"], (b"x-padding", padding)]
        await send(message)

    return sent


class Compressed:
    """Compresses all answers but those with a token."""

    def __init__(self, app: ASGIApp) -> None:
        self.app = app
        self.smaller = GZipMiddleware(app, LEAST, LEVEL)

    async def __call__(self, scope: Scope, receive: Receive, send: Send) -> None:
        if scope["type"] != "http" or scope["path"] == SECRET:
            await self.app(scope, receive, send)
        else:
            await self.smaller(scope, receive, padded(send))
