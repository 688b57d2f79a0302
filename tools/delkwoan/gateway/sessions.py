"""Who is signed in, with the key in memory alone."""

import secrets
import time
from dataclasses import dataclass, field

MOST_EACH = 64
"""The sessions of a name. One more ends the one that was used longest ago, so no name takes another's place: as only names with a right key
have sessions, all together are at most as many for each member and operator."""


@dataclass(slots=True)
class SignedIn:
    """A session: who speaks in it, with the key, which nothing prints, and when it was used last."""

    token: str = field(repr=False)
    name: str
    key: str = field(repr=False)
    is_operator: bool
    used: float

    @property
    def speaker(self) -> tuple[str, str]:
        return self.name, self.key


class Sessions:
    """The sessions by their tokens, and by their names. One that is not used for so many seconds ends."""

    def __init__(self, idle: float) -> None:
        self.idle = idle
        self.by_token: dict[str, SignedIn] = {}
        self.by_name: dict[str, dict[str, SignedIn]] = {}

    def __len__(self) -> int:
        return len(self.by_token)

    def is_over(self, session: SignedIn) -> bool:
        return session.used < time.monotonic() - self.idle

    def sweep(self) -> None:
        """Ends the sessions that were idle for too long."""
        for session in [it for it in self.by_token.values() if self.is_over(it)]:
            self.close(session)

    def open(self, name: str, key: str, is_operator: bool) -> SignedIn:
        before = self.by_name.get(name, {})
        if len(before) >= MOST_EACH:
            self.close(min(before.values(), key=lambda it: it.used))
        session = SignedIn(secrets.token_urlsafe(32), name, key, is_operator, time.monotonic())
        self.by_token[session.token] = session
        self.by_name.setdefault(name, {})[session.token] = session
        return session

    def find(self, token: str) -> SignedIn | None:
        """The session of a token, which is used now."""
        session = self.by_token.get(token)
        if session is None:
            return None
        if self.is_over(session):
            self.close(session)
            return None
        session.used = time.monotonic()
        return session

    def has(self, session: SignedIn) -> bool:
        """Whether a session is open still, which does not use it."""
        return self.by_token.get(session.token) is session and not self.is_over(session)

    def close(self, session: SignedIn) -> None:
        self.by_token.pop(session.token, None)
        others = self.by_name.get(session.name, {})
        others.pop(session.token, None)
        if not others:
            self.by_name.pop(session.name, None)

    def close_all(self, name: str, key: str) -> None:
        """Ends the sessions with a key that is not the name's any more."""
        for session in [it for it in self.by_name.get(name, {}).values() if it.key == key]:
            self.close(session)

    def count(self, name: str) -> int:
        """How many sessions of a name are open."""
        return sum(not self.is_over(it) for it in self.by_name.get(name, {}).values())
