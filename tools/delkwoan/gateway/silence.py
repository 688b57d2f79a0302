"""An end for peers that say nothing, send half a request, or take nothing of an answer.

The server gives a connection a time-out behind an answer alone; here are those before the first request, in its head, and in the
answer. A body's time stands in `requests`. None of these peers has a seat of the service at any time.
"""

import time
from typing import Any

SLACK = 3
"""By how much longer a peer may take for an answer, or be silent between two requests, than for a request."""


class Silence:
    """Since when each peer is as it is. For a request's head it may take so many seconds."""

    def __init__(self, patience: float) -> None:
        self.patience = patience
        self.since: dict[Any, tuple[Any, float]] = {}

    def sweep(self, peers: set[Any]) -> None:
        """Ends the peers that took too long. A peer's state is the request that is being served, and whether its answer has begun."""
        now = time.monotonic()
        before, self.since = self.since, {}
        for peer in peers:
            if not hasattr(peer, "cycle"):
                continue  # a WebSocket, whose pings end it
            cycle: Any = getattr(peer, "cycle", None)
            is_served = cycle is not None and not cycle.response_complete
            is_answered = bool(is_served and (cycle.response_started or peer.flow.write_paused))
            state = (id(cycle), is_served, is_answered)
            then, since = before.get(peer, (None, now))
            since = since if then == state else now
            self.since[peer] = state, since
            most = self.patience * (1 if cycle is None else SLACK)
            if (is_answered or not is_served) and now - since > most and peer.transport is not None:
                peer.transport.abort()
