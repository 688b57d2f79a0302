"""Figures for Prometheus: of the service's history and journal, of the seats, of the peers, and of the calls."""

from typing import Any, Iterator, cast

from prometheus_client import CollectorRegistry, Counter, Histogram, generate_latest
from prometheus_client.core import GaugeMetricFamily, Metric

from .follower import Fill, Follower
from .peers import Peers
from .seats import Seats
from .sessions import Sessions

SECONDS = (0.001, 0.0025, 0.005, 0.01, 0.025, 0.05, 0.1, 0.25, 0.5, 1, 2.5, 5, 10, 60)
FILLS = {
    "delkwoan_journal_bytes": "Bytes of the journal, up to its end",
    "delkwoan_journal_bytes_left": "Bytes that the journal has room for",
    "delkwoan_trades_used": "Trades that were submitted",
    "delkwoan_trades_left": "Trades that may still be submitted",
}


class Figures:
    """The counters of the calls, and what is looked up when somebody asks."""

    def __init__(self, seats: Seats, sessions: Sessions, follower: Follower | None) -> None:
        self.seats = seats
        self.sessions = sessions
        self.peers = Peers()
        self.follower = follower
        self.fill: Fill | None = None
        self.registry = CollectorRegistry()
        self.replies = Counter("delkwoan_replies", "Replies, by the word of the reply or the refusal's name", ["kind"], registry=self.registry)
        self.seconds = Histogram(
            "delkwoan_call_seconds", "Seconds of a call, from the whole request to the answer", ["verb"], buckets=SECONDS, registry=self.registry
        )
        self.wrong_keys = Counter("delkwoan_wrong_keys", "Sign-ins with a wrong key", registry=self.registry)
        self.faults = Counter("delkwoan_faults", "Calls without a reply, by what was wrong", ["error"], registry=self.registry)
        cast(Any, self.registry).register(self)

    def look(self) -> None:
        """Reads on in the journal's file, which may take a while."""
        if self.follower is not None:
            self.fill = self.follower.fill()

    def collect(self) -> Iterator[Metric]:
        """What is looked up, by the registry."""
        values = {
            "delkwoan_history_length": ("Length of the history, by the last reply", self.seats.position),
            "delkwoan_seats": ("Connections that have a seat", len(self.seats.ready)),
            "delkwoan_seats_busy": ("Connections that have a call", self.seats.busy),
            "delkwoan_calls_waiting": ("Calls that wait for a seat", self.seats.queue),
            "delkwoan_sessions": ("Members and operators who are signed in", len(self.sessions)),
            "delkwoan_connections": ("Peers that are connected", self.peers.connected),
            "delkwoan_requests": ("Requests of peers that are not answered yet, and pages that listen", self.peers.requests),
        }
        for name, (told, value) in values.items():
            yield GaugeMetricFamily(name, told, value)
        if self.fill is not None:
            for (name, told), value in zip(FILLS.items(), self.fill):
                yield GaugeMetricFamily(name, told, value)

    def text(self) -> bytes:
        text: bytes = generate_latest(self.registry)
        return text
