"""The gateway as its words say it, served by uvicorn."""

import importlib.util
import socket
import ssl
from argparse import Namespace
from typing import Any

import uvicorn

from ..about import about_of
from ..checker import MOST_BYTES, Fault
from ..client import found_program
from ..ending import Stop, read_file
from ..keys import public_roster
from .books import Books
from .desk import Desk
from .follower import Follower
from .guesses import Guesses
from .kept import Faulty, Kept
from .metrics import Figures
from .parts import Parts
from .reading import protocol
from .seats import Seats
from .server import application
from .sessions import Sessions
from .silence import SLACK, Silence
from .stage import Stage
from .votes import Votes
from .watch import Watch

SEATS = 3
WAIT, IDLE, PATIENCE = 10.0, 1800.0, 20.0
"""What holds where the words say nothing."""
LONGEST_WORD = 4096
"""The bytes of what a page may say over a WebSocket."""
LOOKS = 1.0
"""The seconds between two looks for silent peers."""


def or_else(given: float | None, otherwise: float) -> float:
    return otherwise if given is None else given


def roster_of(file: str | None) -> str | None:
    """A roster's text for everybody, with keys that are nobody's."""
    try:
        return None if file is None else public_roster(read_file(file, MOST_BYTES + 1))
    except Fault as fault:
        raise Stop(3, str(fault)) from None


def stage_of(given: Namespace) -> Stage | None:
    """What a rehearsal needs, where all of it is there."""
    try:
        return Stage(found_program(), given.roster, given.journal) if given.roster and given.journal else None
    except Stop:
        return None


def parts_of(given: Namespace) -> Parts:
    roster = roster_of(given.roster)
    currencies = {} if given.roster is None else about_of(given.roster, None).currencies
    try:
        kept = Kept(given.calls)
    except Faulty:
        raise Stop(6, "disk fault") from None
    seats = Seats(given.service, given.seats or SEATS, or_else(given.wait, WAIT))
    sessions = Sessions(or_else(given.idle, IDLE))
    figures = Figures(seats, sessions, None if given.journal is None else Follower(given.journal))
    desk, watch = Desk(seats, sessions, kept), Watch(seats)
    return Parts(desk, sessions, Guesses(seats.wait), figures, or_else(given.patience, PATIENCE), watch, Votes(), roster, stage_of(given), Books(), currencies)


def secured(given: Namespace) -> dict[str, Any]:
    """What the server is told of TLS."""
    if given.certificate is None:
        return {}
    told = {"ssl_certfile": given.certificate, "ssl_keyfile": given.key}
    return {**told, **({"ssl_ca_certs": given.clients, "ssl_cert_reqs": ssl.CERT_REQUIRED} if given.clients else {})}


def serve(given: Namespace, bound: socket.socket) -> None:
    """Serves over a socket that listens, until a signal ends it."""
    parts = parts_of(given)
    silence = Silence(parts.patience)

    async def look() -> None:
        silence.sweep(server.server_state.connections)

    config = uvicorn.Config(
        application(parts),
        http=protocol(),
        log_config=None,
        access_log=False,
        server_header=False,
        ws="websockets" if importlib.util.find_spec("websockets") else "none",
        ws_max_size=LONGEST_WORD,
        timeout_keep_alive=SLACK * parts.patience,
        callback_notify=look,
        timeout_notify=LOOKS,
        **secured(given),
    )
    try:
        config.load()
    except (OSError, ssl.SSLError):
        raise Stop(11, "file fault") from None
    server = uvicorn.Server(config)
    parts.figures.peers.state = server.server_state
    server.run(sockets=[bound])
