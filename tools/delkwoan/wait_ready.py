"""The command compress-wait-ready: ends once a service takes a connection, or answers a number of connections at once.

The connection that is looked for is closed at once, and nothing is sent over it. With --seats an empty line, which changes
nothing, is sent over each of N connections, and all stay open until each has its reply. If others have seats already, as a gateway
has that greets again before this tool asks, these seats count as answered: the system lists the connections that the service has
taken. With --process the wait is over as soon as the service's process is.
"""

import math
import os
import select
import socket
import time
from contextlib import ExitStack
from typing import NoReturn

from .address import Address, named_address
from .ending import Stop, run
from .taken import taken_by_others
from .words import Once, Words

MOST_SEATS = 64
LEAST_WAIT = 0.1
MOST_PROCESSES = 1 << 22
"""The system's processes have lesser numbers."""
LONGEST_TRY = 1.0
"""Seconds for which one connection is asked for, if a process is watched meanwhile."""


def seconds_of(text: str) -> float:
    seconds = float(text)
    if not (math.isfinite(seconds) and 0 <= seconds <= 1_000_000):
        raise ValueError(text)
    return seconds


def seats_of(text: str) -> int:
    if not (text.isascii() and text.isdigit() and not text.startswith("0") and int(text) <= MOST_SEATS):
        raise ValueError(text)
    return int(text)


class Watched:
    """The process of a service, whose end is seen even if nobody has asked for its status yet."""

    def __init__(self, number: int) -> None:
        try:
            self.place: int | None = os.pidfd_open(number)
        except ProcessLookupError:
            self.place = None

    def has_ended(self) -> bool:
        return self.place is None or select.select([self.place], [], [], 0)[0] != []


def process_of(text: str) -> Watched:
    """The process of a number. If the number is missing, the process has ended: systemd has none then."""
    if not text:
        return Watched(MOST_PROCESSES)
    if not (text.isascii() and text.isdigit() and not text.startswith("0") and int(text) < MOST_PROCESSES):
        raise ValueError(text)
    return Watched(int(text))


def left(end: float) -> float:
    return max(end - time.monotonic(), LEAST_WAIT)


def connect(address: Address, end: float) -> socket.socket:
    connection = socket.create_connection(address, left(end))
    # where nobody listens, a port that the system hands out may be connected to itself
    if connection.getsockname() == connection.getpeername():
        connection.close()
        raise ConnectionRefusedError
    return connection


def is_answered(connection: socket.socket, end: float) -> bool:
    """Whether a line comes in time."""
    reply = b""
    try:
        while not reply.endswith(b"\n"):
            connection.settimeout(left(end))
            piece = connection.recv(64)
            if not piece:
                return False
            reply += piece
    except OSError:
        return False
    return True


def is_taken(address: Address, end: float) -> bool:
    """Whether the address takes a connection in time."""
    try:
        connect(address, end).close()
    except (OSError, ValueError):
        return False
    return True


class Seats:
    """Connections that were asked at once, those that are answered, and those that failed."""

    def __init__(self, connections: list[socket.socket]) -> None:
        self.waiting = connections
        self.own = {connection.getsockname()[1] for connection in connections}
        self.peer = connections[0].getpeername()
        self.answered = 0

    @property
    def others(self) -> int:
        return taken_by_others(self.peer[0], self.peer[1], self.own)

    def take(self, end: float) -> None:
        """Takes the replies that are there, or come within a moment."""
        ready, _, _ = select.select(self.waiting, [], [], LEAST_WAIT)
        self.answered += sum([is_answered(connection, end) for connection in ready])
        self.waiting = [connection for connection in self.waiting if connection not in ready]


def lack_of_seats(address: Address, seats: int, end: float) -> str:
    """A line if not all of these connections, open at once, are answered in time; nothing if all are, or others have the rest."""
    with ExitStack() as opened:
        try:
            connections = [opened.enter_context(connect(address, end)) for _ in range(seats)]
            for connection in connections:
                connection.sendall(b"\n")
            asked = Seats(connections)
        except (OSError, ValueError):
            return f"0 of {seats} answered"
        while asked.answered + (others := asked.others) < seats:
            if not asked.waiting or time.monotonic() >= end:
                return f"{asked.answered} of {seats} answered" + (f", and others have {others}" if others else "")
            asked.take(end)
    return ""


def words() -> Words:
    parser = Words(
        "compress-wait-ready",
        "Ends with 0 once a service takes a connection, or with 1 where none was taken in time. Without --seats it sends nothing.",
    )
    seats = "send an empty line over each of N connections at once, and end once each is answered or others have the rest of the N seats, "
    seats += "or report how many were answered; 1 to 64"
    parser.add_argument("--seats", metavar="N", type=seats_of, default=0, help=seats)
    process = "end with 1 as soon as the process of this number has ended, as the service's own"
    parser.add_argument("--process", metavar="NUMBER", action=Once, type=process_of, help=process)
    parser.add_argument("address", metavar="HOST:PORT", type=named_address, help="where the service listens")
    seconds = "how long to wait; 10 where it is absent"
    parser.add_argument("seconds", metavar="SECONDS", type=seconds_of, nargs="?", default=10.0, help=seconds)
    return parser


def wait(address: Address, end: float, process: Watched | None) -> bool:
    """Whether the address takes a connection in time; stops if the process ends first."""
    while True:
        if process is not None and process.has_ended():
            raise Stop(1, "the service ended before it took a connection: its own line and status say why")
        soon = end if process is None else min(end, time.monotonic() + LONGEST_TRY)
        if is_taken(address, soon):
            return True
        if time.monotonic() >= end:
            return False
        time.sleep(0.05)


def main(line: list[str]) -> int:
    asked = words().parse_args(line)
    end = time.monotonic() + asked.seconds
    if not wait(asked.address, end, asked.process):
        return 1
    lack = lack_of_seats(asked.address, asked.seats, end) if asked.seats else ""
    if lack:
        print(lack)
    return 1 if lack else 0


def command() -> NoReturn:
    run(main)
