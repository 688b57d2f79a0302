"""Connections that are held side by side for a while, each with a session of random lines, and what was lost or mixed.

Each line has one reply, in order, whose words tell whose line it is: a trade's amount is no other connection's, and its
record has to stand at the position that its reply told, under a seat that is this connection's alone.
"""

import random
import re
import socket
import threading
import time
from io import BufferedRWPair
from typing import NamedTuple

from running import PATIENCE
from serving import Kept

MEMBERS = "ABC"
MOST_TRADES = 100_000
NUMBER = r"(\d+)"


class Line(NamedTuple):
    """A line, and the form of its reply, whose first number is the position."""

    text: str
    reply: str


class Holder:
    """A connection, its speaker, and what it was told: the trade at each position, and how many replies came."""

    def __init__(self, place: int, connections: int) -> None:
        self.place, self.connections = place, connections
        self.speaker, self.other = MEMBERS[place % 3], MEMBERS[(place + 1) % 3]
        self.chance = random.Random(place)
        self.trades: dict[int, str] = {}
        self.position = self.count = 0
        self.fault = ""

    def line(self) -> Line:
        """The next line. No trade is affirmed, so that each net is 0."""
        kind = self.chance.randrange(8)
        if not self.trades or (kind == 0 and len(self.trades) < MOST_TRADES // self.connections - 16):
            amount = 1 + self.place + self.connections * self.chance.randrange(10**9)
            return Line(f"TRADE {self.speaker} {self.other} P {amount} 2026-03-02", rf"ok {NUMBER} trade \d+")
        if kind < 3:
            return Line(f"HELLO {self.speaker} K{self.speaker}", f"ok {NUMBER} hello {self.speaker}")
        if kind < 5:
            size = 1 + self.place % 16
            return Line(f"NETS {'P' * size} X", f"no {NUMBER} 3 bad-line {6 + size}")
        return Line("NETS P", f"ok {NUMBER} nets 0 0 0")

    def ask(self, file: BufferedRWPair, lines: list[Line]) -> None:
        """Sends lines in two pieces, which meet anywhere, and judges their replies."""
        text = "".join(line.text + "\n" for line in lines).encode()
        cut = self.chance.randrange(len(text))
        for piece in (text[:cut], text[cut:]):
            file.write(piece)
            file.flush()
        for line in lines:
            reply = file.readline().decode()
            found = re.fullmatch(line.reply + "\n", reply)
            if found is None or int(found[1]) < self.position:
                raise ValueError(f"{self.speaker}: {line.text}: {reply!r} at {self.position}")
            self.position = int(found[1])
            self.count += 1
            if line.text.startswith("TRADE"):
                self.trades[self.position] = line.text

    def hold(self, port: int, greeted: threading.Barrier, seconds: float, pause: float) -> None:
        """One session, which begins when all have greeted, with pauses of at most so many seconds, and has a trade at least."""
        try:
            with socket.create_connection(("127.0.0.1", port), PATIENCE) as connection:
                file = connection.makefile("rwb")
                self.ask(file, [Line(f"HELLO {self.speaker} K{self.speaker}", f"ok {NUMBER} hello {self.speaker}")])
                greeted.wait(PATIENCE)
                end = time.monotonic() + seconds
                while time.monotonic() < end or not self.trades:
                    self.ask(file, [self.line() for _ in range(self.chance.randint(1, 16))])
                    time.sleep(self.chance.uniform(0, pause))
                self.ask(file, [Line("BYE", f"ok {NUMBER} bye")])
                if file.readline() != b"":
                    raise ValueError(f"{self.speaker}: something behind the BYE")
        except (OSError, ValueError, threading.BrokenBarrierError) as fault:
            self.fault = str(fault) or type(fault).__name__


def held(port: int, connections: int, seconds: float, pause: float = 0.1) -> list[Holder]:
    """Holds so many connections for these seconds; what became of each."""
    holders = [Holder(place, connections) for place in range(connections)]
    greeted = threading.Barrier(connections)
    threads = [threading.Thread(target=holder.hold, args=(port, greeted, seconds, pause)) for holder in holders]
    for thread in threads:
        thread.start()
    for thread in threads:
        thread.join()
    return holders


def faults_of(holders: list[Holder], records: list[Kept]) -> list[str]:
    """What was lost or mixed: the faults of connections, trades whose records are others, records that nobody was told of,
    and seats that are not one connection's."""
    faults = [holder.fault for holder in holders if holder.fault]
    seats: dict[int, int] = {}
    for holder in holders:
        for position, line in holder.trades.items():
            kept = records[position - 1] if position <= len(records) else None
            if kept is None or (kept.party, kept.line) != (holder.speaker, line):
                faults.append(f"{line} is told at {position}, where {kept} stands")
            elif seats.setdefault(kept.seat, holder.place) != holder.place:
                faults.append(f"seat {kept.seat} is that of two connections")
    told = sum(len(holder.trades) for holder in holders)
    if told != len(records):
        faults.append(f"{told} trades were told, and {len(records)} records stand")
    if len(seats) != sum(bool(holder.trades) for holder in holders):
        faults.append("a connection has two seats")
    return faults
