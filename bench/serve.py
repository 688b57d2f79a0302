#!/usr/bin/env python3
"""Measures `PROGRAM serve` on the loopback by bench/serve_load.c, which it compiles by `cc -O2`.

By itself it measures one program beside bench/echo_server.c. Server and peer take turns, each run over a server and a journal of
its own on the tmpfs /dev/shm; it writes the medians as rows of a table: lines a second of the service and of the peer, their ratio,
and the service's processor time for a line.

By --changes it measures what a change costs, of one program or of several in turns, over journals in a folder: it writes the medians
of changes a second, of voluntary switches and of microseconds of processor time for a change, and of the times to a reply.

By --held nothing is measured: connections are held at as many seats, each with a session of random lines, with pauses or, by --busy,
without, and what was lost or mixed is told (tools/tests/holding.py); the status is then 1.
"""

import argparse
import os
import signal
import socket
import statistics
import subprocess
import sys
import tempfile
import time
from pathlib import Path
from typing import NamedTuple

BENCH = Path(__file__).resolve().parent
TOOLS = BENCH.parent / "tools"
sys.path[:0] = [str(TOOLS / "tests"), str(TOOLS)]
sys.dont_write_bytecode = True

from holding import faults_of, held
from serving import ROSTER, free_port, kept_by

NETS, TRADE, SETTING = "NETS P", "TRADE A B P 1 2026-03-02", "TOL B P in 2 -"


class Case(NamedTuple):
    """How many connections send how many lines each, and how many of them ahead; there are as many seats, or four. Where there are
    seconds, they are the most, and a file gets the times to the replies."""

    name: str
    connections: int
    lines: int
    ahead: int
    line: str
    is_kept: bool = False
    seconds: float = 0
    times: Path | None = None

    def words(self, port: int) -> list[str | Path]:
        """The words of the load client."""
        most: list[str | Path] = [str(self.seconds), self.times] if self.times else []
        return [*map(str, (port, self.connections, self.lines, self.ahead)), self.line, *most]


CASES = [
    Case("NETS, 1 connection", 1, 40_000, 1, NETS),
    Case("NETS, 4 connections", 4, 20_000, 1, NETS),
    Case("NETS, 16 connections", 16, 10_000, 1, NETS),
    Case("NETS, 64 connections", 64, 2_500, 1, NETS),
    Case("NETS, 1 connection, 16 ahead", 1, 320_000, 16, NETS),
    Case("NETS, 16 connections, 16 ahead", 16, 4_000, 16, NETS),
    Case("TRADE, 1 connection", 1, 40_000, 1, TRADE, True),
    Case("TRADE, 16 connections", 16, 2_000, 1, TRADE, True),
]


class Cost(NamedTuple):
    """Lines a second, the voluntary switches and microseconds of processor time that one takes the server, and the microseconds to a
    reply: the median, the 99th of a hundred, and the most."""

    lines: float
    switches: float
    processor: float
    median: float
    late: float
    latest: float

    @staticmethod
    def median_of(costs: list["Cost"]) -> "Cost":
        return Cost(*[float(statistics.median(numbers)) for numbers in zip(*costs)])


class Used(NamedTuple):
    """What a process has used: voluntary switches of its threads, and nanoseconds of processor time."""

    switches: int
    processor: int

    @staticmethod
    def by(process: int) -> "Used":
        tasks = [used for task in Path(f"/proc/{process}/task").iterdir() if (used := Used.of_task(task))]
        return Used(sum(used.switches for used in tasks), sum(used.processor for used in tasks))

    @staticmethod
    def of_task(task: Path) -> "Used | None":
        """What a thread has used; nothing, where it has ended meanwhile, as one of the echo server's."""
        try:
            switches = [text for text in (task / "status").read_text().split("\n") if text.startswith("voluntary")]
            return Used(int(switches[0].split()[1]), int((task / "schedstat").read_text().split()[0]))
        except (FileNotFoundError, ProcessLookupError):
            return None


def wait_for(port: int) -> None:
    for _ in range(1000):
        try:
            socket.create_connection(("127.0.0.1", port)).close()
            return
        except OSError:
            time.sleep(0.01)
    sys.exit(f"nothing listens at {port}")


def service(program: str, journal: Path, port: int, seats: int) -> list[str | Path]:
    """The words that start a service; a program may be words, as `chrt -f 10 compress_cli`."""
    return [*program.split(), "serve", ROSTER, journal, f"127.0.0.1:{port}", "--seats", str(seats)]


def run(load: Path, case: Case, words: list[str | Path], port: int) -> Cost:
    server = subprocess.Popen(words, stdin=subprocess.DEVNULL)
    try:
        wait_for(port)
        before = Used.by(server.pid)
        told = subprocess.run([load, *case.words(port)], check=True, capture_output=True).stdout
        after = Used.by(server.pid)
        seconds, count, *times = map(float, told.split())
        return Cost(count / seconds, (after.switches - before.switches) / count, (after.processor - before.processor) / count / 1e3, *times)
    finally:
        server.kill()
        server.wait()


def served(load: Path, case: Case, program: str, folder: Path) -> Cost:
    """The cost of a service's lines, over a journal that is then removed."""
    port, journal = free_port(), folder / "journal"
    try:
        return run(load, case, service(program, journal, port, max(4, case.connections)), port)
    finally:
        journal.unlink(missing_ok=True)


def compiled(folder: Path, *sources: str) -> None:
    for source in sources:
        subprocess.run(["cc", "-O2", "-pthread", BENCH / f"{source}.c", "-o", folder / source], check=True)


def compare(program: str, folder: Path, case: Case, turns: int) -> tuple[float, str]:
    """The service's lines a second, and the row of the table."""
    costs, echoed = [], []
    for _ in range(turns):
        costs.append(served(folder / "serve_load", case, program, folder))
        port = free_port()
        kept = [folder / "calls"] if case.is_kept else []
        echoed.append(run(folder / "serve_load", case, [folder / "echo_server", str(port), *kept], port))
    one, other = Cost.median_of(costs), Cost.median_of(echoed)
    return one.lines, f"| {case.name} | {one.lines:,.0f} | {other.lines:,.0f} | {one.lines / other.lines:.2f} | {one.processor:.1f} |"


def compare_all(program: str, turns: int) -> None:
    """The rows of the table, and what stands below it."""
    with tempfile.TemporaryDirectory(dir="/dev/shm") as name:
        folder = Path(name)
        compiled(folder, "serve_load", "echo_server")
        print(f"load {os.getloadavg()[0]:.1f} on {os.cpu_count()} processors, {turns} turns")
        speeds = {}
        for case in CASES:
            speeds[case.connections, case.ahead, case.line], row = compare(program, folder, case, turns)
            print(row, flush=True)
        print(f"16 ahead are {speeds[1, 16, NETS] / speeds[1, 1, NETS]:.1f} times one by one")
        calls: list[str | Path] = [folder / "echo_server", "0", folder / "calls", "100000"]
        seconds = float(subprocess.run(calls, check=True, capture_output=True).stdout)
        print(f"the four calls alone: {100_000 / seconds:,.0f} a second; load {os.getloadavg()[0]:.1f}")


def changes(programs: list[str], journals: Path, counts: list[int], lines: int, turns: int, line: str) -> None:
    """What a change costs, of programs in turns: a row for each program and count of connections."""
    with tempfile.TemporaryDirectory(dir=journals) as name:
        folder = Path(name)
        compiled(folder, "serve_load")
        print(f"load {os.getloadavg()[0]:.1f} on {os.cpu_count()} processors, {turns} turns of {lines} lines {line!r} over {journals}")
        for connections in counts:
            case = Case("", connections, lines // connections, 1, line)
            costs: dict[str, list[Cost]] = {program: [] for program in programs}
            for turn in range(turns):
                for program in programs if turn % 2 == 0 else reversed(programs):
                    costs[program].append(served(folder / "serve_load", case, program, folder))
            for program in programs:
                cost = Cost.median_of(costs[program])
                rates = [each.lines for each in costs[program]]
                told = [f"{cost.lines:,.0f} ({min(rates):,.0f} to {max(rates):,.0f})", f"{cost.switches:.2f}", f"{cost.processor:.1f}"]
                told += [f"{time:,.0f}" for time in cost[3:]]
                print(f"| {connections} | {program} | {' | '.join(told)} |", flush=True)
        print(f"load {os.getloadavg()[0]:.1f}")


def hold(program: str, connections: int, seconds: float, is_busy: bool) -> int:
    """Holds connections at a service, and tells what was lost or mixed; the status."""
    with tempfile.TemporaryDirectory(dir="/dev/shm") as name:
        port, journal = free_port(), Path(name) / "journal"
        server = subprocess.Popen(service(program, journal, port, connections), stdin=subprocess.DEVNULL)
        try:
            wait_for(port)
            holders = held(port, connections, seconds, 0 if is_busy else 0.1)
        finally:
            server.kill()
            server.wait()
        told = subprocess.run([TOOLS / "journal", journal], check=True, capture_output=True).stdout
    faults = faults_of(holders, kept_by(told))
    for fault in faults:
        print(fault)
    lines, trades = sum(holder.count for holder in holders), sum(len(holder.trades) for holder in holders)
    print(f"{connections} connections for {seconds:g} seconds: {lines} lines, {trades} trades, {len(faults)} faults")
    return 1 if faults else 0


def parser() -> argparse.ArgumentParser:
    made = argparse.ArgumentParser(description=__doc__, formatter_class=argparse.RawDescriptionHelpFormatter)
    made.add_argument("programs", metavar="PROGRAM", nargs="+", help="a compress_cli; several by --changes alone")
    kinds = made.add_mutually_exclusive_group()
    kinds.add_argument("--changes", metavar="FOLDER", type=Path, help="measure changes over journals in this folder")
    kinds.add_argument("--held", action="store_true", help="hold connections")
    made.add_argument("--turns", metavar="COUNT", type=int, default=5, help="how often each is measured (5)")
    made.add_argument("--connections", metavar="COUNT", type=int, action="append", help="how many; by --changes often (1, 16, 64)")
    made.add_argument("--lines", metavar="COUNT", type=int, default=8_000, help="by --changes how many lines all connections send together (8000)")
    made.add_argument("--line", metavar="LINE", default=SETTING, help=f"by --changes which line they send ({SETTING!r})")
    made.add_argument("--seconds", metavar="COUNT", type=float, default=60, help="by --held for how long (60)")
    made.add_argument("--busy", action="store_true", help="by --held without pauses")
    return made


def main(words: list[str]) -> int:
    # So that a server ends with what started it.
    signal.signal(signal.SIGTERM, lambda number, _: sys.exit(128 + number))
    asked = parser().parse_args(words)
    if asked.changes:
        changes(asked.programs, asked.changes, asked.connections or [1, 16, 64], asked.lines, asked.turns, asked.line)
        return 0
    program, *others = asked.programs
    if others:
        parser().error("several programs are measured by --changes alone")
    if asked.held:
        return hold(program, (asked.connections or [64])[0], asked.seconds, asked.busy)
    compare_all(program, asked.turns)
    return 0


if __name__ == "__main__":
    sys.exit(main(sys.argv[1:]))
