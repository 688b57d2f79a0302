#!/usr/bin/env python3
"""Measures what changes cost that are made together, of `PROGRAM serve` and its peers, in turns over journals in a folder.

Each has the same seconds: a service or several; the four calls of a journal's change alone, and group commit in the journal's format
(bench/group_commit.c); Redis with `appendfsync always`, and PostgreSQL, where they are named. Each connection sends a TRADE, or
another record of some 60 bytes, and waits for its reply, or sends 16 ahead; 16 ahead are one transaction in PostgreSQL. It writes the
medians of changes a second, the median of what they are of the four calls in the same turn, and the milliseconds to a reply, over all
turns: half, 99 of a hundred, 999 of a thousand.

By --script it has the form `script` take so many TRADE lines and as many AFFIRM lines, of one program or of several in turns.
"""

import argparse
import array
import os
import re
import shutil
import signal
import statistics
import subprocess
import sys
import tempfile
import time
from pathlib import Path
from typing import Callable, NamedTuple

BENCH = Path(__file__).resolve().parent
TOOLS = BENCH.parent / "tools"
sys.path[:0] = [str(BENCH), str(TOOLS / "tests"), str(TOOLS)]
sys.dont_write_bytecode = True

from serve import TRADE, Case, compiled, run, served
from serving import ROSTER, free_port

RECORD = "x" * 55
MOST_LINES = 99_000
"""That all connections send together in one run: a journal takes 100,000 trades."""
REDIS = ["--appendonly", "yes", "--appendfsync", "always", "--save", "", "--auto-aof-rewrite-percentage", "0", "--bind", "127.0.0.1"]
POSTGRES = {"listen_addresses": "127.0.0.1", "autovacuum": "off", "checkpoint_timeout": "1h", "max_wal_size": "8GB", "max_connections": "100"}
NOBODY = 65_534


class Measured(NamedTuple):
    """Changes a second, and the microseconds to each reply."""

    changes: float
    times: "array.array[float]"


Peer = Callable[[Case], Measured]
Words = list[str | Path]


def times_of(file: Path) -> "array.array[float]":
    """The times that a load client wrote."""
    found = array.array("d")
    found.frombytes(file.read_bytes())
    return found


def of_server(tool: Path, case: Case, words: Words, port: int) -> Measured:
    assert case.times is not None
    return Measured(run(tool, case, words, port).lines, times_of(case.times))


def of_program(program: str, folder: Path) -> Peer:
    def measured(case: Case) -> Measured:
        assert case.times is not None
        return Measured(served(folder / "serve_load", case, program, folder).lines, times_of(case.times))

    return measured


def of_four_calls(folder: Path) -> Peer:
    def measured(case: Case) -> Measured:
        assert case.times is not None
        words: Words = [folder / "group_commit", "0", folder / "calls", str(case.seconds), case.times]
        seconds, count = map(float, subprocess.run(words, check=True, capture_output=True).stdout.split())
        return Measured(count / seconds, times_of(case.times))

    return measured


def of_group_commit(folder: Path) -> Peer:
    def measured(case: Case) -> Measured:
        port = free_port()
        return of_server(folder / "serve_load", case, [folder / "group_commit", str(port), folder / "calls"], port)

    return measured


def of_redis(program: Path, folder: Path) -> Peer:
    def measured(case: Case) -> Measured:
        port, kept = free_port(), folder / "redis"
        kept.mkdir()
        try:
            words: Words = [program, "--port", str(port), "--dir", kept, "--logfile", kept / "log", *REDIS]
            return of_server(folder / "serve_load", case._replace(line=f"RPUSH k {RECORD}"), words, port)
        finally:
            shutil.rmtree(kept)

    return measured


class Postgres:
    """A cluster of its own, which runs from the start to `close`; under root as nobody, since it takes no root."""

    def __init__(self, programs: Path, folder: Path) -> None:
        self.programs, self.folder, self.port = programs, folder, free_port()
        self.who = ["setpriv", f"--reuid={NOBODY}", f"--regid={NOBODY}", "--clear-groups"] if os.geteuid() == 0 else []
        data = folder / "postgres"
        data.mkdir()
        if self.who:
            folder.chmod(0o711)
            os.chown(data, NOBODY, NOBODY)
        made: Words = [*self.who, programs / "initdb", "-D", data, "-U", "postgres", "-A", "trust", "--no-locale", "--no-sync"]
        subprocess.run(made, check=True, capture_output=True, cwd=data)
        settings = {**POSTGRES, "port": str(self.port), "unix_socket_directories": str(data)}
        words: Words = [*self.who, programs / "postgres", "-D", data, *(f"--{name}={value}" for name, value in settings.items())]
        self.server = subprocess.Popen(words, stdin=subprocess.DEVNULL, stderr=subprocess.DEVNULL, cwd=data)
        self.reach = ["-h", "127.0.0.1", "-p", str(self.port), "-U", "postgres"]
        while subprocess.run([programs / "pg_isready", *self.reach], stdout=subprocess.DEVNULL, cwd=folder).returncode != 0:
            time.sleep(0.1)
        self.ask("CREATE TABLE changes (record text)")

    def ask(self, command: str) -> None:
        subprocess.run([self.programs / "psql", *self.reach, "-q", "-c", command], check=True, cwd=self.folder)

    def measured(self, case: Case) -> Measured:
        self.ask("TRUNCATE changes")
        script, logs = self.folder / "script.sql", self.folder / "pgbench"
        insert = f"INSERT INTO changes VALUES ('{RECORD}');\n"
        script.write_text(insert if case.ahead == 1 else f"\\startpipeline\nBEGIN;\n{insert * case.ahead}COMMIT;\n\\endpipeline\n")
        numbers = {"-c": case.connections, "-j": min(case.connections, 4), "-T": max(1, round(case.seconds))}
        words = ["-n", "-M", "prepared", *(word for name, number in numbers.items() for word in (name, str(number)))]
        bench: Words = [self.programs / "pgbench", *words, "-f", script, "-l", f"--log-prefix={logs}", *self.reach, "postgres"]
        told = subprocess.run(bench, check=True, capture_output=True, text=True, cwd=self.folder).stdout
        times = array.array("d")
        for log in self.folder.glob("pgbench.*"):
            times.extend(float(line.split()[2]) for line in log.read_text().splitlines())
            log.unlink()
        rate = re.search(r"tps = ([\d.]+)", told)
        return Measured(case.ahead * float(rate[1]) if rate else 0, times)

    def close(self) -> None:
        self.server.send_signal(signal.SIGINT)
        self.server.wait()


def rank(times: list[float], of: int) -> float:
    """Milliseconds below which all but one of so many lie; none, where nothing was told."""
    return times[len(times) * (of - 1) // of] / 1e3 if times else float("nan")


def row(name: str, case: Case, runs: list[Measured], beside: list[Measured]) -> str:
    """The row of a table, of runs, and the four calls' of the same turns."""
    rates = [one.changes for one in runs]
    times = sorted(time for one in runs for time in one.times)
    share = statistics.median(one.changes / other.changes for one, other in zip(runs, beside))
    told = [f"{statistics.median(rates):,.0f} ({min(rates):,.0f} to {max(rates):,.0f})", f"{share:.2f}"]
    told += [f"{rank(times, of):,.2f}" for of in (2, 100, 1000)]
    return f"| {case.connections} | {case.ahead} | {name} | {' | '.join(told)} |"


def measure(peers: dict[str, Peer], case: Case, turns: int) -> None:
    """Has the peers take turns, in an order that each turn begins one further, and writes a row for each."""
    runs: dict[str, list[Measured]] = {name: [] for name in peers}
    names = list(peers)
    for turn in range(turns):
        for name in names[turn % len(names) :] + names[: turn % len(names)]:
            runs[name].append(peers[name](case))
    for name in names:
        print(row(name, case, runs[name], runs["the four calls"]), flush=True)


def compare(asked: argparse.Namespace, parent: Path) -> None:
    with tempfile.TemporaryDirectory(dir=parent) as name:
        folder = Path(name)
        compiled(folder, "serve_load", "group_commit")
        peers = {program: of_program(program, folder) for program in asked.programs}
        peers |= {"the four calls": of_four_calls(folder), "group commit in C": of_group_commit(folder)}
        if asked.redis:
            peers["Redis"] = of_redis(asked.redis, folder)
        postgres = Postgres(asked.postgres, folder) if asked.postgres else None
        if postgres:
            peers["PostgreSQL"] = postgres.measured
        print(f"load {os.getloadavg()[0]:.1f} on {os.cpu_count()} processors, {asked.turns} turns of {asked.seconds:g} s over {parent}")
        try:
            for ahead in asked.ahead or [1, 16]:
                for connections in asked.connections or [1, 4, 16, 64]:
                    lines = MOST_LINES // connections
                    measure(peers, Case("", connections, lines, ahead, TRADE, False, asked.seconds, folder / "times"), asked.turns)
        finally:
            if postgres:
                postgres.close()
        print(f"load {os.getloadavg()[0]:.1f}")


def scripted(program: str, session: Path, folder: Path) -> float:
    """The seconds of a script."""
    journal = folder / "journal"
    with session.open("rb") as lines:
        begun = time.monotonic()
        subprocess.run([*program.split(), "script", ROSTER, journal], stdin=lines, stdout=subprocess.DEVNULL, check=True)
        taken = time.monotonic() - begun
    journal.unlink()
    return taken


def compare_scripts(asked: argparse.Namespace, parent: Path) -> None:
    with tempfile.TemporaryDirectory(dir=parent) as name:
        folder = Path(name)
        session = folder / "session"
        affirms = "".join(f"AFFIRM {number}\n" for number in range(1, asked.script + 1))
        session.write_text("HELLO A KA\n" + asked.script * f"{TRADE}\n" + "HELLO B KB\n" + affirms)
        print(f"load {os.getloadavg()[0]:.1f}, {asked.turns} turns of {asked.script} TRADE and AFFIRM lines each over {parent}")
        taken: dict[str, list[float]] = {program: [] for program in asked.programs}
        for turn in range(asked.turns):
            for program in asked.programs if turn % 2 == 0 else reversed(asked.programs):
                taken[program].append(scripted(program, session, folder))
        for program, seconds in taken.items():
            changes = 2 * asked.script / statistics.median(seconds)
            print(f"| {program} | {statistics.median(seconds):,.2f} ({min(seconds):,.2f} to {max(seconds):,.2f}) | {changes:,.0f} |", flush=True)


def parser() -> argparse.ArgumentParser:
    made = argparse.ArgumentParser(description=__doc__, formatter_class=argparse.RawDescriptionHelpFormatter)
    made.add_argument("programs", metavar="PROGRAM", nargs="+", help="a compress_cli")
    made.add_argument("--folder", type=Path, action="append", help="where the journals are; often (/tmp, /dev/shm)")
    made.add_argument("--redis", metavar="PROGRAM", type=Path, help="a redis-server")
    made.add_argument("--postgres", metavar="FOLDER", type=Path, help="where postgres, initdb, psql, pg_isready and pgbench are")
    made.add_argument("--turns", metavar="COUNT", type=int, default=5, help="how often each is measured (5)")
    made.add_argument("--seconds", metavar="COUNT", type=float, default=1, help="for how long (1)")
    made.add_argument("--connections", metavar="COUNT", type=int, action="append", help="how many; often (1, 4, 16, 64)")
    made.add_argument("--ahead", metavar="COUNT", type=int, action="append", help="how many lines ahead; often (1, 16)")
    made.add_argument("--script", metavar="COUNT", type=int, help="measure the form `script`")
    return made


def main(words: list[str]) -> int:
    # So that a server ends with what started it.
    signal.signal(signal.SIGTERM, lambda number, _: sys.exit(128 + number))
    asked = parser().parse_args(words)
    for parent in asked.folder or [Path("/tmp"), Path("/dev/shm")]:
        (compare_scripts if asked.script else compare)(asked, parent)
    return 0


if __name__ == "__main__":
    sys.exit(main(sys.argv[1:]))
