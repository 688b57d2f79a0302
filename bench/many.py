#!/usr/bin/env python3
"""Writes the trades of many products, and measures compress_many over them.

    many.py write FILE PRODUCTS [MEMBERS TRADES]
    many.py measure PROGRAM FILE FOLDER WORKERS [kill]
    many.py dask PROGRAM FILE WORKERS

`write` draws 64 products of MEMBERS (16) members, with TRADES (60) trades each, and writes them again and again, with other names, until
there are PRODUCTS: each 64 are one market. `measure` runs the tool with so many workers, and by `kill` kills a worker each second, five
in all; then it does alone what the run did: reading and cutting, writing, and for the first 20 markets their files, solving and both
checks. It tells the processor seconds of each and, as what is left of the run's own, those of Dask and of starting processes. `dask` has
the markets solved by workers that are there already, and nothing else, and tells what that takes beside solving 20 without Dask.
"""

import os
import random
import resource
import subprocess
import sys
import threading
import time
from contextlib import ExitStack
from pathlib import Path
from typing import Callable, Iterator

SAMPLE = 20
ROOT = Path(__file__).resolve().parents[1]
sys.path.insert(0, str(ROOT / "tools"))
sys.dont_write_bytecode = True

from delkwoan.checker import MOST_PRODUCTS
from delkwoan.many import command
from delkwoan.many.folder import Folder
from delkwoan.many.markets import Market, markets_of
from delkwoan.many.pieces import Cutter
from delkwoan.many.processes import connected
from delkwoan.many.trades import Trades, read_trades
from delkwoan.many.verdicts import Question, program_check, second_checker
from delkwoan.many.workers import Job, solve


def write(file: str, products: int, members: int = 16, trades: int = 60) -> None:
    with open(file, "w") as text:
        text.write("day,product,seller,buyer,amount\n")
        for product in range(products):
            draw = random.Random(product % MOST_PRODUCTS)
            group = [f"Member {product // MOST_PRODUCTS} {place}" for place in range(members)]
            for _ in range(trades):
                seller, buyer = draw.sample(group, 2)
                text.write(f"2026-01-01,Product {product:06},{seller},{buyer},{int(1000 * draw.paretovariate(1.5))}\n")


def seconds(who: int) -> float:
    used = resource.getrusage(who)
    return used.ru_utime + used.ru_stime


def taken(act: Callable[[], object]) -> float:
    """The processor seconds that an act takes, with those of the processes that it starts."""
    start = seconds(resource.RUSAGE_SELF) + seconds(resource.RUSAGE_CHILDREN)
    act()
    return seconds(resource.RUSAGE_SELF) + seconds(resource.RUSAGE_CHILDREN) - start


def children(parent: int) -> Iterator[tuple[int, bytes]]:
    """The processes below one, each with its command line."""
    for name in os.listdir("/proc"):
        try:
            if name.isdecimal() and int(Path(f"/proc/{name}/stat").read_text().rsplit(")", 1)[1].split()[1]) == parent:
                yield int(name), Path(f"/proc/{name}/cmdline").read_bytes()
        except OSError:
            continue


def solving(parent: int) -> list[int]:
    """The processes below one that have a `solve` below them: the workers that are at work."""
    return [pid for pid, _ in children(parent) if any(b"\0solve\0" in line for _, line in children(pid))]


def kill_workers(parent: int, killed: list[int]) -> None:
    """Kills a worker each second, five at the most."""
    while len(killed) < 5 and os.path.exists(f"/proc/{parent}"):
        time.sleep(1)
        for pid in solving(parent)[:1]:
            os.kill(pid, 9)
            killed.append(pid)


def ran(words: list[str], is_killing: bool) -> tuple[float, float, int]:
    """The processor seconds and the seconds of a run, and how many workers were killed in it."""
    killed: list[int] = []

    def act() -> None:
        process = subprocess.Popen(words)
        if is_killing:
            threading.Thread(target=kill_workers, args=(process.pid, killed), daemon=True).start()
        if process.wait():
            sys.exit(f"status {process.returncode}")

    start = time.monotonic()
    used = taken(act)
    return used, time.monotonic() - start, len(killed)


def below(parent: int) -> float:
    """The processor seconds of the processes below one, with those that they have waited for."""
    used = 0.0
    for pid, _ in children(parent):
        fields = Path(f"/proc/{pid}/stat").read_text().rsplit(")", 1)[1].split()
        used += sum(map(int, fields[11:15])) / os.sysconf("SC_CLK_TCK") + below(pid)
    return used


def dask(program: str, file: str, workers: str) -> None:
    markets = list(markets_of(Cutter(read_trades(Path(file), None), None).pieces()))
    files = [(it.roster(), it.trades()) for it in markets]
    job = Job("hybrid", program)
    with ExitStack() as ending:
        client = connected(None, int(workers), ending)
        client.gather([client.submit(solve, job, *files[0], pure=False) for _ in range(4 * int(workers))])
        before, start = seconds(resource.RUSAGE_SELF) + below(os.getpid()), time.monotonic()
        client.gather([client.submit(solve, job, *it, pure=False) for it in files])
        used, clock = seconds(resource.RUSAGE_SELF) + below(os.getpid()) - before, time.monotonic() - start
    alone = taken(lambda: [solve(job, *it) for it in files[:SAMPLE]]) * len(files) / len(files[:SAMPLE])
    own = 1000 * (used - alone) / len(files)
    print(f"{len(files)} markets, {workers} workers, {clock:.1f} s: {1000 * alone / len(files):.1f} ms a market alone, {own:.1f} more by Dask")


def measure(program: str, file: str, place: str, workers: str, *how: str) -> None:
    words = [sys.executable, str(ROOT / "tools/compress_many"), "--workers", workers, "--program", program, file, place]
    whole, clock, killed = ran(words, "kill" in how)
    made: list[tuple[Trades, list[Market]]] = []

    def read() -> None:
        trades = read_trades(Path(file), None)
        made.append((trades, list(markets_of(Cutter(trades, None).pieces()))))

    parts = {"reading and cutting": taken(read)}
    trades, markets = made[0]
    files: list[tuple[bytes, bytes]] = []
    asked: list[Question] = []
    job = Job("hybrid", program)
    times = len(markets) / len(markets[:SAMPLE])
    parts["making the markets' files"] = times * taken(lambda: files.extend((it.roster(), it.trades()) for it in markets[:SAMPLE]))
    parts["solving"] = times * taken(lambda: asked.extend(Question(a, b, "hybrid", solve(job, a, b).proposal) for a, b in files))
    parts["check of the program"] = times * taken(lambda: [program_check(program, it) for it in asked])
    parts["second checker"] = times * taken(lambda: [second_checker(it) for it in asked])
    parts["writing the tables"] = taken(lambda: command.write_tables(Folder(Path(place)), markets, trades))
    print(f"{len(markets)} markets, {workers} workers, {killed} killed: {clock:.1f} s, {whole:.1f} processor seconds")
    for name, used in parts.items():
        print(f"  {name:26} {used:7.1f} s, {1000 * used / len(markets):7.1f} ms a market")
    rest = whole - sum(parts.values())
    print(f"  {'Dask and process starts':26} {rest:7.1f} s, {1000 * rest / len(markets):7.1f} ms a market")


if __name__ == "__main__":
    if sys.argv[1] == "write":
        write(sys.argv[2], *map(int, sys.argv[3:]))
    elif sys.argv[1] == "dask":
        dask(*sys.argv[2:])
    else:
        measure(*sys.argv[2:])
