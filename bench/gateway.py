#!/usr/bin/env python3
"""Measures a gateway in front of a service: many members call at a fixed rate in all, and each call's time counts from when it was due.

    gateway.py [--members N] [--rate N] [--seconds N] [--seats N] [--keys] PROGRAM

Of ten calls six are NETS, two TRADE, one a TOL and one a question for the cycle; by --keys each change has an Idempotency-Key.
It prints the rate that was reached, the times that half, 99 and 99.9 of a hundred calls took at most, how many were not answered by 200,
the processor time of the gateway and of the service for each call, and the gateway's memory at its most. The clients are two
processes beside.
"""

import argparse
import asyncio
import json
import multiprocessing
import os
import random
import re
import subprocess
import sys
import tempfile
import time
from pathlib import Path
from typing import NamedTuple

ROOT = Path(__file__).resolve().parents[1]
PROCESSES = 2
sys.path.insert(0, str(ROOT / "tools/tests"))

from serving import free_port


class Load(NamedTuple):
    """Which members call, where, how many calls a second in all, for how long, and whether with keys."""

    members: list[str]
    port: int
    rate: float
    seconds: float
    has_keys: bool


class Times(NamedTuple):
    """The seconds of each call, and the statuses other than 200."""

    seconds: list[float]
    faults: list[int]


class Client:
    """A member's connection, one call at a time."""

    def __init__(self, load: Load, name: str, names: list[str]) -> None:
        self.load, self.name = load, name
        self.others = [other for other in names if other != name]
        self.chance = random.Random(name)
        self.token = ""
        self.count = 0

    async def ask(self, method: str, path: str, body: object = None) -> tuple[int, bytes]:
        content = b"" if body is None else json.dumps(body).encode()
        head = f"{method} {path} HTTP/1.1\r\nHost: x\r\nAuthorization: Bearer {self.token}\r\nContent-Length: {len(content)}\r\n"
        head += "Content-Type: application/json\r\n" if content else ""
        if self.load.has_keys and method != "GET":
            self.count += 1
            head += f"Idempotency-Key: {self.count}\r\n"
        self.writer.write(head.encode() + b"\r\n" + content)
        told = await self.reader.readuntil(b"\r\n\r\n")
        found = re.search(rb"(?i)content-length: (\d+)", told)
        assert found is not None
        return int(told[9:12]), await self.reader.readexactly(int(found[1]))

    async def call(self) -> int:
        """The status of one call of the mix."""
        kind = self.chance.randrange(10)
        other = self.chance.choice(self.others)
        if kind < 6:
            return (await self.ask("GET", "/api/nets/P"))[0]
        if kind < 8:
            terms = {"seller": self.name, "buyer": other, "product": "P", "amount": self.chance.randint(1, 10**6), "day": "2026-03-02"}
            return (await self.ask("POST", "/api/trades", terms))[0]
        if kind == 8:
            return (await self.ask("PUT", f"/api/tolerances/{other}/P/out", {"floor": 0, "ceiling": None}))[0]
        return (await self.ask("GET", "/api/cycle"))[0]

    async def spend(self, times: Times, begin: float) -> None:
        self.reader, self.writer = await asyncio.open_connection("127.0.0.1", self.load.port)
        status, content = await self.ask("POST", "/api/session", {"name": self.name, "key": f"K{self.name}"})
        assert status == 201, content
        self.token = json.loads(content)["token"]
        pause = len(self.load.members) / self.load.rate
        due = begin + self.chance.random() * pause
        while due < begin + self.load.seconds:
            await asyncio.sleep(max(0, due - time.time()))
            status = await self.call()
            times.seconds.append(time.time() - due)
            if status != 200:
                times.faults.append(status)
            due += pause
        self.writer.close()


async def spend(load: Load, names: list[str], begin: float) -> Times:
    times = Times([], [])
    await asyncio.gather(*(Client(load, name, names).spend(times, begin) for name in load.members))
    return times


def client(load: Load, names: list[str], begin: float) -> Times:
    return asyncio.run(spend(load, names, begin))


def share(seconds: list[float], part: float) -> float:
    return seconds[min(int(len(seconds) * part), len(seconds) - 1)]


def processor(process: int) -> float:
    """The seconds of a processor that a process has had."""
    fields = Path(f"/proc/{process}/stat").read_text().rpartition(") ")[2].split()
    return (int(fields[11]) + int(fields[12])) / os.sysconf("SC_CLK_TCK")


def measure(load: Load, gateway: int, service: int) -> None:
    names = load.members
    before = processor(gateway), processor(service)
    begin = time.time() + 5
    loads = [load._replace(members=names[place::PROCESSES], rate=load.rate / PROCESSES) for place in range(PROCESSES)]
    with multiprocessing.Pool(PROCESSES) as pool:
        all_times = pool.starmap(client, [(it, names, begin) for it in loads])
    seconds = sorted(it for times in all_times for it in times.seconds)
    took = time.time() - begin
    faults = sum(len(times.faults) for times in all_times)
    told = [f"{part:.1%} {share(seconds, part) * 1000:.1f} ms" for part in (0.5, 0.99, 0.999)]
    memory = re.search(r"VmHWM:\s+(\d+)", Path(f"/proc/{gateway}/status").read_text())
    assert memory is not None
    each = [(processor(it) - was) / len(seconds) * 1000 for it, was in zip((gateway, service), before)]
    told.append(f"processor {each[0]:.2f} ms and {each[1]:.2f} ms a call")
    print(f"{len(seconds) / took:.0f} calls a second; {', '.join(told)}; {faults} not answered by 200; gateway {int(memory[1]) / 1024:.0f} MB")


def main() -> None:
    parser = argparse.ArgumentParser(description="Measures a gateway in front of a service.")
    for name, default in (("members", 200), ("rate", 500), ("seconds", 10), ("seats", 4)):
        parser.add_argument(f"--{name}", metavar="N", type=int, default=default)
    parser.add_argument("--keys", action="store_true")
    parser.add_argument("program", metavar="PROGRAM", type=Path)
    given = parser.parse_args()
    names = [f"M{place}" for place in range(given.members)]
    with tempfile.TemporaryDirectory() as folder:
        roster = Path(folder) / "roster.csv"
        rows = [f"{name},{'dealer' if place < 60 else 'customer'},K{name}" for place, name in enumerate(names)]
        roster.write_text("\n".join(["name,role,key", *rows, "OPS,operator,KO", "P,product,2031-06-30", ""]))
        ports = free_port(), free_port()
        service = subprocess.Popen([given.program, "serve", "--seats", str(given.seats + 1), roster, f"{folder}/journal", f"127.0.0.1:{ports[0]}"])
        words = ["--seats", str(given.seats), f"127.0.0.1:{ports[0]}", f"127.0.0.1:{ports[1]}", f"{folder}/calls"]
        gateway = subprocess.Popen(["/usr/bin/python3", ROOT / "tools/gateway", *words])
        try:
            subprocess.run([ROOT / "tools/wait-ready", f"127.0.0.1:{ports[1]}", "60"], check=True)
            measure(Load(names, ports[1], given.rate, given.seconds, given.keys), gateway.pid, service.pid)
        finally:
            for process in (gateway, service):
                process.kill()
                process.wait()


if __name__ == "__main__":
    main()
