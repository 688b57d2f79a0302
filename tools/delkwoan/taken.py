"""The connections that a service on this machine has taken, as the system lists them.

A connection that waits for a seat is open too, but belongs to no process yet: the system lists it without a file. Of a service on
another machine nothing is listed.
"""

import socket
import sys
from pathlib import Path
from typing import Iterator, NamedTuple

TABLES = [Path("/proc/self/net/tcp"), Path("/proc/self/net/tcp6")]
ESTABLISHED, LISTENS = "01", "0A"


class Row(NamedTuple):
    """A socket of this machine: its address and port, the other side's port, its state, and the number of its file."""

    address: str
    port: int
    far_port: int
    state: str
    file: int


def rows() -> Iterator[Row]:
    """The sockets that the system lists."""
    for table in TABLES:
        try:
            lines = table.read_text().splitlines()[1:]
        except OSError:
            continue
        for line in lines:
            _, near, far, state, _, _, _, _, _, file, *_ = line.split()
            address, port = near.split(":")
            yield Row(address, int(port, 16), int(far.split(":")[1], 16), state, int(file))


def listed(host: str) -> str:
    """A numeric address as the system lists it: each four bytes as a number of this machine."""
    family = socket.AF_INET6 if ":" in host else socket.AF_INET
    packed = socket.inet_pton(family, host.partition("%")[0])
    words = [packed[at : at + 4] for at in range(0, len(packed), 4)]
    return "".join(f"{int.from_bytes(word, sys.byteorder):08X}" for word in words)


def taken_by_others(host: str, port: int, own: set[int]) -> int:
    """How many connections the service at an address has taken, but for those from our own ports.

    If the service listens at this very address, another one may listen at the same port of another address.
    """
    found = [row for row in rows() if row.port == port]
    here = {row.address for row in found if row.state == LISTENS} & {listed(host)}
    taken = [row for row in found if row.state == ESTABLISHED and row.file != 0 and row.far_port not in own]
    return len([row for row in taken if not here or row.address in here])
