"""A `serve` of the program that was built, for the tests."""

import os
import random
import re
import signal
import socket
import subprocess
import sys
import tempfile
import unittest
from pathlib import Path
from typing import Callable, NamedTuple, Sequence

from running import EXAMPLES, PATIENCE, TOOLS, Ran, program, run

sys.path.insert(0, str(TOOLS))

from delkwoan.session import Session

ROSTER = EXAMPLES / "roster.csv"
PORTS_OF_CLIENTS = Path("/proc/sys/net/ipv4/ip_local_port_range")
LEAST_PORT = 16_384
"""Above the ports that services have names for."""
TRIES = 100


def has_serve(built: Path) -> bool:
    return run([built, "serve", "/none", "/none", "127.0.0.1:0"]).status != 2


def serving_program() -> Path:
    """The program; where it has no form `serve`, skips."""
    built = program()
    if not has_serve(built):
        raise unittest.SkipTest("the program has no serve")
    return built


def free_port() -> int:
    """A port that is free, and that the system hands out to no client where there are such: so who is started again gets it again."""
    first, last = map(int, PORTS_OF_CLIENTS.read_text().split())
    ports = [*range(LEAST_PORT, first), *range(last + 1, 1 << 16)]
    for port in [*random.sample(ports, min(len(ports), TRIES)), 0]:
        with socket.socket() as unbound:
            try:
                unbound.bind(("127.0.0.1", port))
            except OSError:
                continue
            found: int = unbound.getsockname()[1]
            return found
    raise AssertionError("no port is free")


def started(words: Sequence[str | Path], settings: dict[str, str] | None = None, limit: Callable[[], None] | None = None) -> subprocess.Popen[bytes]:
    """A program that is started without input, with these settings, and below a limit."""
    pipe = subprocess.PIPE
    return subprocess.Popen(words, stdin=subprocess.DEVNULL, stdout=pipe, stderr=pipe, env=settings, preexec_fn=limit)


class Kept(NamedTuple):
    """A record of a journal: the seat, who spoke, and the line of the change."""

    seat: int
    party: str
    line: str


def kept_by(told: bytes) -> list[Kept]:
    """The records that the inspector told."""
    found = re.findall(r"^\d+ record \d+, \d+ bytes: (?:\S+ \S+ UTC, )?seat (\d+), (\S+): (.*)$", told.decode(), re.MULTILINE)
    return [Kept(int(seat), party, line) for seat, party, line in found]


def trades_by(told: bytes) -> list[str]:
    """The TRADE line of each trade that members alleged, in the order of the numbers, by what the inspector told: a fold has taken
    the first ones into the base, and the others have records."""
    folded = re.findall(r"^  trade \d+ (\S+ \S+ \S+ \d+ \S+) ", told.decode(), re.MULTILINE)
    return [f"TRADE {terms}" for terms in folded] + [kept.line for kept in kept_by(told) if kept.line.startswith("TRADE ")]


class InService(unittest.TestCase):
    """Tests with a folder of their own, and a service in it from `start` on, which ends with the test."""

    program: str | Path

    @classmethod
    def setUpClass(cls) -> None:
        cls.program = serving_program()

    def setUp(self) -> None:
        folder = tempfile.TemporaryDirectory()
        self.addCleanup(folder.cleanup)
        self.folder = Path(folder.name)
        self.journal = self.folder / "journal"
        self.port = free_port()
        self.service: subprocess.Popen[bytes] | None = None
        self.addCleanup(self.kill)

    @property
    def address(self) -> str:
        return f"127.0.0.1:{self.port}"

    def words(self, journal: Path | None = None) -> list[str | Path]:
        return [self.program, "serve", ROSTER, journal or self.journal, self.address]

    def start(self, *options: str) -> None:
        """Starts a service over the journal, and waits until it takes connections."""
        self.service = started([*self.words(), *options])
        self.assertEqual(run([TOOLS / "wait-ready", self.address, str(PATIENCE)]), Ran(0, b"", b""))

    def session(self, name: str = "") -> Session:
        """A session with the service, greeted by this name."""
        session = Session.connect("127.0.0.1", self.port, PATIENCE)
        self.addCleanup(session.close)
        if name:
            session.hello(name, "KO" if name == "OPS" else f"K{name}")
        return session

    def inspected(self, journal: Path | None = None) -> bytes:
        """What the inspector tells of the journal."""
        told = run([TOOLS / "journal", journal or self.journal])
        self.assertEqual((told.status, told.errors), (0, b""))
        return told.output

    def records(self, journal: Path | None = None) -> list[Kept]:
        """The journal's records after its base, by the inspector."""
        return kept_by(self.inspected(journal))

    def hold(self) -> None:
        """Stops the service where it is, and waits until it has stopped: only then does it surely read no more."""
        assert self.service is not None
        self.service.send_signal(signal.SIGSTOP)
        pid, state = os.waitpid(self.service.pid, os.WUNTRACED)
        self.assertTrue(pid == self.service.pid and os.WIFSTOPPED(state), state)

    def kill(self) -> None:
        if self.service is not None:
            self.service.kill()
            self.service.communicate()
            self.service = None

    def client(self, *words: str | Path, input: bytes = b"") -> Ran:
        environ = {**os.environ, "COMPRESS_CLI": str(self.program)}
        done = subprocess.run([TOOLS / "client", *words], input=input, capture_output=True, env=environ, timeout=PATIENCE)
        return Ran(done.returncode, done.stdout, done.stderr)
