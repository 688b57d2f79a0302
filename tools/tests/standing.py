"""A service with a standby that `tools/follow` keeps, for the tests."""

import os
import re
import signal
import subprocess
import sys
import time
import unittest
from pathlib import Path
from typing import Callable, NamedTuple

from running import PATIENCE, TOOLS, Ran, run
from serving import ROSTER, InService, serving_program, started

sys.path.insert(0, str(TOOLS))

from delkwoan.bases import base_of
from delkwoan.frames import MOST_BYTES, walk
from delkwoan.records import Kind, body_of

FOLLOW = TOOLS / "follow"


def following_program() -> Path:
    """The program; where it has no form `follow`, skips."""
    built = serving_program()
    if run([built, "follow", "/none", "/none", "OPS", "KO"]).status == 2:
        raise unittest.SkipTest("the program has no follow")
    return built


class Stored(NamedTuple):
    """What stands in a journal: the position of its base, and the records of the changes behind it, with their moments."""

    base: int
    records: list[bytes]

    @property
    def end(self) -> int:
        return self.base + len(self.records)

    def at(self, position: int) -> bytes:
        """The record behind a position."""
        return self.records[position - self.base]


def stored(journal: Path) -> Stored:
    """What stands in a journal, also in one that is being written or is not there."""
    try:
        found = walk(journal.read_bytes()[:MOST_BYTES])
    except FileNotFoundError:
        return Stored(0, [])
    spelled = found.lead.base if found.lead is not None else b""
    undated = {Kind.UNDATED: bytes(8), Kind.DATED: b""}
    records = [undated[kind] + record for _, record, kind in body_of(spelled, found.frames) if kind is not Kind.TURN]
    return Stored(base_of(spelled).position if spelled else 0, records)


class Told(NamedTuple):
    """What the file tells of how far a standby is behind."""

    own: int
    primary: int
    moment: int


def told_by(path: Path) -> Told | None:
    """What the file tells, which is whole whenever it is read; none where there is no file."""
    try:
        text = path.read_text()
    except FileNotFoundError:
        return None
    found = re.fullmatch(r"standby (\d+) primary (\d+) at (\d+)\n", text)
    if found is None:
        raise AssertionError(text)
    return Told(*map(int, found.groups()))


def outage(port: int, position: int) -> list[bytes]:
    """What is told of a connection that broke and was made again."""
    return [f"{what} 127.0.0.1 at {port}, position {position}\n".encode() for what in ("no connection to", "connected to")]


def children_of(process: int) -> list[int]:
    try:
        return [*map(int, Path(f"/proc/{process}/task/{process}/children").read_text().split())]
    except FileNotFoundError:
        return []


class WithStandby(InService):
    """Tests with a service in a folder of their own, and with a standby from `follow` on, which ends with the test."""

    @classmethod
    def setUpClass(cls) -> None:
        cls.program = following_program()

    def setUp(self) -> None:
        super().setUp()
        self.standby, self.behind, self.key = (self.folder / name for name in ("standby", "behind", "key"))
        self.key.write_text("KO\n")
        self.following: subprocess.Popen[bytes] | None = None
        self.addCleanup(self.drop)

    def follow_words(self, *options: str | Path, name: str = "OPS", program: Path | None = None) -> list[str | Path]:
        words: list[str | Path] = [FOLLOW, "--program", program or Path(self.program), "--connect", self.address, "--behind", self.behind]
        return [*words, *options, ROSTER, self.standby, name, self.key]

    def follow(self, *options: str | Path) -> None:
        """Starts a standby, which is still to tell how far behind it is."""
        self.behind.unlink(missing_ok=True)
        self.following = started(self.follow_words(*options))

    def drop(self) -> None:
        """Kills the standby's tool, and waits for its program, whose input that ends."""
        if self.following is not None:
            programs = children_of(self.following.pid)
            self.following.kill()
            self.following.communicate()
            self.following = None
            self.wait(lambda: not any(Path(f"/proc/{it}").exists() for it in programs))

    def wait(self, is_so: Callable[[], bool]) -> None:
        """Waits until something is so; fails where it does not come, or where the standby ends first."""
        end = time.monotonic() + PATIENCE
        while not is_so():
            if self.following is not None and self.following.poll() is not None and not is_so():
                self.fail(f"the standby ended: {self.ended()}")
            self.assertLess(time.monotonic(), end, "what is waited for does not come")
            time.sleep(0.01)

    def wait_for(self, position: int) -> None:
        """Waits until all changes before a position are on the standby's disk, and the standby has told so."""
        self.wait(lambda: (told := told_by(self.behind)) is not None and told.own >= position)
        self.assertGreaterEqual(stored(self.standby).end, position)

    def ended(self) -> Ran:
        """How the standby ended, which it does by itself."""
        assert self.following is not None
        output, errors = self.following.communicate(timeout=PATIENCE)
        ended = Ran(self.following.returncode, output, errors)
        self.following = None
        return ended

    def line(self) -> bytes:
        """The next line of the standby's errors."""
        assert self.following is not None and self.following.stderr is not None
        return self.following.stderr.readline()

    def stopped(self, number: int = signal.SIGTERM) -> Ran:
        """How the standby ends that is told to."""
        assert self.following is not None
        self.following.send_signal(number)
        return self.ended()

    def restart(self, journal: Path | None = None) -> None:
        """Kills the service, and starts it again, over another journal if that is named, which it then has in its own's stead."""
        self.kill()
        if journal is not None:
            os.replace(journal, self.journal)
        self.start()

    def trade(self, *amounts: int) -> None:
        """Trades at the service, whose amounts tell them apart."""
        with self.session("A") as session:
            for amount in amounts:
                session.trade("A", "B", "P", amount, "2026-03-02")

    def assert_prefix(self) -> None:
        """What the standby has are the first changes of the service, byte for byte, as far as both still have them."""
        ours, theirs = stored(self.standby), stored(self.journal)
        self.assertLessEqual(ours.end, theirs.end)
        for position in range(max(ours.base, theirs.base), ours.end):
            self.assertEqual(ours.at(position), theirs.at(position), position)

    def replay(self, journal: Path) -> Ran:
        return run([self.program, "replay", ROSTER, journal])
