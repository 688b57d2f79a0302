"""A kill under lines that are sent ahead of their replies, or by many connections, loses nothing that was acknowledged."""

import os
import re
import signal
import socket
import subprocess
import sys
import threading
import time
import unittest
from pathlib import Path
from typing import Iterator

from running import PATIENCE, TOOLS, Ran, run
from serving import ROSTER, InService, Kept
from standing import stored
from test_refusals import Refused

sys.path.insert(0, str(TOOLS))

from delkwoan.records import Kind, record_of

DAY = "2026-03-02"
AHEAD = 16


def replayed(program: str | Path, journal: Path) -> int:
    """How many changes a journal has, by a replay."""
    ran = run([program, "replay", ROSTER, journal])
    assert ran.status == 0, ran
    return int(ran.output.split()[-1])


class Sender:
    """A connection that sends so many lines ahead, until it is cut off; which were sent, and at which position each was told."""

    def __init__(self, place: int, ahead: int = AHEAD) -> None:
        self.ahead, self.place, self.speaker, self.other = ahead, place, "ABC"[place % 3], "ABC"[(place + 1) % 3]
        self.lines: list[str] = []
        self.positions: list[int] = []

    def line(self, count: int) -> str:
        """No other line of any connection is the same. A TOL has syncs of its own."""
        number = 1 + self.place + 64 * count
        return f"TRADE {self.speaker} {self.other} P {number} {DAY}" if count % 32 < 24 else f"TOL {self.other} P in 0 {number}"

    def send(self, port: int, most: int) -> None:
        with socket.create_connection(("127.0.0.1", port), PATIENCE) as connection:
            file = connection.makefile("rb")
            connection.sendall(f"HELLO {self.speaker} K{self.speaker}\n".encode())
            file.readline()
            try:
                while len(self.lines) < most and len(self.positions) == len(self.lines):
                    more = [self.line(len(self.lines) + count) for count in range(self.ahead)]
                    self.lines += more
                    connection.sendall("".join(line + "\n" for line in more).encode())
                    self.positions += self.told(file.readline() for _ in more)
            except OSError:
                pass

    def told(self, replies: Iterator[bytes]) -> Iterator[int]:
        """The positions of whole replies."""
        for reply in replies:
            if not reply.endswith(b"\n"):
                return
            found = re.fullmatch(rb"ok (\d+) (?:trade \d+|tol)\n", reply)
            if found is None:
                raise ValueError(f"{self.speaker}: {reply!r}")
            yield int(found[1])


def losses(senders: list[Sender], records: list[Kept]) -> list[str]:
    """What was lost or mixed: a line that does not stand where it was told, a record of no line, and a connection whose lines are not
    kept in order, or of which other lines are kept than it was told and had ahead."""
    whose = {line: sender for sender in senders for line in sender.lines}
    found = [f"nobody sent {record.line}" for record in records if record.line not in whose]
    for sender in senders:
        for line, position in zip(sender.lines, sender.positions):
            if [(record.party, record.line) for record in records[position - 1 : position]] != [(sender.speaker, line)]:
                found.append(f"{line} was told at {position}")
        kept = [record.line for record in records if whose.get(record.line) is sender]
        if kept != sender.lines[: len(kept)] or len(kept) - len(sender.positions) not in range(sender.ahead + 1):
            found.append(f"{len(kept)} lines of connection {sender.place} are kept, and {len(sender.positions)} were told")
    return found


class Judged(unittest.TestCase):
    def test_what_is_lost_or_mixed(self) -> None:
        one, other = Sender(0), Sender(1)
        one.lines, other.lines = ([sender.line(count) for count in range(AHEAD)] for sender in (one, other))
        one.positions, other.positions = [1, 3], [2]
        first, third, fourth = (Kept(1, "A", line) for line in one.lines[:3])
        second = Kept(2, "B", other.lines[0])
        for records in ([first, second, third], [first, second, third, fourth]):
            self.assertEqual(losses([one, other], records), [])
        wrong = [[first, second], [second, first, third], [first, third, second], [first, second, third, third]]
        wrong += [[first, second, third._replace(party="B")], [first, second, third, fourth._replace(line=one.lines[3])]]
        wrong += [[first, second, third, fourth._replace(line="CANCEL 1")]]
        for records in wrong:
            with self.subTest(records=records):
                self.assertNotEqual(losses([one, other], records), [])


class Killed(InService):
    TURNS = 6
    MOST = 120_000
    """Lines of all connections: three quarters of them are trades, of which a journal takes 100,000."""

    def judge(self, turn: int, senders: list[Sender]) -> None:
        self.journal = self.folder / f"journal{turn}"
        self.start("--seats", str(len(senders)))
        assert self.service is not None
        threads = [threading.Thread(target=sender.send, args=(self.port, self.MOST // len(senders))) for sender in senders]
        for thread in threads:
            thread.start()
        while not all(sender.positions for sender in senders):
            time.sleep(0.001)
        time.sleep(0.02 * turn)
        self.service.send_signal(signal.SIGKILL)
        for thread in threads:
            thread.join()
        self.kill()
        records = self.records()
        self.assertEqual(losses(senders, records), [])
        self.assertEqual(replayed(self.program, self.journal), len(records))

    def test_a_kill_under_lines_ahead_loses_nothing_acknowledged(self) -> None:
        for turn in range(self.TURNS):
            self.judge(turn, [Sender(place) for place in range(6)])

    def test_a_kill_under_64_connections_loses_nothing_acknowledged(self) -> None:
        """Most send a line at a time, whose changes share syncs with other connections'."""
        for turn in range(self.TURNS):
            self.judge(turn, [Sender(place, AHEAD if place % 4 == 0 else 1) for place in range(64)])


SESSION = ["HELLO A KA", f"TRADE A B P 10 {DAY}", f"TRADE A B P 20 {DAY}", "AFFIRM 1", "NETS P", "TOL B P in 2 -"]
SESSION += [f"TRADE A B P 40 {DAY}", "END 3"]
CHANGES = [SESSION[1], SESSION[2], SESSION[5], SESSION[6], SESSION[7]]
REPLIES = [b"ok 0 hello A", b"ok 1 trade 1", b"ok 2 trade 2", b"no 2 7 not-party", b"ok 2 nets 0 0 0", b"ok 3 tol"]
REPLIES += [b"ok 4 trade 3", b"ok 5 ended 3"]
MOST_CALLS = 100
"""More calls to the disk than the session has: the last run is not killed."""


MADE_TOGETHER = ["HELLO A KA", *(f"TRADE A B P {count} {DAY}" for count in range(1, 71))]
STEPS = {0, 64, 70}
"""How many of these may be kept: at most 64 are made together."""


class KilledAtACall(Refused):
    def killed(self, number: int, lines: list[str]) -> tuple[Ran, list[str]]:
        """A script over a new journal, which is killed in place of its call to the disk with this number, and the changes that are kept."""
        journal, session = self.folder / f"journal{number}", self.folder / "session"
        session.write_text("".join(line + "\n" for line in lines))
        environ = {**os.environ, "LD_PRELOAD": str(self.library), "KILL_DISK": str(number)}
        with session.open("rb") as given:
            words = [self.program, "script", ROSTER, journal]
            done = subprocess.run(words, stdin=given, env=environ, capture_output=True, timeout=PATIENCE)
        records = [str(record_of(record, Kind.DATED).change) for record in stored(journal).records]
        self.assertEqual(replayed(self.program, journal), len(records))
        return Ran(done.returncode, done.stdout, done.stderr), records

    def kept(self, lines: list[str], replies: list[bytes], changes: list[str]) -> list[int]:
        """How many changes are kept, of one call that is not made after another; each time all that were acknowledged."""
        counts = list[int]()
        for number in range(1, MOST_CALLS + 1):
            ran, records = self.killed(number, lines)
            if ran.status == 0:
                self.assertEqual(ran, Ran(0, b"".join(reply + b"\n" for reply in replies), b""))
                return counts
            told = ran.output.splitlines()
            self.assertEqual((ran.status, told, records), (-signal.SIGKILL, replies[: len(told)], changes[: len(records)]))
            self.assertGreaterEqual(len(records), max([int(reply.split()[1]) for reply in told], default=0))
            counts.append(len(records))
        raise self.failureException("the session has more calls")

    def test_each_call_to_the_disk(self) -> None:
        counts = self.kept(SESSION, REPLIES, CHANGES)
        self.assertEqual((counts, counts[0], counts[-1]), (sorted(counts), 0, len(CHANGES)))

    def test_what_is_made_together_is_kept_whole(self) -> None:
        replies = [b"ok 0 hello A", *(b"ok %d trade %d" % (count, count) for count in range(1, len(MADE_TOGETHER)))]
        self.assertEqual({*self.kept(MADE_TOGETHER, replies, MADE_TOGETHER[1:])}, STEPS)


if __name__ == "__main__":
    unittest.main()
