"""What one failed write of a disk may cost: nothing that was acknowledged, and nothing that an answer showed.

After a failed sync Linux takes the page for clean, so a program that opens the file next reads what is on no disk. Each test cuts the
power in the end. Everything that was acknowledged or shown before has to be there then.
"""

import os
import random
import re
import subprocess
import sys
import tempfile
import unittest
from pathlib import Path

from failing_disk import FailingDisk
from gateway_relay import Relay
from running import PATIENCE, TOOLS, program, run
from serving import ROSTER, started
from spelled import TURN, record, slotted
from standing import WithStandby, stored

sys.path.insert(0, str(TOOLS))

from delkwoan.replies import Refused
from delkwoan.session import LinkClosed, Session

MOMENT = 1_767_225_600
DAY = "2026-03-02"
A_FOLD = 1000
"""The fewest changes with which a journal begins again from a base."""
SEED = 1
PLACES = 50
"""How many random places there are. A place's seed is made of this one and its number, so each is the same whenever it is tried."""
STEPS = 6
"""How often trades are made before the place at most, and how often after it."""
TOGETHER = 64
"""How many lines may share two syncs."""
MOST_WRITES = 4
"""Of the writes to the journal from the place on, the last one that may be chosen."""
MOST_AT_FIRST = 1200
"""How many changes the journal has at most before the program has it. From a thousand on its opening begins it again."""
ROOM = 1 << 20
"""How many bytes of the disk the journal has from the beginning, so that the device knows its blocks."""
OPENINGS = 3
"""How often the journal may have to be opened until it opens. One opening may meet the write that fails."""
MADE = re.compile(rb"ok (\d+) trade (\d+)\n")


def trade_line(amount: int) -> str:
    return f"TRADE A B P {amount} {DAY}"


def journal_of(lines: list[str]) -> bytes:
    """A journal of these changes, each with its speaker in front."""
    return slotted(b"", [TURN, *(record(line, moment=MOMENT) for line in lines)])


def write_synced(path: Path, content: bytes) -> None:
    with path.open("wb") as file:
        file.write(content)
        file.flush()
        os.fsync(file.fileno())


def trades(count: int) -> list[str]:
    return [f"A: {trade_line(amount)}" for amount in range(1, count + 1)]


FULL_PAGE = [*trades(100), *(f"B: AFFIRM {number}" for number in range(1, 8)), f"OPS: FREEZE {DAY}", "OPS: BEGIN 1 hybrid"]
"""Changes whose journal is one page long. Its closed gate is the last byte of the page, and the next record goes to the next page."""


class OnFailingDisk(WithStandby):
    """Tests with a journal on a disk that fails a write. The test's folder itself is on another disk."""

    def setUp(self) -> None:
        super().setUp()
        self.disk = FailingDisk(self.folder)
        self.addCleanup(self.disk.close)
        self.addCleanup(self.drop)
        self.addCleanup(self.kill)
        self.addCleanup(self.disk.let_go)
        self.journal = self.disk.folder / "journal"

    def cut_power(self) -> None:
        """Ends the service and the disk at once."""
        if self.service is not None:
            self.service.kill()
        self.disk.pull_plug()
        self.kill()
        self.disk.plug_in()

    def fail_a_change(self) -> None:
        """Has the service fail to make one more trade."""
        with self.session("A") as session, self.assertRaisesRegex(Refused, "^27 "):
            session.trade("A", "B", "P", 10**6, DAY)
        self.assertTrue(self.disk.has_come)

    def acknowledged(self) -> int:
        """The position after twenty trades that the service acknowledges."""
        with self.session("A") as session:
            return [session.trade("A", "B", "P", amount, DAY).position for amount in range(2001, 2021)][-1]

    def position(self) -> int:
        """The position that the service shows."""
        position = self.session("A").position
        assert position is not None
        return position


class Disks(unittest.TestCase):
    """That the disk does what the other tests rest on."""

    def setUp(self) -> None:
        folder = tempfile.TemporaryDirectory()
        self.addCleanup(folder.cleanup)
        self.disk = FailingDisk(Path(folder.name))
        self.addCleanup(self.disk.close)
        self.file = self.disk.folder / "file"
        write_synced(self.file, b"old")

    def test_a_page_whose_write_failed(self) -> None:
        """Only who has the file open learns of it, once. Then reads give what the disk has not, until the system's copy is dropped."""
        self.disk.fail(self.file)
        with self.file.open("r+b", buffering=0) as file:
            file.write(b"new")
            with self.assertRaises(OSError):
                os.fsync(file.fileno())
            os.fsync(file.fileno())
        with self.file.open("rb") as file:
            os.fsync(file.fileno())
            self.assertEqual(self.file.read_bytes(), b"new")
            os.posix_fadvise(file.fileno(), 0, 0, os.POSIX_FADV_DONTNEED)
            self.assertEqual(self.file.read_bytes(), b"old")

    def test_a_cut_of_the_power(self) -> None:
        """What was synced is kept, and what was not is lost."""
        self.file.write_bytes(b"unsynced")
        self.disk.cut_power()
        self.assertNotEqual(self.file.read_bytes(), b"unsynced")
        write_synced(self.file, b"synced")
        self.disk.cut_power()
        self.assertEqual(self.file.read_bytes(), b"synced")


class Services(OnFailingDisk):
    def test_the_selector_of_a_fold(self) -> None:
        write_synced(self.journal, journal_of(trades(A_FOLD)))
        # (the first page is written for the slot, then for the selector)
        self.disk.fail(self.journal, page=0, number=2)
        self.assertEqual(run(self.words()).status, 6)
        self.assertTrue(self.disk.has_come)
        self.start()
        acknowledged = self.acknowledged()
        self.cut_power()
        self.start()
        self.assertEqual(self.position(), acknowledged)

    def test_a_gate_that_is_the_last_byte_of_its_page(self) -> None:
        write_synced(self.journal, journal_of(FULL_PAGE))
        self.disk.fail(self.journal, page=0)
        self.start()
        self.fail_a_change()
        self.restart()
        acknowledged = self.acknowledged()
        self.cut_power()
        self.start()
        self.assertEqual(self.position(), acknowledged)

    def test_a_gate_and_then_only_questions(self) -> None:
        write_synced(self.journal, journal_of(trades(20)))
        # (the page is written for the record, then for the gate)
        self.disk.fail(self.journal, page=0, number=2)
        self.start()
        self.fail_a_change()
        self.restart()
        shown, rows = self.position(), self.session("A").statement().rows
        self.cut_power()
        self.start()
        self.assertEqual((self.position(), self.session("A").statement().rows), (shown, rows))


class Readers(OnFailingDisk):
    """What is read of a journal whose service failed to make a change and has ended."""

    def setUp(self) -> None:
        super().setUp()
        write_synced(self.journal, journal_of(trades(20)))
        self.disk.fail(self.journal, page=0, number=2)
        self.start()
        self.fail_a_change()
        self.kill()

    def test_a_replay(self) -> None:
        before = self.replay(self.journal)
        self.cut_power()
        self.assertEqual(before, self.replay(self.journal))

    def test_a_roll(self) -> None:
        rolled = [self.folder / "before", self.folder / "after"]
        ran = [run([TOOLS / "roll", "--program", self.program, ROSTER, self.journal, ROSTER, rolled[0]])]
        self.cut_power()
        ran.append(run([TOOLS / "roll", "--program", self.program, ROSTER, self.journal, ROSTER, rolled[1]]))
        self.assertEqual(ran[0], ran[1])
        self.assertEqual(rolled[0].read_bytes(), rolled[1].read_bytes())


class Standbys(OnFailingDisk):
    def test_a_standby_whose_gate_fails(self) -> None:
        """The standby's journal is on the disk that fails."""
        self.journal, self.standby = self.folder / "journal", self.disk.folder / "standby"
        self.journal.write_bytes(journal_of(FULL_PAGE))
        write_synced(self.standby, journal_of(FULL_PAGE))
        self.disk.fail(self.standby, page=0)
        self.start()
        self.trade(10)
        self.follow("--compare")
        self.assertEqual(self.ended().status, 6)
        self.assertTrue(self.disk.has_come)
        self.follow("--compare")
        last = self.acknowledged()
        self.wait_for(last)
        self.kill()
        self.drop()
        self.disk.cut_power()
        self.assertEqual(stored(self.standby), stored(self.journal))

    def test_a_service_whose_gate_fails(self) -> None:
        """The service's journal is on the disk that fails. Its standby has nothing that the service then lacks."""
        write_synced(self.journal, journal_of(trades(20)))
        self.disk.fail(self.journal, page=0, number=2)
        self.start()
        self.fail_a_change()
        self.restart()
        self.follow()
        self.wait_for(self.position())
        self.assertEqual(self.stopped().status, 0)
        self.cut_power()
        self.assert_prefix()


class Seeds(OnFailingDisk):
    """A standby that begins as a copy while the service waits for the second sync of many changes: the file has them, and no disk."""

    def setUp(self) -> None:
        super().setUp()
        write_synced(self.journal, journal_of(trades(1)))
        self.start()
        relay = Relay(self.port)
        self.addCleanup(relay.listener.close)
        relay.lose("HELLO", is_sent=False)
        # (the page is written for the records, then for the gate)
        self.disk.hold(self.journal, page=0, number=2)
        self.session("A").link.send("".join(f"{trade_line(amount)}\n" for amount in range(1, TOGETHER + 1)).encode())
        self.wait(lambda: self.disk.has_come)
        words = self.follow_words("--seed", self.journal)
        self.following = started([f"127.0.0.1:{relay.port}" if word == self.address else word for word in words])
        # (a copy that was made before the service is greeted is there now)
        self.assertTrue(relay.lost.wait(PATIENCE))

    def test_the_plug_is_pulled(self) -> None:
        self.cut_power()
        self.start()
        self.assert_prefix()
        self.wait_for(1)
        self.trade(10)
        self.wait_for(2)
        self.assertEqual(stored(self.standby), stored(self.journal))

    def test_the_sync_ends(self) -> None:
        self.disk.let_go()
        self.wait_for(1 + TOGETHER)
        self.assertEqual(stored(self.standby), stored(self.journal))


class Life:
    """Sessions of the program over a journal on a failing disk, one after the other, and what they showed."""

    def __init__(self, disk: FailingDisk, built: Path, chance: random.Random) -> None:
        self.disk, self.program, self.chance = disk, built, chance
        self.journal = disk.folder / "journal"
        self.amount = self.position = 0
        """The last trade's amount, which no other trade has, and the highest position that was shown."""
        self.trades: set[tuple[int, int]] = set()
        """The trades that were shown: number and amount."""

    def begin(self) -> Session:
        """The first session that does not end at its start, after it has shown all trades."""
        for _ in range(OPENINGS):
            session = Session.script(self.program, ROSTER, self.journal)
            try:
                session.hello("A", "KA")
                shown = session.statement()
                self.position = max(self.position, shown.position)
                self.trades |= {(row.trade, row.amount) for row in shown.rows}
                return session
            except LinkClosed as closed:
                if closed.status != 6:
                    raise
        raise AssertionError(f"the journal did not open {OPENINGS} times")

    def trade(self, session: Session) -> bool:
        """Sends some trades together; whether all were made."""
        amounts = range(self.amount + 1, self.amount + 1 + self.chance.randint(1, TOGETHER))
        self.amount = amounts[-1]
        session.link.send("".join(f"{trade_line(amount)}\n" for amount in amounts).encode())
        replies = [MADE.fullmatch(session.given()) for _ in amounts]
        for amount, made in zip(amounts, replies):
            if made is not None:
                self.position = max(self.position, int(made[1]))
                self.trades.add((int(made[2]), amount))
        return None not in replies

    def go_on(self, session: Session, times: int) -> Session:
        """Sends trades a number of times, in a new session after each time that not all were made."""
        for _ in range(times):
            if not self.trade(session):
                session.close()
                session = self.begin()
        return session

    def place(self) -> None:
        """Has a journal of some changes on the disk."""
        self.amount = self.chance.randrange(MOST_AT_FIRST)
        write_synced(self.journal, journal_of(trades(self.amount)))
        subprocess.run(["fallocate", "--keep-size", "--length", str(ROOM), self.journal], check=True)

    def run(self) -> None:
        """Makes trades, has a write fail at some place, makes more, and cuts the power."""
        self.place()
        step, number = self.chance.randrange(STEPS), self.chance.randint(1, MOST_WRITES)
        if step == 0:
            self.disk.fail(self.journal, number=number)
        session = self.begin()
        if step > 0:
            session = self.go_on(session, step - 1)
            self.disk.fail(self.journal, number=number)
        while not self.disk.has_come:
            session = self.go_on(session, 1)
        self.go_on(session, self.chance.randrange(STEPS)).close()
        self.disk.cut_power()

    def loss(self) -> str:
        """What was shown and is not there after the cut; nothing if all is there."""
        after = Life(self.disk, self.program, self.chance)
        try:
            after.begin().close()
        except LinkClosed as closed:
            return f"{self.position} changes were shown, and {closed}"
        if after.position >= self.position and after.trades >= self.trades:
            return ""
        return f"{self.position} changes were shown, and {after.position} are there"


class Places(unittest.TestCase):
    def test_random_places(self) -> None:
        folder = tempfile.TemporaryDirectory()
        self.addCleanup(folder.cleanup)
        built, disk = program(), FailingDisk(Path(folder.name))
        self.addCleanup(disk.close)
        losses: list[str] = []
        for place in range(PLACES):
            life = Life(disk, built, random.Random(f"{SEED} {place}"))
            life.run()
            if loss := life.loss():
                losses.append(f"seed {SEED}, place {place}: {loss}")
        self.assertEqual(len(losses), 0, "\n".join(losses))


if __name__ == "__main__":
    unittest.main()
