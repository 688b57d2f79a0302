"""A standby that begins as a copy of its primary's journal, since that began again from a base."""

import socket
import stat
import sys
import tempfile
import threading
import unittest
from io import BufferedRWPair
from pathlib import Path
from typing import NamedTuple
from unittest.mock import patch

from running import PATIENCE, TOOLS, Ran
from serving import ROSTER
from spelled import TURN, Base, plain, record, slotted
from standing import WithStandby, stored
from test_folds import traded

sys.path.insert(0, str(TOOLS))

from delkwoan.address import Address
from delkwoan.ending import Stop
from delkwoan.placing import locked
from delkwoan.seed import TRIES, begin_as, copy_of
from delkwoan.seeding import Source, seed_of

GONE = Ran(12, b"", b"peer refused 31\n")
MANY = 600
"""Trades that are alleged and affirmed, so that the next opening begins the journal again."""


class Seeds(WithStandby):
    def begin_again(self) -> None:
        """Has the service make so many changes that its next start begins its journal again, and starts it anew."""
        self.start()
        self.client("--raw", "--connect", self.address, ROSTER, input=traded(MANY, MANY))
        self.restart()
        self.assertEqual(stored(self.journal), (2 * MANY, []))

    def test_a_primary_that_began_again_is_followed_from_a_copy(self) -> None:
        self.begin_again()
        self.follow()
        self.assertEqual(self.ended(), GONE)
        self.standby.unlink()
        self.follow("--seed", self.journal)
        self.trade(10, 20)
        self.wait_for(2 * MANY + 2)
        self.assertEqual(self.stopped(), Ran(0, b"", b""))
        self.assertEqual(self.replay(self.standby), self.replay(self.journal))
        self.assertEqual(self.standby.read_bytes(), self.journal.read_bytes())

    def test_a_standby_that_was_behind_when_it_began_again(self) -> None:
        """One change behind is too much, since a journal that begins again keeps none; the copy gets it up again."""
        self.start()
        self.client("--raw", "--connect", self.address, ROSTER, input=traded(MANY, MANY))
        self.follow()
        self.wait_for(2 * MANY)
        self.assertEqual(self.stopped(), Ran(0, b"", b""))
        self.trade(10)
        self.restart()
        self.follow("--seed", self.journal)
        self.assertEqual(self.ended(), GONE)
        self.standby.rename(self.folder / "old")
        self.follow("--seed", self.journal)
        self.trade(20)
        self.wait_for(2 * MANY + 2)
        self.assertEqual(self.stopped(), Ran(0, b"", b""))

    def test_a_standby_that_had_all_goes_on_over_that(self) -> None:
        self.start()
        self.client("--raw", "--connect", self.address, ROSTER, input=traded(MANY, MANY))
        self.follow("--compare")
        self.wait_for(2 * MANY)
        self.restart()
        self.trade(10)
        self.wait_for(2 * MANY + 1)
        self.assertEqual(self.stopped().status, 0)
        self.assertEqual(stored(self.standby).at(2 * MANY), stored(self.journal).at(2 * MANY))

    def test_a_primary_that_is_not_there(self) -> None:
        """Nothing is copied before it reports what it keeps."""
        self.journal.write_bytes(slotted(b"", [ONE, TWO]))
        self.follow("--seed", self.journal)
        lost = f"no connection to 127.0.0.1 at {self.port}, position 0\n".encode()
        self.assertEqual(self.line(), lost)
        self.assertEqual(self.stopped(), Ran(21, b"", b"stopped before the copy was made\n"))
        self.assertFalse(self.standby.exists())
        self.follow("--seed", self.journal)
        self.assertEqual(self.line(), lost)
        self.start()
        self.wait_for(2)
        self.assertEqual(self.stopped(), Ran(0, b"", b""))

    def test_an_older_copy(self) -> None:
        self.start()
        self.trade(10, 20)
        copy = self.folder / "copy"
        copy.write_bytes(self.journal.read_bytes())
        self.trade(30)
        self.follow("--seed", copy)
        self.wait_for(3)
        self.assertEqual(self.stopped(), Ran(0, b"", b""))
        self.assertEqual(stored(self.standby), stored(self.journal))

    def test_a_copy_of_another_history(self) -> None:
        self.start()
        self.trade(10, 20)
        copy = self.folder / "copy"
        copy.write_bytes(self.journal.read_bytes())
        self.kill()
        self.journal.unlink()
        self.start()
        self.trade(10, 30, 40)
        self.follow("--seed", copy)
        self.assertEqual(self.ended(), Ran(13, b"", b"change 2 of the copy is not the service's\n"))
        self.assertFalse(self.standby.exists())

    def test_a_journal_that_has_something_stays(self) -> None:
        self.start()
        self.trade(10)
        self.follow()
        self.wait_for(1)
        self.assertEqual(self.stopped(), Ran(0, b"", b""))
        content = self.standby.read_bytes()
        self.follow("--seed", self.folder / "none")
        self.wait_for(1)
        self.assertEqual(self.stopped(), Ran(0, b"", b""))
        self.assertEqual(self.standby.read_bytes(), content)

    def test_what_is_no_journal_makes_none(self) -> None:
        self.start()
        self.trade(10)
        damaged = self.folder / "damaged"
        damaged.write_bytes(self.journal.read_bytes()[:-1])
        self.follow("--seed", damaged)
        ended = self.ended()
        self.assertEqual((ended.status, ended.errors.partition(b":")[0]), (7, f"damaged at {damaged.stat().st_size}".encode()))
        self.assertFalse(self.standby.exists())
        self.assertEqual([*self.folder.glob("standby*")], [])


ONE, TWO = record("A: TRADE A B P 10 2026-03-02"), record("B: AFFIRM 1")
BASE = Base(7, 0, 0, "ABC", "P").spelled()

FRONTS: list[tuple[bytes, bytes]] = [
    (b"", b""),
    (slotted(b"", [])[:-1], b""),
    (slotted(b"", []), b""),
    (plain([ONE, TWO]), plain([ONE, TWO])),
    (slotted(b"", [ONE, TWO]), slotted(b"", [ONE, TWO])),
    (slotted(b"", [ONE, TWO]) + b"behind", slotted(b"", [ONE, TWO])),
    (slotted(b"", [TURN, ONE]), slotted(b"", [TURN, ONE])),
    (slotted(BASE, [ONE], 1, b"gap"), slotted(BASE, [ONE], 1, b"gap")),
    (slotted(BASE, []) + b"behind", slotted(BASE, [])),
]
"""A journal, and what a copy has of it."""


class Copies(unittest.TestCase):
    def setUp(self) -> None:
        folder = tempfile.TemporaryDirectory()
        self.addCleanup(folder.cleanup)
        self.folder = Path(folder.name)
        self.source, self.journal = self.folder / "source", self.folder / "journal"

    def begin(self) -> None:
        begin_as(copy_of(str(self.source)).content, self.journal)

    def test_all_up_to_the_closed_gate(self) -> None:
        for content, front in FRONTS:
            with self.subTest(content=content):
                self.source.write_bytes(content)
                self.begin()
                self.assertEqual(self.journal.read_bytes(), front)
                self.journal.unlink()

    def test_owner_and_rights(self) -> None:
        """An empty file keeps its own; a new one has those that any new file has."""
        self.source.write_bytes(slotted(BASE, [ONE]))
        self.source.chmod(0o600)
        (self.folder / "new").touch()
        self.begin()
        self.assertEqual(self.journal.stat().st_mode, (self.folder / "new").stat().st_mode)
        self.journal.write_bytes(b"")
        self.journal.chmod(0o640)
        self.begin()
        self.assertEqual(stat.S_IMODE(self.journal.stat().st_mode), 0o640)
        self.assertEqual(self.journal.read_bytes(), slotted(BASE, [ONE]))
        self.assertEqual(sorted(path.name for path in self.folder.iterdir()), ["journal", "new", "source"])

    def test_an_empty_journal_that_somebody_has(self) -> None:
        self.source.write_bytes(slotted(BASE, [ONE]))
        self.journal.write_bytes(b"")
        with locked(str(self.journal)), self.assertRaises(Stop) as caught:
            self.begin()
        self.assertEqual((caught.exception.status, caught.exception.line), (6, f"{self.journal} is in use"))
        self.assertEqual(self.journal.read_bytes(), b"")
        self.assertEqual(sorted(path.name for path in self.folder.iterdir()), ["journal", "source"])

    def test_a_journal_that_begins_again_while_it_is_read(self) -> None:
        """Where the slots are others behind the reading, it is read anew."""
        before, behind = slotted(b"", [ONE, TWO]), slotted(BASE, [ONE], 1, b"gap")
        reads = [before, behind[:25], behind, behind[:25]]
        with patch("delkwoan.seed.read_file", side_effect=reads), patch("delkwoan.seed.PAUSE", 0):
            self.assertEqual(copy_of("source").content, behind)
        with patch("delkwoan.seed.read_file", side_effect=reads[:2] * TRIES), patch("delkwoan.seed.PAUSE", 0), self.assertRaises(Stop) as caught:
            copy_of("source")
        self.assertEqual(caught.exception.status, 7)


FIVE = [record(f"A: TRADE A B P {amount} 2026-03-02", moment=1_767_225_600) for amount in range(1, 6)]
OTHER = record("A: TRADE A B P 6 2026-03-02", moment=1_767_225_600)
OLD = record("A: TRADE A B P 7 2026-03-02")
HELLO = b"ok %d hello OPS\n"


def entry(length: int, place: int, change: bytes) -> bytes:
    """A change, as a primary gives it that has this many."""
    return b"ok %d entry %d %d\n%b\n" % (length, place, len(change), change)


def ahead(length: int) -> bytes:
    return b"no %d 32 ahead %d\n" % (length, length)


def gone(length: int, base: int) -> bytes:
    return b"no %d 31 gone %d\n" % (length, base)


ENDS, WAITS = b"ends", b"waits"
"""In place of a reply, the connection ends; or the reply does not come, and neither does any other one."""


class Case(NamedTuple):
    """What a primary replies over each connection, the last reply again and again; and what a copy has then, or how the tool ends."""

    what: str
    journal: bytes
    connections: list[list[bytes]]
    content: bytes | tuple[int, str]


ALL, THREE = slotted(b"", [TURN, *FIVE]), slotted(b"", [TURN, *FIVE[:3]])
BEGUN = slotted(Base(5, 0, 0, "ABC", "P", mark=b"\2").spelled(), [])

CASES = [
    Case("all is kept", ALL, [[HELLO % 5, entry(5, 5, FIVE[4])]], ALL),
    Case("all is kept when the copy is there", ALL, [[HELLO % 3, entry(3, 3, FIVE[2]), entry(7, 5, FIVE[4])]], ALL),
    Case("all is kept later", ALL, [[HELLO % 3, entry(3, 3, FIVE[2]), ahead(3), b"ok 4 none\n", entry(5, 5, FIVE[4])]], ALL),
    Case("three are kept", ALL, [[HELLO % 3, entry(3, 3, FIVE[2]), ahead(3)]], THREE),
    Case("three were kept, and the disk is held", ALL, [[HELLO % 3, entry(3, 3, FIVE[2]), WAITS]], THREE),
    Case("none was kept", ALL, [[HELLO % 0, b"ok 0 none\n", WAITS]], slotted(b"", [TURN])),
    Case("one without a moment is kept", plain([OLD, TWO]), [[HELLO % 1, entry(1, 1, bytes(8) + OLD), WAITS]], plain([OLD])),
    Case("a primary starts anew with less", ALL, [[HELLO % 5, entry(5, 5, FIVE[4]), ENDS], [HELLO % 3, entry(3, 3, FIVE[2]), ahead(3)]], THREE),
    Case("a primary starts anew with all", ALL, [[HELLO % 3, ENDS], [ENDS], [HELLO % 5, entry(5, 5, FIVE[4])]], ALL),
    Case("the base alone", BEGUN, [[HELLO % 5, gone(5, 5)]], BEGUN),
    Case("the base's change is the last", ALL, [[HELLO % 5, gone(5, 5)]], ALL),
    Case("nothing", b"", [[HELLO % 0, b"ok 0 none\n"]], b""),
    Case("another last change", ALL, [[HELLO % 5, entry(5, 5, OTHER)]], (13, "change 5 of the copy is not the service's")),
    Case("another last change that was kept", ALL, [[HELLO % 3, entry(3, 3, OTHER), WAITS]], (13, "change 3 of the copy is not the service's")),
    Case("a copy from the future", BEGUN, [[HELLO % 3, entry(3, 3, FIVE[2]), ahead(3)]], (13, "the copy begins after change 5, and the service has 3")),
    Case("a copy from the past", ALL, [[HELLO % 9, gone(9, 9), gone(9, 9)]], (12, "peer refused 31")),
    Case("a base at no position", ALL, [[HELLO % 5, b"no 5 31 gone x\n"]], (12, "peer refused 31")),
    Case("a wrong key", ALL, [[b"no 0 2 bad-key\n"]], (12, "peer refused 2")),
    Case("no operator", ALL, [[HELLO % 5, b"no 5 14 not-operator\n"]], (12, "peer refused 14")),
    Case("no service", ALL, [[b"HTTP/1.1 400 Bad Request\n"]], (13, "peer broken: 'HTTP/1.1 400 Bad Request'")),
]


class Primary:
    """Who takes a connection for each list of replies, one after the other. The journal is there from its first greeting on."""

    def __init__(self, case: Case, journal: Path) -> None:
        self.case, self.journal = case, journal
        journal.write_bytes(b"no journal yet")
        self.listener = socket.create_server(("127.0.0.1", 0))
        self.thread = threading.Thread(target=self.run, daemon=True)
        self.thread.start()

    def run(self) -> None:
        with self.listener:
            for replies in self.case.connections:
                near, _ = self.listener.accept()
                with near, near.makefile("rwb") as file:
                    self.answer(file, [*replies])

    def answer(self, file: BufferedRWPair, replies: list[bytes]) -> None:
        for _ in file:
            self.journal.write_bytes(self.case.journal)
            reply = replies.pop(0) if len(replies) > 1 else replies[0]
            if reply == ENDS:
                break
            if reply != WAITS:
                file.write(reply)
                file.flush()


class Seedings(unittest.TestCase):
    def seeded(self, case: Case) -> bytes | tuple[int, str]:
        """What a standby may begin with, or how the tool ends."""
        with tempfile.TemporaryDirectory() as folder, patch("delkwoan.seeding.tell"):
            journal = Path(folder) / "journal"
            primary = Primary(case, journal)
            address = Address("127.0.0.1", primary.listener.getsockname()[1])
            try:
                return seed_of(Source(str(journal), address, "OPS", "KO"), 1)
            except Stop as stop:
                return stop.status, stop.line
            finally:
                primary.thread.join(PATIENCE)

    def test_what_a_primary_keeps(self) -> None:
        for case in CASES:
            with self.subTest(case.what):
                self.assertEqual(self.seeded(case), case.content)


if __name__ == "__main__":
    unittest.main()
