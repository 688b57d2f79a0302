"""The auditor beside the program: random days, whose text is `replay`'s byte for byte, and the same journals spoilt."""

import random
import sys
import tempfile
import unittest
from pathlib import Path
from typing import NamedTuple

import spelled
from days import OPERATOR, Day, market_of
from running import TOOLS, Ran, program, run
from spoils import SPOILS, spelling_of, with_one_spoilt, with_record

sys.path.insert(0, str(TOOLS))

from delkwoan.changes import Post
from delkwoan.frames import walk
from delkwoan.records import Kind, Record, body_of, record_of
from delkwoan.replies import Refused
from delkwoan.session import Session

AUDIT = TOOLS / "audit"
DAYS, MOVES = 24, 160
FOLDED = 1_000
"""A journal that is opened with so many entries or more behind its base is folded, where it has slots and no cycle is open."""


class Told(NamedTuple):
    """What the auditor tells: its postings' lines, and the rest of its text."""

    postings: list[bytes]
    text: bytes
    status: int
    place: bytes


def told(roster: Path, journal: Path) -> Told:
    ran = run([AUDIT, roster, journal])
    lines = ran.output.splitlines(keepends=True)
    postings = [line for line in lines if line.startswith(b"posting ")]
    return Told(postings, b"".join(lines[len(postings) :]), ran.status, ran.errors.split(b":")[0].rstrip(b"\n"))


def close(session: Session) -> None:
    """Cancels the cycle that is open, if one is."""
    session.hello(OPERATOR, f"K{OPERATOR}")
    try:
        session.cancel(0)
    except Refused as refusal:
        if refusal.name == "wrong-cycle":
            session.ask_raw(f"CANCEL {refusal.value}")


class Beside(unittest.TestCase):
    """A random day, and its journal as it is, spoilt and folded."""

    program: Path

    @classmethod
    def setUpClass(cls) -> None:
        cls.program = program()

    def setUp(self) -> None:
        folder = tempfile.TemporaryDirectory()
        self.addCleanup(folder.cleanup)
        self.folder = Path(folder.name)
        self.roster, self.journal = self.folder / "roster", self.folder / "journal"

    def spend(self, number: int, moves: int, is_over: bool = False) -> None:
        """The day of a number, which is all that it follows from; where it is over, no cycle is left open."""
        chance = random.Random(number)
        market = market_of(chance)
        self.journal.unlink(missing_ok=True)
        self.roster.write_bytes(market.roster(chance.randint(0, len(market.members))))
        with Session.script(self.program, self.roster, self.journal) as session:
            Day(session, market, chance).spend(moves)
            if is_over:
                close(session)

    def records(self) -> list[tuple[int, Record]]:
        found = walk(self.journal.read_bytes())
        base = found.lead.base if found.lead else b""
        return [(at, record_of(bytes, kind)) for at, bytes, kind in body_of(base, found.frames) if kind is not Kind.TURN]

    def replay(self, journal: Path) -> Ran:
        return run([self.program, "replay", self.roster, journal])

    def assert_alike(self, journal: Path) -> Told:
        """The auditor's text and status are those of `replay`, and so is the place of damage."""
        audited, replayed = told(self.roster, journal), self.replay(journal)
        self.assertEqual((audited.status, audited.text), replayed[:2])
        self.assertEqual(audited.place, replayed.errors.rstrip(b"\n"))
        return audited

    def assert_postings(self, audited: Told) -> None:
        """There is a line for each POST, and each of those that stand is certified."""
        posts = sum(isinstance(record.change, Post) for _, record in self.records())
        self.assertEqual([line.rsplit(b" ", 1)[1] for line in audited.postings], [b"yes\n"] * posts)

    def spoilt(self, content: bytes, at: int, new: bytes) -> Path:
        """A journal with another record behind the gate at a place."""
        path = self.folder / "spoilt"
        path.write_bytes(with_record(content, at, new))
        return path

    def test_days(self) -> None:
        postings = 0
        for number in range(DAYS):
            with self.subTest(number=number):
                self.spend(number, MOVES)
                audited = self.assert_alike(self.journal)
                self.assert_postings(audited)
                postings += len(audited.postings)
        self.assertGreater(postings, DAYS)

    def test_postings_that_are_spoilt(self) -> None:
        found: dict[str, int] = dict.fromkeys(SPOILS, 0)
        for number in range(DAYS // 4):
            self.spend(number, MOVES)
            content, draw = self.journal.read_bytes(), random.Random(number)
            posts = [(at, record) for at, record in self.records() if isinstance(record.change, Post)]
            for (at, record), (name, spoil) in zip(draw.choices(posts, k=len(SPOILS)) if posts else [], SPOILS.items()):
                assert isinstance(record.change, Post)
                solutions = with_one_spoilt(draw, record.change.solutions, spoil)
                with self.subTest(number=number, at=at, name=name):
                    audited = self.assert_alike(self.spoilt(content, at, spelling_of(record, solutions)))
                    is_bad = audited.place == b"damaged at %d" % at
                    self.assertEqual(is_bad, b" no " in audited.postings[-1])
                    found[name] += is_bad
        self.assertEqual([name for name, count in found.items() if not count], [])

    def test_bytes_that_are_others(self) -> None:
        self.spend(7, MOVES)
        content, draw = self.journal.read_bytes(), random.Random(7)
        for _ in range(3 * DAYS):
            at = draw.randrange(len(content))
            changed = content[:at] + bytes([draw.choice((0, 1, 2, content[at] ^ 1, draw.randrange(256)))]) + content[at + 1 :]
            path = self.folder / "spoilt"
            path.write_bytes(changed)
            with self.subTest(at=at, byte=changed[at]):
                self.assert_alike(path)

    def test_records_that_are_left_out_or_swapped(self) -> None:
        self.spend(8, MOVES)
        content, draw = self.journal.read_bytes(), random.Random(8)
        head = content[: walk(content).frames[0][0]]
        records = [bytes for _, bytes in walk(content).frames]
        for _ in range(DAYS):
            at = draw.randrange(len(records) - 1)
            swapped = [*records[:at], records[at + 1], records[at], *records[at + 2 :]]
            for changed in (swapped, records[:at] + records[at + 1 :], records[: at + 1] + records[at:]):
                path = self.folder / "spoilt"
                path.write_bytes(head + spelled.frames(changed))
                with self.subTest(at=at):
                    self.assert_alike(path)

    def test_a_journal_that_was_folded(self) -> None:
        self.spend(9, 12 * MOVES, is_over=True)
        before = walk(self.journal.read_bytes())
        if not before.lead or not before.lead.offset:
            self.skipTest("the program writes no slots")
        self.assertGreaterEqual(len(before.frames), FOLDED)
        self.assertEqual(run([self.program, "script", self.roster, self.journal]), Ran(0, b"", b""))
        after = walk(self.journal.read_bytes())
        self.assertTrue(after.lead and after.lead.base and not after.frames)
        self.assert_postings(self.assert_alike(self.journal))
        with Session.script(self.program, self.roster, self.journal) as session:
            Day(session, market_of(random.Random(9)), random.Random(10)).spend(MOVES)
        self.assert_postings(self.assert_alike(self.journal))


if __name__ == "__main__":
    unittest.main()
