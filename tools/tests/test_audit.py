"""The auditor by journals that were spelled by hand: worked cycles, each refusal, files with slots, and what is damaged."""

import sys
import tempfile
import unittest
from pathlib import Path
from typing import Sequence

import spelled
from running import EXAMPLES, TOOLS, Ran, run
from spelled import Base, Solution, record

sys.path.insert(0, str(TOOLS))

from delkwoan import plans
from delkwoan.book import Book, Names
from delkwoan.cycles import Cycle
from delkwoan.history import History, Moved

AUDIT = TOOLS / "audit"
ROSTER = EXAMPLES / "roster.csv"
DAY = "2026-03-02"


Made = str | tuple[str, Sequence[Solution]]


def records_of(changes: Sequence[Made]) -> list[bytes]:
    """Records of changes, of which a POST stands with its solutions."""
    return [record(it) if isinstance(it, str) else record(*it) for it in changes]


CHAIN = [
    f"A: TRADE A B P 10 {DAY}",
    "B: AFFIRM 1",
    f"B: TRADE B C P 7 {DAY}",
    "C: AFFIRM 2",
    "OPS: FREEZE 2026-03-31",
    "OPS: BEGIN 1 hybrid",
]
"""A owes B 10 and B owes C 7, and dealers' pairs may grow."""
SHORTER = Solution([(0, 1, 3), (0, 2, 7)], [1, 0, 0])
"""B is taken out of the middle."""
POSTED = ("OPS: POST 1 1", [SHORTER])
VOTES = ["A: ACCEPT 1 1", "B: ACCEPT 1 1", "C: ACCEPT 1 1"]
CHAIN_TEXT = f"""posting 7 1 1 hybrid 17 10 yes
member A 2
trade 1 A B P 3 {DAY} live -
trade 3 A C P 7 2026-03-31 live -
member B 2
trade 1 A B P 3 {DAY} live -
trade 2 B C P 7 {DAY} ended -
member C 2
trade 2 B C P 7 {DAY} ended -
trade 3 A C P 7 2026-03-31 live -
execution 10 1 1 1 1 1
at 0
end 10
"""
RING = [
    *[f"{seller}: TRADE {seller} {buyer} P 10 {DAY}" for seller, buyer in (("A", "B"), ("B", "C"), ("C", "A"))],
    *("B: AFFIRM 1", "C: AFFIRM 2", "A: AFFIRM 3"),
]
"""A ring of three trades of 10."""
RING_CYCLE = [*RING, "A: TOL B P out 4 -", "OPS: FREEZE 2026-03-31", "OPS: BEGIN 1 conservative"]
"""In it A wants to owe B no less than 4."""

Posting = tuple[Sequence[tuple[int, int, int]], Sequence[int], str]
POSTINGS: list[Posting] = [
    ([(0, 1, 4), (1, 2, 4), (2, 0, 4)], [0, 2, 1], "yes"),
    ([(0, 1, 4), (1, 2, 4), (2, 0, 4)], [0, 1, 1], "no P slack B C"),
    ([(0, 1, 4), (1, 2, 4), (2, 0, 4)], [0, 3, 2], "no P open C A"),
    ([(0, 1, 3), (1, 2, 3), (2, 0, 3)], [0, 2, 1], "no P below A B"),
    ([(0, 1, 10), (1, 2, 11), (2, 1, 1)], [0, 2, 1], "no P above B C"),
    ([(0, 1, 4), (1, 2, 5), (2, 0, 5)], [0, 2, 1], "no P net A"),
    ([(0, 1, 4), (1, 2, 4), (2, 0, 4)], [0, 2, 1, 0], "no shape"),
]
"""Rows and potentials of the ring with its floor, and what is to be said of them."""

REFUSED: list[tuple[list[str], str, str]] = [
    ([], f"X: TRADE A B P 10 {DAY}", "1 not-greeted"),
    ([], "A: FREEZE 2026-03-31", "14 not-operator"),
    ([], f"A: TRADE A OPS P 10 {DAY}", "4 unknown-member"),
    ([], f"A: TRADE A B Q 10 {DAY}", "5 unknown-product"),
    ([], f"A: TRADE A A P 10 {DAY}", "6 own-trade"),
    ([], f"C: TRADE A B P 10 {DAY}", "7 not-party"),
    ([], f"A: TRADE A B P 1000000000000001 {DAY}", "8 amount-over"),
    ([], "A: TRADE A B P 10 2031-06-30", "22 matured 2031-06-30"),
    ([f"A: TRADE A B P 1000000000000000 {DAY}"] * 1000, f"A: TRADE A B P 1 {DAY}", "9 gross-over"),
    ([f"A: TRADE A B P 1 {DAY}"] * 100_000, f"A: TRADE A B P 1 {DAY}", "10 trades-full"),
    ([], "A: AFFIRM 1", "11 unknown-trade"),
    (RING[:1], "A: AFFIRM 1", "7 not-party"),
    (RING[:1], "C: AFFIRM 1", "7 not-party"),
    (RING, "B: AFFIRM 1", "12 wrong-trade-state live"),
    (RING[:1], "B: HOLD 1", "12 wrong-trade-state alleged"),
    ([*RING, "A: END 1"], "A: END 1", "12 wrong-trade-state live"),
    ([*RING, "A: END 1", "B: END 1"], "A: END 1", "12 wrong-trade-state ended"),
    ([*RING, "A: HOLD 1"], "A: HOLD 1", "12 wrong-trade-state live"),
    (RING, "A: FREE 1", "12 wrong-trade-state live"),
    (RING_CYCLE, "A: HOLD 1", "13 trade-frozen 1"),
    ([], "A: TOL OPS P out 0 -", "4 unknown-member"),
    ([], "A: TOL B Q out 0 -", "5 unknown-product"),
    ([], "A: TOL A P out 0 -", "6 own-trade"),
    ([], "OPS: TOL A P out 0 -", "7 not-party"),
    ([], "A: TOL B P out 5 4", "23 floor-over-ceiling"),
    (RING_CYCLE, "OPS: FREEZE 2026-03-31", "15 cycle-open 1"),
    (RING_CYCLE, "OPS: BEGIN 2 free", "16 wrong-cycle 1"),
    ([*RING_CYCLE, "A: END 1", "B: END 1", "B: END 2", "C: END 2"], "OPS: BEGIN 1 free", "21 cycle-broken 1"),
    ([], "OPS: BEGIN 0 free", "17 wrong-phase none"),
    (RING_CYCLE, "A: ACCEPT 1 1", "17 wrong-phase solving"),
    (RING_CYCLE, "OPS: POST 1 2", "18 wrong-version 1"),
    (RING_CYCLE, "OPS: POST 1 1", "24 bad-certificate shape"),
    ([], "OPS: CANCEL 0", "17 wrong-phase none"),
    (RING_CYCLE, "OPS: CANCEL 2", "16 wrong-cycle 1"),
]
"""Changes that are accepted, one that is not, and its refusal."""

AFTER_POST: list[tuple[list[str], str, str]] = [
    (["A: ACCEPT 1 1"], "A: ACCEPT 1 1", "20 already-accepted"),
    ([], "OPS: ACCEPT 1 1", "19 not-touched"),
    ([], "A: DECLINE 1 2", "18 wrong-version 1"),
    ([], "OPS: BEGIN 1 hybrid", "17 wrong-phase proposed"),
    (["A: ACCEPT 1 1", "B: DECLINE 1 1"], "C: ACCEPT 1 1", "17 wrong-phase frozen"),
    (VOTES, "A: ACCEPT 1 1", "17 wrong-phase none"),
]

MEMBERS, PRODUCTS = ("A", "B", "C"), ("P",)
SETTINGS = ("0 0 1 out 4 -", "1 0 0 in 2 9")
TRADES = (f"0 1 0 10 {DAY} live out - 0", f"1 2 0 10 {DAY} live - in 0", f"2 0 0 10 {DAY} live in - 0", f"0 2 0 1 {DAY} alleged out - 0")
STOOD = Base(1000, 3, 2, MEMBERS, PRODUCTS, SETTINGS, TRADES)
LEAST = Solution([(0, 1, 4), (1, 2, 4), (2, 0, 4)], [0, 2, 1])
GOES_ON: list[Made] = ["OPS: FREEZE 2026-03-31", "OPS: BEGIN 4 conservative", ("OPS: POST 4 1", [LEAST])]
STOOD_TEXT = f"""posting 1003 4 1 conservative 30 12 yes
member A 3
trade 1 A B P 10 {DAY} live -
trade 3 C A P 10 {DAY} live -
trade 4 A C P 1 {DAY} alleged -
member B 2
trade 1 A B P 10 {DAY} live -
trade 2 B C P 10 {DAY} live -
member C 3
trade 2 B C P 10 {DAY} live -
trade 3 C A P 10 {DAY} live -
trade 4 A C P 1 {DAY} alleged -
end 1003
"""
EMPTY = "member A 0\nmember B 0\nmember C 0\nend 0\n"

MISFITS: list[tuple[Base, str]] = [
    (STOOD._replace(position=10**18 + 1), "a number is above the most"),
    (STOOD._replace(cycle=10**18 + 1), "a number is above the most"),
    (STOOD._replace(version=10**18 + 1), "a number is above the most"),
    (STOOD._replace(members=("A", "B")), "the names are not the roster's"),
    (STOOD._replace(products=("Q",)), "the names are not the roster's"),
    (STOOD._replace(settings=("3 0 1 out 4 -",)), "a setting's place is out of range"),
    (STOOD._replace(settings=("0 1 1 out 4 -",)), "a setting's place is out of range"),
    (STOOD._replace(settings=("1 0 1 out 4 -",)), "a setting is of one member"),
    (STOOD._replace(settings=("0 0 1 out 4 3",)), "a floor is above its ceiling"),
    (STOOD._replace(trades=(f"0 3 0 10 {DAY} live out - 0",)), "a trade's place is out of range"),
    (STOOD._replace(trades=(f"0 0 0 10 {DAY} live out - 0",)), "a trade is of one member"),
    (STOOD._replace(trades=(f"0 1 0 10 {DAY} alleged - - 0",)), "an alleged trade has no submitter, or a mark or a hold"),
    (STOOD._replace(trades=(f"0 1 0 10 {DAY} alleged out in 0",)), "an alleged trade has no submitter, or a mark or a hold"),
    (STOOD._replace(trades=(f"0 1 0 10 {DAY} alleged out - 2",)), "an alleged trade has no submitter, or a mark or a hold"),
    (STOOD._replace(trades=(f"0 1 0 {10**18} {DAY} live - - 0", f"0 1 0 1 {DAY} live - - 0")), "a product's gross or the number"),
    (STOOD._replace(trades=(f"0 1 0 1 {DAY} ended out - 0",) * 100_001), "a product's gross or the number"),
]

UNSPELLED: list[tuple[bytes, str]] = [
    (b"\3" + STOOD.spelled()[1:], "byte 0, the mark of the form"),
    (STOOD.spelled()[:24], "byte 17, the version"),
    (STOOD.spelled() + b"\0", f"byte {len(STOOD.spelled())}, something behind"),
    (STOOD._replace(settings=SETTINGS[::-1]).spelled(), "a setting: it does not rise"),
    (STOOD._replace(settings=SETTINGS[:1] * 2).spelled(), "a setting: it does not rise"),
    (STOOD._replace(settings=(f"0 0 1 out {10**18 + 1} -",)).spelled(), "a setting's floor"),
    (STOOD._replace(trades=(f"0 1 0 0 {DAY} live out - 0",)).spelled(), "a trade's amount"),
    (STOOD._replace(trades=("0 1 0 1 2026-02-29 live out - 0",)).spelled(), "a trade's day"),
    (STOOD._replace(trades=(f"0 1 0 1 {DAY} live out - 4",)).spelled(), "a trade's holds"),
]


class Audited(unittest.TestCase):
    def setUp(self) -> None:
        folder = tempfile.TemporaryDirectory()
        self.addCleanup(folder.cleanup)
        self.journal = Path(folder.name) / "journal"

    def audit(self, journal: bytes) -> Ran:
        self.journal.write_bytes(journal)
        return run([AUDIT, ROSTER, self.journal])

    def assert_told(self, journal: bytes, text: str) -> None:
        self.assertEqual(self.audit(journal), Ran(0, text.encode(), b""))

    def assert_damaged(self, journal: bytes, at: int, why: str, text: str = "") -> None:
        ran = self.audit(journal)
        self.assertEqual((ran.status, ran.output), (7, text.encode()), ran)
        place, _, said = ran.errors.decode().partition(": ")
        self.assertEqual(place, f"damaged at {at}", ran)
        self.assertIn(why, said)

    def test_a_chain_that_is_shortened(self) -> None:
        self.assert_told(spelled.plain(records_of([*CHAIN, POSTED, *VOTES])), CHAIN_TEXT)

    def test_postings_of_a_ring_with_a_floor(self) -> None:
        before = records_of(RING_CYCLE)
        for rows, potentials, answer in POSTINGS:
            with self.subTest(answer=answer, potentials=potentials):
                journal = spelled.plain([*before, record("OPS: POST 1 1", [Solution(rows, potentials)])])
                line = f"posting 10 1 1 conservative 30 {sum(row[2] for row in rows)} {answer}\n"
                if answer == "yes":
                    self.assertTrue(self.audit(journal).output.startswith(line.encode()))
                else:
                    refusal = f"OPS: POST 1 1 is refused: 24 bad-certificate {answer.removeprefix('no ')}"
                    self.assert_damaged(journal, len(spelled.plain(before)) - 1, refusal, line)

    def test_each_refusal(self) -> None:
        for before, change, refusal in REFUSED:
            with self.subTest(change=change, refusal=refusal):
                made = [record(it) for it in before]
                journal = spelled.plain([*made, record(change)])
                text = "posting 10 1 1 conservative 30 0 no shape\n" if refusal.startswith("24") else ""
                self.assert_damaged(journal, len(spelled.plain(made)) - 1, f"{change} is refused: {refusal}\n", text)

    def test_each_refusal_behind_a_posting(self) -> None:
        for votes, change, refusal in AFTER_POST:
            with self.subTest(change=change, refusal=refusal):
                made = records_of([*CHAIN, POSTED, *votes])
                journal = spelled.plain([*made, record(change)])
                text = "posting 7 1 1 hybrid 17 10 yes\n"
                self.assert_damaged(journal, len(spelled.plain(made)) - 1, f"{change} is refused: {refusal}\n", text)

    def test_files_without_entries(self) -> None:
        for journal in (b"", b"OTCJRNL1\0", b"123456789", b"OTCJRNL1\0\0", spelled.SLOTTED, spelled.slotted(b"", [])[:30], spelled.slotted(b"", [])):
            with self.subTest(journal=journal):
                self.assert_told(journal, EMPTY)
        self.journal.unlink()
        self.assertEqual(run([AUDIT, ROSTER, self.journal]), Ran(0, EMPTY.encode(), b""))
        self.assertFalse(self.journal.exists())

    def test_files_with_slots(self) -> None:
        records = records_of(GOES_ON)
        base = STOOD.spelled()
        for journal in (spelled.slotted(base, records), spelled.slotted(base, records, 1), spelled.slotted(base, records, 0, b"any" * 9)):
            self.assert_told(journal, STOOD_TEXT)
        self.assert_told(spelled.slotted(b"", records_of([*CHAIN, POSTED, *VOTES]), 1, b"x"), CHAIN_TEXT)
        other = bytearray(spelled.slotted(base, records))
        other[8] = 255
        self.assert_told(bytes(other), STOOD_TEXT)

    def test_moments(self) -> None:
        """The same changes with their moments, behind the turn and behind a base with the second mark."""
        told = records_of([*CHAIN, POSTED, *VOTES])
        dated = [spelled.number(moment) + record for moment, record in enumerate(told, 7)]
        text = CHAIN_TEXT.replace("at 0\n", "at 16\n")
        for turn in (0, 1, 9):
            self.assert_told(spelled.plain([*told[:turn], spelled.TURN, *dated[turn:]]), text)
        self.assert_told(spelled.slotted(b"", [*told, spelled.TURN]), CHAIN_TEXT)
        self.assert_damaged(spelled.plain([spelled.TURN, spelled.TURN]), 21, "byte 0, the moment")
        base = STOOD._replace(mark=b"\2").spelled()
        behind = [spelled.number(0) + record for record in records_of(GOES_ON)]
        self.assert_told(spelled.slotted(base, behind), STOOD_TEXT)
        self.assert_damaged(spelled.slotted(base, [spelled.TURN]), 29 + len(base), "byte 0, the moment")

    def test_a_base_that_does_not_fit(self) -> None:
        for base, why in MISFITS:
            with self.subTest(why=why, base=base._replace(trades=base.trades[:2])):
                self.assert_damaged(spelled.slotted(base.spelled(), [], 1, b"12345"), 30, f"its base does not fit the roster: {why}")

    def test_a_base_that_is_none(self) -> None:
        for base, why in UNSPELLED:
            with self.subTest(why=why):
                self.assert_damaged(spelled.slotted(base, []), 25, why)

    def test_damage_of_slots(self) -> None:
        whole = spelled.slotted(STOOD.spelled(), [])
        low = whole[:9] + spelled.number(24) + whole[17:]
        far = whole[:9] + spelled.number(len(whole) - 3) + whole[17:]
        further = whole[:9] + spelled.number(2**64 - 1) + whole[17:]
        for journal, at, why in (
            (low, 24, "slot 0 leads below 25"),
            (far, len(whole) - 3, "length of its base passes"),
            (further, 2**64 - 1, "length of its base passes"),
            (whole[:-2], 25, "passes the file's end"),
            (whole[:-1], len(whole) - 1, "a gate is due"),
            (whole[:25] + b"\xff\xff\xff\x0f" + whole[29:], 25, "at or past 268435456"),
            (b"OTCJRNL2" + whole[8:], 0, "begins neither with"),
        ):
            with self.subTest(why=why, at=at):
                self.assert_damaged(journal, at, why)

    def test_the_first_look_that_finds_damage_tells_it(self) -> None:
        base = STOOD._replace(cycle=10**18 + 1).spelled()
        bad = b"\0" * 4 + b"\0"
        frames = [record("A: AFFIRM 9"), bad]
        gate = 25 + 4 + len(base)
        self.assert_damaged(spelled.slotted(base, frames)[:-1], gate + 5 + len(frames[0]) + 10, "a gate is due")
        self.assert_damaged(spelled.slotted(base, frames), gate + 5 + len(frames[0]), "its record spells nothing")
        self.assert_damaged(spelled.slotted(base, frames[:1]), 25, "does not fit")
        self.assert_damaged(spelled.slotted(STOOD.spelled(), frames[:1]), 25 + 4 + len(STOOD.spelled()), "11 unknown-trade")

    def test_words_and_files(self) -> None:
        for words in ("", "a", "a b c", "-x b", "a -b"):
            self.assertEqual(run([AUDIT, *words.split()]), Ran(2, b"", b"bad words\n"))
        self.journal.write_bytes(b"")
        self.assertEqual(run([AUDIT, "/none", self.journal]), Ran(11, b"", b"file fault\n"))
        self.assertEqual(run([AUDIT, self.journal, self.journal]), Ran(3, b"", b"roster row 1: columns\n"))
        self.assertEqual(run([AUDIT, ROSTER, self.journal.parent]), Ran(6, b"", b"disk fault\n"))
        ran = run(["sh", "-c", 'exec "$0" "$1" "$2" > /dev/full', AUDIT, ROSTER, self.journal])
        self.assertEqual(ran, Ran(5, b"", b"sink fault\n"))


class Executions(unittest.TestCase):
    """A plan that is none of the certified network's: no journal has one, so it is put into a history by hand."""

    def history(self, steps: list[tuple[tuple[int, int], int]]) -> History:
        """A history in which A owes B 10, and a plan that makes new trades."""
        book = Book(Names({"A": 0, "B": 1, "C": 2}, [True] * 3, {"P": 0}, ["2031-06-30"], "OPS"))
        book.make((0, 1), 0, 10, DAY)
        cycle = Cycle(1, 1)
        cycle.plan = [plans.Step(parties, 0, None, amount) for parties, amount in steps]
        return History(book, cycle, 5)

    def test_a_net_position_that_moves_is_found(self) -> None:
        with self.assertRaisesRegex(Moved, "execution 5 moves the net position of A in P"):
            self.history([((0, 1), 3), ((1, 2), 3)]).execute(0)

    def test_a_gross_that_grows_is_found(self) -> None:
        with self.assertRaisesRegex(Moved, "execution 5 raises the gross of P"):
            self.history([((0, 1), 3), ((1, 2), 3), ((2, 0), 3)]).execute(0)


if __name__ == "__main__":
    unittest.main()
