"""docs/WHO-SEES-WHAT.md on the real service: what each reader's lines show of the trades, tolerances, holds, votes and keys of a member A.

Each of A's numbers is in nothing else, so it is seen exactly where it is printed."""

import re
import unittest
from typing import NamedTuple

from running import TOOLS, Ran, run
from serving import ROSTER, InService

TRADE, HELD, FLOOR, CEILING, ELSEWHERE = "7919", "6133", "7001", "8287", "5003"
"""The amounts of A's live trade and of its held trade with B, A's bounds for its pairs with B, and an amount between B and C."""
SETUP = [
    ("A", f"TRADE A B P {TRADE} 2026-03-02"),
    ("B", "AFFIRM 1"),
    ("B", f"TRADE B A P {HELD} 2026-03-02"),
    ("A", "AFFIRM 2"),
    ("A", "HOLD 2"),
    ("B", f"TRADE B C P {ELSEWHERE} 2026-03-02"),
    ("C", "AFFIRM 3"),
    ("A", f"TRADE A C P {ELSEWHERE} 2026-03-02"),
    ("C", "AFFIRM 4"),
    ("A", f"TOL B P out {FLOOR} -"),
    ("A", f"TOL B P in 0 {CEILING}"),
    ("OPS", "FREEZE 2026-06-30"),
    ("OPS", "PROPOSE 1 free"),
    ("C", "ACCEPT 1 1"),
]
READS = ["STATEMENT", "NETS P", "LIMITS P", "PLAN 1", "PROOF 1", "DECLINE 1 2", *(f"NEXT {position}" for position in range(len(SETUP) + 2))]
"""Each line that shows something and changes nothing, with a vote for a version that is not there."""


class Seen(NamedTuple):
    """Which of A's data a reader's replies show."""

    trade: bool
    held: bool
    floor: bool
    ceiling: bool
    vote: bool


ALL, NONE = Seen(True, True, True, True, True), Seen(False, False, False, False, False)


class Readers(InService):
    def setUp(self) -> None:
        super().setUp()
        self.start("--seats", "8")
        for name, line in SETUP:
            with self.session(name) as session:
                session.ask_raw(line)

    def shown_to(self, name: str) -> bytes:
        """All that a reader gets over a connection."""
        with self.session(name) as session:
            return b"".join(part for line in READS for part in session.ask_raw(line))

    def seen(self, shown: bytes) -> Seen:
        """Amounts in text, or as a record has them; a vote is a record of C's, of tag 10."""
        def has(number: str) -> bool:
            return re.search(rb"\b%s\b" % number.encode(), shown) is not None or int(number).to_bytes(8, "little") in shown

        vote = b"\x01C\x0a" in shown or b"C: ACCEPT 1 1" in shown
        return Seen(has(TRADE), has(HELD), has(FLOOR), has(CEILING), vote)

    def test_a_counterparty_sees_trades_holds_and_the_bounds_that_count(self) -> None:
        shown = self.shown_to("B")
        self.assertEqual(self.seen(shown), Seen(True, True, True, True, False))
        self.assertRegex(shown, rb"pair P A B %s seller" % FLOOR.encode())
        self.assertRegex(shown, rb"trade 2 B A P %s \S+ live held\n" % HELD.encode())

    def test_whoever_is_no_party_of_a_pair_sees_nothing_of_it(self) -> None:
        self.assertEqual(self.seen(self.shown_to("C")), NONE)

    def test_the_operator_sees_each_change_by_next(self) -> None:
        self.assertEqual(self.seen(self.shown_to("OPS")), ALL)

    def test_an_auditor_sees_all_but_keys(self) -> None:
        shown = run([TOOLS / "journal", self.journal]).output
        self.assertEqual(self.seen(shown), ALL)
        for line in ROSTER.read_text().splitlines():
            if line.split(",")[1] in ("dealer", "operator"):
                self.assertNotIn(line.split(",")[2].encode(), self.journal.read_bytes() + shown)

    def test_a_vote_is_counted_for_members_and_not_named(self) -> None:
        with self.session("B") as session:
            self.assertRegex(b"".join(session.ask_raw("ACCEPT 1 1")), rb"^ok \d+ accepted 1 1 1\n$")


if __name__ == "__main__":
    unittest.main()
