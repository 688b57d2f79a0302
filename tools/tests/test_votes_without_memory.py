"""Votes on a plan at a service that gets no memory any more once the plan is proposed: a library that is preloaded refuses it."""

import sys
import unittest

from running import PATIENCE, TOOLS, Ran, run
from test_refusals import Refused

sys.path.insert(0, str(TOOLS))

from delkwoan import replies
from delkwoan.session import Session

DAY = "2026-03-02"


class VotesWithoutMemory(Refused):
    def serve(self) -> None:
        """A service that gets memory as long as there is no file `gone`."""
        self.gone = self.folder / "gone"
        self.gone.unlink(missing_ok=True)
        self.refuse(f"REFUSE_MEMORY_WITH={self.gone}")
        self.assertEqual(run([TOOLS / "wait-ready", self.address, str(PATIENCE)]), Ran(0, b"", b""))

    def proposed(self) -> tuple[Session, Session, Session]:
        """Three members with a proposed plan, which cuts a trade, ends one and makes one."""
        self.serve()
        a, b, c, operator = (self.session(name) for name in ("A", "B", "C", "OPS"))
        a.trade("A", "B", "P", 10, DAY)
        b.affirm(1)
        b.trade("B", "C", "P", 7, DAY)
        c.affirm(2)
        operator.freeze("2026-03-31")
        self.assertEqual(operator.propose(1, "hybrid"), replies.Proposed(7, 1, 1, 17, 10))
        return a, b, c

    def refused(self, session: Session) -> tuple[int, int]:
        """The position and the number of a TRADE's refusal."""
        with self.assertRaises(replies.Refused) as told:
            session.trade("A", "B", "P", 5, DAY)
        return told.exception.position, told.exception.number

    def test_each_vote_is_answered(self) -> None:
        a, b, c = self.proposed()
        self.gone.touch()
        self.assertEqual(self.refused(a), (7, 28))
        self.assertEqual(a.accept(1, 1), replies.Accepted(8, 1, 1, 2))
        self.assertEqual(self.refused(a), (8, 28))
        self.assertEqual(b.accept(1, 1), replies.Accepted(9, 1, 1, 1))
        self.assertEqual(c.accept(1, 1), replies.Executed(10, 1, 1, 1, 1, 1))
        self.assertEqual(self.refused(a), (10, 28))
        self.gone.unlink()
        self.assertEqual(c.nets("P"), replies.Nets(10, 0, 7, -7))
        self.assertEqual(a.trade("A", "B", "P", 5, DAY), replies.Traded(11, 4))

    def test_a_ring_with_a_trade_that_is_not_frozen(self) -> None:
        self.serve()
        a, b, c, operator = (self.session(name) for name in ("A", "B", "C", "OPS"))
        for number, (seller, buyer, names) in enumerate([(a, b, "AB"), (b, c, "BC"), (c, a, "CA")], 1):
            seller.trade(names[0], names[1], "P", 10, DAY)
            buyer.affirm(number)
        operator.freeze("2026-03-31")
        a.trade("A", "C", "P", 5, DAY)
        c.affirm(4)
        self.assertEqual(operator.propose(1, "conservative"), replies.Proposed(11, 1, 1, 30, 0))
        self.gone.touch()
        self.assertEqual(self.refused(a), (11, 28))
        self.assertEqual(a.accept(1, 1), replies.Accepted(12, 1, 1, 2))
        self.assertEqual(b.accept(1, 1), replies.Accepted(13, 1, 1, 1))
        self.assertEqual(c.accept(1, 1), replies.Executed(14, 1, 1, 3, 0, 0))
        self.gone.unlink()
        self.assertEqual(a.nets("P"), replies.Nets(14, 5, 0, 5))

    def test_a_trade_between_leaves_the_room_of_the_votes(self) -> None:
        a, b, c = self.proposed()
        self.assertEqual(a.trade("A", "B", "P", 5, DAY), replies.Traded(8, 3))
        self.gone.touch()
        self.assertEqual(a.accept(1, 1), replies.Accepted(9, 1, 1, 2))
        self.assertEqual(b.accept(1, 1), replies.Accepted(10, 1, 1, 1))
        self.assertEqual(c.accept(1, 1), replies.Executed(11, 1, 1, 1, 1, 1))

    def test_a_service_that_opens_with_a_proposed_plan_has_the_room(self) -> None:
        self.proposed()
        self.kill()
        self.serve()
        a, b, c = (self.session(name) for name in ("A", "B", "C"))
        self.gone.touch()
        self.assertEqual(self.refused(a), (7, 28))
        self.assertEqual(a.accept(1, 1), replies.Accepted(8, 1, 1, 2))
        self.assertEqual(b.accept(1, 1), replies.Accepted(9, 1, 1, 1))
        self.assertEqual(c.accept(1, 1), replies.Executed(10, 1, 1, 1, 1, 1))


if __name__ == "__main__":
    unittest.main()
