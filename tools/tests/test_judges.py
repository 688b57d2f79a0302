"""Each proposal of random days, as it was and spoilt, before all who judge it: members, auditor, the program's replay and its check.

A member's own test is of what an operator would have told it of such a proposal: the reply to its PROOF, with the amounts and the
potentials of what was posted, and the plan of that.
"""

import random
import sys
import unittest
from collections import Counter

from days import Market
from running import TOOLS, run
from spoils import SPOILS, Spoil, spelling_of, up_to_record, with_one_spoilt
from watched import Proposal, WatchedDays

sys.path.insert(0, str(TOOLS))

from delkwoan import own_part
from delkwoan.audit import Audit, names_of
from delkwoan.certificate import Network, nets_of
from delkwoan.changes import Post
from delkwoan.changes import Solution as Posted
from delkwoan.cycles import Cycle
from delkwoan.frames import Damaged, walk
from delkwoan.history import History
from delkwoan.plans import plan_of
from delkwoan.records import Kind, Record, body_of, record_of

DAYS = 8
WHOLE = "nothing"
NOBODY = "NOBODY"
"""Whom a posting has a potential for though the roster has not so many members."""


def name_of(names: list[str], place: int) -> str:
    return names[place] if place < len(names) else NOBODY


def told_of(proof: str, product: str, names: list[str], solution: Posted) -> str:
    """The reply to a PROOF where a product's part is another."""
    amounts = {(names[row.seller], names[row.buyer]): row.amount for row in solution.rows}
    head, *lines = proof.splitlines()
    others = [line for line in lines if line.split(" ")[:2] != ["pot", product]]
    near = {line.split(" ")[2] for line in lines if line.split(" ")[:2] == ["pot", product]} | {NOBODY}
    pots = [(name_of(names, place), value) for place, value in enumerate(solution.potentials)]
    told = [f"pot {product} {name} {value}" for name, value in pots if name in near]
    for line in others:
        words = line.split(" ")
        if words[:2] == ["pair", product]:
            words[7] = str(amounts.get((words[2], words[3]), 0))
        told.append(" ".join(words))
    return "".join(f"{line}\n" for line in [f"{head.rsplit(' ', 1)[0]} {len(told)}", *told])


def plan_of_all(cycle: Cycle, market: Market, solutions: list[Posted]) -> list[tuple[set[str], str]]:
    """The steps to what was posted, each with its parties."""
    steps = []
    for step in plan_of(cycle.frozen, cycle.problems, [{(row.seller, row.buyer): row.amount for row in it.rows} for it in solutions]):
        seller, buyer = (market.members[place] for place in step.parties)
        if step.trade is None:
            text = f"new {seller} {buyer} {market.products[step.product]} {step.amount}"
        else:
            text = f"cut {step.trade.number} {step.trade.amount} {step.amount}" if step.amount else f"end {step.trade.number}"
        steps.append(({seller, buyer}, text))
    return steps


def part_text(product: str, names: list[str], before: Network, solution: Posted) -> list[str]:
    """A product's part of a proposal, whose figures are right."""
    gross, after = sum(before.values()), sum(row.amount for row in solution.rows)
    floor = sum(net for net in nets_of(before, len(names)) if net > 0)
    bilateral = sum(abs(before.get((i, j), 0) - before.get((j, i), 0)) for i in range(len(names)) for j in range(i))
    lines = [f"product {product} {gross} {after} {floor} {bilateral}"]
    lines += [f"row {names[row.seller]} {names[row.buyer]} {row.amount}" for row in solution.rows]
    lines += [f"pot {name_of(names, place)} {value}" for place, value in enumerate(solution.potentials)]
    return [*lines, f"bound {after}"]


class Judges(WatchedDays):
    """The proposals of a random day, and what each judge says of them."""

    def posted(self, proposal: Proposal) -> tuple[int, Record]:
        """The place and the record of a proposal's POST."""
        found = walk(self.journal.read_bytes())
        for at, bytes, kind in body_of(b"", found.frames):
            if kind is not Kind.TURN:
                record = record_of(bytes, kind)
                if isinstance(record.change, Post) and record.change[:2] == (proposal.cycle, proposal.version):
                    return at, record
        raise self.failureException("no POST")

    def members_say(self, proposal: Proposal, solutions: list[Posted], steps: list[tuple[set[str], str]]) -> bool:
        """Whether each member says yes; where one does not, another finds something, too."""
        clashes = 0
        for member, told in proposal.told.items():
            proof = told.proof
            for product, solution in zip(self.market.products, solutions):
                proof = told_of(proof, product, self.market.members, solution)
            own = [text for parties, text in steps if member in parties]
            head = f"ok 1 plan {proposal.cycle} {proposal.version} {len(own)}"
            part = self.part_of(member, told._replace(proof=proof, plan="\n".join([head, *own, ""])))
            clashes += own_part.clash_of(part) is not None
        self.assertNotEqual(clashes, 1)
        return clashes == 0

    def audited(self, journal: bytes) -> History:
        """What the auditor makes of a journal, which ends with a posting."""
        audit = Audit(names_of(self.roster.read_bytes()), journal)
        try:
            audit.run()
        except Damaged:
            self.assertIsNotNone(audit.history.postings[-1].posting.fault)
        return audit.history

    def replay_says(self, journal: bytes, at: int) -> bool:
        """Whether the program takes the last posting."""
        path = self.folder / "spoilt"
        path.write_bytes(journal)
        ran = run([self.program, "replay", self.roster, path])
        if ran.status != 0:
            self.assertEqual((ran.status, ran.errors), (7, b"damaged at %d\n" % at))
        return ran.status == 0

    def check_says(self, proposal: Proposal, solutions: list[Posted]) -> bool:
        """Whether the program's check says yes to the frozen trades and the proposal as files, where nobody set or held anything."""
        members = self.market.members
        networks: dict[str, Network] = {product: {} for product in self.market.products}
        for seller, buyer, product, amount in proposal.frozen():
            pair = members.index(seller), members.index(buyer)
            networks[product][pair] = networks[product].get(pair, 0) + amount
        lines = [line for (product, before), it in zip(networks.items(), solutions) for line in part_text(product, members, before, it)]
        trades, text = self.folder / "trades", self.folder / "proposal"
        trades.write_bytes(proposal.trade_file())
        text.write_text("".join(f"{line}\n" for line in [*lines, f"end {len(networks)}"]))
        return run([self.program, "check", self.roster, trades, proposal.proof.mode, text]).output == b"yes\n"

    def verdicts(self, proposal: Proposal, spoil: Spoil, draw: random.Random, is_plain: bool) -> dict[str, bool]:
        """What each judge says of a proposal, once it is spoilt."""
        at, record = self.posted(proposal)
        assert isinstance(record.change, Post)
        solutions = with_one_spoilt(draw, record.change.solutions, spoil)
        journal = up_to_record(self.journal.read_bytes(), at, spelling_of(record, solutions))
        history = self.audited(journal)
        said = {
            "members": self.members_say(proposal, solutions, plan_of_all(history.cycle, self.market, solutions)),
            "auditor": history.postings[-1].posting.fault is None,
            "replay": self.replay_says(journal, at),
        }
        return {**said, "check": self.check_says(proposal, solutions)} if is_plain else said

    def found_on(self, is_plain: bool) -> Counter[tuple[str, bool]]:
        """How often each spoil was found or not on days of one kind, on which all judges say the same."""
        found: Counter[tuple[str, bool]] = Counter()
        for number in range(DAYS):
            proposals, draw = self.spend(number, is_plain), random.Random(number)
            cases = [(proposal, WHOLE) for proposal in proposals]
            cases += zip(draw.choices(proposals, k=len(SPOILS)), SPOILS) if proposals else []
            for proposal, name in cases:
                with self.subTest(number=number, cycle=proposal.cycle, version=proposal.version, name=name):
                    said = self.verdicts(proposal, SPOILS.get(name, lambda _, it: it), draw, is_plain)
                    self.assertEqual(len({*said.values()}), 1, said)
                    found[name, said["auditor"]] += 1
        return found

    def assert_found(self, found: Counter[tuple[str, bool]]) -> None:
        """Each spoil was found, some of them left a proposal certified, and nothing was found in those that were not spoilt."""
        self.assertEqual([name for name in SPOILS if not found[name, False]], [])
        self.assertGreater(sum(found[name, True] for name in SPOILS), 0)
        self.assertEqual((found[WHOLE, True] > DAYS, found[WHOLE, False]), (True, 0))

    def test_days_with_tolerances_and_holds(self) -> None:
        self.assert_found(self.found_on(is_plain=False))

    def test_days_that_check_can_judge(self) -> None:
        self.assert_found(self.found_on(is_plain=True))


if __name__ == "__main__":
    unittest.main()
