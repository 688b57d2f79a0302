"""An operator that tells two members different things of one proposal, or a bound that nobody set: who finds it, by which comparison of
docs/TRUST.md.

A lie is in the text of the program's reply to a PROOF. Each is such that the member that is told it alone may say yes.
"""

import itertools
import sys
import unittest
from typing import Iterator

from running import TOOLS
from watched import Proposal, Told, WatchedDays

sys.path.insert(0, str(TOOLS))

from delkwoan import own_part
from delkwoan.own_part import OWNERS, Pair, Part

DAYS = 4
SALT = "S"


def with_potentials(told: Told, product: str) -> Told:
    """What a member is told, with each potential of a product 1 more, so that what a pair costs stays."""
    lines = []
    for line in told.proof.splitlines():
        words = line.split(" ")
        if words[:2] == ["pot", product]:
            words[3] = str(int(words[3]) + 1)
        lines.append(" ".join(words))
    return told._replace(proof="".join(f"{line}\n" for line in lines))


def bounds_beside(pair: Pair) -> Iterator[str]:
    """The pair's line with a bound that is as tight as NEXT lets it be, and any owner."""
    words = pair.line.split(" ")
    for owner in OWNERS:
        if pair.lower < pair.next <= pair.now:
            yield " ".join([*words[:4], str(pair.next), owner, *words[6:]])
        tight = max(pair.next, pair.now)
        if pair.upper_of != "now" and (pair.upper is None or tight < pair.upper):
            yield " ".join([*words[:8], str(tight), owner])


def with_line(told: Told, old: str, new: str) -> Told:
    return told._replace(proof=told.proof.replace(f"{old}\n", f"{new}\n"))


def are_near(part: Part, other: str, product: str) -> bool:
    """Whether a member and another may have an amount, so that each is told the other's potential."""
    pairs = [pair for pair in part.proof.pairs if pair.product == product and other in (pair.seller, pair.buyer)]
    return any(pair.upper != 0 for pair in pairs)


class Lies(WatchedDays):
    def proposals(self) -> Iterator[tuple[Proposal, dict[str, Part]]]:
        """The proposals of some days, and what each member tests with."""
        for number in range(DAYS):
            for proposal in self.spend(number, is_plain=False):
                parts = {member: self.part_of(member, told) for member, told in proposal.told.items()}
                self.assertEqual([own_part.clash_of(part) for part in parts.values()], [None for _ in parts])
                yield proposal, parts

    def is_alike(self, one: Part, other: Part) -> bool:
        """Whether two members find their `with` hashes equal."""
        return own_part.hash_with(one, other.member, SALT) == own_part.hash_with(other, one.member, SALT)

    def test_potentials_that_others_are_not_told(self) -> None:
        """The member says yes; those near find it by their `with` hashes, and whoever compares `all` hashes by those."""
        found = 0
        for proposal, parts in self.proposals():
            for member, product in itertools.product(parts, self.market.products):
                lied = self.part_of(member, with_potentials(proposal.told[member], product))
                self.assertIsNone(own_part.clash_of(lied))
                for other in (it for it in parts if it != member):
                    is_near = are_near(lied, other, product)
                    self.assertTrue(self.is_alike(parts[member], parts[other]))
                    self.assertEqual(self.is_alike(lied, parts[other]), not is_near)
                    self.assertNotEqual(own_part.hash_of_all(lied), own_part.hash_of_all(parts[other]))
                    found += is_near
        self.assertGreater(found, DAYS)

    def test_a_bound_that_nobody_set(self) -> None:
        """Whom it names finds it by its own test; told the other alone, the two find it by their `with` hashes."""
        found = {"by the member": 0, "by the other": 0}
        for proposal, parts in self.proposals():
            for member, part in parts.items():
                for pair, line in ((pair, line) for pair in part.proof.pairs for line in bounds_beside(pair)):
                    lied = self.part_of(member, with_line(proposal.told[member], pair.line, line))
                    if own_part.clash_of(lied) is not None:
                        found["by the member"] += 1
                        continue
                    other = pair.buyer if pair.seller == member else pair.seller
                    self.assertFalse(self.is_alike(lied, parts[other]))
                    self.assertIsNotNone(own_part.clash_of(self.part_of(other, with_line(proposal.told[other], pair.line, line))))
                    found["by the other"] += 1
        self.assertGreater(min(found.values()), DAYS)


if __name__ == "__main__":
    unittest.main()
