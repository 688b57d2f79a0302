"""Random cycles of the program, of which each member tests its own part by what it noted, and by the replies to its PROOF and PLAN."""

import itertools
import random
import sys
import tempfile
import unittest
from pathlib import Path
from typing import NamedTuple

from running import TOOLS, program

sys.path.insert(0, str(TOOLS))

from delkwoan import own_part
from delkwoan.keys import public_roster
from delkwoan.session import Session

CYCLES = 24
MEMBERS = ("A", "B", "C", "D", "E")
DEALERS = ("A", "B", "C")
MATURITIES = {"P": "2031-06-30", "Q": "2029-12-31", "R": "2026-03-20"}
"""The last one is not in a cycle of the day below."""
FREEZE = "2026-03-31"
ROSTER = "".join(
    ["name,role,key\n"]
    + [f"{name},{'dealer' if name in DEALERS else 'customer'},K{name}\n" for name in MEMBERS]
    + [f"{name},product,{day}\n" for name, day in MATURITIES.items()]
    + ["OPS,operator,KO\n"]
)


class Told(NamedTuple):
    """What a member has: its TOL lines with the positions of their replies, and texts of replies."""

    settings: list[str]
    trades: list[str]
    proof: str
    plan: str


class Cycle:
    """A market over a session, and its cycle."""

    def __init__(self, session: Session, chance: random.Random) -> None:
        self.session = session
        self.chance = chance
        self.settings: dict[str, list[str]] = {name: [] for name in MEMBERS}

    def ask(self, line: str) -> str:
        return b"".join(self.session.ask_raw(line)).decode()

    def greet(self, name: str) -> None:
        self.ask(f"HELLO {name} {'KO' if name == 'OPS' else 'K' + name}")

    def trade(self) -> None:
        (seller, buyer), product = self.chance.sample(MEMBERS, 2), self.chance.choice([*MATURITIES])
        self.greet(seller)
        number = self.ask(f"TRADE {seller} {buyer} {product} {self.chance.randint(1, 30)} 2026-03-02").split()[3]
        self.greet(buyer)
        if self.chance.random() < 0.9:
            self.ask(f"AFFIRM {number}")
        if self.chance.random() < 0.15:
            self.ask(f"HOLD {number}")

    def set(self) -> None:
        name, other = self.chance.sample(MEMBERS, 2)
        floor = self.chance.choice((0, 0, 1, 5, 20))
        ceiling = self.chance.choice(("-", floor, floor + 3, 100))
        line = f"TOL {other} {self.chance.choice([*MATURITIES])} {self.chance.choice(('out', 'in'))} {floor} {ceiling}"
        self.greet(name)
        self.settings[name].append(f"{self.ask(line).split()[1]} {line}\n")

    def told(self, mode: str) -> list[Told] | None:
        """What each member has while the proposal stands; None where there is nothing to propose."""
        for _ in range(self.chance.randint(4, 30)):
            self.trade()
        for _ in range(self.chance.randint(0, 14)):
            self.set()
        self.greet("OPS")
        self.ask(f"FREEZE {FREEZE}")
        trades = []
        for name in MEMBERS:
            self.greet(name)
            trades.append(self.ask("STATEMENT").splitlines(keepends=True)[1:])
        self.greet("OPS")
        if self.ask(f"PROPOSE 1 {mode}").split()[2] != "proposed":
            return None
        for _ in range(self.chance.randint(0, 4)):
            self.set()  # behind the BEGIN
        told = []
        for name, own in zip(MEMBERS, trades):
            self.greet(name)
            told.append(Told(self.settings[name], own, self.ask("PROOF 1"), self.ask("PLAN 1")))
        return told


def part_of(name: str, told: Told) -> own_part.Part:
    roster = own_part.read_roster(public_roster(ROSTER.encode()).encode())
    notes = own_part.read_notes("".join([*told.settings, *told.trades]).encode(), roster)
    return own_part.Part(roster, name, notes, own_part.read_proof(told.proof.encode()), own_part.read_plan(told.plan.encode()))


class Proofs(unittest.TestCase):
    def setUp(self) -> None:
        self.program = program()
        folder = tempfile.TemporaryDirectory()
        self.addCleanup(folder.cleanup)
        self.folder = Path(folder.name)
        (self.folder / "roster").write_text(ROSTER)

    def parts_of(self, number: int) -> list[own_part.Part]:
        chance = random.Random(number)
        mode = ("conservative", "hybrid", "free")[number % 3]
        with Session.script(self.program, self.folder / "roster", self.folder / f"journal{number}") as session:
            told = Cycle(session, chance).told(mode)
        return [part_of(name, it) for name, it in zip(MEMBERS, told)] if told else []

    def test_all_members_say_yes_and_compare_equal_hashes(self) -> None:
        proposals = 0
        for number in range(CYCLES):
            parts = self.parts_of(number)
            with self.subTest(number=number):
                self.assertEqual([own_part.clash_of(part) for part in parts], [None for _ in parts])
                for one, other in itertools.combinations(parts, 2):
                    hashes = own_part.hash_with(one, other.member, "S"), own_part.hash_with(other, one.member, "S")
                    self.assertEqual(*hashes)
                    is_same = own_part.hash_of_all(one) == own_part.hash_of_all(other)
                    self.assertEqual(is_same, one.proof.potentials == other.proof.potentials)
            proposals += bool(parts)
        self.assertGreater(proposals, CYCLES // 2)


if __name__ == "__main__":
    unittest.main()
