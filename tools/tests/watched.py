"""Random days on which each member notes what `check_mine` wants: what it set, its trades at each freeze, and what PROOF and PLAN tell."""

import random
import tempfile
import unittest
from pathlib import Path
from typing import NamedTuple

from days import PRODUCTS, Day, Market, market_of
from delkwoan import own_part
from delkwoan.keys import public_roster
from delkwoan.replies import Answer
from delkwoan.session import Session
from running import program

MOVES = 120
MOST_AMOUNT = 10**15
"""The largest amount of a trade in a trade file."""


class Told(NamedTuple):
    """What a member has while a proposal stands: its notes, and the replies to its PROOF and its PLAN."""

    notes: str
    proof: str
    plan: str


class Proposal(NamedTuple):
    """A proposal that was put to the vote, and what each member has of it."""

    cycle: int
    version: int
    told: dict[str, Told]

    @property
    def proof(self) -> own_part.Proof:
        """The first member's, whose head all were told."""
        return own_part.read_proof(next(iter(self.told.values())).proof.encode())

    def frozen(self) -> list[tuple[str, str, str, int]]:
        """The seller, buyer, product and amount of each trade that was frozen, by what the members noted."""
        lines = {line for told in self.told.values() for line in told.notes.splitlines() if line.startswith("trade ")}
        rows = sorted((line.split(" ") for line in lines), key=lambda words: int(words[1]))
        maturities, day = dict(PRODUCTS), self.proof.day
        return [(words[2], words[3], words[4], int(words[5])) for words in rows if words[7] == "live" and maturities[words[4]] > day]

    def trade_file(self) -> bytes:
        """Those trades as a file, where an amount that no TRADE takes is that of several."""
        rows = [",".join((*row[:3], str(part))) for row in self.frozen() for part in parts_of(row[3])]
        return "\n".join(["seller,buyer,product,amount", *rows, ""]).encode()


def parts_of(amount: int) -> list[int]:
    whole, rest = divmod(amount, MOST_AMOUNT)
    return [MOST_AMOUNT] * whole + [rest] * (rest > 0)


class Watched(Day):
    """A day whose members note; on a plain one nobody tolerates or holds anything."""

    def __init__(self, session: Session, market: Market, chance: random.Random, is_plain: bool) -> None:
        super().__init__(session, market, chance)
        self.raw = session
        self.is_plain = is_plain
        self.settings: dict[str, str] = dict.fromkeys(market.members, "")
        self.statements: dict[str, str] = {}
        self.proposals: list[Proposal] = []

    def say(self, speaker: str, line: str) -> Answer | None:
        verb = line.split(" ")[0]
        if self.is_plain and verb in ("TOL", "HOLD"):
            return None
        answer = super().say(speaker, line)
        if answer is not None and verb == "TOL":
            self.settings[speaker] += f"{self.raw.position} {line}\n"
        return answer

    def asked(self, member: str, line: str) -> str:
        """The text of the reply to a member's line."""
        if self.speaker != member:
            self.session.ask(f"HELLO {member} K{member}")
            self.speaker = member
        return b"".join(self.raw.ask_raw(line)).decode()

    def freeze(self) -> None:
        before = self.cycle
        super().freeze()
        if self.cycle != before:
            self.statements = {name: self.asked(name, "STATEMENT").partition("\n")[2] for name in self.market.members}

    def vote(self) -> None:
        self.proposals.append(Proposal(self.cycle, self.version, {name: self.told(name) for name in self.market.members}))
        super().vote()

    def told(self, member: str) -> Told:
        proof, plan = (self.asked(member, f"{verb} {self.cycle}") for verb in ("PROOF", "PLAN"))
        return Told(self.settings[member] + self.statements[member], proof, plan)


class WatchedDays(unittest.TestCase):
    """Random days of the program, each with a roster and a journal."""

    def setUp(self) -> None:
        self.program = program()
        folder = tempfile.TemporaryDirectory()
        self.addCleanup(folder.cleanup)
        self.folder = Path(folder.name)
        self.roster, self.journal = self.folder / "roster", self.folder / "journal"

    def spend(self, number: int, is_plain: bool) -> list[Proposal]:
        """The proposals of the day of a number."""
        chance = random.Random(number)
        self.market = market_of(chance)
        self.journal.unlink(missing_ok=True)
        self.roster.write_bytes(self.market.roster(chance.randint(0, len(self.market.members))))
        with Session.script(self.program, self.roster, self.journal) as session:
            day = Watched(session, self.market, chance, is_plain)
            day.spend(MOVES)
        return day.proposals

    def part_of(self, member: str, told: Told) -> own_part.Part:
        """What a member tests with, by a roster without keys."""
        roster = own_part.read_roster(public_roster(self.roster.read_bytes()).encode())
        notes, proof = own_part.read_notes(told.notes.encode(), roster), own_part.read_proof(told.proof.encode())
        return own_part.Part(roster, member, notes, proof, own_part.read_plan(told.plan.encode()))
