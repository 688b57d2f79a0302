"""Random days of a market: members trade, tolerate and hold, and an operator freezes, proposes and cancels, in a session.

What is said is drawn by a number, from what the replies have told so far, so that most lines are accepted and each kind of
change comes.
"""

import random
from typing import NamedTuple, Protocol

from delkwoan import replies
from delkwoan.replies import Answer, Refused

PRODUCTS = (("P0", "2026-06-30"), ("P1", "2027-06-30"), ("P2", "2028-06-30"))
DAYS = ("2026-01-02", "2026-06-30", "2026-07-01", "2027-12-31")
MODES = ("conservative", "hybrid", "free")
OPERATOR = "OPS"


class Asks(Protocol):
    """A session that takes a line and answers."""

    def ask(self, line: str) -> Answer:
        ...


class Market(NamedTuple):
    members: list[str]
    products: list[str]

    def roster(self, dealers: int) -> bytes:
        """Its roster, where so many members are dealers; each key is the name with a K in front."""
        rows = [f"{name},{'dealer' if place < dealers else 'customer'},K{name}" for place, name in enumerate(self.members)]
        rows += [f"{name},product,{day}" for name, day in PRODUCTS if name in self.products]
        return "\n".join(["name,role,key", *rows, f"{OPERATOR},operator,K{OPERATOR}", ""]).encode()


def market_of(chance: random.Random) -> Market:
    members = [f"M{place}" for place in range(chance.randint(3, 6))]
    return Market(members, [name for name, _ in PRODUCTS[: chance.randint(1, 3)]])


class Day:
    """A day in a session: who speaks, the parties of the trades that were alleged, and the open cycle."""

    def __init__(self, session: Asks, market: Market, chance: random.Random) -> None:
        self.session = session
        self.market = market
        self.chance = chance
        self.speaker = ""
        self.trades: dict[int, tuple[str, str]] = {}
        self.count = 0
        self.cycle = 0
        self.version = 0

    def say(self, speaker: str, line: str) -> Answer | None:
        """The answer to a speaker's line, or none where it is refused."""
        if self.speaker != speaker:
            self.session.ask(f"HELLO {speaker} K{speaker}")
            self.speaker = speaker
        try:
            return self.session.ask(line)
        except Refused:
            return None

    def member(self) -> str:
        return self.chance.choice(self.market.members)

    def some_trade(self) -> tuple[str, int]:
        """One of the last trades, and mostly a party of it."""
        trade = max(1, self.count - self.chance.randint(-1, 12))
        return self.chance.choice(self.trades.get(trade, self.market.members)), trade

    def trade(self) -> None:
        seller, buyer = self.chance.sample(self.market.members, 2)
        amount = self.chance.choice((1, 5, 7, 10, 10, 12, 10**15, self.chance.randint(1, 30)))
        product, day = self.chance.choice(self.market.products), self.chance.choice(("2026-03-02", "2026-06-29", "2027-01-04"))
        line = f"TRADE {seller} {buyer} {product} {amount} {day}"
        speaker = self.chance.choice((seller, buyer))
        answer = self.say(speaker, line)
        if isinstance(answer, replies.Traded):
            self.count = answer.trade
            self.trades[answer.trade] = (seller, buyer)
            if self.chance.random() < 0.9:
                self.say(buyer if speaker == seller else seller, f"AFFIRM {answer.trade}")

    def change_trade(self) -> None:
        member, trade = self.some_trade()
        self.say(member, f"{self.chance.choice(('AFFIRM', 'HOLD', 'HOLD', 'FREE', 'END'))} {trade}")

    def end(self) -> None:
        trade = max(1, self.count - self.chance.randint(0, 20))
        for member in self.trades.get(trade, ()):
            self.say(member, f"END {trade}")

    def tolerate(self) -> None:
        member, other = self.chance.sample(self.market.members, 2)
        floor, more = self.chance.choice((0, 0, 1, 3, 8)), self.chance.choice((None, 0, 2, 20))
        ceiling = "-" if more is None else floor + more
        side, product = self.chance.choice(("out", "in")), self.chance.choice(self.market.products)
        self.say(member, f"TOL {other} {product} {side} {floor} {ceiling}")

    def freeze(self) -> None:
        answer = self.say(OPERATOR, f"FREEZE {self.chance.choice(DAYS)}")
        if isinstance(answer, replies.Frozen):
            self.cycle, self.version = answer.cycle, 0

    def propose(self) -> None:
        answer = self.say(OPERATOR, f"PROPOSE {self.cycle} {self.chance.choice(MODES)}")
        if isinstance(answer, replies.Proposed | replies.Nothing):
            self.version = answer.version
        if isinstance(answer, replies.Proposed):
            self.vote()

    def vote(self) -> None:
        """All members vote, in any order, unless something else comes in between."""
        for member in self.chance.sample(self.market.members, len(self.market.members)):
            word = "ACCEPT" if self.chance.random() < 0.95 else "DECLINE"
            answer = self.say(member, f"{word} {self.cycle} {self.version}")
            if isinstance(answer, replies.Executed):
                self.count += answer.made
            if self.chance.random() < 0.05:
                self.move()

    def by_hand(self) -> None:
        """A version whose posting leaves all as it is, which is refused where that is not the least."""
        answer = self.say(OPERATOR, f"BEGIN {self.cycle} {self.chance.choice(MODES)}")
        if not isinstance(answer, replies.Begun):
            return
        self.version = answer.version
        for product in self.market.products:
            limits = self.say(OPERATOR, f"LIMITS {product}")
            for row in limits.rows if isinstance(limits, replies.Limits) else []:
                if row.now:
                    self.say(OPERATOR, f"ROW {product} {row.seller} {row.buyer} {row.now}")
        self.say(OPERATOR, f"POST {self.cycle} {self.version}")

    def cancel(self) -> None:
        self.say(OPERATOR, f"CANCEL {self.cycle}")

    def move(self) -> None:
        kinds = [self.trade] * 12 + [self.change_trade] * 4 + [self.tolerate] * 3 + [self.freeze] * 3
        kinds += [self.propose] * 3 + [self.by_hand, self.end, self.cancel]
        self.chance.choice(kinds)()

    def spend(self, moves: int) -> None:
        for _ in range(moves):
            self.move()
