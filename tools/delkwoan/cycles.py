"""The cycle of a market: what freezes, which problems a version begins with, what a posting changes, and when it executes.

Written from docs/PROTOCOL.md, "A cycle", and docs/MODEL.md, "The cycle". It shares nothing with the program.
"""

from typing import NamedTuple

from . import changes
from .book import Book, Refused, Tolerance, Trade
from .certificate import Network, Pair, Problem, first_clash
from .plans import Frozen, Step, plan_of


class Posting(NamedTuple):
    """A posting of a version: the gross before and after, and the first thing that is wrong with it, if any is."""

    cycle: int
    version: int
    mode: str
    before: int
    after: int
    fault: str | None


class Cycle:
    """The last cycle, in its phase: `none` where it is over, `frozen`, `solving`, `proposed` or `broken`."""

    def __init__(self, number: int, version: int) -> None:
        self.number = number
        self.version = version
        self.phase = "none"
        self.broken_by = 0
        self.mode = ""
        self.day = ""
        self.frozen: list[Frozen] = []
        self.problems: list[Problem] = []
        self.plan: list[Step] = []
        self.left: set[int] = set()
        self.touched: set[int] = set()

    def want(self, cycle: int, *phases: str) -> None:
        """Refuses another cycle than the last, one that is broken, and one in no such phase."""
        if cycle != self.number:
            raise Refused(f"16 wrong-cycle {self.number}")
        if self.phase == "broken":
            raise Refused(f"21 cycle-broken {self.broken_by}")
        if self.phase not in phases:
            raise Refused(f"17 wrong-phase {self.phase}")

    def want_version(self, version: int) -> None:
        if version != self.version:
            raise Refused(f"18 wrong-version {self.version}")

    def freeze(self, book: Book, day: str) -> None:
        """Opens the next cycle, with the live trades of the products that mature after the day."""
        if self.phase != "none":
            raise Refused(f"15 cycle-open {self.number}")
        self.number, self.version, self.phase, self.day = self.number + 1, 0, "frozen", day
        self.frozen = [{} for _ in book.names.products]
        for trade in sorted(book.live.values(), key=lambda trade: trade.number):
            if book.names.maturities[trade.product] > day:
                trade.is_frozen = True
                self.frozen[trade.product].setdefault(trade.parties, []).append(trade)

    def begin(self, book: Book, asked: changes.Begin) -> None:
        self.want(asked.cycle, "frozen", "solving")
        self.version, self.phase, self.mode = self.version + 1, "solving", asked.mode
        grows = [asked.mode == "free" or (asked.mode == "hybrid" and is_dealer) for is_dealer in book.names.is_dealer]
        self.problems = [problem_of(frozen, tolerances, grows) for frozen, tolerances in zip(self.frozen, book.tolerances)]

    def post(self, book: Book, asked: changes.Post) -> Posting:
        """A posting; it stands only where nothing is wrong with it."""
        self.want(asked.cycle, "solving")
        self.want_version(asked.version)
        news = [{(row.seller, row.buyer): row.amount for row in solution.rows} for solution in asked.solutions]
        before, after = (sum(sum(network.values()) for network in networks) for networks in ([it.now for it in self.problems], news))
        posting = Posting(self.number, self.version, self.mode, before, after, self.fault_of(book, asked, news))
        if posting.fault is None:
            self.phase = "proposed"
            self.plan = list(plan_of(self.frozen, self.problems, news))
            self.touched = {member for step in self.plan for member in step.parties}
            self.left = {*self.touched}
        return posting

    def fault_of(self, book: Book, asked: changes.Post, news: list[Network]) -> str | None:
        """The first thing that is wrong with a posting, in the words of a refusal."""
        members = list(book.names.members)
        if len(asked.solutions) != len(self.problems) or any(len(it.potentials) != len(members) for it in asked.solutions):
            return "shape"
        for product, problem, new, solution in zip(book.names.products, self.problems, news, asked.solutions):
            clash = first_clash(problem, new, solution.potentials)
            if clash is not None:
                return " ".join([product, clash.word, *(members[member] for member in clash.members)])
        return None

    def vote(self, member: int | None, asked: changes.Accept | changes.Decline) -> None:
        """A vote: with a DECLINE the proposal is dropped, and with the last ACCEPT nobody is left."""
        self.want(asked.cycle, "proposed")
        self.want_version(asked.version)
        if member is None or member not in self.touched:
            raise Refused("19 not-touched")
        if isinstance(asked, changes.Decline):
            self.phase = "frozen"
        elif member not in self.left:
            raise Refused("20 already-accepted")
        else:
            self.left.remove(member)

    def break_by(self, trade: Trade) -> None:
        """A frozen trade has ended."""
        if self.phase != "broken":
            self.phase, self.broken_by = "broken", trade.number

    def cancel(self, asked: changes.Cancel) -> None:
        if asked.cycle != self.number:
            raise Refused(f"16 wrong-cycle {self.number}")
        if self.phase == "none":
            raise Refused("17 wrong-phase none")
        self.close()

    def close(self) -> None:
        """The cycle is over, and nothing is frozen any more."""
        self.phase = "none"
        for frozen in self.frozen:
            for trades in frozen.values():
                for trade in trades:
                    trade.is_frozen = False


def problem_of(frozen: Frozen, tolerances: dict[tuple[Pair, int], Tolerance], grows: list[bool]) -> Problem:
    """What frozen trades and tolerances make of a product."""
    now = {pair: sum(trade.amount for trade in trades) for pair, trades in frozen.items()}
    least = {pair: sum(trade.amount for trade in trades if any(trade.holds)) for pair, trades in frozen.items()}
    most: Network = {}
    for (pair, _), (floor, ceiling) in tolerances.items():
        least[pair] = max(least.get(pair, 0), floor)
        if ceiling is not None:
            most[pair] = min(most.get(pair, ceiling), ceiling)
    bounded = {pair: min(amount, now.get(pair, 0)) for pair, amount in least.items()}
    return Problem(now, {pair: amount for pair, amount in bounded.items() if amount}, most, grows)
