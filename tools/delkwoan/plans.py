"""Plans: which frozen trades end, which are cut and which are new, where a posting's networks are executed.

Written from docs/PROTOCOL.md, "A cycle", and docs/MODEL.md, "The cycle". It shares nothing with the program.
"""

from typing import Iterator, NamedTuple

from .book import BUYER, SELLER, Book, Trade
from .certificate import Network, Pair, Problem

Frozen = dict[Pair, list[Trade]]
"""The frozen trades of a product, by their pairs and in the order of their numbers."""


class Step(NamedTuple):
    """A step of a plan: a trade comes to an amount, which is 0 where it ends; or a new one is made where there is none."""

    parties: Pair
    product: int
    trade: Trade | None
    amount: int


def plan_of(frozen: list[Frozen], problems: list[Problem], news: list[Network]) -> Iterator[Step]:
    """The steps of new networks, in the order of product, seller and buyer."""
    for product, (trades, problem, new) in enumerate(zip(frozen, problems, news)):
        for pair in sorted({*problem.now, *new}):
            fall = problem.now.get(pair, 0) - new.get(pair, 0)
            if fall < 0:
                yield Step(pair, product, None, -fall)
            elif fall > 0:
                yield from falling(fall, [trade for trade in trades[pair] if not any(trade.holds)])


def falling(fall: int, trades: list[Trade]) -> Iterator[Step]:
    """How trades fall by an amount together: they end whole while they fit, and the next one is cut."""
    for trade in trades:
        if fall == 0:
            return
        less = min(fall, trade.amount)
        fall -= less
        yield Step(trade.parties, trade.product, trade, trade.amount - less)


class Execution(NamedTuple):
    """How many trades a plan ended, cut and made, and by how much each position of a member in a product moved."""

    ended: int
    cut: int
    made: int
    moved: dict[tuple[int, int], int]


def execute(book: Book, plan: list[Step], day: str) -> Execution:
    """Makes the steps of a plan."""
    counts = {"ended": 0, "cut": 0, "made": 0}
    moved: dict[tuple[int, int], int] = {}
    for step in plan:
        before = 0 if step.trade is None else step.trade.amount
        if step.trade is None:
            book.make(step.parties, step.product, step.amount, day)
            counts["made"] += 1
        elif step.amount == 0:
            book.close(step.trade)
            counts["ended"] += 1
        else:
            book.cut(step.trade, step.amount)
            counts["cut"] += 1
        for side, sign in ((SELLER, 1), (BUYER, -1)):
            key = step.product, step.parties[side]
            moved[key] = moved.get(key, 0) + sign * (step.amount - before)
    return Execution(counts["ended"], counts["cut"], counts["made"], moved)
