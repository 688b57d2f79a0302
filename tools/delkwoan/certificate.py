"""What a posting has to hold of one product: the limits of its version, and the first clash of a certificate with them.

Written from docs/FORMATS.md, "A check's answer", and docs/MODEL.md, "The cycle". It shares nothing with the program.
"""

from typing import Iterator, NamedTuple

Pair = tuple[int, int]  # a seller and a buyer, by their places in the roster
Network = dict[Pair, int]


class Problem(NamedTuple):
    """What a version asks of a product: the frozen amounts, the least of them, and the most for pairs that may grow.

    `least` has the pairs that may not fall to 0. A pair may grow between two different members that both do, up to the amount
    that `most` has for it, or without end where it has none.
    """

    now: Network
    least: Network
    most: Network
    grows: list[bool]

    def upper(self, pair: Pair) -> int | None:
        """The most that a pair may come to."""
        now = self.now.get(pair, 0)
        if pair[0] == pair[1] or not (self.grows[pair[0]] and self.grows[pair[1]]):
            return now
        most = self.most.get(pair)
        return None if most is None else max(now, most)


class Clash(NamedTuple):
    """A clash in its word, and the places of the members in it."""

    word: str
    members: tuple[int, ...]


def nets_of(network: Network, members: int) -> list[int]:
    """What each member sold less what it bought."""
    nets = [0] * members
    for (seller, buyer), amount in network.items():
        nets[seller] += amount
        nets[buyer] -= amount
    return nets


def bounds_clash(problem: Problem, new: Network) -> Clash | None:
    """The first pair whose amount is out of its bounds."""
    for pair in sorted({*problem.least, *new}):
        amount, upper = new.get(pair, 0), problem.upper(pair)
        if amount < problem.least.get(pair, 0):
            return Clash("below", pair)
        if upper is not None and amount > upper:
            return Clash("above", pair)
    return None


def steep_pairs(problem: Problem, prices: list[int]) -> Iterator[Pair]:
    """The pairs that may grow without a frozen amount, and would at a gain."""
    growing = [member for member, does in enumerate(problem.grows) if does]
    least = min((prices[member] for member in growing), default=0)
    for seller in growing:
        if prices[seller] - least > 1:
            yield from ((seller, buyer) for buyer in growing if prices[seller] - prices[buyer] > 1)


def price_clash(problem: Problem, new: Network, prices: list[int]) -> Clash | None:
    """The first pair whose amount could be moved at a gain."""
    for pair in sorted({*problem.now, *new, *steep_pairs(problem, prices)}):
        amount, cost = new.get(pair, 0), 1 - prices[pair[0]] + prices[pair[1]]
        upper = problem.upper(pair)
        if cost < 0 and (upper is None or amount < upper):
            return Clash("open", pair)
        if cost > 0 and amount > problem.least.get(pair, 0):
            return Clash("slack", pair)
    return None


def first_clash(problem: Problem, new: Network, prices: list[int]) -> Clash | None:
    """The first clash: of the bounds, then of the net positions, then of the prices; none where the network is certified."""
    clash = bounds_clash(problem, new)
    if clash is not None:
        return clash
    members = len(prices)
    for member, (before, after) in enumerate(zip(nets_of(problem.now, members), nets_of(new, members))):
        if before != after:
            return Clash("net", (member,))
    return price_clash(problem, new, prices)
