"""Markets of one product, drawn from parameters and a seed: a core of dealers that trade with one another, and customers.

A market is made of orders. An order is a path of members along which one amount goes: each member of it sells the amount to
the next one. A path of two is a plain trade; a longer one is a chain, in which each member between the ends buys and sells
the same amount. By that a market's excess is known before it is compressed: it is the sum, over the chains, of the amount
times the members between the ends, as long as no pair is netted.
"""

import math
import random
from typing import Iterator, NamedTuple

Pair = tuple[int, int]
Network = dict[Pair, int]
"""What each seller sold to each buyer, by their numbers."""

UNIT = 1_000
"""The least amount of an order."""
MOST = 10**12
"""The largest: below the most of a trade, so that sums of pairs stay below it, too."""


class Parameters(NamedTuple):
    """What a market is like.

    `intermediation` is the share of the notional that lies in chains, `between_dealers` the share that lies between two dealers,
    both in the mean; `tail` is the exponent of the amounts' power law, and `netted` the share of pairs that net their opposite
    amounts. Members are numbered from 0, dealers first, the largest one first.
    """

    members: int = 64
    dealers: int = 16
    trades: int = 600
    intermediation: float = 0.8
    between_dealers: float = 0.9
    tail: float = 1.5
    netted: float = 0.0


class Order(NamedTuple):
    """An amount, and the members along which it goes."""

    path: tuple[int, ...]
    amount: int

    @property
    def trades(self) -> int:
        return len(self.path) - 1


class Market(NamedTuple):
    """How many members there are, how many of them are dealers, and the network of all trades."""

    members: int
    dealers: int
    network: Network

    @property
    def is_dealer(self) -> list[bool]:
        return [member < self.dealers for member in range(self.members)]


class Draws:
    """What orders are drawn from: the parameters, and one source of random numbers."""

    def __init__(self, given: Parameters, seed: int) -> None:
        self.given = given
        self.random = random.Random(seed)
        self.weights = [1 / (place + 1) for place in range(given.dealers)]

    def amount(self) -> int:
        """An amount by the power law: the chance of more than x is (UNIT / x) to the power of the exponent."""
        return min(MOST, math.floor(UNIT * math.pow(1 - self.random.random(), -1 / self.given.tail)))

    def dealer(self, side: int | None = None, but: int | None = None) -> int:
        """A dealer, the larger the likelier; of one side (0 sells, 1 buys) where one is named, and another than this one."""
        places = [place for place in range(self.given.dealers) if side in (None, place % 2) and place != but]
        return self.random.choices(places, [self.weights[place] for place in places])[0]

    def customer(self, side: int) -> int:
        places = range(self.given.dealers, self.given.members)
        return self.random.choice([place for place in places if place % 2 == side])

    def legs(self) -> int:
        """How many trades of a chain lie between dealers: none or more, each as likely to be followed by one more."""
        mean = 2 * self.given.between_dealers / (1 - self.given.between_dealers)
        return math.floor(math.log(1 - self.random.random()) / math.log(mean / (1 + mean))) if mean else 0


def chain_of(draws: Draws) -> Order:
    """A customer sells to a dealer, the amount is passed on from dealer to dealer, and the last sells it to a customer."""
    dealers = [draws.dealer()]
    for _ in range(draws.legs()):
        dealers.append(draws.dealer(but=dealers[-1]))
    return Order((draws.customer(0), *dealers, draws.customer(1)), draws.amount())


def plain_of(draws: Draws) -> Order:
    """A trade by which positions are taken: from a member of the selling side to one of the buying side, so nobody stands between."""
    if draws.random.random() < draws.given.between_dealers:
        return Order((draws.dealer(0), draws.dealer(1)), draws.amount())
    if draws.random.random() < 0.5:
        return Order((draws.dealer(0), draws.customer(1)), draws.amount())
    return Order((draws.customer(0), draws.dealer(1)), draws.amount())


def orders_of(given: Parameters, seed: int) -> Iterator[Order]:
    """The orders of a market, until it has its number of trades."""
    draws = Draws(given, seed)
    trades = 2 / (1 - given.between_dealers)
    weight = given.intermediation / (given.intermediation + trades * (1 - given.intermediation))
    made = 0
    while made < given.trades:
        order = chain_of(draws) if draws.random.random() < weight else plain_of(draws)
        made += order.trades
        yield order


def network_of(orders: Iterator[Order]) -> Network:
    """The sums of the trades of all orders."""
    network: Network = {}
    for order in orders:
        for pair in zip(order.path, order.path[1:]):
            network[pair] = network.get(pair, 0) + order.amount
    return network


def netted(network: Network, share: float, seed: int) -> Network:
    """The network in which so large a share of the pairs with opposite amounts keeps only what these differ by."""
    draw = random.Random(seed)
    opposite = sorted(pair for pair in network if pair[0] < pair[1] and pair[::-1] in network)
    less = {pair: min(network[pair], network[pair[::-1]]) for pair in opposite if draw.random() < share}
    both = less | {pair[::-1]: amount for pair, amount in less.items()}
    rest = {pair: amount - both.get(pair, 0) for pair, amount in network.items()}
    return {pair: amount for pair, amount in rest.items() if amount}


def market_of(given: Parameters, seed: int) -> Market:
    """The market of these parameters and this seed."""
    network = network_of(orders_of(given, seed))
    return Market(given.members, given.dealers, netted(network, given.netted, seed) if given.netted else network)
