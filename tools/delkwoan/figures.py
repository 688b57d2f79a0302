"""The figures of a compression: of each product, member and kind of pair, before it and after it.

They are computed from networks, which `compressions` takes from files. Products of different currencies are never added up.
"""

from collections import Counter
from typing import Iterator, NamedTuple

from . import checker
from .about import About
from .checker import Network, Pair, Roster
from .replayed import Execution


class Sums(NamedTuple):
    """Figures of a product's network, and of how many trades it is."""

    gross: int
    floor: int
    excess: int
    bilateral: int
    lines: int
    trades: int


class Product(NamedTuple):
    name: str
    before: Sums
    after: Sums
    old: Network
    new: Network


class Share(NamedTuple):
    """What a member owes and is owed over products of one currency, with how many others, in how many lines."""

    gross: int
    counterparties: int
    lines: int


class Member(NamedTuple):
    """A member's share before and after, and in how many of its products its net position stays."""

    name: str
    role: str
    before: Share
    after: Share
    nets_kept: int
    nets: int

    @property
    def reduction(self) -> float:
        """By which part its gross falls."""
        return 1 - self.after.gross / self.before.gross if self.before.gross else 0.0


class Between(NamedTuple):
    """The gross and the lines between dealers, between a dealer and a customer, or between customers."""

    roles: str
    before: tuple[int, int]
    after: tuple[int, int]


class Group(NamedTuple):
    """All that is of one currency, or of those products whose currency is not told."""

    currency: str
    products: list[Product]
    members: list[Member]
    between: list[Between]

    def total(self) -> tuple[Sums, Sums]:
        """The sums of all products, before and after."""
        return added([product.before for product in self.products]), added([product.after for product in self.products])


class Compression(NamedTuple):
    """A group for each currency, the strictest mode that allows the new amounts, what was executed in between, and what is
    told about the names."""

    groups: list[Group]
    mode: str
    executions: list[Execution]
    about: About

    @property
    def products(self) -> list[Product]:
        return [product for group in self.groups for product in group.products]


class Side(NamedTuple):
    """A product's network on one side of a compression, and how many trades it is."""

    network: Network
    trades: int


def added(sums: list[Sums]) -> Sums:
    return Sums(*(sum(figures) for figures in zip(*sums))) if sums else Sums(0, 0, 0, 0, 0, 0)


def sums_of(side: Side, members: int) -> Sums:
    network = side.network
    gross = sum(network.values())
    floor = sum(net for net in checker.nets_of(network, members) if net > 0)
    gaps = {frozenset(pair): abs(amount - network.get((pair[1], pair[0]), 0)) for pair, amount in network.items()}
    return Sums(gross, floor, gross - floor, sum(gaps.values()), len(network), side.trades)


def shares_of(networks: list[Network], members: int) -> list[Share]:
    """Each member's share of all networks."""
    grosses, lines = [0] * members, [0] * members
    others: list[set[int]] = [set() for _ in range(members)]
    for network in networks:
        for (seller, buyer), amount in network.items():
            for member, other in ((seller, buyer), (buyer, seller)):
                grosses[member] += amount
                lines[member] += 1
                others[member].add(other)
    return [Share(gross, len(other), line) for gross, other, line in zip(grosses, others, lines)]


def nets_kept(old: list[Network], new: list[Network], members: int) -> list[tuple[int, int]]:
    """For each member in how many products its net position stays, and in how many it has anything."""
    counts = [(0, 0)] * members
    for before, after in zip(old, new):
        nets = list(zip(checker.nets_of(before, members), checker.nets_of(after, members)))
        for member in {member for pair in [*before, *after] for member in pair}:
            kept, all = counts[member]
            counts[member] = (kept + (nets[member][0] == nets[member][1]), all + 1)
    return counts


ROLES = ("customers", "a dealer and a customer", "dealers")
"""Who a pair is, by how many dealers are in it."""


def between(old: list[Network], new: list[Network], is_dealer: list[bool]) -> list[Between]:
    """What lies between members of each two roles, dealers first."""
    sums = [Counter[int](), Counter[int]()]
    lines = [Counter[int](), Counter[int]()]
    for side, networks in enumerate((old, new)):
        for (seller, buyer), amount in (row for network in networks for row in network.items()):
            dealers = is_dealer[seller] + is_dealer[buyer]
            sums[side][dealers] += amount
            lines[side][dealers] += 1
    figures = [((sums[0][count], lines[0][count]), (sums[1][count], lines[1][count])) for count in range(3)]
    return [Between(ROLES[count], *figures[count]) for count in (2, 1, 0)]


def strictest_mode(old: list[Network], new: list[Network], is_dealer: list[bool]) -> str:
    """The first mode that lets each pair grow which grows: `conservative` none, `hybrid` pairs of dealers, `free` all."""
    grown = [pair for before, after in zip(old, new) for pair, amount in after.items() if amount > before.get(pair, 0)]
    if not grown:
        return "conservative"
    return "hybrid" if all(is_dealer[seller] and is_dealer[buyer] for seller, buyer in grown) else "free"


def trades_after(trades: list[tuple[Pair, int]], old: Network, new: Network) -> int:
    """How many trades a plan leaves: where a pair falls, its trades end in their order while they fit; where it grows, one is new."""
    left = {pair: amount - new.get(pair, 0) for pair, amount in old.items()}
    ended = 0
    for pair, amount in trades:
        if 0 < amount <= left[pair]:
            ended += 1
        left[pair] -= amount
    return len(trades) - ended + sum(amount > old.get(pair, 0) for pair, amount in new.items())


def compared(roster: Roster, old: list[Side], new: list[Side], executions: list[Execution], about: About) -> Compression:
    """The figures of two sides of each product of a roster."""
    names = [name.decode() for name in roster.products]
    currencies = [about.currencies.get(name, "") for name in names]
    groups = []
    for currency in sorted({*currencies}, key=lambda currency: (not currency, currency)):
        places = [place for place, own in enumerate(currencies) if own == currency]
        groups.append(group_of(roster, currency, [(names[place], old[place], new[place]) for place in places]))
    networks = [side.network for side in old], [side.network for side in new]
    return Compression(groups, strictest_mode(*networks, roster.is_dealer), executions, about)


def group_of(roster: Roster, currency: str, sides: list[tuple[str, Side, Side]]) -> Group:
    """The figures of these products, each with its two sides."""
    count = len(roster.members)
    products = [
        Product(name, sums_of(before, count), sums_of(after, count), before.network, after.network)
        for name, before, after in sides
    ]
    old, new = [product.old for product in products], [product.new for product in products]
    names = [name.decode() for name in roster.members]
    roles = ["dealer" if is_dealer else "customer" for is_dealer in roster.is_dealer]
    shares = zip(shares_of(old, count), shares_of(new, count), nets_kept(old, new, count))
    members = [Member(name, role, before, after, *nets) for name, role, (before, after, nets) in zip(names, roles, shares)]
    return Group(currency, products, members, between(old, new, roster.is_dealer))


Row = tuple[str, str, str, str, int, int]


def rows_of(compression: Compression) -> Iterator[Row]:
    """All figures as rows: of what, its name, the currency, which figure, before and after."""
    for group in compression.groups:
        currency = group.currency
        for product in group.products:
            for figure, before, after in zip(Sums._fields, product.before, product.after):
                yield "product", product.name, currency, figure, before, after
        for member in group.members:
            for figure, before, after in zip(Share._fields, member.before, member.after):
                yield "member", member.name, currency, figure, before, after
            yield "member", member.name, currency, "nets", member.nets, member.nets_kept
        for pairs in group.between:
            for figure, before, after in zip(("gross", "lines"), pairs.before, pairs.after):
                yield "between", pairs.roles, currency, figure, before, after
