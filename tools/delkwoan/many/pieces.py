"""Networks of any size, cut into pieces that the program takes: at most 256 members, 64 of them dealers.

If a product has more members, its connected parts, which scipy finds, are gathered into pieces. If a part is larger still, a piece is
made of its 256 members with the largest excess, which is what a member both sells and buys. Of the pairs with a member that is left
out, each is netted by itself, so that every net position stays. What is left then need not be least.
"""

from typing import Iterator, NamedTuple

from ..checker import MOST_DEALERS, MOST_MEMBERS, Network
from .trades import Key, Trades

HYBRID = "hybrid"


class Piece(NamedTuple):
    """What is compressed at once of a product: its network, who is in it, who of them is a dealer, and what is left out.

    `rest` are the pairs outside, netted one by one, and `left_out` counts the members that are in no piece. `demoted` counts the
    members that would be dealers but are taken as customers, since a market has no room for more dealers.
    """

    key: Key
    network: Network
    members: list[int]
    dealers: frozenset[int]
    rest: Network
    left_out: int
    demoted: int

    def is_least(self, mode: str) -> bool:
        """Whether what a certificate calls least is so for all members in the roles that they have. The roles count in hybrid mode
        alone: in the others they bound no pair."""
        return not self.left_out and not (self.demoted and mode == HYBRID)


def netted(network: Network) -> Network:
    """Each pair by itself: what both owe each other goes."""
    left = {(seller, buyer): amount - min(amount, network.get((buyer, seller), 0)) for (seller, buyer), amount in network.items()}
    return {pair: amount for pair, amount in left.items() if amount}


class Flow(NamedTuple):
    """What a member sells and buys."""

    sold: int
    bought: int

    @property
    def excess(self) -> int:
        return min(self)


def flows_of(network: Network) -> dict[int, Flow]:
    sold: dict[int, int] = {}
    bought: dict[int, int] = {}
    for (seller, buyer), amount in network.items():
        sold[seller] = sold.get(seller, 0) + amount
        bought[buyer] = bought.get(buyer, 0) + amount
    return {member: Flow(sold.get(member, 0), bought.get(member, 0)) for member in sorted({*sold, *bought})}


def parts_of(network: Network) -> list[Network]:
    """The connected parts of a network, in the order of their lowest members."""
    from scipy.sparse import coo_matrix
    from scipy.sparse.csgraph import connected_components

    members = sorted({member for pair in network for member in pair})
    places = {member: place for place, member in enumerate(members)}
    ends = [places[pair[0]] for pair in network], [places[pair[1]] for pair in network]
    graph = coo_matrix(([1] * len(network), ends), shape=(len(members), len(members)))
    _, labels = connected_components(graph, directed=False)
    parts: dict[int, Network] = {int(label): {} for label in labels}
    for pair, amount in network.items():
        parts[int(labels[places[pair[0]]])][pair] = amount
    return list(parts.values())


def most(members: list[int], flows: dict[int, Flow], count: int) -> list[int]:
    """So many of the members with the largest excess, the lower numbers first among equal ones."""
    return sorted(members, key=lambda member: (-flows[member].excess, member))[:count]


class Cutter:
    """Cuts the networks of trades into pieces; a member's role is the given one, or else that of who both sells and buys."""

    def __init__(self, trades: Trades, roles: dict[str, bool] | None) -> None:
        self.trades = trades
        self.roles = roles

    def dealers_of(self, flows: dict[int, Flow]) -> list[int]:
        if self.roles is None:
            return [member for member, flow in flows.items() if flow.excess]
        return [member for member in flows if self.roles[self.trades.names[member]]]

    def piece_of(self, key: Key, part: Network) -> Piece:
        """A piece of a part, of those members with the largest excess where there are too many."""
        flows = flows_of(part)
        members = sorted(most(list(flows), flows, MOST_MEMBERS))
        inside = {*members}
        network = {pair: amount for pair, amount in part.items() if inside.issuperset(pair)}
        rest = netted({pair: amount for pair, amount in part.items() if pair not in network})
        wanted = [member for member in self.dealers_of(flows) if member in inside]
        dealers = frozenset(most(wanted, flows, MOST_DEALERS))
        return Piece(key, network, members, dealers, rest, len(flows) - len(members), len(wanted) - len(dealers))

    def pieces_of(self, key: Key) -> Iterator[Piece]:
        """The pieces of a product: all of it at once where it fits, else its parts, as many together as fit."""
        network = self.trades.networks[key]
        whole = self.piece_of(key, network)
        if not whole.left_out and not whole.demoted:
            yield whole
            return
        parts = [self.piece_of(key, part) for part in parts_of(network)]
        gathered: list[Piece] = []
        for piece in parts:
            if gathered and not fit(gathered, piece):
                yield joined(gathered)
                gathered = []
            gathered.append(piece)
        yield joined(gathered)

    def pieces(self) -> Iterator[Piece]:
        """The pieces of all products, by day and name."""
        for key in sorted(self.trades.networks):
            yield from self.pieces_of(key)


def fit(pieces: list[Piece], another: Piece) -> bool:
    """Whether parts of one product are few enough to be one piece."""
    all = [*pieces, another]
    return sum(len(it.members) for it in all) <= MOST_MEMBERS and sum(len(it.dealers) for it in all) <= MOST_DEALERS


def joined(pieces: list[Piece]) -> Piece:
    """Parts of one product as one piece."""
    network = {pair: amount for piece in pieces for pair, amount in piece.network.items()}
    rest = {pair: amount for piece in pieces for pair, amount in piece.rest.items()}
    members = sorted(member for piece in pieces for member in piece.members)
    dealers = frozenset().union(*(piece.dealers for piece in pieces))
    left_out, demoted = sum(piece.left_out for piece in pieces), sum(piece.demoted for piece in pieces)
    return Piece(pieces[0].key, network, members, dealers, rest, left_out, demoted)
