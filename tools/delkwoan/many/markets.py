"""Markets that the program takes, made of pieces: their files, and the names in them."""

from typing import Iterable, Iterator, NamedTuple

from ..checker import MOST_DEALERS, MOST_MEMBERS, MOST_PRODUCTS, MOST_TRADE, MOST_TRADES, Network, Part
from .pieces import Piece

Party = tuple[int, bool]
"""A member by its number, as a dealer or as a customer: one that is both in different pieces is two members of a market."""


class Market(NamedTuple):
    """Pieces that are solved together, each as a product, the parties in them, and the market's number."""

    number: int
    pieces: list[Piece]
    parties: list[Party]

    @property
    def places(self) -> dict[Party, int]:
        return {party: place for place, party in enumerate(self.parties)}

    def roster(self) -> bytes:
        rows = [f"M{place},{'dealer' if is_dealer else 'customer'},M{place}" for place, (_, is_dealer) in enumerate(self.parties)]
        rows += [f"P{place},product,2040-01-01" for place in range(len(self.pieces))]
        return lines("name,role,key", rows)

    def trades(self) -> bytes:
        """A row for each pair of members, or more than one where the sum is above what a trade may have."""
        places = self.places
        rows = []
        for product, piece in enumerate(self.pieces):
            for (seller, buyer), amount in piece.network.items():
                pair = f"M{places[seller, seller in piece.dealers]},M{places[buyer, buyer in piece.dealers]},P{product}"
                rows += [f"{pair},{MOST_TRADE}"] * (amount // MOST_TRADE)
                rows += [f"{pair},{amount % MOST_TRADE}"] if amount % MOST_TRADE else []
        return lines("seller,buyer,product,amount", rows)

    def network_after(self, part: Part) -> Network:
        """A part's network, by the numbers of members, in place of those of the market."""
        return {(self.parties[i][0], self.parties[j][0]): amount for (i, j), amount in part.network.items()}


def lines(head: str, rows: list[str]) -> bytes:
    return "\n".join([head, *rows, ""]).encode()


def parties_of(piece: Piece) -> set[Party]:
    return {(member, member in piece.dealers) for member in piece.members}


def rows_of(piece: Piece) -> int:
    """How many rows of a trade file a piece has."""
    return sum(-(-amount // MOST_TRADE) for amount in piece.network.values())


class Packer:
    """A market that is being filled."""

    def __init__(self) -> None:
        self.pieces: list[Piece] = []
        self.parties: set[Party] = set()
        self.rows = 0

    def takes(self, piece: Piece) -> bool:
        """Whether there is room for one more piece; it is put in, if there is."""
        parties = self.parties | parties_of(piece)
        rows = self.rows + rows_of(piece)
        dealers = sum(is_dealer for _, is_dealer in parties)
        has_room = len(self.pieces) < MOST_PRODUCTS and len(parties) <= MOST_MEMBERS and dealers <= MOST_DEALERS
        if not has_room or (rows > MOST_TRADES and self.pieces):
            return False
        self.pieces.append(piece)
        self.parties, self.rows = parties, rows
        return True

    def market(self, number: int) -> Market:
        return Market(number, self.pieces, sorted(self.parties))


def markets_of(pieces: Iterable[Piece]) -> Iterator[Market]:
    """The pieces in their order, as many in a market as it has room for."""
    packer = Packer()
    number = 0
    for piece in pieces:
        if not packer.takes(piece):
            yield packer.market(number)
            number += 1
            packer = Packer()
            packer.takes(piece)
    if packer.pieces:
        yield packer.market(number)
