"""The tables of a run: which names the markets' files have, the trades that are left, and the figures of each product."""

import csv
import io
from typing import Iterable, Iterator, NamedTuple, Sequence

from ..checker import MOST_TRADE, Network, Part, nets_of
from .markets import Market
from .pieces import Piece
from .trades import COLUMNS, Key, Trades

NAMES = ("market", "word", "role", "name", "day")
FIGURES = ("day", "product", "members", "pieces", "gross", "after", "floor", "bilateral", "least", "lost", "left_out", "demoted")


def line(fields: Sequence[object]) -> str:
    text = io.StringIO()
    csv.writer(text, lineterminator="\n").writerow(fields)
    return text.getvalue()


def names_of(markets: list[Market], trades: Trades) -> Iterator[str]:
    """What each word of a market's files stands for."""
    yield line(NAMES)
    for market in markets:
        for place, (member, is_dealer) in enumerate(market.parties):
            yield line([market.number, f"M{place}", "dealer" if is_dealer else "customer", trades.names[member], ""])
        for place, piece in enumerate(market.pieces):
            yield line([market.number, f"P{place}", "product", piece.key.product, piece.key.day])


class Figures(NamedTuple):
    """The figures of a product on a day.

    `is_certified` says that a certificate covers all of its members in their roles. Else members are left out, or dealers are taken as
    customers, since a part of the product was too large.
    """

    key: Key
    members: int
    pieces: int
    gross: int
    after: int
    floor: int
    bilateral: int
    is_certified: bool
    left_out: int
    demoted: int

    @property
    def lost(self) -> int:
        """How far the gross is above the least at most: no network has less than the sum of the positive net positions."""
        return 0 if self.is_certified else self.after - self.floor

    @property
    def is_least(self) -> bool:
        """Whether it is proved that no network has less gross, for the members and roles that were given."""
        return not self.lost

    def line(self) -> str:
        return line([*self.key, *self[1:7], "yes" if self.is_least else "no", self.lost, self.left_out, self.demoted])


class Result(NamedTuple):
    """A product on a day, its pieces, and the network that is left of it."""

    key: Key
    pieces: list[Piece]
    network: Network

    def figures(self, old: Network, mode: str) -> Figures:
        members = sorted({member for pair in old for member in pair})
        places = {member: place for place, member in enumerate(members)}
        nets = nets_of({(places[i], places[j]): amount for (i, j), amount in old.items()}, len(members))
        gaps = {frozenset(pair): abs(amount - old.get(pair[::-1], 0)) for pair, amount in old.items()}
        return Figures(
            self.key,
            len(members),
            len(self.pieces),
            sum(old.values()),
            sum(self.network.values()),
            sum(net for net in nets if net > 0),
            sum(gaps.values()),
            all(piece.is_least(mode) for piece in self.pieces),
            sum(piece.left_out for piece in self.pieces),
            sum(piece.demoted for piece in self.pieces),
        )


def results_of(solved: Iterable[tuple[Market, list[Part]]]) -> Iterator[Result]:
    """The products of all markets, in their order; the pieces of one stand behind one another."""
    result: Result | None = None
    for market, parts in solved:
        for piece, part in zip(market.pieces, parts):
            if result is None or piece.key != result.key:
                if result is not None:
                    yield result
                result = Result(piece.key, [], {})
            result.pieces.append(piece)
            result.network.update(piece.rest)
            result.network.update(market.network_after(part))
    if result is not None:
        yield result


def trades_of(result: Result, names: list[str]) -> Iterator[str]:
    """The trades that are left of a product, one for each pair, or more where the amount is above what a trade may have."""
    for (seller, buyer), amount in sorted(result.network.items()):
        amounts = [MOST_TRADE] * (amount // MOST_TRADE) + ([amount % MOST_TRADE] if amount % MOST_TRADE else [])
        for it in amounts:
            yield line([*result.key, names[seller], names[buyer], it])


def head_of_trades() -> str:
    return line(COLUMNS)


def head_of_figures() -> str:
    return line(FIGURES)
