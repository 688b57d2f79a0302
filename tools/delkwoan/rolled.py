"""What a roll has to keep, read of two journals and compared by names, and the numbers that trades had and have.

Written from docs/FORMATS.md, "Bases" and "A replay". It shares nothing with the program.
"""

from collections import Counter
from typing import Iterable, Iterator, NamedTuple

from .bases import SIDES, Base, Kept, Setting
from .book import Names, Trade
from .history import History

Named = tuple[str, str, str]
"""A trade's seller, buyer and product, or a setting's member, product and other member."""


class Differs(Exception):
    """The new journal is not what the roll has to leave, and in what."""


class Row(NamedTuple):
    """A trade as `replay` tells it."""

    number: int
    parties: Named
    amount: int
    day: str
    state: str
    held: str


class Told(NamedTuple):
    """The trades that a text of `replay` tells, in the order of their numbers, and how many changes there were."""

    rows: list[Row]
    end: int


def told_of(text: bytes) -> Told:
    rows: dict[int, Row] = {}
    end = -1
    for line in text.decode("ascii").splitlines():
        kind, *fields = line.split(" ")
        if kind == "trade":
            number, seller, buyer, product, amount, day, state, held = fields
            rows[int(number)] = Row(int(number), (seller, buyer, product), int(amount), day, state, held)
        elif kind == "end":
            end = int(fields[0])
    return Told([rows[number] for number in sorted(rows)], end)


def nets_of(rows: Iterable[Row]) -> dict[tuple[str, str], int]:
    """Each member's net position in each product, where it is not 0."""
    nets: Counter[tuple[str, str]] = Counter()
    for row in rows:
        seller, buyer, product = row.parties
        if row.state == "live":
            nets[seller, product] += row.amount
            nets[buyer, product] -= row.amount
    return {place: net for place, net in nets.items() if net}


def numbers_of(before: Told, after: Told, matured: set[str], further: int) -> list[tuple[int, int]]:
    """The number of each trade that went on, before and after, without products that matured; the new history is longer by `further`."""
    kept = [row for row in before.rows if row.state != "ended" and row.parties[2] not in matured]
    if nets_of(kept) != nets_of(after.rows):
        raise Differs("net position")
    if [row[1:] for row in kept] != [row[1:] for row in after.rows]:
        raise Differs("trade")
    if [row.number for row in after.rows] != list(range(1, len(kept) + 1)):
        raise Differs("number")
    if after.end != before.end + further:
        raise Differs("position")
    return [(old.number, new.number) for old, new in zip(kept, after.rows)]


class Places(NamedTuple):
    """The names of members and products, each by its place."""

    members: list[str]
    products: list[str]

    def of(self, first: int, second: int, product: int) -> Named:
        return self.members[first], self.members[second], self.products[product]


def places_of(names: Names) -> Places:
    return Places(list(names.members), list(names.products))


class Open(NamedTuple):
    """All of an open trade but its number and whether it is frozen, by names."""

    parties: Named
    amount: int
    day: str
    state: str
    submitter: str | None
    mark: str | None
    seller_holds: bool
    buyer_holds: bool


class Limit(NamedTuple):
    """A setting by names: its member, the other member and the product; its side, the floor, and the ceiling if there is one."""

    names: Named
    side: str
    floor: int
    ceiling: int | None


def open_before(places: Places, trade: Trade) -> Open:
    submitter, mark = (None if side is None else SIDES[side] for side in (trade.submitter, trade.mark))
    return Open(places.of(*trade.parties, trade.product), trade.amount, trade.day, trade.state, submitter, mark, *trade.holds)


def open_after(places: Places, trade: Kept) -> Open:
    return Open(places.of(trade.seller, trade.buyer, trade.product), *trade[3:])


def limits_before(places: Places, history: History) -> Iterator[Limit]:
    for product, tolerances in enumerate(history.book.tolerances):
        for (pair, side), (floor, ceiling) in tolerances.items():
            yield Limit(places.of(pair[side], pair[1 - side], product), SIDES[side], floor, ceiling)


def limit_after(places: Places, setting: Setting) -> Limit:
    return Limit(places.of(setting.member, setting.other, setting.product), setting.side, setting.floor, setting.ceiling)


def telling(limits: Iterable[Limit], there: set[str]) -> set[Limit]:
    """Those of members and products that are there, but for floors of 0 without a ceiling, which say nothing."""
    return {limit for limit in limits if there.issuperset(limit.names) and (limit.floor or limit.ceiling is not None)}


def check_base(history: History, new: Names, base: Base, matured: set[str]) -> None:
    """Tests that a market's base over the new names is what a roll has to write; raises Differs where it is not."""
    before, after = places_of(history.names), places_of(new)
    if (base.members, base.products) != (after.members, after.products):
        raise Differs("name")
    if base.position != history.position + 1:
        raise Differs("position")
    if (base.cycle, base.version) != (history.cycle.number, history.cycle.version):
        raise Differs("cycle")
    kept = [trade for trade in history.book.trades if trade.state != "ended" and before.products[trade.product] not in matured]
    if [open_before(before, trade) for trade in kept] != [open_after(after, trade) for trade in base.trades]:
        raise Differs("trade")
    there = {*after.members, *after.products}
    if telling(limits_before(before, history), there) != telling((limit_after(after, setting) for setting in base.settings), there):
        raise Differs("setting")
