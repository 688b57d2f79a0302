"""A market over the roster of a new period: its base there, and the journal that begins with it; or what keeps it from going on.

Written from docs/OPERATIONS.md, "New day, new member, new key, new product", and docs/FORMATS.md, "Bases". It shares nothing with
the program.
"""

import struct
from typing import Iterator

from .bases import PARTIES, SIDES, STATES, Base, Kept, Setting, order_of
from .book import Names, Trade
from .frames import FIRST_BODY, LIMIT, SLOTTED
from .history import History
from .quick import MOST_NUMBER
from .rolled import Places, places_of

MARK = b"\2"
"""The first byte of a base behind which all records have moments."""


class Obstacle(Exception):
    """What keeps a market from going on over a new roster; a trade has its number from before."""


class Period:
    """A market, and the names that it goes on with. With `cancel` it is the one after a CANCEL of the open cycle, if one is open."""

    def __init__(self, history: History, new: Names, matured: set[str], cancel: bool = False) -> None:
        self.cancels = history.cancel_open() if cancel else 0
        self.history = history
        self.before = places_of(history.names)
        self.new = new
        self.matured = matured

    def base(self) -> Base:
        """The market's base over the new names, one position further."""
        cycle, position = self.history.cycle, self.history.position
        if cycle.phase != "none":
            raise Obstacle("a cycle is open")
        if max(position, cycle.number, cycle.version) > MOST_NUMBER:
            raise Obstacle("a number is above 10^18")
        trades = self.trades()
        if position == MOST_NUMBER:
            raise Obstacle("no position is left")
        settings = sorted(self.settings(), key=order_of)
        return Base(position + 1, cycle.number, cycle.version, list(self.new.members), list(self.new.products), settings, trades)

    def trades(self) -> list[Kept]:
        """The open trades of products that have not matured, where all can go along."""
        rows = [trade for trade in self.history.book.trades if is_kept(self.before, trade, self.matured)]
        kept = [self.moved(trade) for trade in rows]
        for trade, moved in zip(rows, kept):
            if trade.day >= self.new.maturities[moved.product]:
                raise Obstacle(f"the product of trade {trade.number} matures too early")
        return kept

    def moved(self, trade: Trade) -> Kept:
        """The trade at its new places."""
        seller, buyer = (self.party(trade.number, self.before.members[place]) for place in trade.parties)
        product = self.new.products.get(self.before.products[trade.product])
        if product is None:
            raise Obstacle(f"the product of trade {trade.number} is gone")
        submitter, mark = (None if side is None else SIDES[side] for side in (trade.submitter, trade.mark))
        return Kept(seller, buyer, product, trade.amount, trade.day, trade.state, submitter, mark, *trade.holds)

    def party(self, number: int, name: str) -> int:
        """The new place of a trade's member, which has its role."""
        old = self.history.names
        place = self.new.members.get(name)
        if place is None:
            raise Obstacle(f"a member of trade {number} is gone")
        if self.new.is_dealer[place] != old.is_dealer[old.members[name]]:
            raise Obstacle(f"a member of trade {number} has another role")
        return place

    def settings(self) -> Iterator[Setting]:
        """The settings whose members and product are there."""
        for product, tolerances in enumerate(self.history.book.tolerances):
            for (pair, side), (floor, ceiling) in tolerances.items():
                member, other = (self.new.members.get(self.before.members[pair[at]]) for at in (side, 1 - side))
                place = self.new.products.get(self.before.products[product])
                if member is not None and other is not None and place is not None:
                    yield Setting(member, place, other, SIDES[side], floor, ceiling)


def is_kept(places: Places, trade: Trade, matured: set[str]) -> bool:
    """Whether a trade goes along: it is open, and its product has not matured."""
    return trade.state != "ended" and places.products[trade.product] not in matured


def number(value: int) -> bytes:
    return struct.pack("<Q", value)


def names_spelling(names: list[str]) -> bytes:
    return struct.pack("<H", len(names)) + b"".join(bytes([len(name)]) + name.encode("ascii") for name in names)


def setting_spelling(setting: Setting) -> bytes:
    ceiling = b"\0" if setting.ceiling is None else b"\1" + number(setting.ceiling)
    places = struct.pack("<HHHB", setting.member, setting.product, setting.other, SIDES.index(setting.side))
    return places + number(setting.floor) + ceiling


def trade_spelling(trade: Kept) -> bytes:
    day = struct.pack("<HBB", *map(int, trade.day.split("-")))
    holds = trade.seller_holds + 2 * trade.buyer_holds
    marks = bytes([STATES.index(trade.state), PARTIES.index(trade.submitter), PARTIES.index(trade.mark), holds])
    return struct.pack("<HHHQ", trade.seller, trade.buyer, trade.product, trade.amount) + day + marks


def base_spelling(base: Base) -> bytes:
    head = MARK + number(base.position) + number(base.cycle) + number(base.version)
    settings = number(len(base.settings)) + b"".join(map(setting_spelling, base.settings))
    trades = number(len(base.trades)) + b"".join(map(trade_spelling, base.trades))
    return head + names_spelling(base.members) + names_spelling(base.products) + settings + trades


def journal_of(base: Base) -> bytes:
    """The bytes of a journal that begins with a base, behind its first slot, and has no changes."""
    spelled = base_spelling(base)
    if FIRST_BODY + 4 + len(spelled) >= LIMIT:
        raise Obstacle("the new journal would be too long")
    return SLOTTED + b"\0" + number(FIRST_BODY) + number(0) + struct.pack("<I", len(spelled)) + spelled + b"\0"
