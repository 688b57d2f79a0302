"""The trades of a market and what its members tolerate, as the changes of a journal leave them, and which changes are refused.

Written from docs/PROTOCOL.md and docs/MODEL.md. It shares nothing with the program.
"""

from typing import Callable, NamedTuple

from . import changes
from .certificate import Pair

MOST_TRADE, MOST_GROSS, MOST_SUBMITTED = 10**15, 10**18, 100_000
SELLER, BUYER = 0, 1
"""The sides of a trade."""


class Refused(Exception):
    """A change is refused, by this number and name, and the value where there is one."""


class Names(NamedTuple):
    """The places of members and products by their names, which members are dealers, when products mature, and the operator."""

    members: dict[str, int]
    is_dealer: list[bool]
    products: dict[str, int]
    maturities: list[str]
    operator: str | None


class Trade:
    """A trade; `submitter` and `mark` are sides or None, and `holds` says of each side whether it holds."""

    __slots__ = ("number", "parties", "product", "amount", "day", "state", "submitter", "mark", "holds", "is_frozen")

    def __init__(self, number: int, parties: Pair, product: int, amount: int, day: str, submitter: int | None) -> None:
        self.number = number
        self.parties = parties
        self.product = product
        self.amount = amount
        self.day = day
        self.submitter = submitter
        self.state = "live" if submitter is None else "alleged"
        self.mark: int | None = None
        self.holds = (False, False)
        self.is_frozen = False

    def side_of(self, member: int | None) -> int:
        """The side of a party; any other one is refused."""
        if member == self.parties[SELLER]:
            return SELLER
        if member == self.parties[BUYER]:
            return BUYER
        raise Refused("7 not-party")

    def wrong_state(self) -> Refused:
        return Refused(f"12 wrong-trade-state {self.state}")


class Tolerance(NamedTuple):
    floor: int
    ceiling: int | None


class Book:
    """The trades, each product's alleged and live amount, the live trades, and what each side of a pair tolerates."""

    def __init__(self, names: Names) -> None:
        self.names = names
        self.trades: list[Trade] = []
        self.live: dict[int, Trade] = {}
        self.gross = [0 for _ in names.products]
        self.submitted = 0
        self.tolerances: list[dict[tuple[Pair, int], Tolerance]] = [{} for _ in names.products]

    def numbered(self, number: int) -> Trade:
        if not 0 < number <= len(self.trades):
            raise Refused("11 unknown-trade")
        return self.trades[number - 1]

    def product(self, name: str) -> int:
        product = self.names.products.get(name)
        if product is None:
            raise Refused("5 unknown-product")
        return product

    def trade(self, member: int | None, asked: changes.Trade) -> None:
        seller, buyer = self.names.members.get(asked.seller), self.names.members.get(asked.buyer)
        if seller is None or buyer is None:
            raise Refused("4 unknown-member")
        product = self.product(asked.product)
        if seller == buyer:
            raise Refused("6 own-trade")
        if member != seller and member != buyer:
            raise Refused("7 not-party")
        if asked.amount > MOST_TRADE:
            raise Refused("8 amount-over")
        maturity = self.names.maturities[product]
        if asked.day >= maturity:
            raise Refused(f"22 matured {maturity}")
        if self.gross[product] + asked.amount > MOST_GROSS:
            raise Refused("9 gross-over")
        if self.submitted >= MOST_SUBMITTED:
            raise Refused("10 trades-full")
        self.submitted += 1
        self.gross[product] += asked.amount
        side = SELLER if member == seller else BUYER
        self.trades.append(Trade(len(self.trades) + 1, (seller, buyer), product, asked.amount, asked.day, side))

    def affirm(self, member: int | None, asked: changes.Affirm) -> None:
        trade = self.numbered(asked.trade)
        if trade.side_of(member) == trade.submitter:
            raise Refused("7 not-party")
        if trade.state != "alleged":
            raise trade.wrong_state()
        trade.state = "live"
        self.live[trade.number] = trade

    def end(self, member: int | None, asked: changes.End) -> Trade | None:
        """The trade if it is frozen, and has ended."""
        trade = self.numbered(asked.trade)
        side = trade.side_of(member)
        if trade.state == "ended" or trade.mark == side:
            raise trade.wrong_state()
        if trade.state == "live" and trade.mark is None:
            trade.mark = side
            return None
        self.close(trade)
        return trade if trade.is_frozen else None

    def close(self, trade: Trade) -> None:
        trade.state = "ended"
        self.gross[trade.product] -= trade.amount
        self.live.pop(trade.number, None)

    def cut(self, trade: Trade, amount: int) -> None:
        self.gross[trade.product] += amount - trade.amount
        trade.amount = amount

    def make(self, parties: Pair, product: int, amount: int, day: str) -> None:
        """A trade that a plan makes: it is live at once, and nobody submitted it."""
        trade = Trade(len(self.trades) + 1, parties, product, amount, day, None)
        self.trades.append(trade)
        self.live[trade.number] = trade
        self.gross[product] += amount

    def set_hold(self, member: int | None, asked: changes.Hold | changes.Free, cycle: int) -> None:
        """A HOLD or a FREE, where `cycle` is the last cycle's number."""
        trade = self.numbered(asked.trade)
        side = trade.side_of(member)
        is_held = isinstance(asked, changes.Hold)
        if trade.state != "live" or trade.holds[side] == is_held:
            raise trade.wrong_state()
        if trade.is_frozen:
            raise Refused(f"13 trade-frozen {cycle}")
        trade.holds = (is_held, trade.holds[BUYER]) if side == SELLER else (trade.holds[SELLER], is_held)

    def tolerate(self, member: int | None, asked: changes.Tolerance) -> None:
        other = self.names.members.get(asked.other)
        if other is None:
            raise Refused("4 unknown-member")
        product = self.product(asked.product)
        if other == member:
            raise Refused("6 own-trade")
        if member is None:
            raise Refused("7 not-party")
        if asked.ceiling is not None and asked.ceiling < asked.floor:
            raise Refused("23 floor-over-ceiling")
        setting = Tolerance(asked.floor, asked.ceiling)
        if asked.side == "out":
            self.tolerances[product][(member, other), SELLER] = setting
        else:
            self.tolerances[product][(other, member), BUYER] = setting
