"""Whether a journal's base fits a roster, and the market that it stands for.

Written from docs/FORMATS.md, "Bases". It shares nothing with the program.
"""

from .bases import Base, Kept, Setting
from .book import BUYER, MOST_GROSS, MOST_SUBMITTED, SELLER, Book, Names, Tolerance, Trade
from .cycles import Cycle
from .history import History
from .quick import MOST_NUMBER

SIDES = {None: None, "out": SELLER, "in": BUYER}


class Misfit(Exception):
    """A base does not fit the roster, and why."""


def setting_fault(setting: Setting, members: int, products: int) -> str | None:
    if max(setting.member, setting.other) >= members or setting.product >= products:
        return "a setting's place is out of range"
    if setting.member == setting.other:
        return "a setting is of one member"
    return "a floor is above its ceiling" if setting.ceiling is not None and setting.floor > setting.ceiling else None


def trade_fault(trade: Kept, members: int, products: int) -> str | None:
    if max(trade.seller, trade.buyer) >= members or trade.product >= products:
        return "a trade's place is out of range"
    if trade.seller == trade.buyer:
        return "a trade is of one member"
    is_fresh = trade.submitter is not None and trade.mark is None and not (trade.seller_holds or trade.buyer_holds)
    return None if is_fresh or trade.state != "alleged" else "an alleged trade has no submitter, or a mark or a hold"


def put_trade(book: Book, kept: Kept) -> None:
    trade = Trade(len(book.trades) + 1, (kept.seller, kept.buyer), kept.product, kept.amount, kept.day, SIDES[kept.submitter])
    trade.state = kept.state
    trade.mark = SIDES[kept.mark]
    trade.holds = (kept.seller_holds, kept.buyer_holds)
    book.trades.append(trade)
    book.submitted += trade.submitter is not None
    if trade.state != "ended":
        book.gross[trade.product] += trade.amount
    if trade.state == "live":
        book.live[trade.number] = trade


def put_setting(book: Book, setting: Setting) -> None:
    pair = (setting.member, setting.other) if setting.side == "out" else (setting.other, setting.member)
    book.tolerances[setting.product][pair, SELLER if setting.side == "out" else BUYER] = Tolerance(setting.floor, setting.ceiling)


def history_at(names: Names, base: Base) -> History:
    """The history that begins at a base; raises Misfit where the base does not fit the roster."""
    if max(base.position, base.cycle, base.version) > MOST_NUMBER:
        raise Misfit("a number is above the most")
    if base.members != list(names.members) or base.products != list(names.products):
        raise Misfit("the names are not the roster's")
    members, products = len(names.members), len(names.products)
    faults = [setting_fault(setting, members, products) for setting in base.settings]
    faults += [trade_fault(trade, members, products) for trade in base.trades]
    for fault in faults:
        if fault is not None:
            raise Misfit(fault)
    book = Book(names)
    for setting in base.settings:
        put_setting(book, setting)
    for trade in base.trades:
        put_trade(book, trade)
    if max(book.gross, default=0) > MOST_GROSS or book.submitted > MOST_SUBMITTED:
        raise Misfit("a product's gross or the number of submitted trades is above the most")
    return History(book, Cycle(base.cycle, base.version), base.position)
