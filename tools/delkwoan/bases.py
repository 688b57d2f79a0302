"""Bases of journals: the state that bytes spell, as a value, or the first field that breaks the rules.

Written from docs/FORMATS.md, "Bases". Whether a base fits a roster is not looked at.
"""

from typing import NamedTuple

from .quick import MOST_NUMBER
from .records import BadField, Fields

LEAST_MARK, MOST_MARK = 1, 2
"""The first bytes that a base may have: behind a base with the second, all records have moments."""
SIDES = ("out", "in")
STATES = ("alleged", "live", "ended")
PARTIES = (None, *SIDES)


class Setting(NamedTuple):
    """What a member set for its side of a pair: the places of the member, the product and the other; None is no ceiling."""

    member: int
    product: int
    other: int
    side: str
    floor: int
    ceiling: int | None


class Kept(NamedTuple):
    """A trade: the places of the parties and of the product; its submitter and its mark are sides of it, or none."""

    seller: int
    buyer: int
    product: int
    amount: int
    day: str
    state: str
    submitter: str | None
    mark: str | None
    seller_holds: bool
    buyer_holds: bool


class Base(NamedTuple):
    """A state in which no cycle is open, at a position of the history; the trades are numbered from 1 in their order."""

    position: int
    cycle: int
    version: int
    members: list[str]
    products: list[str]
    settings: list[Setting]
    trades: list[Kept]


def names_of(fields: Fields, what: str) -> list[str]:
    return [fields.name(what) for _ in range(fields.number(2, f"how many names of a {what}"))]


def setting_of(fields: Fields) -> Setting:
    member, product, other = (fields.number(2, what) for what in ("a setting's member", "a setting's product", "a setting's other member"))
    side = fields.choice("a setting's side", *SIDES)
    floor = fields.number(8, "a setting's floor", 0, MOST_NUMBER)
    is_given = fields.number(1, "whether there is a ceiling", 0, 1)
    return Setting(member, product, other, side, floor, fields.number(8, "a setting's ceiling", 0, MOST_NUMBER) if is_given else None)


def order_of(setting: Setting) -> tuple[int, int, int, int]:
    return (setting.member, setting.product, setting.other, SIDES.index(setting.side))


def settings_of(fields: Fields) -> list[Setting]:
    """The settings, each behind the one before it in their order."""
    settings: list[Setting] = []
    for _ in range(fields.number(8, "how many settings")):
        at = fields.at
        setting = setting_of(fields)
        if settings and order_of(setting) <= order_of(settings[-1]):
            raise BadField(at, "a setting: it does not rise")
        settings.append(setting)
    return settings


def trade_of(fields: Fields) -> Kept:
    seller, buyer, product = (fields.number(2, what) for what in ("a trade's seller", "a trade's buyer", "a trade's product"))
    amount, day = fields.number(8, "a trade's amount", 1, MOST_NUMBER), fields.day("a trade's day")
    state = fields.choice("a trade's state", *STATES)
    submitter, mark = (PARTIES[fields.number(1, what, 0, 2)] for what in ("a trade's submitter", "a trade's mark"))
    holds = fields.number(1, "a trade's holds", 0, 3)
    return Kept(seller, buyer, product, amount, day, state, submitter, mark, holds & 1 > 0, holds & 2 > 0)


def base_of(bytes: bytes) -> Base:
    """The base that the bytes spell; raises BadField at the first field that breaks the rules."""
    fields = Fields(bytes)
    fields.number(1, "the mark of the form", LEAST_MARK, MOST_MARK)
    position, cycle, version = (fields.number(8, what) for what in ("the position", "the cycle", "the version"))
    members, products = names_of(fields, "member"), names_of(fields, "product")
    settings = settings_of(fields)
    trades = [trade_of(fields) for _ in range(fields.number(8, "how many trades"))]
    if fields.at < len(bytes):
        raise BadField(fields.at, "something behind the last field")
    return Base(position, cycle, version, members, products, settings, trades)
