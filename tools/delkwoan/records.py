"""Records of a journal: the change that bytes spell, as a value, or the first field that breaks the rules.

The records of a body are without moments up to its turn, if it has one, and have them behind it, or from the first on behind a
base that says so. Written from docs/FORMATS.md, "Records".
"""

import datetime
import re
from enum import Enum
from typing import Callable, Iterable, Iterator, NamedTuple

from .changes import Accept, Affirm, Begin, Cancel, Change, Decline, End, Free, Freeze, Hold, Post, Row, Solution, Tolerance, Trade
from .moments import MOST_MOMENT
from .quick import DAYS, MOST_NUMBER, NAMES, quick_change

MOST_POTENTIAL = 1_000_000
TURN = b"MOMENTS2"
"""The record behind which the others have moments."""
DATED_MARK = b"\2"
"""How a base begins behind which all records have moments."""


class Kind(Enum):
    """What a record is: a change without its moment or with it, or the turn."""

    UNDATED = 1
    DATED = 2
    TURN = 3


def body_of(base: bytes, frames: Iterable[tuple[int, bytes]]) -> Iterator[tuple[int, bytes, Kind]]:
    """The records behind a base with the places of their gates, and what each is."""
    kind = Kind.DATED if base.startswith(DATED_MARK) else Kind.UNDATED
    for at, bytes in frames:
        if kind is Kind.UNDATED and bytes == TURN:
            kind = Kind.DATED
            yield at, bytes, Kind.TURN
        else:
            yield at, bytes, kind


class BadField(Exception):
    """A field breaks the rules: the offset of its first byte in the record, and what it is."""

    def __init__(self, at: int, what: str) -> None:
        super().__init__(f"byte {at}, {what}")
        self.at = at
        self.what = what


class Record(NamedTuple):
    """Who asked for a change, from which seat, the change, and when it was asked, which is 0 where that is not told."""

    seat: int
    party: str
    change: Change
    moment: int = 0


class Fields:
    """The fields of a record, read one after another."""

    def __init__(self, bytes: bytes) -> None:
        self.bytes = bytes
        self.at = 0

    def take(self, size: int, what: str) -> bytes:
        field = self.bytes[self.at : self.at + size]
        if len(field) < size:
            raise BadField(self.at, f"{what}: the bytes end in it")
        self.at += size
        return field

    def number(self, size: int, what: str, least: int = 0, most: int | None = None) -> int:
        value = int.from_bytes(self.take(size, what), "little")
        if value < least or (most is not None and value > most):
            raise BadField(self.at - size, f"{what}: {value} is out of its range")
        return value

    def name(self, what: str) -> str:
        size = 1 + (self.bytes[self.at] if self.at < len(self.bytes) else 0)
        field = self.take(size, what)
        if re.fullmatch(rb"[A-Z0-9-]{1,16}", field[1:]) is None:
            raise BadField(self.at - size, f"{what}: no name")
        return NAMES.setdefault(field, field[1:].decode())

    def day(self, what: str) -> str:
        field = self.take(4, what)
        year, month, day = field[0] + 256 * field[1], field[2], field[3]
        try:
            datetime.date(year % 400 + 400, month, day)
        except ValueError:
            month = 0
        if year > 9999 or month == 0:
            raise BadField(self.at - 4, f"{what}: no day of the calendar")
        return DAYS.setdefault(field, f"{year:04}-{month:02}-{day:02}")

    def choice(self, what: str, *words: str) -> str:
        return words[self.number(1, what, 0, len(words) - 1)]

    def row(self, members: int, last: tuple[int, int], before: int) -> Row:
        """A row behind the pair of the last one, where the amounts before it have this sum."""
        at = self.at
        field = self.take(12, "a row")
        row = Row(*(int.from_bytes(field[start:end], "little") for start, end in ((0, 2), (2, 4), (4, 12))))
        if max(row[:2]) >= members or row.seller == row.buyer:
            raise BadField(at, f"a row: no pair of {members} members")
        if row[:2] <= last:
            raise BadField(at, "a row: it does not rise")
        if row.amount == 0 or before + row.amount > MOST_NUMBER:
            raise BadField(at, "a row: the amount is 0, or with those before above the most")
        return row

    def solution(self) -> Solution:
        members = self.number(2, "the number of members", 0, 256)
        rows: list[Row] = []
        gross = 0
        for _ in range(self.number(4, "the number of rows")):
            rows.append(self.row(members, rows[-1][:2] if rows else (-1, -1), gross))
            gross += rows[-1].amount
        return Solution(rows, [self.potential() for _ in range(members)])

    def potential(self) -> int:
        value = int.from_bytes(self.take(4, "a potential"), "little", signed=True)
        if abs(value) > MOST_POTENTIAL:
            raise BadField(self.at - 4, f"a potential: {value} is out of its range")
        return value

    def trade(self) -> Trade:
        seller, buyer, product = (self.name(what) for what in ("the seller", "the buyer", "the product"))
        return Trade(seller, buyer, product, self.number(8, "the amount", 1, MOST_NUMBER), self.day("the day"))

    def tolerance(self) -> Tolerance:
        other, product, side = self.name("the other member"), self.name("the product"), self.choice("the side", "out", "in")
        floor = self.number(8, "the floor", 0, MOST_NUMBER)
        is_given = self.number(1, "whether there is a ceiling", 0, 1)
        return Tolerance(other, product, side, floor, self.number(8, "the ceiling", 0, MOST_NUMBER) if is_given else None)

    def trade_number(self) -> int:
        return self.number(8, "the trade")

    def cycle(self) -> int:
        return self.number(8, "the cycle")

    def version(self) -> int:
        return self.number(8, "the version")

    def post(self) -> Post:
        cycle, version = self.cycle(), self.version()
        return Post(cycle, version, [self.solution() for _ in range(self.number(2, "the number of solutions", 0, 64))])

    def change(self) -> Change:
        tag = self.number(1, "the kind of change")
        if tag not in range(1, 13):
            raise BadField(self.at - 1, f"the kind of change: {tag} is none")
        return KINDS[tag - 1](self)


KINDS: list[Callable[[Fields], Change]] = [
    Fields.trade,
    lambda fields: Affirm(fields.trade_number()),
    lambda fields: End(fields.trade_number()),
    lambda fields: Hold(fields.trade_number()),
    lambda fields: Free(fields.trade_number()),
    Fields.tolerance,
    lambda fields: Freeze(fields.day("the day")),
    lambda fields: Begin(fields.cycle(), fields.choice("the mode", "conservative", "hybrid", "free")),
    Fields.post,
    lambda fields: Accept(fields.cycle(), fields.version()),
    lambda fields: Decline(fields.cycle(), fields.version()),
    lambda fields: Cancel(fields.cycle()),
]
"""How the fields behind each kind of change are read, by its tag from 1."""


def record_by_fields(bytes: bytes, kind: Kind) -> Record:
    """As `record_of`, field by field."""
    fields = Fields(bytes)
    moment = fields.number(8, "the moment", 0, MOST_MOMENT) if kind is Kind.DATED else 0
    record = Record(fields.number(4, "the seat"), fields.name("the party"), fields.change(), moment)
    if fields.at < len(bytes):
        raise BadField(fields.at, "something behind the last field")
    return record


def record_of(bytes: bytes, kind: Kind) -> Record:
    """The record that the bytes spell as this kind; raises BadField at the first field that breaks the rules."""
    seat = 8 if kind is Kind.DATED else 0
    name = seat + 4
    at = name + 1 + bytes[name] if len(bytes) > name else 0
    moment = int.from_bytes(bytes[:seat], "little")
    party = NAMES.get(bytes[name:at])
    change = None if party is None or at >= len(bytes) or moment > MOST_MOMENT else quick_change(bytes, at)
    if party is None or change is None:
        return record_by_fields(bytes, kind)
    return Record(int.from_bytes(bytes[seat:name], "little"), party, change, moment)
