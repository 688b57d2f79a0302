"""The command compress-journal: a journal's slots, its base and each of its records in words, where the records end, and how much room
is left behind them.

Where the journal is damaged it stops there, says by which rule, and ends with status 7. It never writes to the file. Written
from docs/FORMATS.md, "The journal's file", "Bases" and "Records"; whether the base fits a roster, and whether the machine accepts a
change, is not looked at.
"""

from typing import Iterator, NamedTuple, NoReturn

from .bases import Base, Kept, Setting, base_of
from .book import MOST_SUBMITTED
from .changes import Tolerance, Trade, rows_of
from .ending import Stop, read_file, run
from .frames import LIMIT, MOST_BYTES, SELECTOR, SLOTS, Form, Lead, Walk, walk
from .moments import moment_text
from .records import BadField, Kind, Record, body_of, record_of
from .words import Words, plain

BEGUN_END = 30
"""Where the journal ends that is begun on a file which is too short."""


def name_at(names: list[str], place: int) -> str:
    """The name at a place, or, where there is none, the place."""
    return names[place] if place < len(names) else f"number {place}"


def setting_text(base: Base, setting: Setting) -> str:
    """The member, and the command that would make the setting."""
    other, product = name_at(base.members, setting.other), name_at(base.products, setting.product)
    command = Tolerance(other, product, setting.side, setting.floor, setting.ceiling)
    return f"{name_at(base.members, setting.member)}: {command}"


def trade_text(base: Base, trade: Kept) -> str:
    seller, buyer = name_at(base.members, trade.seller), name_at(base.members, trade.buyer)
    sides = {"out": seller, "in": buyer}
    text = f"{seller} {buyer} {name_at(base.products, trade.product)} {trade.amount} {trade.day} {trade.state}"
    told = [f"submitted by {sides[trade.submitter]}"] if trade.submitter else []
    told += [f"marked by {sides[trade.mark]}"] if trade.mark else []
    told += [f"held by {name}" for name, holds in ((seller, trade.seller_holds), (buyer, trade.buyer_holds)) if holds]
    return ", ".join([text, *told])


def lines_of(base: Base) -> Iterator[str]:
    """What a base has, as lines."""
    yield f"  position {base.position}, cycle {base.cycle}, version {base.version}"
    yield " ".join(["  members", *base.members])
    yield " ".join(["  products", *base.products])
    for setting in base.settings:
        yield f"  setting {setting_text(base, setting)}"
    for number, trade in enumerate(base.trades, 1):
        yield f"  trade {number} {trade_text(base, trade)}"


class Counts(NamedTuple):
    """How many changes there are, and how many trades were submitted."""

    changes: int
    trades: int


def left_text(end: int, trades: int) -> str:
    """The room behind a journal's end and so many trades that were submitted."""
    return f"left: trades {MOST_SUBMITTED - trades}, bytes {LIMIT - end}"


def print_base(lead: Lead) -> int | BadField:
    """A base in words, and how many of its trades were submitted; where its bytes spell none, that."""
    if not lead.base:
        print(f"{lead.offset} no base")
        return 0
    try:
        base = base_of(lead.base)
    except BadField as bad:
        at = lead.offset + 4 + bad.at
        print(f"{lead.offset} base, {len(lead.base)} bytes: spells no state at offset {at}, {bad.what}")
        return bad
    print(f"{lead.offset} base, {len(lead.base)} bytes: settings: {len(base.settings)}, trades: {len(base.trades)}")
    for line in lines_of(base):
        print(line)
    return sum(trade.submitter is not None for trade in base.trades)


def print_slots(file: bytes, lead: Lead) -> None:
    print(f"{SELECTOR} selector: slot {lead.slot}")
    for slot, place in enumerate(SLOTS):
        offset = int.from_bytes(file[place : place + 8], "little")
        print(f"{place} slot {slot}: offset {offset}")


def asked_text(record: Record, kind: Kind) -> str:
    """When a change was asked, if that is told, by whom, and the change."""
    asked = f"{moment_text(record.moment)}, " if kind is Kind.DATED else ""
    return f"{asked}seat {record.seat}, {record.party}: {record.change}"


def print_record(at: int, number: int, bytes: bytes, kind: Kind) -> Record | BadField:
    """A record in words; where it spells no change, that."""
    try:
        record = record_of(bytes, kind)
    except BadField as bad:
        print(f"{at} record {number}, {len(bytes)} bytes: spells no change at offset {at + 5 + bad.at}, {bad.what}")
        return bad
    print(f"{at} record {number}, {len(bytes)} bytes: {asked_text(record, kind)}")
    for line in rows_of(record.change):
        print(line)
    return record


def print_body(found: Walk, base: bytes) -> Counts:
    """The records in words, and how many are changes, and TRADEs; stops at one that spells none, unless the walk found damage."""
    number = trades = 0
    for at, bytes, kind in body_of(base, found.frames):
        if kind is Kind.TURN:
            print(f"{at} turn, {len(bytes)} bytes: each change behind it has its moment")
            continue
        number += 1
        record = print_record(at, number, bytes, kind)
        if isinstance(record, Record):
            trades += isinstance(record.change, Trade)
        elif found.damage is None:
            raise Stop(7, f"damaged at {at}: its record spells no change")
    return Counts(number, trades)


def inspect(file: bytes) -> None:
    found = walk(file)
    if found.lead is None:
        raise Stop(7, f"damaged at {found.closed}: {found.damage}")
    if found.lead.form in (Form.SHORT, Form.SHORT_SLOTTED):
        print(f"no records: {found.lead.form.value}; end {BEGUN_END}; {left_text(BEGUN_END, 0)}")
        return
    trades: int | BadField = 0
    if found.lead.form == Form.SLOTTED:
        print_slots(file, found.lead)
        trades = print_base(found.lead)
    if isinstance(trades, BadField) and found.damage is None:
        raise Stop(7, f"damaged at {found.lead.offset}: its base spells no state")
    counts = print_body(found, found.lead.base)
    if found.damage is not None or isinstance(trades, BadField):
        raise Stop(7, f"damaged at {found.closed}: {found.damage}")
    end = found.closed + 1
    print(f"{found.closed} closed gate, end {end}; records: {counts.changes}; {left_text(end, trades + counts.trades)}")


def words() -> Words:
    parser = Words(
        "compress-journal",
        "Prints the slots, the base and each record of a journal in words, how many trades and bytes are left, and where and by which "
        "rule it is damaged. It never writes to the file.",
    )
    parser.add_argument("file", metavar="FILE", type=plain, help="the journal")
    return parser


def main(line: list[str]) -> int:
    inspect(read_file(words().parse_args(line).file, MOST_BYTES))
    return 0


def command() -> NoReturn:
    run(main)
