"""The command compress-audit: replays a journal by itself, and tests each posting and each execution on the way.

It prints a line for each posting, `posting POSITION CYCLE VERSION MODE BEFORE AFTER` and `yes` or `no` and the first clash, and
then the text of `compress_cli replay`. It is written from docs/FORMATS.md, docs/PROTOCOL.md and docs/MODEL.md alone, and has no
line of the program; it never writes to the journal. Where the journal stands for no history of the roster it tells where, why,
and the postings up to there, and ends with status 7, as `replay` does.
"""

import gc
import sys
from typing import NoReturn

from . import checker
from .bases import base_of
from .book import Names, Refused
from .ending import Stop, read_file, run
from .fitting import Misfit, history_at
from .frames import MOST_BYTES, Damaged, Lead, frames_of, lead_of
from .history import History, Moved
from .records import BadField, Kind, body_of, record_of
from .words import Words, text


def names_of(roster: bytes) -> Names:
    """The names of a roster file; stops with the line of its first fault."""
    try:
        read = checker.read_roster(roster)
        days = [fields[2].decode() for _, fields in checker.rows_of("roster", roster, [b"name", b"role", b"key"]) if fields[1] == b"product"]
    except checker.Fault as fault:
        raise Stop(3, str(fault)) from None
    members, products = ({name.decode(): place for name, place in places.items()} for places in (read.members, read.products))
    return Names(members, read.is_dealer, products, days, next((name.decode() for name in read.operators), None))


def journal_bytes(name: str) -> bytes:
    """A journal's bytes, of which a missing one has none."""
    try:
        with open(name, "rb") as file:
            return file.read(MOST_BYTES)
    except FileNotFoundError:
        return b""
    except (OSError, ValueError):
        raise Stop(6, "disk fault") from None


class Audit:
    """The history of a journal's bytes, made again entry by entry, until one may not stand."""

    def __init__(self, names: Names, file: bytes) -> None:
        self.names = names
        self.file = file
        self.history = History.first(names)
        self.refused: Damaged | None = None
        """The first base or entry that may not stand; a later record that spells nothing is told before it."""

    def run(self) -> None:
        """Makes all changes; raises Damaged where the bytes stand for no history of the roster, and what replaying raises."""
        lead = lead_of(self.file)
        for _ in frames_of(self.file, lead):
            pass
        if lead.base:
            self.begin(lead)
        for at, bytes, kind in body_of(lead.base, frames_of(self.file, lead)):
            if kind is not Kind.TURN:
                self.take(at, bytes, kind)
        if self.refused is not None:
            raise self.refused

    def begin(self, lead: Lead) -> None:
        """Begins the history at a base."""
        try:
            self.history = history_at(self.names, base_of(lead.base))
        except BadField as bad:
            raise Damaged(lead.offset, f"its base spells nothing: {bad}") from None
        except Misfit as misfit:
            self.refused = Damaged(lead.offset, f"its base does not fit the roster: {misfit}")

    def take(self, at: int, bytes: bytes, kind: Kind) -> None:
        """Makes the change of a record behind the gate at a place."""
        try:
            record = record_of(bytes, kind)
            if self.refused is None:
                self.history.take(record)
        except BadField as bad:
            raise Damaged(at, f"its record spells nothing: {bad}") from None
        except Refused as refusal:
            self.refused = Damaged(at, f"{record.party}: {record.change} is refused: {refusal}")


def words() -> Words:
    parser = Words(
        "compress-audit",
        "Replays a journal by itself, and tells of each posting whether it is certified. It shares nothing with the program.",
    )
    parser.add_argument("roster", metavar="ROSTER", type=text, help="the members, the products and the operator")
    parser.add_argument("journal", metavar="JOURNAL", type=text, help="what `compress_cli script` and `serve` write")
    return parser


def main(line: list[str]) -> int:
    given = words().parse_args(line)
    gc.disable()  # entries hold no rings of objects, and there may be millions of them
    audit = Audit(names_of(read_file(given.roster, checker.MOST_BYTES + 1)), journal_bytes(given.journal))
    try:
        audit.run()
    except Damaged as damaged:
        raise Stop(7, f"damaged at {damaged}") from None
    except Moved as moved:
        raise Stop(1, str(moved)) from None
    finally:
        sys.stdout.writelines(f"{posted}\n" for posted in audit.history.postings)
    sys.stdout.writelines(f"{line}\n" for line in audit.history.lines())
    return 0


def command() -> NoReturn:
    run(main)
