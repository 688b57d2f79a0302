"""The history of a journal, made again record by record: its postings, its executions, and the text of `replay`.

Written from docs/PROTOCOL.md, docs/MODEL.md and docs/FORMATS.md, "A replay". It shares nothing with the program.
"""

from typing import Iterator, NamedTuple

from . import changes
from .book import Book, Names, Refused
from .cycles import Cycle, Posting
from .plans import execute
from .records import Record


class Moved(Exception):
    """An execution moved a net position, or raised a product's gross, and which."""


class Posted(NamedTuple):
    """A posting, and the position at which it stands."""

    position: int
    posting: Posting

    def __str__(self) -> str:
        it = self.posting
        answer = "yes" if it.fault is None else f"no {it.fault}"
        return f"posting {self.position} {it.cycle} {it.version} {it.mode} {it.before} {it.after} {answer}"


class History:
    """The market behind so many changes, and what was posted and executed on the way."""

    def __init__(self, book: Book, cycle: Cycle, position: int) -> None:
        self.names = book.names
        self.book = book
        self.cycle = cycle
        self.position = position
        self.postings: list[Posted] = []
        self.executions: list[str] = []

    @classmethod
    def first(cls, names: Names) -> "History":
        """The history in which nothing was done."""
        return cls(Book(names), Cycle(0, 0), 0)

    def take(self, record: Record) -> None:
        """Makes the next change; a change that may not stand here is refused."""
        member = self.names.members.get(record.party)
        if member is None and record.party != self.names.operator:
            raise Refused("1 not-greeted")
        self.position += 1
        change = record.change
        if isinstance(change, changes.Trade):
            self.book.trade(member, change)
        elif isinstance(change, changes.Affirm):
            self.book.affirm(member, change)
        elif isinstance(change, changes.End):
            ended = self.book.end(member, change)
            if ended is not None:
                self.cycle.break_by(ended)
        elif isinstance(change, changes.Hold | changes.Free):
            self.book.set_hold(member, change, self.cycle.number)
        elif isinstance(change, changes.Tolerance):
            self.book.tolerate(member, change)
        elif isinstance(change, changes.Accept | changes.Decline):
            self.cycle.vote(member, change)
            if isinstance(change, changes.Accept) and not self.cycle.left:
                self.execute(record.moment)
        elif member is not None:
            raise Refused("14 not-operator")
        else:
            self.operate(change, record.moment)

    def operate(self, change: changes.Freeze | changes.Begin | changes.Post | changes.Cancel, moment: int) -> None:
        """Makes a change of the operator, asked at a moment."""
        if isinstance(change, changes.Freeze):
            self.cycle.freeze(self.book, change.day)
        elif isinstance(change, changes.Begin):
            self.cycle.begin(self.book, change)
        elif isinstance(change, changes.Cancel):
            self.cycle.cancel(change)
        else:
            posting = self.cycle.post(self.book, change)
            self.postings.append(Posted(self.position, posting))
            if posting.fault is not None:
                raise Refused(f"24 bad-certificate {posting.fault}")
            if not self.cycle.left:
                self.execute(moment)

    def cancel_open(self) -> int:
        """Has the operator cancel the open cycle, if one is open; answers how many changes that is."""
        operator = self.names.operator
        if operator is None or self.cycle.phase == "none":
            return 0
        self.take(Record(0, operator, changes.Cancel(self.cycle.number)))
        return 1

    def execute(self, moment: int) -> None:
        """Executes the plan that stands at a moment, and tests that each net position stays and no gross grows."""
        before = [*self.book.gross]
        done = execute(self.book, self.cycle.plan, self.cycle.day)
        products, members = list(self.names.products), list(self.names.members)
        for (product, member), amount in done.moved.items():
            if amount:
                raise Moved(f"execution {self.position} moves the net position of {members[member]} in {products[product]}")
        for product, (old, new) in enumerate(zip(before, self.book.gross)):
            if new > old:
                raise Moved(f"execution {self.position} raises the gross of {products[product]}")
        self.cycle.close()
        numbers = self.position, self.cycle.number, self.cycle.version, done.ended, done.cut, done.made
        self.executions += [" ".join(map(str, ["execution", *numbers])), f"at {moment}"]

    def lines(self) -> Iterator[str]:
        """The text of `replay`."""
        members, products = list(self.names.members), list(self.names.products)
        told: list[list[str]] = [[] for _ in members]
        for trade in self.book.trades:
            seller, buyer = trade.parties
            held = "held" if any(trade.holds) else "-"
            line = f"trade {trade.number} {members[seller]} {members[buyer]} {products[trade.product]} {trade.amount} {trade.day} {trade.state} {held}"
            told[seller].append(line)
            told[buyer].append(line)
        for name, rows in zip(members, told):
            yield f"member {name} {len(rows)}"
            yield from rows
        yield from self.executions
        yield f"end {self.position}"
