"""The text of `replay`: the trades of each member, the executions of the history, and its length.

    member NAME COUNT                                           for each member, in the roster's order, and behind it
    trade TRADE SELLER BUYER PRODUCT AMOUNT DAY STATE HELD      its trades, in the order of their numbers
    execution POSITION CYCLE VERSION ENDED CUT MADE             for each execution, and behind it
    at MOMENT                                                   when it was asked for
    end N                                                       the number of entries, and nothing behind it

A trade stands in the rows of both its parties, word for word. A fault is told as `FILE row ROW: FAULT`, as of the files
that the program reads: `columns`, `unknown-name`, `same-party`, `bad-amount`, `bad-day`, or `bad-line` for every other one.
"""

from typing import NamedTuple

from . import checker
from .checker import Network, Roster

MOST_REPLAY_BYTES = 1 << 30
STATES = (b"alleged", b"live", b"ended")
NUMBERS = {b"member": 1, b"execution": 6, b"at": 1, b"end": 1}  # how many of the last words of a row are numbers
WIDTHS = {b"member": 3, b"trade": 9, b"execution": 7, b"at": 2, b"end": 2}


class Execution(NamedTuple):
    """A plan that was executed: at which position, of which cycle and version, how many trades it ended, cut and made, and when."""

    position: int
    cycle: int
    version: int
    ended: int
    cut: int
    made: int
    moment: int


class Replay(NamedTuple):
    """For each product the sums of its live trades, and how many they are; and the executions."""

    networks: list[Network]
    trades: list[int]
    executions: list[Execution]


def row_fault(words: list[bytes], roster: Roster) -> str | None:
    """The first fault of a row by itself."""
    kind = words[0]
    if kind not in WIDTHS:
        return "bad-line"
    if len(words) != WIDTHS[kind]:
        return "columns"
    if kind != b"trade":
        numbers = words[len(words) - NUMBERS[kind] :]
        return "bad-line" if any(checker.number_of(word) is None for word in numbers) else None
    _, number, seller, buyer, product, amount, day, state, held = words
    if seller not in roster.members or buyer not in roster.members or product not in roster.products:
        return "unknown-name"
    if seller == buyer:
        return "same-party"
    if not checker.number_of(amount):
        return "bad-amount"
    if not checker.is_day(day):
        return "bad-day"
    is_right = checker.number_of(number) and state in STATES and held in (b"held", b"-")
    return None if is_right else "bad-line"


class Reader:
    """What the rows so far left to come, and the trades that they told."""

    def __init__(self, roster: Roster) -> None:
        self.members = list(roster.members)
        self.current = b""  # the member whose trades come
        self.left = 0  # how many of them
        self.last = 0  # the number of the one before
        self.once: dict[bytes, list[bytes]] = {}  # the trades that one party's rows told
        self.both: list[list[bytes]] = []  # those that both told
        self.executions: list[Execution] = []
        self.executed: list[bytes] = []  # the numbers of an execution whose moment comes
        self.is_ended = False

    def takes(self, words: list[bytes]) -> bool:
        """Whether a row without a fault of its own may stand here; it is taken where it may."""
        kind = words[0]
        if self.is_ended or (kind == b"trade") != (self.left > 0) or (kind == b"at") != (self.executed != []):
            return False
        if kind == b"trade":
            return self.takes_trade(words)
        if kind == b"member":
            is_next = self.members[:1] == [words[1]]
            self.current, self.left, self.last = words[1], int(words[2]), 0
            del self.members[:1]
            return is_next
        if kind == b"execution":
            self.executed = words[1:]
        if kind == b"at":
            self.executions.append(Execution(*map(int, [*self.executed, words[1]])))
            self.executed = []
        self.is_ended = kind == b"end"
        return not self.members and not self.once

    def takes_trade(self, words: list[bytes]) -> bool:
        number = int(words[1])
        if self.current not in words[2:4] or number <= self.last:
            return False
        self.left -= 1
        self.last = number
        other = self.once.pop(words[1], None)
        if other is None:
            self.once[words[1]] = words
        else:
            self.both.append(words)
        return other is None or other == words


def read_replay(file: str, text: bytes, roster: Roster) -> Replay:
    """What a text of `replay` tells."""
    reader = Reader(roster)
    lines = text.split(b"\n")
    for row, line in enumerate(lines[:-1], 1):
        words = line.split(b" ")
        fault = row_fault(words, roster) or (None if reader.takes(words) else "bad-line")
        if fault is not None:
            raise checker.Fault(f"{file} row {row}: {fault}")
    if lines[-1] or not reader.is_ended:
        raise checker.Fault(f"{file} row {len(lines)}: bad-line")
    told = Replay([{} for _ in roster.products], [0 for _ in roster.products], reader.executions)
    for _, _, seller, buyer, product, amount, _, state, _ in reader.both:
        if state == b"live":
            place = roster.products[product]
            network = told.networks[place]
            pair = roster.members[seller], roster.members[buyer]
            network[pair] = network.get(pair, 0) + int(amount)
            told.trades[place] += 1
    return told
