"""Journals spelled by hand, by docs/FORMATS.md: records, their frames, bases, and files without and with slots."""

import struct
from typing import NamedTuple, Sequence

PLAIN, SLOTTED = b"OTCJRNL1", b"OTCJRNLC"
SIDES = {"out": 0, "in": 1}
MODES = {"conservative": 0, "hybrid": 1, "free": 2}
TURN = b"MOMENTS2"
"""The record behind which the others have moments."""


def number(value: int) -> bytes:
    return struct.pack("<Q", value)


def name(text: str) -> bytes:
    return bytes([len(text)]) + text.encode()


def day(text: str) -> bytes:
    year, month, number = map(int, text.split("-"))
    return struct.pack("<HBB", year, month, number)


def ceiling(word: str) -> bytes:
    return b"\0" if word == "-" else b"\1" + number(int(word))


class Solution(NamedTuple):
    rows: Sequence[tuple[int, int, int]]
    potentials: Sequence[int]

    def spelled(self) -> bytes:
        head = struct.pack("<HI", len(self.potentials), len(self.rows))
        rows = b"".join(struct.pack("<HHQ", *row) for row in self.rows)
        return head + rows + b"".join(struct.pack("<i", value) for value in self.potentials)


def fields(line: str, solutions: Sequence[Solution]) -> bytes:
    """The tag and the fields of a change's line; those of a POST have its solutions, too."""
    verb, *words = line.split(" ")
    if verb == "TRADE":
        return b"\1" + b"".join(map(name, words[:3])) + number(int(words[3])) + day(words[4])
    if verb == "TOL":
        return b"\6" + name(words[0]) + name(words[1]) + bytes([SIDES[words[2]]]) + number(int(words[3])) + ceiling(words[4])
    if verb == "FREEZE":
        return b"\7" + day(words[0])
    if verb == "BEGIN":
        return b"\x08" + number(int(words[0])) + bytes([MODES[words[1]]])
    tag = {"AFFIRM": 2, "END": 3, "HOLD": 4, "FREE": 5, "POST": 9, "ACCEPT": 10, "DECLINE": 11, "CANCEL": 12}[verb]
    spelled = bytes([tag]) + b"".join(number(int(word)) for word in words)
    if verb == "POST":
        spelled += struct.pack("<H", len(solutions)) + b"".join(solution.spelled() for solution in solutions)
    return spelled


def record(said: str, solutions: Sequence[Solution] = (), seat: int = 0, moment: int | None = None) -> bytes:
    """The record of a change, said as `A: TRADE A B P 10 2026-03-02`, without a moment or with this one."""
    party, line = said.split(": ", 1)
    dated = b"" if moment is None else number(moment)
    return dated + struct.pack("<I", seat) + name(party) + fields(line, solutions)


def frames(records: Sequence[bytes]) -> bytes:
    """The records behind open gates, and a closed gate."""
    return b"".join(b"\1" + struct.pack("<I", len(it)) + it for it in records) + b"\0"


def plain(records: Sequence[bytes]) -> bytes:
    return PLAIN + frames(records)


def slotted(base: bytes, records: Sequence[bytes], slot: int = 0, gap: bytes = b"") -> bytes:
    """A file whose selected slot leads behind a gap; the other slot leads to 0."""
    offset = 25 + len(gap)
    slots = number(offset) + number(0) if slot == 0 else number(0) + number(offset)
    return SLOTTED + bytes([slot]) + slots + gap + struct.pack("<I", len(base)) + base + frames(records)


class Base(NamedTuple):
    """A base: the settings and the trades as lines of words, where all but amounts, days and words are places."""

    position: int
    cycle: int
    version: int
    members: Sequence[str]
    products: Sequence[str]
    settings: Sequence[str] = ()
    trades: Sequence[str] = ()
    mark: bytes = b"\1"

    def spelled(self) -> bytes:
        text = self.mark + number(self.position) + number(self.cycle) + number(self.version)
        for names in (self.members, self.products):
            text += struct.pack("<H", len(names)) + b"".join(map(name, names))
        text += number(len(self.settings)) + b"".join(map(setting, self.settings))
        return text + number(len(self.trades)) + b"".join(map(trade, self.trades))


def setting(line: str) -> bytes:
    """A setting, as `0 0 1 out 5 -`: member, product, other, side, floor, ceiling."""
    member, product, other, side, floor, most = line.split(" ")
    return struct.pack("<HHH", int(member), int(product), int(other)) + bytes([SIDES[side]]) + number(int(floor)) + ceiling(most)


def trade(line: str) -> bytes:
    """A trade, as `0 1 0 10 2026-03-02 live out - 0`: seller, buyer, product, amount, day, state, submitter, mark, holds."""
    seller, buyer, product, amount, made, state, submitter, mark, holds = line.split(" ")
    parties = {"-": 0, "out": 1, "in": 2}
    marks = ["alleged", "live", "ended"].index(state), parties[submitter], parties[mark], int(holds)
    return struct.pack("<HHH", int(seller), int(buyer), int(product)) + number(int(amount)) + day(made) + bytes(marks)
