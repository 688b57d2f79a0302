"""How full a journal is, by its file: read on from where it was read to, so that asking again is cheap.

Written from docs/FORMATS.md, "The journal's file".
"""

import os
from typing import BinaryIO, NamedTuple

from ..bases import base_of
from ..book import MOST_SUBMITTED
from ..frames import FIRST_BODY, LIMIT, PLAIN, SELECTOR, SLOTS, SLOTTED
from ..records import DATED_MARK, TURN, BadField

TRADE = 1
"""The tag of a TRADE's record."""
PIECE = 4_194_304
"""The bytes that are read at once, behind the first."""
HEAD = 25
"""The bytes that tell which base holds."""


class Fill(NamedTuple):
    """The bytes of a journal and those left, and the trades that were submitted and those left."""

    bytes: int
    bytes_left: int
    trades: int
    trades_left: int


def is_trade(record: bytes, is_dated: bool) -> bool:
    """Whether a record is of a TRADE: its tag stands behind the moment, if it has one, the seat and the party."""
    name = 12 if is_dated else 4
    at = name + 1 + record[name] if len(record) > name else len(record)
    return record[at : at + 1] == bytes([TRADE])


class Follower:
    """Where in a journal's file the next gate is, whether the records behind it have moments, and how many trades were submitted
    before it."""

    def __init__(self, path: str) -> None:
        self.path = path
        self.head: bytes | None = None
        self.gate = 0
        self.is_dated = False
        self.trades = 0

    def fill(self) -> Fill | None:
        """How full the journal is now; none where it can't be read."""
        try:
            with open(self.path, "rb") as file:
                head = file.read(HEAD)
                if head != self.head or os.fstat(file.fileno()).st_size < self.gate:
                    self.begin(file, head)
                self.go_on(file)
        except (OSError, BadField):
            self.head = None
            return None
        end = self.gate + 1
        return Fill(end, LIMIT - end, self.trades, MOST_SUBMITTED - self.trades)

    def begin(self, file: BinaryIO, head: bytes) -> None:
        """Reads what stands before the first gate: nothing, or the base that the selected slot leads to."""
        self.head, self.gate, self.is_dated, self.trades = head, len(PLAIN), False, 0
        if head.startswith(SLOTTED) and len(head) == HEAD:
            slot = SLOTS[head[SELECTOR] == 1]
            base = self.base(file, int.from_bytes(head[slot : slot + 8], "little"))
            self.is_dated = base.startswith(DATED_MARK)
            self.trades = sum(trade.submitter is not None for trade in base_of(base).trades) if base else 0
        elif not head.startswith(PLAIN):
            raise OSError("no journal")

    def base(self, file: BinaryIO, offset: int) -> bytes:
        """The base at an offset; the first gate stands after it. A slot may lead anywhere if the file is damaged."""
        size = os.fstat(file.fileno()).st_size
        if not FIRST_BODY <= offset <= size - 4:
            raise OSError("no journal")
        file.seek(offset)
        self.gate = offset + 4 + int.from_bytes(file.read(4), "little")
        if self.gate >= LIMIT or self.gate > size:
            raise OSError("no journal")
        return file.read(self.gate - offset - 4)

    def go_on(self, file: BinaryIO) -> None:
        """Reads the open gates and their records from where they were read to."""
        file.seek(self.gate)
        bytes = file.read(PIECE)
        at = 0
        while bytes[at : at + 1] == b"\1":
            end = at + 5 + int.from_bytes(bytes[at + 1 : at + 5], "little")
            if self.gate + end - at >= LIMIT:
                raise OSError("no journal")
            if end + 1 > len(bytes):
                more = file.read(max(PIECE, end + 1 - len(bytes)))
                if not more:
                    break
                bytes, at = bytes[at:] + more, 0
                continue
            record = bytes[at + 5 : end]
            self.trades += is_trade(record, self.is_dated)
            self.is_dated = self.is_dated or record == TURN
            self.gate += end - at
            at = end
