"""A journal's file: what stands in it before its first gate, and the records behind its open gates, or where and by which
rule it is damaged.

Written from docs/FORMATS.md, "The journal's file". What a base spells is read by `bases`, and what a record spells by `records`.
"""

from enum import Enum
from typing import Iterator, NamedTuple

PLAIN, SLOTTED = b"OTCJRNL1", b"OTCJRNLC"
LEAST_PLAIN, LEAST_SLOTTED = 10, 31
SELECTOR, SLOTS = 8, (9, 17)
FIRST_BODY = 25
LIMIT = 268_435_456
MOST_BYTES = LIMIT + 5
"""Bytes behind these tell nothing: a gate stands below the limit, and four bytes of a length behind it."""


class Form(Enum):
    """How a file begins."""

    SHORT = "fewer than ten bytes"
    PLAIN = "no slots"
    SHORT_SLOTTED = "slots, and fewer than 31 bytes"
    SLOTTED = "slots"


class Lead(NamedTuple):
    """What stands before the first gate: the slot that is selected, the offset in it, the base there, and the gate's place.

    Without slots the offset and the base are 0 and empty. A file that is too short has the gate that it gets when it is begun.
    """

    form: Form
    slot: int
    offset: int
    base: bytes
    gate: int


class Walk(NamedTuple):
    """The places of the open gates with their records, and that of the closed gate; or where and how the file is damaged."""

    lead: Lead | None
    frames: list[tuple[int, bytes]]
    closed: int
    damage: str | None


class Damaged(Exception):
    """The file is damaged at a place, and how."""

    def __init__(self, at: int, what: str) -> None:
        super().__init__(f"{at}: {what}")
        self.at = at
        self.what = what


def lead_of(file: bytes) -> Lead:
    if len(file) < LEAST_PLAIN:
        return Lead(Form.SHORT, 0, FIRST_BODY, b"", FIRST_BODY + 4)
    if file.startswith(PLAIN):
        return Lead(Form.PLAIN, 0, 0, b"", len(PLAIN))
    if not file.startswith(SLOTTED):
        raise Damaged(0, f"it begins neither with {PLAIN.decode()} nor with {SLOTTED.decode()}")
    if len(file) < LEAST_SLOTTED:
        return Lead(Form.SHORT_SLOTTED, 0, FIRST_BODY, b"", FIRST_BODY + 4)
    slot = 1 if file[SELECTOR] == 1 else 0
    offset = int.from_bytes(file[SLOTS[slot] : SLOTS[slot] + 8], "little")
    if offset < FIRST_BODY:
        raise Damaged(offset, f"slot {slot} leads below {FIRST_BODY}")
    start = offset + 4
    if start > len(file):
        raise Damaged(offset, "the length of its base passes the file's end")
    size = int.from_bytes(file[offset:start], "little")
    if start + size >= LIMIT:
        raise Damaged(offset, f"its base ends at {start + size}, at or past {LIMIT}")
    if start + size > len(file):
        raise Damaged(offset, f"its base of {size} bytes passes the file's end")
    return Lead(Form.SLOTTED, slot, offset, file[start : start + size], start + size)


def frames_of(file: bytes, lead: Lead) -> Iterator[tuple[int, bytes]]:
    """The places of the open gates with their records; raises Damaged where a gate is due and none that may stand there is."""
    at, length = lead.gate, len(file)
    if lead.form in (Form.SHORT, Form.SHORT_SLOTTED):
        return
    while at < length and file[at] == 1:
        start = at + 5
        if start > length:
            raise Damaged(at, "the length of its record passes the file's end")
        end = start + int.from_bytes(file[at + 1 : start], "little")
        if end >= LIMIT:
            raise Damaged(at, f"its record ends at {end}, at or past {LIMIT}")
        if end > length:
            raise Damaged(at, f"its record of {end - start} bytes passes the file's end")
        yield at, file[start:end]
        at = end
    if at >= length:
        raise Damaged(at, "a gate is due, and the file ends")


def walk(file: bytes) -> Walk:
    """The records that stand in a file."""
    frames: list[tuple[int, bytes]] = []
    lead: Lead | None = None
    closed = 0
    try:
        lead = lead_of(file)
        closed = lead.gate
        for at, bytes in frames_of(file, lead):
            frames.append((at, bytes))
            closed = at + 5 + len(bytes)
    except Damaged as damaged:
        return Walk(lead, frames, damaged.at, damaged.what)
    return Walk(lead, frames, closed, None)
