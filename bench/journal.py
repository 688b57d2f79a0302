#!/usr/bin/env python3
"""journal.py FILE BYTES [MOMENT]

Writes a journal of at most so many bytes for the roster examples/roster.csv: two live trades of A and B, and then HOLD and
FREE of both by either, again and again, in records of 20 bytes with their frames; where a MOMENT is given, behind a turn and of
28 bytes, of this moment. Says how many records it has.
"""

import struct
import sys


def name(text: bytes) -> bytes:
    return bytes([len(text)]) + text


def frame(record: bytes) -> bytes:
    return b"\x01" + struct.pack("<I", len(record)) + record


def main(path: str, most: int, *moments: str) -> None:
    dated = b"".join(struct.pack("<Q", int(moment)) for moment in moments)

    def change(by: bytes, tag: int, fields: bytes) -> bytes:
        return frame(dated + struct.pack("<I", 0) + name(by) + bytes([tag]) + fields)

    trade = name(b"A") + name(b"B") + name(b"P") + struct.pack("<Q", 10) + struct.pack("<HBB", 2026, 3, 2)
    start = b"OTCJRNL1" + (frame(b"MOMENTS2") if moments else b"")
    for number in (1, 2):
        start += change(b"A", 1, trade) + change(b"B", 2, struct.pack("<Q", number))
    turn = b"".join(change(by, tag, struct.pack("<Q", number)) for number in (1, 2) for by in (b"A", b"B") for tag in (4, 5))
    turns = (most - len(start) - 1) // len(turn)
    with open(path, "wb") as file:
        file.write(start)
        for _ in range(turns // 1000):
            file.write(turn * 1000)
        file.write(turn * (turns % 1000) + b"\0")
    print(4 + 8 * turns)


if __name__ == "__main__":
    main(sys.argv[1], int(sys.argv[2]), *sys.argv[3:4])
