#!/usr/bin/env python3
"""bases.py FOLDER MEMBERS PRODUCTS [CHANGES]

Writes into FOLDER a roster, and one history of so many changes (1,000,000), a tenth of them trades, each of them affirmed, and then
HOLD and FREE of trades taken at random: whole.journal has all of it in a plain journal, which is never folded, and front.journal all but
the last 1,000 in a journal with slots. last.session has these as lines. empty.journal has no change.
"""

import random
import struct
import sys
from pathlib import Path

LAST = 1000
PLAIN = b"OTCJRNL1"
SLOTTED = b"OTCJRNLC\0" + struct.pack("<QQI", 25, 0, 0)


def name(text: str) -> bytes:
    return bytes([len(text)]) + text.encode()


def frame(by: str, tag: int, fields: bytes) -> bytes:
    record = struct.pack("<I", 0) + name(by) + bytes([tag]) + fields
    return b"\x01" + struct.pack("<I", len(record)) + record


class History:
    """The frames of a history's changes, and their lines."""

    def __init__(self) -> None:
        self.frames: list[bytes] = []
        self.lines: list[str] = []

    def put(self, by: str, tag: int, fields: bytes, line: str) -> None:
        self.frames.append(frame(by, tag, fields))
        self.lines.append(f"HELLO {by} K\n{line}\n")


def history_of(members: list[str], products: list[str], changes: int) -> History:
    chance = random.Random(1)
    history = History()
    sellers: list[str] = []
    while len(history.frames) < changes // 5:
        seller, buyer = chance.sample(members, 2)
        product, amount = chance.choice(products), chance.randint(1, 1_000_000)
        sellers.append(seller)
        fields = name(seller) + name(buyer) + name(product) + struct.pack("<QHBB", amount, 2026, 3, 2)
        history.put(seller, 1, fields, f"TRADE {seller} {buyer} {product} {amount} 2026-03-02")
        history.put(buyer, 2, struct.pack("<Q", len(sellers)), f"AFFIRM {len(sellers)}")
    while len(history.frames) < changes:
        place = chance.randrange(len(sellers))
        number = struct.pack("<Q", place + 1)
        history.put(sellers[place], 4, number, f"HOLD {place + 1}")
        history.put(sellers[place], 5, number, f"FREE {place + 1}")
    return history


def main(folder: Path, members: int, products: int, changes: int) -> None:
    folder.mkdir(parents=True, exist_ok=True)
    names = [f"M{place:03}" for place in range(members)]
    traded = [f"P{place:02}" for place in range(products)]
    rows = [f"{member},{'dealer' if place < 64 else 'customer'},K" for place, member in enumerate(names)]
    rows += [f"{product},product,2040-01-01" for product in traded]
    (folder / "roster.csv").write_text("\n".join(["name,role,key", *rows, ""]))
    history = history_of(names, traded, changes)
    (folder / "whole.journal").write_bytes(PLAIN + b"".join(history.frames) + b"\0")
    (folder / "front.journal").write_bytes(SLOTTED + b"".join(history.frames[:-LAST]) + b"\0")
    (folder / "empty.journal").write_bytes(SLOTTED + b"\0")
    (folder / "last.session").write_text("".join(history.lines[-LAST:]))


if __name__ == "__main__":
    main(Path(sys.argv[1]), int(sys.argv[2]), int(sys.argv[3]), int(sys.argv[4]) if len(sys.argv) > 4 else 1_000_000)
