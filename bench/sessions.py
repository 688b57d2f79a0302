#!/usr/bin/env python3
"""Writes sessions of a full roster into a folder: 256 members, 64 products.

    sessions.py FOLDER

full-roster.csv   the roster
trades-N.txt      N TRADE lines of one member with any others, in any product; N is 1,000 or 6,000
entries-N.txt     lines that make N changes: by tens a TRADE, its AFFIRM, a TOL, and HOLD and FREE of live trades in turns
"""

import pathlib
import sys
from typing import Iterator, TextIO

from markets import Draws, names_of, other, write_roster

MEMBERS, PRODUCTS = 256, 64
NAMES = names_of(MEMBERS, 64)


def trade(draws: Draws, seller: int) -> str:
    buyer = other(draws, seller, MEMBERS)
    return f"TRADE {NAMES[seller]} {NAMES[buyer]} P{draws.below(PRODUCTS)} {1 + draws.below(1_000_000)} 2039-12-31"


def trades(count: int) -> Iterator[str]:
    draws = Draws(1)
    yield f"HELLO {NAMES[200]} {NAMES[200]}"
    for _ in range(count):
        yield trade(draws, 200)


def hello(member: int) -> str:
    return f"HELLO {NAMES[member]} {NAMES[member]}"


def entries(count: int) -> Iterator[str]:
    """Ten changes a turn: the trade of the turn by its seller and buyer, a setting, and three trades held and two freed by their sellers."""
    draws, sellers = Draws(2), []
    held: set[int] = set()
    for _ in range(count // 10):
        seller = draws.below(MEMBERS)
        line = trade(draws, seller)
        yield hello(seller)
        yield line
        sellers.append(seller)
        yield hello(NAMES.index(line.split()[2]))
        yield f"AFFIRM {len(sellers)}"
        yield hello(seller)
        yield f"TOL {NAMES[other(draws, seller, MEMBERS)]} P{draws.below(PRODUCTS)} out 0 {1 + draws.below(1_000_000)}"
        for _ in range(7):
            number = 1 + draws.below(len(sellers))
            yield hello(sellers[number - 1])
            yield f"{'FREE' if number in held else 'HOLD'} {number}"
            held ^= {number}


def write(file: TextIO, lines: Iterator[str]) -> None:
    file.writelines(f"{line}\n" for line in lines)


def main() -> None:
    folder = pathlib.Path(sys.argv[1])
    folder.mkdir(parents=True, exist_ok=True)
    write_roster(folder, "full", MEMBERS, 64, PRODUCTS)
    for count in (1_000, 6_000):
        with open(folder / f"trades-{count}.txt", "w") as file:
            write(file, trades(count))
    for count in (100_000, 1_000_000):
        with open(folder / f"entries-{count}.txt", "w") as file:
            write(file, entries(count))


if __name__ == "__main__":
    main()
