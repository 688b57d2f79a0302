"""What the tests of compress-many share: its runs, files of trades, and programs that stand in for the one that was built."""

import csv
import os
import tempfile
import unittest
from collections import Counter
from pathlib import Path
from typing import Iterable, NamedTuple

from running import TOOLS, Ran, program, run
from test_packaging import python_with

HEAD = "day,product,seller,buyer,amount\n"
TABLES = [".compress-many", "figures.csv", "markets", "names.csv", "trades.csv"]
"""What stands in a folder of a run that ended."""


class Trade(NamedTuple):
    day: str
    product: str
    seller: str
    buyer: str
    amount: int


def text_of(trades: Iterable[Trade]) -> str:
    return HEAD + "".join(",".join(map(str, trade)) + "\n" for trade in trades)


def rows_of(file: Path) -> list[dict[str, str]]:
    with open(file, newline="") as text:
        return list(csv.DictReader(text))


def nets_of(file: Path) -> Counter[tuple[str, str, str]]:
    """Each member's net position in each product of a file of trades, where it is not 0."""
    nets: Counter[tuple[str, str, str]] = Counter()
    for row in rows_of(file):
        for name, sign in ((row["seller"], 1), (row["buyer"], -1)):
            nets[row["day"], row["product"], name] += sign * int(row["amount"])
    return Counter({key: net for key, net in nets.items() if net})


def ring(product: str, members: int, amount: int = 5) -> list[Trade]:
    """A ring of members of its own, each of which sells to the next: all of it can go."""
    names = [f"{product} {place}" for place in range(members)]
    return [Trade("2026-01-01", product, a, b, amount) for a, b in zip(names, names[1:] + names[:1])]


class Many(unittest.TestCase):
    """Tests with a folder of their own, and the tool."""

    def setUp(self) -> None:
        self.python = python_with("scipy", "distributed")
        self.program = program()
        folder = tempfile.TemporaryDirectory()
        self.addCleanup(folder.cleanup)
        self.folder = Path(folder.name)
        self.trades = self.folder / "trades.csv"
        self.out = self.folder / "out"

    def tool(self, *words: str | Path) -> list[str | Path]:
        return [self.python, TOOLS / "compress_many", *words, self.trades, self.out]

    def compress(self, *words: str | Path, program: Path | None = None) -> Ran:
        return run(self.tool("--workers", "2", "--program", program or self.program, *words))

    def stand_in(self, lines: str) -> Path:
        """A program that does these lines of the shell before a market is solved; $STATE is a folder, and $SELF the program."""
        path, state = self.folder / "stand-in", self.folder / "state"
        state.mkdir()
        head = f"#!/bin/sh\nSTATE='{state}'\nSELF='{self.program}'\nexport STATE SELF\n"
        path.write_text(head + f'if [ "$1" = solve ]; then\necho >> "$STATE/solved"\n{lines}\nfi\nexec "$SELF" "$@"\n')
        path.chmod(0o755)
        return path

    def let_solve(self, count: int) -> None:
        """Has a stand-in that waits solve just so many markets more."""
        state = self.folder / "state"
        for slot in state.glob("slot*"):
            slot.rmdir()
        for number in range(count):
            (state / f"slot{number}").mkdir()

    def kept(self) -> list[str]:
        """The markets that were put away."""
        markets = self.out / "markets"
        return sorted(path.name for path in markets.iterdir() if not path.name.startswith(".")) if markets.exists() else []

    def solved(self) -> int:
        """How often the stand-in was asked to solve."""
        return (self.folder / "state/solved").read_text().count("\n")

    def assert_done(self, ran: Ran, mode: str = "hybrid") -> list[dict[str, str]]:
        """A run ended well: all that it wrote is certified, keeps every net position, and has the figures that are told."""
        self.assertEqual((ran.status, ran.errors), (0, b""))
        self.assertEqual(sorted(os.listdir(self.out)), TABLES)
        markets = sorted(path.name for path in (self.out / "markets").iterdir())
        self.assertEqual(markets, [f"{place:06}" for place in range(len(markets))])
        for market in markets:
            files = [self.out / "markets" / market / name for name in ("roster.csv", "trades.csv", "proposal.txt")]
            self.assertEqual(run([self.program, "check", *files[:2], mode, files[2]]), Ran(0, b"yes\n", b""))
        self.assertEqual(nets_of(self.out / "trades.csv"), nets_of(self.trades))
        figures = rows_of(self.out / "figures.csv")
        left: Counter[tuple[str, str]] = Counter()
        for row in rows_of(self.out / "trades.csv"):
            left[row["day"], row["product"]] += int(row["amount"])
        self.assertEqual({(row["day"], row["product"]): int(row["after"]) for row in figures if row["after"] != "0"}, left)
        return figures
