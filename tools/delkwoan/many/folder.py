"""The folder in which a run puts away what it has: each market with its proposal as soon as it is certified, and the tables at the end.

A run takes a folder that is new, empty, or bears the mark of an earlier run, which is a file of its own. In a folder with the mark the
tables and the numbered markets are the tool's: a run replaces them, and takes away those that it has not. It touches nothing else.
A folder without the mark that has anything in it is refused, and so is one in which the input lies, since a table may have its name.

Nothing in the folder is half written: a market's folder and a table get their names when they are whole. If a run is interrupted, the
next one takes up what it left, and checks that as if a worker had sent it.
"""

import fcntl
import os
import re
import shutil
from pathlib import Path
from typing import Iterable

from ..ending import FILE_FAULT, Stop
from .markets import Market
from .verdicts import FILES

TABLES = ("names.csv", "trades.csv", "figures.csv")
"""The tables, in the order in which they are written."""
MARK = ".compress-many"
"""The file by which a run knows that a folder is the tool's own."""
MARKED = b"This folder is compress-many's: a run replaces its tables and its markets.\n"
OWN_MARKET = re.compile(r"\.?\d{6,}")
"""The name of a market's folder, with a point before it as long as it is not whole."""


def is_inside(path: Path, place: Path) -> bool:
    """Whether a path lies in a folder, by its own name or by that of the file which it leads to."""
    by_name = path.parent.resolve() / path.name
    return any(place.resolve() in (it, *it.parents) for it in (by_name, path.resolve()))


def is_marked(place: Path) -> bool:
    mark = place / MARK
    return mark.is_file() and mark.read_bytes() == MARKED


def look(place: Path) -> None:
    """Refuses a folder that has anything in it and is not the tool's own."""
    try:
        if place.exists() and not is_marked(place) and any(place.iterdir()):
            raise Stop(11, f"{place} has other files: name a folder that is new, empty, or of an earlier run")
    except OSError:
        raise FILE_FAULT from None


class Folder:
    """A folder of results, which one run has at a time."""

    def __init__(self, place: Path) -> None:
        self.place = place
        self.markets = place / "markets"
        try:
            place.mkdir(parents=True, exist_ok=True)
            self.lock = os.open(place, os.O_RDONLY)
        except OSError:
            raise FILE_FAULT from None
        try:
            fcntl.flock(self.lock, fcntl.LOCK_EX | fcntl.LOCK_NB)
        except OSError:
            raise Stop(11, f"{place} is in use") from None
        look(place)
        try:
            if not is_marked(place):
                (place / MARK).write_bytes(MARKED)
            self.markets.mkdir(exist_ok=True)
        except OSError:
            raise FILE_FAULT from None

    def begin(self, markets: int) -> None:
        """Takes away the tables of an earlier run, what it left unfinished, and markets that this run has not."""
        try:
            for name in reversed(TABLES):
                (self.place / name).unlink(missing_ok=True)
            for path in self.markets.iterdir():
                if OWN_MARKET.fullmatch(path.name) and (path.name.startswith(".") or int(path.name) >= markets):
                    shutil.rmtree(path)
        except OSError:
            raise FILE_FAULT from None

    def of_market(self, market: Market) -> Path:
        return self.markets / f"{market.number:06}"

    def kept(self, market: Market, roster: bytes, trades: bytes) -> bytes | None:
        """The proposal that is kept for a market with just these files."""
        try:
            texts = [(self.of_market(market) / name).read_bytes() for name in FILES]
        except OSError:
            return None
        return texts[2] if texts[:2] == [roster, trades] else None

    def keep(self, market: Market, roster: bytes, trades: bytes, proposal: bytes) -> None:
        """Puts a certified market away."""
        whole = self.of_market(market)
        half = whole.with_name("." + whole.name)
        try:
            shutil.rmtree(half, ignore_errors=True)
            half.mkdir()
            for name, text in zip(FILES, (roster, trades, proposal)):
                (half / name).write_bytes(text)
            shutil.rmtree(whole, ignore_errors=True)
            half.rename(whole)
        except OSError:
            raise FILE_FAULT from None

    def proposal(self, market: Market) -> bytes:
        try:
            return (self.of_market(market) / FILES[2]).read_bytes()
        except OSError:
            raise FILE_FAULT from None

    def write(self, name: str, lines: Iterable[str]) -> None:
        """Writes a table as a whole."""
        half = self.place / f".{name}"
        try:
            with open(half, "w", encoding="utf-8", errors="surrogateescape", newline="") as text:
                text.writelines(lines)
            half.rename(self.place / name)
        except OSError:
            raise FILE_FAULT from None
