"""The trades of many products and days, and the members, from comma-separated files, plain or compressed.

A file's records are those of docs/FORMATS.md. The first has the columns' names, in any order. The first fault of all files is
raised as a Stop with the file's name and the record's number.
"""

import bz2
import csv
import gzip
import io
import lzma
import zlib
from pathlib import Path
from typing import BinaryIO, Callable, Iterator, NamedTuple, cast

from ..checker import MOST_NUMBER, MOST_TRADE, Network, is_day
from ..ending import FILE_FAULT, Stop

COLUMNS = ("day", "product", "seller", "buyer", "amount")
MEMBER_COLUMNS = ("name", "role")
OPENERS: dict[bytes, Callable[[Path], object]] = {b"\x1f\x8b": gzip.open, b"BZh": bz2.open, b"\xfd7zXZ\0": lzma.open}
"""What opens a compressed file, by the bytes that it begins with."""
MOST_FIELD = 1 << 30
"""Bytes of a name: as good as any number."""


class Key(NamedTuple):
    """What is compressed by itself: one product on one day."""

    day: str
    product: str


class Trades:
    """The sums of all trades: for each product and day a network of members, who are numbered as they came."""

    def __init__(self) -> None:
        self.names: list[str] = []
        self.numbers: dict[str, int] = {}
        self.networks: dict[Key, Network] = {}
        self.grosses: dict[Key, int] = {}

    def number(self, name: str) -> int:
        number = self.numbers.get(name)
        if number is None:
            number = self.numbers[name] = len(self.names)
            self.names.append(name)
        return number

    def add(self, key: Key, seller: str, buyer: str, amount: int) -> bool:
        """Adds a trade, and tells whether the product's gross stays within its limit."""
        pair = self.number(seller), self.number(buyer)
        network = self.networks.get(key)
        if network is None:
            network = self.networks[key] = {}
        network[pair] = network.get(pair, 0) + amount
        gross = self.grosses[key] = self.grosses.get(key, 0) + amount
        return gross <= MOST_NUMBER


class Row(NamedTuple):
    """A record of a file, by which a fault is told."""

    file: str
    number: int
    fields: list[str]

    def fault(self, what: str) -> Stop:
        return Stop(3, f"{self.file} row {self.number}: {what}")


def plain(path: Path) -> BinaryIO:
    return open(path, "rb")


def opened(path: Path) -> io.TextIOWrapper:
    """A file's text, by its first bytes plain or compressed; bytes that are no text stay as they are."""
    with open(path, "rb") as file:
        head = file.read(6)
    opener = next((opener for start, opener in OPENERS.items() if head.startswith(start)), plain)
    return io.TextIOWrapper(cast(BinaryIO, opener(path)), "utf-8-sig", "surrogateescape", newline="")


def records_of(path: Path) -> Iterator[Row]:
    """The records of a file, numbered from 1; an empty line is none."""
    number = 0
    csv.field_size_limit(MOST_FIELD)
    try:
        with opened(path) as text:
            for fields in csv.reader(text):
                number += bool(fields)
                if fields:
                    yield Row(path.name, number, fields)
    except csv.Error:
        raise Row(path.name, number + 1, []).fault("columns") from None
    except (EOFError, lzma.LZMAError, zlib.error, gzip.BadGzipFile):
        raise Stop(3, f"{path.name}: damaged") from None
    except OSError:
        raise FILE_FAULT from None


def rows_of(path: Path, columns: tuple[str, ...]) -> Iterator[Row]:
    """The records behind the first, with their fields in the order of these columns."""
    records = records_of(path)
    head = next(records, Row(path.name, 1, []))
    if sorted(head.fields) != sorted(columns):
        raise head.fault("columns")
    places = [head.fields.index(column) for column in columns]
    for row in records:
        if len(row.fields) != len(columns):
            raise row.fault("columns")
        yield Row(row.file, row.number, [row.fields[place] for place in places])


def amount_of(word: str) -> int:
    """The amount that a word writes, or 0 where it writes none."""
    is_number = word.isascii() and word.isdecimal() and word[0] != "0" and len(word) < 17
    amount = int(word) if is_number else 0
    return amount if amount <= MOST_TRADE else 0


def read_members(path: Path) -> dict[str, bool]:
    """For each member whether it is a dealer."""
    is_dealer: dict[str, bool] = {}
    for row in rows_of(path, MEMBER_COLUMNS):
        name, role = row.fields
        if not name:
            raise row.fault("bad-name")
        if role not in ("dealer", "customer"):
            raise row.fault("bad-role")
        if name in is_dealer:
            raise row.fault("twice")
        is_dealer[name] = role == "dealer"
    return is_dealer


def files_of(place: Path) -> list[Path]:
    """The file, or the files of a folder, in the order of their names."""
    if not place.is_dir():
        return [place]
    files = sorted(path for path in place.iterdir() if path.is_file() and not path.name.startswith("."))
    if not files:
        raise FILE_FAULT
    return files


class Reader:
    """Takes rows into trades, and tells the first one that has a fault."""

    def __init__(self, members: dict[str, bool] | None) -> None:
        self.trades = Trades()
        self.members = members
        self.days: set[str] = set()

    def fault(self, day: str, product: str, seller: str, buyer: str, amount: int) -> str | None:
        """The first fault of a row by itself."""
        if day not in self.days:
            if not is_day(day.encode(errors="replace")):
                return "bad-day"
            self.days.add(day)
        if not (product and seller and buyer):
            return "bad-name"
        if self.members is not None and not (seller in self.members and buyer in self.members):
            return "unknown-name"
        if seller == buyer:
            return "same-party"
        return None if amount else "bad-amount"

    def take(self, row: Row) -> None:
        day, product, seller, buyer, word = row.fields
        amount = amount_of(word)
        fault = self.fault(day, product, seller, buyer, amount)
        if fault is not None:
            raise row.fault(fault)
        if not self.trades.add(Key(day, product), seller, buyer, amount):
            raise row.fault("gross-limit")


def read_trades(place: Path, members: dict[str, bool] | None) -> Trades:
    """The trades of a file or of a folder's files; with members, those of others are a fault."""
    reader = Reader(members)
    for file in files_of(place):
        for row in rows_of(file, COLUMNS):
            reader.take(row)
    return reader.trades
