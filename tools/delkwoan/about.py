"""What is told about a roster's names in a side file, which the program does not read: LEIs of members, currencies of products.

It is comma-separated text in UTF-8, `ROSTER.about.csv` beside `ROSTER.csv`. Its first row names the columns: `name`, and any
of `lei` and `currency`. Each further row tells about one name of the roster; a field may be empty. A fault is told as
`about row ROW: FAULT`: `columns`, `twice`, `unknown-name`, `bad-lei` or `bad-currency`.
"""

import csv
import io
import re
from pathlib import Path
from typing import Collection, NamedTuple

from .ending import Stop, read_file

MOST_BYTES = 1 << 20
COLUMNS = ("name", "lei", "currency")


class About(NamedTuple):
    """LEIs and currencies by their names in the roster."""

    leis: dict[str, str]
    currencies: dict[str, str]


NOTHING = About({}, {})


def is_lei(text: str) -> bool:
    """Whether a text is a legal entity identifier: 20 letters and digits, the last two of which check the others."""
    if re.fullmatch("[A-Z0-9]{18}[0-9]{2}", text) is None:
        return False
    return int("".join(str(int(letter, 36)) for letter in text)) % 97 == 1


def is_currency(text: str) -> bool:
    return re.fullmatch("[A-Z]{3}", text) is not None


def fault_of(row: dict[str, str], known: Collection[str] | None, told: set[str]) -> str | None:
    """The first fault of a row behind those that told about these names."""
    if row["name"] in told:
        return "twice"
    if known is not None and row["name"] not in known:
        return "unknown-name"
    if row.get("lei") and not is_lei(row["lei"]):
        return "bad-lei"
    if row.get("currency") and not is_currency(row["currency"]):
        return "bad-currency"
    return None


def read_about(text: str, known: Collection[str] | None) -> About:
    """What a side file tells; where the roster's names are known, a row of another name is a fault."""
    records = [record for record in csv.reader(io.StringIO(text, newline="")) if record]
    header = records[0] if records else []
    if "name" not in header or len({*header}) < len(header) or not {*header} <= {*COLUMNS}:
        raise Stop(3, "about row 1: columns")
    about = About({}, {})
    told: set[str] = set()
    for number, record in enumerate(records[1:], 2):
        row = dict(zip(header, record))
        fault = "columns" if len(record) != len(header) else fault_of(row, known, told)
        if fault is not None:
            raise Stop(3, f"about row {number}: {fault}")
        told.add(row["name"])
        for column, values in (("lei", about.leis), ("currency", about.currencies)):
            if row.get(column):
                values[row["name"]] = row[column]
    return about


def about_of(roster_file: str, named: str | None, known: Collection[str] | None = None) -> About:
    """What the named side file tells, or else the one beside the roster, where there is one."""
    beside = Path(roster_file).with_suffix(".about.csv") if Path(roster_file).name else Path(".about.csv")
    if named is None and not beside.exists():
        return NOTHING
    try:
        return read_about(read_file(named or str(beside), MOST_BYTES).decode("utf-8-sig"), known)
    except (csv.Error, UnicodeDecodeError):
        raise Stop(3, "about row 1: columns") from None
