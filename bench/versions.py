#!/usr/bin/env python3
"""Writes sessions whose journals have versions that no longer stand when they are opened, into a folder where markets.py has written NAME.

    versions.py FOLDER NAME [--begins N] [--settings N] [--versions N]

NAME-operated.csv      the market's roster with an operator
NAME-frozen.session    the market's trades, each affirmed, the settings, and a FREEZE that takes them all
NAME-begins.session    and so many BEGIN lines behind them (1,000), in free mode
NAME-changing.session  and the same with a TOL in front of each
NAME-voted.session     the frozen market and so many versions (10) with all votes of the members but one, which declines each

What an opening takes for them is the difference to NAME-frozen:

    for S in frozen begins changing voted; do compress_cli script FOLDER/NAME-operated.csv FOLDER/$S.journal < FOLDER/NAME-$S.session > /dev/null; done
    for S in frozen begins changing voted; do time compress_cli script FOLDER/NAME-operated.csv FOLDER/$S.journal < /dev/null; done
"""

import argparse
import csv
import pathlib
from typing import Iterator, NamedTuple

from markets import Draws, other

DAY = "2026-03-02"
OPERATOR = ("OPS", "KO")


class Market(NamedTuple):
    members: list[str]
    products: list[str]
    trades: list[dict[str, str]]


def read(folder: pathlib.Path, name: str) -> Market:
    with open(folder / f"{name}-roster.csv") as rows:
        roster = list(csv.DictReader(rows))
    with open(folder / f"{name}-trades.csv") as rows:
        trades = list(csv.DictReader(rows))
    members = [row["name"] for row in roster if row["role"] in ("dealer", "customer")]
    return Market(members, [row["name"] for row in roster if row["role"] == "product"], trades)


def hello(member: str) -> str:
    return f"HELLO {member} {member}"


def operator() -> str:
    return "HELLO {} {}".format(*OPERATOR)


def setting(market: Market, draws: Draws) -> Iterator[str]:
    member = draws.below(len(market.members))
    counterparty = market.members[other(draws, member, len(market.members))]
    product = market.products[draws.below(len(market.products))]
    yield hello(market.members[member])
    yield f"TOL {counterparty} {product} out 0 {1 + draws.below(1_000_000)}"


def frozen(market: Market, settings: int) -> Iterator[str]:
    for number, row in enumerate(market.trades, 1):
        yield hello(row["seller"])
        yield f"TRADE {row['seller']} {row['buyer']} {row['product']} {row['amount']} {DAY}"
        yield hello(row["buyer"])
        yield f"AFFIRM {number}"
    draws = Draws(3)
    for _ in range(settings):
        yield from setting(market, draws)
    yield operator()
    yield f"FREEZE {DAY}"


def begins(count: int) -> Iterator[str]:
    for _ in range(count):
        yield "BEGIN 1 free"


def changing(market: Market, count: int) -> Iterator[str]:
    draws = Draws(4)
    for _ in range(count):
        yield from setting(market, draws)
        yield operator()
        yield "BEGIN 1 free"


def voted(market: Market, count: int) -> Iterator[str]:
    *voters, last = market.members
    for version in range(1, count + 1):
        yield operator()
        yield "PROPOSE 1 hybrid"
        for member in voters:
            yield hello(member)
            yield f"ACCEPT 1 {version}"
        yield hello(last)
        yield f"DECLINE 1 {version}"


def write(path: pathlib.Path, *parts: Iterator[str]) -> None:
    with open(path, "w") as file:
        for lines in parts:
            file.writelines(f"{line}\n" for line in lines)


def main() -> None:
    parser = argparse.ArgumentParser()
    parser.add_argument("folder", type=pathlib.Path)
    parser.add_argument("name")
    parser.add_argument("--begins", type=int, default=1_000)
    parser.add_argument("--settings", type=int, default=0)
    parser.add_argument("--versions", type=int, default=10)
    given = parser.parse_args()
    market = read(given.folder, given.name)
    front = given.folder / given.name
    roster = front.with_name(f"{given.name}-roster.csv").read_text()
    front.with_name(f"{given.name}-operated.csv").write_text(f"{roster}{OPERATOR[0]},operator,{OPERATOR[1]}\n")
    write(front.with_name(f"{given.name}-frozen.session"), frozen(market, given.settings))
    write(front.with_name(f"{given.name}-begins.session"), frozen(market, given.settings), begins(given.begins))
    write(front.with_name(f"{given.name}-changing.session"), frozen(market, given.settings), changing(market, given.begins))
    write(front.with_name(f"{given.name}-voted.session"), frozen(market, given.settings), voted(market, given.versions))


if __name__ == "__main__":
    main()
