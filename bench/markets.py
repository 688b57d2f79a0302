#!/usr/bin/env python3
"""Writes the markets of the bench into a folder: for each NAME the files NAME-roster.csv and NAME-trades.csv.

    markets.py FOLDER [NAME..]

genN        44 members, 14 of them dealers, 8 products, 3,000 trades between any two members; N from 1 to 8
uniformP    256 members, 64 of them dealers, P products, 100,000 trades between any two members
coreP       the same, where each trade is between two dealers or between a dealer and a customer, by half
latticeP    the same, where each member sells to the four that come next, round in a ring
groupsP     the same, where each trade is between two of four members: 64 groups, with nothing between them
slow1       256 customers, one product: eight groups of 32, with the trades of slow_group.csv in each, which a search found
            to keep the solver long
"""

import csv
import pathlib
import sys


class Draws:
    """Numbers below 2^31 from a linear congruential generator: the high bits of its state."""

    def __init__(self, seed):
        self.state = seed

    def below(self, limit):
        self.state = (self.state * 6364136223846793005 + 1442695040888963407) % 2**64
        return (self.state >> 33) % limit


def other(draws, first, members):
    """A member that is not the first one, of those with the lowest numbers."""
    second = draws.below(members - 1)
    return second + (second >= first)


def uniform(draws, members, dealers):
    seller = draws.below(members)
    return seller, other(draws, seller, members)


def core(draws, members, dealers):
    dealer = draws.below(dealers)
    if draws.below(2) == 0:
        return dealer, other(draws, dealer, dealers)
    customer = dealers + draws.below(members - dealers)
    return (dealer, customer) if draws.below(2) == 0 else (customer, dealer)


def lattice(draws, members, dealers):
    seller = draws.below(members)
    return seller, (seller + 1 + draws.below(4)) % members


def groups(draws, members, dealers):
    seller = draws.below(members)
    first = seller - seller % 4
    return seller, first + other(draws, seller - first, 4)


# name, members, dealers, products, trades, and who trades with whom
MARKETS = [
    *((f"gen{number}", 44, 14, 8, 3_000, uniform) for number in range(1, 9)),
    ("uniform64", 256, 64, 64, 100_000, uniform),
    ("core64", 256, 64, 64, 100_000, core),
    ("lattice64", 256, 64, 64, 100_000, lattice),
    ("uniform1", 256, 64, 1, 100_000, uniform),
    ("core1", 256, 64, 1, 100_000, core),
    ("lattice1", 256, 64, 1, 100_000, lattice),
    ("groups64", 256, 64, 64, 100_000, groups),
    ("groups1", 256, 64, 1, 100_000, groups),
]


def names_of(members, dealers):
    return [f"{'D' if v < dealers else 'C'}{v:02}" for v in range(members)]


def write_roster(folder, name, members, dealers, products):
    with open(folder / f"{name}-roster.csv", "w") as roster:
        roster.write("name,role,key\n")
        for v, party in enumerate(names_of(members, dealers)):
            roster.write(f"{party},{'dealer' if v < dealers else 'customer'},{party}\n")
        for p in range(products):
            roster.write(f"P{p},product,2040-01-01\n")


def write_trades(folder, name, names, trades):
    with open(folder / f"{name}-trades.csv", "w") as rows:
        rows.write("seller,buyer,product,amount\n")
        for seller, buyer, product, amount in trades:
            rows.write(f"{names[seller]},{names[buyer]},P{product},{amount}\n")


def drawn(name, members, dealers, products, count, parties):
    """So many trades, one drawn after another."""
    draws = Draws(int(name[3:]) if name.startswith("gen") else 1)
    for _ in range(count):
        seller, buyer = parties(draws, members, dealers)
        product = draws.below(products)
        yield seller, buyer, product, 1 + draws.below(1_000_000)


def in_groups():
    """The trades of slow_group.csv in each of eight groups of 32."""
    with open(pathlib.Path(__file__).parent / "slow_group.csv") as rows:
        group = [(int(row["seller"]), int(row["buyer"]), row["amount"]) for row in csv.DictReader(rows)]
    for first in range(0, 256, 32):
        for seller, buyer, amount in group:
            yield first + seller, first + buyer, 0, amount


def write(folder, name, members, dealers, products, count, parties):
    write_roster(folder, name, members, dealers, products)
    trades = drawn(name, members, dealers, products, count, parties)
    write_trades(folder, name, names_of(members, dealers), trades)


def write_slow(folder, name):
    write_roster(folder, name, 256, 0, 1)
    write_trades(folder, name, names_of(256, 0), in_groups())


def main():
    folder = pathlib.Path(sys.argv[1])
    folder.mkdir(parents=True, exist_ok=True)
    for market in MARKETS:
        if market[0] in (sys.argv[2:] or [market[0]]):
            write(folder, *market)
    if "slow1" in (sys.argv[2:] or ["slow1"]):
        write_slow(folder, "slow1")


if __name__ == "__main__":
    main()
