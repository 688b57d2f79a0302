"""A posting's solution made wrong in each way, and journals with another record in the place of one."""

import random
import struct
from typing import Callable

import spelled
from delkwoan.changes import Row
from delkwoan.changes import Solution as Posted
from delkwoan.records import Record

Spoil = Callable[[random.Random, Posted], Posted]


def with_row(draw: random.Random, solution: Posted, new: Callable[[Row], list[Row]]) -> Posted:
    """The solution with others in the place of one row, in their order."""
    if not solution.rows:
        return solution
    at = draw.randrange(len(solution.rows))
    rows = [*solution.rows[:at], *new(solution.rows[at]), *solution.rows[at + 1 :]]
    return Posted(sorted(rows), solution.potentials)


def with_potential(draw: random.Random, solution: Posted, more: int) -> Posted:
    at = draw.randrange(len(solution.potentials))
    potentials = [value + more * (place == at) for place, value in enumerate(solution.potentials)]
    return Posted(solution.rows, potentials)


def with_new_row(draw: random.Random, solution: Posted) -> Posted:
    seller, buyer = draw.sample(range(len(solution.potentials)), 2)
    return Posted(sorted([*(row for row in solution.rows if row[:2] != (seller, buyer)), Row(seller, buyer, 3)]), solution.potentials)


def with_short_way(draw: random.Random, solution: Posted) -> Posted:
    """The solution where 1 less goes from a first member to a second and on to a third, and 1 more from the first to the third, so that no
    net position moves; where first and third are the same, only less goes."""
    ways = [(first, then) for first in solution.rows for then in solution.rows if first.buyer == then.seller]
    if not ways:
        return solution
    first, then = draw.choice(ways)
    amounts = {(row.seller, row.buyer): row.amount for row in solution.rows}
    for pair, more in (((first.seller, first.buyer), -1), ((then.seller, then.buyer), -1), ((first.seller, then.buyer), 1)):
        amounts[pair] = amounts.get(pair, 0) + more * (pair[0] != pair[1])
    return Posted([Row(*pair, amount) for pair, amount in sorted(amounts.items()) if amount], solution.potentials)


SPOILS: dict[str, Spoil] = {
    "an amount is 1 more": lambda draw, it: with_row(draw, it, lambda row: [row._replace(amount=row.amount + 1)]),
    "an amount is 1 less": lambda draw, it: with_row(draw, it, lambda row: [row._replace(amount=row.amount - 1)] if row.amount > 1 else []),
    "a row is left out": lambda draw, it: with_row(draw, it, lambda row: []),
    "a row is new": with_new_row,
    "a way is shorter": with_short_way,
    "a potential is 1 more": lambda draw, it: with_potential(draw, it, 1),
    "a potential is 1 less": lambda draw, it: with_potential(draw, it, -1),
    "a potential is 5 more": lambda draw, it: with_potential(draw, it, 5),
    "no row is left": lambda draw, it: Posted([], it.potentials),
    "a member is one too many": lambda draw, it: Posted(it.rows, [*it.potentials, 0]),
}
"""What is wrong with a solution of a posting; some of it leaves it certified."""


def with_one_spoilt(draw: random.Random, solutions: list[Posted], spoil: Spoil) -> list[Posted]:
    """The solutions with one of them spoilt."""
    place = draw.randrange(len(solutions))
    return [spoil(draw, it) if here == place else it for here, it in enumerate(solutions)]


def spelling_of(record: Record, solutions: list[Posted]) -> bytes:
    """The record of a POST with other solutions."""
    by_hand = [spelled.Solution(it.rows, it.potentials) for it in solutions]
    return spelled.record(f"{record.party}: {record.change}", by_hand, record.seat, record.moment)


def with_record(journal: bytes, at: int, new: bytes) -> bytes:
    """A journal with another record behind the gate at a place."""
    size = int.from_bytes(journal[at + 1 : at + 5], "little")
    return journal[: at + 1] + struct.pack("<I", len(new)) + new + journal[at + 5 + size :]


def up_to_record(journal: bytes, at: int, new: bytes) -> bytes:
    """A journal that ends with this record behind the gate at a place."""
    return journal[:at] + spelled.frames([new])
