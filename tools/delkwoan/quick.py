"""Changes of the kinds that come most, read from their records in few steps; `records` reads all kinds, and tells what is wrong.

Written from docs/FORMATS.md, "Records".
"""

import struct
from typing import Callable

from .changes import Accept, Affirm, Cancel, Change, Decline, End, Free, Hold, Tolerance, Trade

MOST_NUMBER = 10**18
NAMES: dict[bytes, str] = {}
DAYS: dict[bytes, str] = {}
"""The names and the days that `records` has read, by their spellings."""
NUMBERED: dict[int, Callable[[int], Change]] = {2: Affirm, 3: End, 4: Hold, 5: Free, 12: Cancel}
VOTES: dict[int, Callable[[int, int], Change]] = {10: Accept, 11: Decline}
ONE, TWO, SOLD = struct.Struct("<Q"), struct.Struct("<QQ"), struct.Struct("<Q4s")
FLOOR, LEVELS = struct.Struct("<BQB"), struct.Struct("<BQBQ")
"""The fields behind the names of a change, of which all are there or `unpack` fails."""


def quick_trade(bytes: bytes, at: int) -> Trade | None:
    buyer = at + 1 + bytes[at]
    product = buyer + 1 + bytes[buyer]
    end = product + 1 + bytes[product]
    amount, day = SOLD.unpack(bytes[end:])
    if not 0 < amount <= MOST_NUMBER:
        return None
    return Trade(NAMES[bytes[at:buyer]], NAMES[bytes[buyer:product]], NAMES[bytes[product:end]], amount, DAYS[day])


def quick_tolerance(bytes: bytes, at: int) -> Tolerance | None:
    product = at + 1 + bytes[at]
    end = product + 1 + bytes[product]
    rest = bytes[end:]
    side, floor, is_given, *most = (FLOOR if len(rest) == FLOOR.size else LEVELS).unpack(rest)
    if side > 1 or is_given != len(most) or max(floor, *most, 0) > MOST_NUMBER:
        return None
    return Tolerance(NAMES[bytes[at:product]], NAMES[bytes[product:end]], "in" if side else "out", floor, most[0] if most else None)


def quick_change(bytes: bytes, at: int) -> Change | None:
    """A change of the kinds that come most, if nothing is wrong with it and its names and day were read before."""
    tag = bytes[at]
    try:
        if tag in NUMBERED:
            return NUMBERED[tag](*ONE.unpack(bytes[at + 1 :]))
        if tag in VOTES:
            return VOTES[tag](*TWO.unpack(bytes[at + 1 :]))
        return quick_trade(bytes, at + 1) if tag == 1 else quick_tolerance(bytes, at + 1) if tag == 6 else None
    except (IndexError, KeyError, struct.error):
        return None
