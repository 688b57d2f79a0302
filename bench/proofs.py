#!/usr/bin/env python3
"""Writes the market and the sessions by which a detail line of a PROOF is counted.

    proofs.py FOLDER

The roster has 64 members, 21 of them dealers, and 8 products. A session has 3,000 random trades, a twentieth of them held, and
200 settings, a freeze and a proposal, and at its end 1 or 11 times a member's PROOF, its PLAN, or the operator's PLAN. So there
are MODE-WHAT-COUNT for each mode, proof, plan and operator, 1 and 11: a tenth of the difference is one reply.
"""

import random
import sys
from pathlib import Path

MEMBERS = [f"M{number}" for number in range(64)]
DEALERS = 21
PRODUCTS = [f"P{number}" for number in range(8)]
ASKED = {"proof": ("M5 KM5", "PROOF 1"), "plan": ("M5 KM5", "PLAN 1"), "operator": ("OPS KO", "PLAN 1")}


def roster() -> list[str]:
    members = [f"{name},{'dealer' if at < DEALERS else 'customer'},K{name}" for at, name in enumerate(MEMBERS)]
    return ["name,role,key", *members, *(f"{name},product,2031-06-30" for name in PRODUCTS), "OPS,operator,KO"]


def trade(chance: random.Random) -> tuple[str, str, str, int]:
    seller, buyer = chance.sample(MEMBERS, 2)
    return seller, buyer, chance.choice(PRODUCTS), chance.randint(1, 1_000_000)


def trades(chance: random.Random) -> list[str]:
    """Each seller's trades, and then what each buyer says of its own."""
    drawn = sorted((trade(chance) for _ in range(3000)), key=lambda it: MEMBERS.index(it[0]))
    lines = []
    for name in MEMBERS:
        lines.append(f"HELLO {name} K{name}")
        lines += [f"TRADE {' '.join(map(str, it))} 2026-03-02" for it in drawn if it[0] == name]
    for name in MEMBERS:
        lines.append(f"HELLO {name} K{name}")
        for number, (_, buyer, _, _) in enumerate(drawn, 1):
            if buyer == name:
                lines.append(f"AFFIRM {number}")
                lines += [f"HOLD {number}"] * (chance.random() < 0.05)
    return lines


def settings(chance: random.Random) -> list[str]:
    lines = []
    for _ in range(200):
        name, other = chance.sample(MEMBERS, 2)
        floor = chance.choice((0, 0, 10, 1000, 100_000))
        ceiling = chance.choice(("-", floor, floor + 500_000, 2_000_000))
        place = f"{chance.choice(PRODUCTS)} {chance.choice(('out', 'in'))}"
        lines += [f"HELLO {name} K{name}", f"TOL {other} {place} {floor} {ceiling}"]
    return lines


def main(folder: Path) -> None:
    chance = random.Random(47)
    folder.mkdir(exist_ok=True)
    (folder / "roster.csv").write_text("\n".join(roster()) + "\n")
    day = [*trades(chance), *settings(chance), "HELLO OPS KO", "FREEZE 2026-03-31"]
    for mode in ("free", "hybrid", "conservative"):
        for what, (who, line) in ASKED.items():
            for count in (1, 11):
                lines = [*day, f"PROPOSE 1 {mode}", f"HELLO {who}", *[line] * count]
                (folder / f"{mode}-{what}-{count}").write_text("\n".join(lines) + "\n")


if __name__ == "__main__":
    main(Path(sys.argv[1]))
