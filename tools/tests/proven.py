"""Random proposals of one product, solved or spoilt, and what each member is told of them by a PROOF."""

import random
from typing import NamedTuple

from delkwoan.book import Tolerance, Trade
from delkwoan.certificate import Network, Pair, Problem
from delkwoan.cycles import problem_of
from delkwoan.plans import plan_of

MODES = ("conservative", "hybrid", "free")
DAY, FREEZE, MATURITY = "2026-03-02", "2026-03-31", "2031-06-30"
BEGUN = 100
"""The position at which the version begins; each setting before it has a position of its own."""
SELLER, BUYER = 0, 1
Settings = dict[tuple[Pair, int], Tolerance]


class Case(NamedTuple):
    """A market with its frozen trades and settings, and a proposal."""

    dealers: list[bool]
    mode: str
    trades: list[Trade]
    settings: Settings
    problem: Problem
    new: Network
    prices: list[int]


Arc = tuple[int, int, int, Pair, int]
"""What may be moved: from a member to another, what a unit costs, the pair and by how much it may change at most."""


def name(place: int) -> str:
    return f"M{place}"


def arcs_of(problem: Problem, flow: Network, members: int) -> list[Arc]:
    arcs: list[Arc] = []
    for i, j in ((i, j) for i in range(members) for j in range(members) if i != j):
        amount, upper = flow.get((i, j), 0), problem.upper((i, j))
        if upper is None or amount < upper:
            arcs.append((i, j, 1, (i, j), 10**6 if upper is None else upper - amount))
        if amount > problem.least.get((i, j), 0):
            arcs.append((j, i, -1, (i, j), amount - problem.least.get((i, j), 0)))
    return arcs


def least(problem: Problem, members: int) -> tuple[Network, list[int]]:
    """The network with the least gross, by taking out what goes round at a gain, and its potentials."""
    flow = dict(problem.now)
    while True:
        far, last, at = [0] * members, [(-1, -1)] * members, -1
        arcs = arcs_of(problem, flow, members)
        for _ in range(members):
            at = -1
            for number, (i, j, cost, _pair, _room) in enumerate(arcs):
                if far[i] + cost < far[j]:
                    far[j], last[j], at = far[i] + cost, (i, number), j
        if at < 0:
            return {pair: amount for pair, amount in flow.items() if amount}, [-it for it in far]
        for _ in range(members):
            at = last[at][0]
        found: list[Arc] = []
        here = at
        while not found or here != at:
            found.append(arcs[last[here][1]])
            here = last[here][0]
        room = min(arc[4] for arc in found)
        for _i, _j, cost, pair, _room in found:
            flow[pair] = flow.get(pair, 0) + cost * room


def case_of(chance: random.Random) -> Case:
    members = chance.randint(2, 5)
    dealers = [chance.random() < 0.6 for _ in range(members)]
    mode = chance.choice(MODES)
    trades: list[Trade] = []
    frozen: dict[Pair, list[Trade]] = {}
    for number in range(chance.randint(1, 8)):
        seller, buyer = chance.sample(range(members), 2)
        trade = Trade(number + 1, (seller, buyer), 0, chance.randint(1, 12), DAY, None)
        trade.holds = (chance.random() < 0.15, chance.random() < 0.1)
        trades.append(trade)
        frozen.setdefault(trade.parties, []).append(trade)
    settings: Settings = {}
    for _ in range(chance.randint(0, 6)):
        seller, buyer = chance.sample(range(members), 2)
        floor = chance.choice((0, 0, 1, 3, 8))
        ceiling = chance.choice((None, floor, floor + 2, 20))
        settings[(seller, buyer), chance.choice((SELLER, BUYER))] = Tolerance(floor, ceiling)
    grows = [mode == "free" or (mode == "hybrid" and is_dealer) for is_dealer in dealers]
    problem = problem_of(frozen, settings, grows)
    return Case(dealers, mode, trades, settings, problem, *least(problem, members))


def spoilt(chance: random.Random, case: Case) -> Case:
    """The case with another amount or another potential."""
    members = len(case.dealers)
    if chance.random() < 0.4:
        at, more = chance.randrange(members), chance.choice((-1, 1))
        return case._replace(prices=[it + more * (place == at) for place, it in enumerate(case.prices)])
    new = dict(case.new)
    ring = chance.sample(range(members), chance.randint(2, members))
    if chance.random() < 0.3:
        ring = ring[:1] + ring  # a pair of its own is left out: an end of a path
    more = chance.choice((-1, 1))
    for i, j in zip(ring, [*ring[1:], ring[0]]):
        if i != j:
            new[i, j] = max(0, new.get((i, j), 0) + more)
    return case._replace(new={pair: amount for pair, amount in new.items() if amount})


def lower_owner(case: Case, pair: Pair) -> str:
    low = case.problem.least.get(pair, 0)
    held = sum(trade.amount for trade in case.trades if trade.parties == pair and any(trade.holds))
    floor = case.settings.get((pair, SELLER), Tolerance(0, None)).floor
    return "none" if low == 0 else "hold" if low <= held else "seller" if low <= floor else "buyer"


def upper_owner(case: Case, pair: Pair) -> str:
    if not (case.problem.grows[pair[0]] and case.problem.grows[pair[1]]):
        return "now"
    mine, yours = (case.settings.get((pair, side), Tolerance(0, None)).ceiling for side in (SELLER, BUYER))
    if mine is None:
        return "none" if yours is None else "buyer"
    return "seller" if yours is None or mine <= yours else "buyer"


def reply_to(case: Case, member: int) -> str:
    """What the member is told."""
    places = range(len(case.dealers))
    pairs = [(i, j) for i in places for j in places if i != j]
    near = {member, *(it for pair in pairs if member in pair and case.problem.upper(pair) != 0 for it in pair)}
    lines = [f"pot P {name(it)} {case.prices[it]}" for it in sorted(near)]
    for i, j in pairs:
        now, upper = case.problem.now.get((i, j), 0), case.problem.upper((i, j))
        if member in (i, j) and (now or (case.problem.grows[i] and case.problem.grows[j])):
            low = f"{case.problem.least.get((i, j), 0)} {lower_owner(case, (i, j))}"
            high = f"{'-' if upper is None else upper} {upper_owner(case, (i, j))}"
            lines.append(f"pair P {name(i)} {name(j)} {low} {now} {case.new.get((i, j), 0)} {high}")
    return "".join(f"{line}\n" for line in [f"ok 102 proof 1 1 {FREEZE} {case.mode} {BEGUN} {len(lines)}", *lines])


def plan_for(case: Case, member: int) -> str:
    """The steps of the plan that the member is shown."""
    frozen: dict[Pair, list[Trade]] = {}
    for trade in case.trades:
        frozen.setdefault(trade.parties, []).append(trade)
    lines = []
    for step in plan_of([frozen], [case.problem], [case.new]):
        if member in step.parties:
            seller, buyer = map(name, step.parties)
            if step.trade is None:
                lines.append(f"new {seller} {buyer} P {step.amount}")
            elif step.amount == 0:
                lines.append(f"end {step.trade.number}")
            else:
                lines.append(f"cut {step.trade.number} {step.trade.amount} {step.amount}")
    return "".join(f"{line}\n" for line in [f"ok 102 plan 1 1 {len(lines)}", *lines])


def notes_of(case: Case, member: int) -> str:
    """What the member knows: its settings and its trades."""
    lines = []
    for position, (((i, j), side), setting) in enumerate(case.settings.items(), 1):
        if member == (i, j)[side]:
            other, word = name((i, j)[1 - side]), ("out", "in")[side]
            ceiling = "-" if setting.ceiling is None else setting.ceiling
            lines.append(f"{position} TOL {other} P {word} {setting.floor} {ceiling}")
            lines.append(f"{position + BEGUN} TOL {other} P {word} 0 -")  # behind the BEGIN: it does not count
    for trade in case.trades:
        if member in trade.parties:
            seller, buyer = map(name, trade.parties)
            held = "held" if any(trade.holds) else "-"
            lines.append(f"trade {trade.number} {seller} {buyer} P {trade.amount} {DAY} live {held}")
    return "".join(f"{line}\n" for line in lines)


def roster_of(case: Case) -> str:
    rows = [f"{name(place)},{'dealer' if is_dealer else 'customer'},-" for place, is_dealer in enumerate(case.dealers)]
    return "\n".join(["name,role,key", *rows, "OPS,operator,-", f"P,product,{MATURITY}", ""])
