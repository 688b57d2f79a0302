"""The experiments of the study: what is changed in each, its markets, and the table of their figures."""

import csv
import io
import random
from typing import Callable, Iterator, NamedTuple

from certified import WAYS, Case, Figures, compressed
from generator import Market, Parameters, market_of

SEEDS = range(8)
"""The seeds of the markets at each place of an experiment."""
USUAL = Parameters()


class Place(NamedTuple):
    """A value of what an experiment changes, a seed, and the case that they give."""

    value: float
    seed: int
    case: Case


class Row(NamedTuple):
    """A line of the table: what was found at a place of an experiment."""

    experiment: str
    value: float
    seed: int
    figures: Figures


def places(values: list[float], case_of: Callable[[float, int], Case]) -> Iterator[Place]:
    for value in values:
        for seed in SEEDS:
            yield Place(value, seed, case_of(value, seed))


def by_intermediation(share: float, seed: int) -> Case:
    """More or less of the notional lies in chains."""
    return Case(market_of(USUAL._replace(intermediation=share), seed))


def by_tail(tail: float, seed: int) -> Case:
    """The amounts' power law has a heavier or a lighter tail."""
    return Case(market_of(USUAL._replace(tail=tail), seed))


def by_netted(share: float, seed: int) -> Case:
    """More or less of the pairs have netted their opposite amounts before."""
    return Case(market_of(USUAL._replace(netted=share), seed))


def by_growth(dealers: float, seed: int) -> Case:
    """The pairs that may grow in hybrid mode are those of more or fewer members, the largest dealers first."""
    return Case(market_of(USUAL, seed)._replace(dealers=int(dealers)))


def by_dealers_share(share: float, seed: int) -> Case:
    """More or less of the notional lies between dealers, so that chains are longer or shorter."""
    return Case(market_of(USUAL._replace(between_dealers=share), seed))


def kept(market: Market, percent: Callable[[int, int], int]) -> Case:
    """The case in which each pair's amount may fall by so many hundredths, rounded down to whole units."""
    network = market.network
    return Case(market, {pair: amount - amount * percent(*pair) // 100 for pair, amount in network.items()})


def by_customers(tolerance: float, seed: int) -> Case:
    """A customer lets its amounts fall by this share and no more; dealers among themselves let theirs fall to 0."""
    market = market_of(USUAL, seed)
    return kept(market, lambda i, j: 100 if max(i, j) < market.dealers else round(100 * tolerance))


def by_most_fall(times: float, seed: int) -> Case:
    """No pair's amount falls by more than so many times the mean amount of a pair."""
    market = market_of(USUAL, seed)
    most = round(times * sum(market.network.values()) / len(market.network))
    return Case(market, {pair: max(0, amount - most) for pair, amount in market.network.items()})


def by_taking_part(share: float, seed: int) -> Case:
    """So many of the members take part, by lot; all amounts of the others stay."""
    market = market_of(USUAL, seed)
    order = random.Random(seed).sample(range(market.members), market.members)
    inside = {*order[: round(share * market.members)]}
    return kept(market, lambda i, j: 100 if {i, j} <= inside else 0)


TENTHS = [tenth / 10 for tenth in range(11)]
EXPERIMENTS: dict[str, tuple[list[float], Callable[[float, int], Case]]] = {
    "intermediation": (TENTHS, by_intermediation),
    "taking part": (TENTHS, by_taking_part),
    "most fall": ([0, 0.25, 0.5, 1, 2, 4, 8, 16], by_most_fall),
    "customers": ([0, 0.25, 0.5, 0.75, 1], by_customers),
    "growth": ([0, 2, 4, 8, 16, 32, 64], by_growth),
    "between dealers": ([0.5, 0.6, 0.7, 0.8, 0.9, 0.95], by_dealers_share),
    "tail": ([1.1, 1.25, 1.5, 2, 3], by_tail),
    "netted": ([0, 0.25, 0.5, 0.75, 1], by_netted),
}


def run(program: str, name: str) -> list[Row]:
    """The rows of one experiment, each figure of which is certified."""
    found = list(places(*EXPERIMENTS[name]))
    figures = compressed(program, [place.case for place in found])
    return [Row(name, place.value, place.seed, it) for place, it in zip(found, figures)]


def table(rows: list[Row]) -> str:
    """The rows as comma-separated text."""
    text = io.StringIO()
    lines = csv.writer(text, lineterminator="\n")
    lines.writerow(["experiment", "value", "seed", *Figures._fields])
    lines.writerows([row.experiment, f"{row.value:g}", row.seed, *row.figures] for row in rows)
    return text.getvalue()


class Spread(NamedTuple):
    """The mean, the least and the most over the seeds."""

    mean: float
    least: float
    most: float


def spread(values: list[float]) -> Spread:
    return Spread(sum(values) / len(values), min(values), max(values))


def spreads(rows: list[Row], measure: Callable[[Figures], float]) -> dict[float, Spread]:
    """A measure's spread at each value of an experiment."""
    values: dict[float, list[float]] = {}
    for row in rows:
        values.setdefault(row.value, []).append(measure(row.figures))
    return {value: spread(found) for value, found in values.items()}


def removed(rows: list[Row], way: str) -> dict[float, Spread]:
    """The share of the excess that a way takes away, in the markets that have any."""
    return spreads([row for row in rows if row.figures.excess], lambda figures: figures.removed(way))


def summary(rows: list[Row]) -> list[tuple[float, float, list[float]]]:
    """For each value the mean share of excess in the gross, and the mean share of it that each way takes away."""
    shares = spreads(rows, lambda figures: figures.excess / figures.gross)
    ways = [removed(rows, way) for way in WAYS]
    return [(value, share.mean, [way[value].mean for way in ways if value in way]) for value, share in shares.items()]
