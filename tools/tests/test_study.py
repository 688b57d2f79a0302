"""The study: its markets, by what is known of them before they are compressed, its kept figures, its page, and its notebook."""

import csv
import os
import re
import subprocess
import sys
import tempfile
import unittest
from pathlib import Path
from typing import Any

from running import PATIENCE, ROOT, TOOLS, program
from test_packaging import python_with

STUDIES, DOCS = ROOT / "studies", ROOT / "docs"
sys.path[:0] = [str(TOOLS), str(STUDIES)]

from certified import WAYS, Case, Figures
from delkwoan.checker import nets_of
from experiments import EXPERIMENTS, SEEDS, USUAL, Row, places, summary, table
from generator import MOST, UNIT, Market, Network, Order, market_of, network_of, orders_of

PICTURES = ["intermediation", "roles", "shape", "tolerance"]
MOST_BYTES = 100_000
"""Of a picture."""


def excess_of(market: Market) -> int:
    return sum(market.network.values()) - floor_of(market)


def floor_of(market: Market) -> int:
    return sum(net for net in nets_of(market.network, market.members) if net > 0)


def many_orders(**changes: Any) -> list[Order]:
    """The orders of a hundred markets of these parameters."""
    return [order for seed in range(100) for order in orders_of(USUAL._replace(**changes), seed)]


def share(orders: list[Order], part: list[int]) -> float:
    """The share of the notional that so many trades of each order are."""
    return sum(order.amount * trades for order, trades in zip(orders, part)) / sum(order.amount * order.trades for order in orders)


def kept_rows() -> list[Row]:
    with open(STUDIES / "figures.csv", newline="") as text:
        lines = [*csv.reader(text)][1:]
    return [Row(name, float(value), int(seed), Figures(*map(int, figures))) for name, value, seed, *figures in lines]


def of(name: str) -> list[Row]:
    return [row for row in kept_rows() if row.experiment == name]


class Generator(unittest.TestCase):
    def test_the_excess_is_that_of_the_chains(self) -> None:
        for intermediation in (0, 0.3, 1):
            for seed in range(5):
                given = USUAL._replace(intermediation=intermediation)
                planned = sum(order.amount * (order.trades - 1) for order in orders_of(given, seed))
                self.assertEqual(excess_of(market_of(given, seed)), planned)
                self.assertEqual(planned == 0, intermediation == 0)

    def test_a_number_has_one_market(self) -> None:
        self.assertEqual(market_of(USUAL, 7), market_of(USUAL, 7))
        self.assertNotEqual(market_of(USUAL, 7), market_of(USUAL, 8))

    def test_shares_of_the_notional(self) -> None:
        """With amounts that hardly differ the shares are near what is asked for."""
        orders = many_orders(tail=50)
        chains = [order.trades if order.trades > 1 else 0 for order in orders]
        between = [sum(max(pair) < USUAL.dealers for pair in zip(order.path, order.path[1:])) for order in orders]
        self.assertAlmostEqual(share(orders, chains), USUAL.intermediation, delta=0.02)
        self.assertAlmostEqual(share(orders, between), USUAL.between_dealers, delta=0.02)

    def test_customers_trade_with_dealers_and_on_one_side(self) -> None:
        for order in many_orders():
            self.assertTrue(all(member < USUAL.dealers for member in order.path[1:-1]))
            self.assertTrue(min(order.path[0], order.path[1]) < USUAL.dealers)
            self.assertTrue(order.path[0] < USUAL.dealers or order.path[0] % 2 == 0)
            self.assertTrue(order.path[-1] < USUAL.dealers or order.path[-1] % 2 == 1)

    def test_amounts_are_of_a_power_law(self) -> None:
        """Of amounts above x, the share above 10 x is 10 to the power of the exponent's negative."""
        amounts = [order.amount for order in many_orders()]
        self.assertTrue(all(UNIT <= amount <= MOST for amount in amounts))
        above = sum(amount > 10 * UNIT for amount in amounts) / len(amounts)
        self.assertAlmostEqual(above, 10**-USUAL.tail, delta=0.01)

    def test_netted_pairs(self) -> None:
        """Nets stay; by 1 no pair owes both ways, and by a half about half of those that did still do."""

        def opposite(network: Network) -> int:
            return sum(pair[::-1] in network for pair in network) // 2

        whole = network_of(orders_of(USUAL, 3))
        for netted in (0.5, 1.0):
            market = market_of(USUAL._replace(netted=netted), 3)
            self.assertEqual(nets_of(market.network, market.members), nets_of(whole, market.members))
            self.assertAlmostEqual(opposite(market.network) / opposite(whole), 1 - netted, delta=0.15)
        self.assertEqual(opposite(market_of(USUAL._replace(netted=1.0), 3).network), 0)


class Kept(unittest.TestCase):
    """The figures that are kept beside the study, without the program."""

    def test_they_are_of_the_markets_of_each_experiment(self) -> None:
        rows = kept_rows()
        at = 0
        for name, (values, case_of) in EXPERIMENTS.items():
            for place in places(values, case_of):
                row, market = rows[at], place.case.market
                self.assertEqual((row.experiment, row.value, row.seed), (name, place.value, place.seed))
                self.assertEqual((row.figures.gross, row.figures.floor), (sum(market.network.values()), floor_of(market)))
                at += 1
        self.assertEqual(at, len(rows))
        self.assertEqual(table(rows), (STUDIES / "figures.csv").read_text())

    def test_no_way_takes_more_than_the_next(self) -> None:
        for row in kept_rows():
            figures = row.figures
            self.assertTrue(figures.floor <= figures.free <= figures.hybrid <= figures.conservative <= figures.bilateral <= figures.gross, row)
        for name in ("intermediation", "growth", "between dealers", "tail", "netted"):
            self.assertTrue(all(row.figures.free == row.figures.floor for row in of(name)), name)

    def test_who_does_not_take_part_changes_nothing(self) -> None:
        """Where nobody takes part nothing goes, and where all do as much as without the experiment; likewise with no fall at all."""
        for name in ("taking part", "most fall"):
            first = [row for row in of(name) if row.value == 0]
            self.assertEqual(len(first), len(SEEDS))
            self.assertTrue(all(row.figures.gross == row.figures.after(way) for row in first for way in WAYS))
        whole = [row.figures for row in of("intermediation") if row.value == USUAL.intermediation]
        for name in ("taking part", "customers"):
            self.assertEqual([row.figures for row in of(name) if row.value == 1], whole)

    def test_roles_between_no_dealer_and_all(self) -> None:
        """With no dealer hybrid is conservative, and where all members are dealers it is free."""
        for row in of("growth"):
            if row.value == 0:
                self.assertEqual(row.figures.hybrid, row.figures.conservative)
            if row.value == USUAL.members:
                self.assertEqual(row.figures.hybrid, row.figures.free)

    def test_floors_leave_what_may_go(self) -> None:
        market = Market(3, 2, {(0, 1): 10, (1, 2): 4})
        self.assertEqual(Case(market, {(0, 1): 7, (1, 2): 4}).loose, {(0, 1): 3})


class Page(unittest.TestCase):
    def test_its_figures_are_the_kept_ones(self) -> None:
        """Each row of the table has a value of an experiment, and the means in hundredths."""
        text = (STUDIES / "README.md").read_text()
        told = 0
        for name in EXPERIMENTS:
            found = {f"{value:g}": [share, *ways] for value, share, ways in summary(of(name))}
            for value, cells in re.findall(rf"^\| {name} \| ([\d.]+) \| (.*) \|$", text, re.MULTILINE):
                self.assertEqual(cells.split(" | "), [f"{100 * mean:.1f}" for mean in found[value]], (name, value))
                told += 1
        self.assertGreaterEqual(told, 12)

    def test_its_pictures(self) -> None:
        shown = re.findall(r"!\[[^\]]+\]\(study-(\w+)\.png\)", (DOCS / "STUDY.md").read_text())
        self.assertEqual(sorted(shown), PICTURES)
        for name in PICTURES:
            picture = (DOCS / f"study-{name}.png").read_bytes()
            self.assertTrue(picture.startswith(b"\x89PNG") and len(picture) < MOST_BYTES, name)


class Notebook(unittest.TestCase):
    def test_it_runs_from_start_to_end(self) -> None:
        """All is compressed and certified again; the figures are the kept ones, and the pictures are drawn."""
        python = python_with("nbconvert", "ipykernel", "matplotlib")
        with tempfile.TemporaryDirectory() as room:
            environ = {**os.environ, "COMPRESS_CLI": str(program()), "STUDY_OUT": room, "IPYTHONDIR": room, "JUPYTER_RUNTIME_DIR": room}
            words = [python, "-m", "nbconvert", "--to", "notebook", "--execute", "--ExecutePreprocessor.timeout=1800"]
            words += [f"--ExecutePreprocessor.startup_timeout={PATIENCE}", "--output-dir", room, str(STUDIES / "compression.ipynb")]
            done = subprocess.run(words, env=environ, capture_output=True, timeout=1900)
            self.assertEqual(done.returncode, 0, done.stderr[-2000:])
            self.assertEqual(Path(room, "figures.csv").read_text(), (STUDIES / "figures.csv").read_text())
            for name in PICTURES:
                self.assertLess(Path(room, f"study-{name}.png").stat().st_size, MOST_BYTES)


if __name__ == "__main__":
    unittest.main()
