"""The market of number 1: its files, its summary, and a whole day of it, by figures that are worked out here."""

import subprocess
import sys
import tempfile
import unittest
from collections import Counter
from pathlib import Path
from typing import NamedTuple

from running import EXAMPLES, ROOT, TOOLS, Ran, program, run

MARKET = EXAMPLES / "market"
LEAST = [48_514_897, 55_588_139, 48_192_453, 54_841_823, 48_449_969, 54_765_173, 50_133_414, 46_759_284]
"""The least gross of each product in the hybrid mode, as LEMON's network simplex finds it (bench/lemon.cpp)."""

Network = Counter[tuple[str, str]]  # what each seller sold to each buyer


class Trade(NamedTuple):
    number: int
    seller: str
    buyer: str
    product: str
    amount: int


def trades() -> list[Trade]:
    rows = [line.split(",") for line in (MARKET / "trades.csv").read_text().splitlines()[1:]]
    return [Trade(number, a, b, product, int(amount)) for number, (a, b, product, amount) in enumerate(rows, 1)]


def names(role: str) -> list[str]:
    rows = [line.split(",") for line in (MARKET / "roster.csv").read_text().splitlines()[1:]]
    return [name for name, what, _ in rows if what == role]


MEMBERS, PRODUCTS = names("dealer") + names("customer"), names("product")


def network(product: str) -> Network:
    sums: Network = Counter()
    for trade in trades():
        if trade.product == product:
            sums[trade.seller, trade.buyer] += trade.amount
    return sums


class Figures(NamedTuple):
    gross: int
    floor_m: int
    bilateral: int


def figures(of: Network) -> Figures:
    net: Counter[str] = Counter()
    for (seller, buyer), amount in of.items():
        net[seller] += amount
        net[buyer] -= amount
    return Figures(
        sum(of.values()),
        sum(value for value in net.values() if value > 0),
        sum(abs(of[a, b] - of[b, a]) for at, a in enumerate(MEMBERS) for b in MEMBERS[at + 1 :]),
    )


def steps(new: dict[str, Network]) -> tuple[int, int, int]:
    """How many trades end, are cut and are made where the pairs of the market come to these sums."""
    ended = cut = made = 0
    for product in PRODUCTS:
        old = network(product)
        less = {pair: amount - new[product][pair] for pair, amount in old.items()}
        made += sum(new[product][pair] > old[pair] for pair in new[product])
        for trade in trades():
            rest = less.get((trade.seller, trade.buyer), 0)
            if trade.product == product and rest > 0:
                less[trade.seller, trade.buyer] -= trade.amount
                ended += trade.amount <= rest
                cut += trade.amount > rest
    return ended, cut, made


def touched() -> set[str]:
    """Members who sell to each other in some product: where the gross is least they don't, so every plan touches them."""
    found = set()
    for product in PRODUCTS:
        sums = network(product)
        found |= {name for pair in sums if pair[::-1] in sums for name in pair}
    return found


def rows_of(proposal: bytes) -> dict[str, Network]:
    found: dict[str, Network] = {}
    for line in proposal.decode().splitlines():
        words = line.split()
        if words[0] == "product":
            product = found[words[1]] = Counter()
        if words[0] == "row":
            product[words[1], words[2]] = int(words[3])
    return found


def market_lines(at: int, all_figures: list[Figures]) -> list[str]:
    return [f"ok {at} market {f.gross} {f.floor_m} {f.gross - f.floor_m} {f.bilateral}" for f in all_figures]


def day_replies(made: tuple[int, int, int]) -> list[str]:
    """The replies to the day, where its execution ends, cuts and makes so many trades."""
    lines, at, greeted = [], 0, ""
    for trade in trades():
        if trade.seller != greeted:
            lines.append(f"ok {at} hello {trade.seller}")
        lines += [f"ok {at + 1} trade {trade.number}", f"ok {at + 1} hello {trade.buyer}"]
        lines.append(f"ok {at + 2} live {trade.number}")
        at, greeted = at + 2, trade.buyer
    before = [figures(network(product)) for product in PRODUCTS]
    lines += [f"ok {at} hello OPS", *market_lines(at, before), f"ok {at + 1} frozen 1 {len(trades())}"]
    at += 3  # the freeze, and the beginning and the posting of the proposal
    lines.append(f"ok {at} proposed 1 1 {sum(f.gross for f in before)} {sum(LEAST)}")
    for left, name in zip(reversed(range(len(MEMBERS))), MEMBERS):
        lines.append(f"ok {at} hello {name}")
        at += 1
        lines.append(f"ok {at} accepted 1 1 {left}" if left else f"ok {at} executed 1 1 {made[0]} {made[1]} {made[2]}")
    # Where the gross is least, no two members sell to each other.
    after = [Figures(least, f.floor_m, least) for least, f in zip(LEAST, before)]
    return [*lines, f"ok {at} hello OPS", *market_lines(at, after), f"ok {at} bye"]


class Market(unittest.TestCase):
    def setUp(self) -> None:
        folder = tempfile.TemporaryDirectory()
        self.addCleanup(folder.cleanup)
        self.folder = Path(folder.name)

    def test_the_files_are_as_the_script_writes_them(self) -> None:
        self.assertEqual(run([EXAMPLES / "make-market", "1", self.folder]), Ran(0, b"", b""))
        for name in ("roster.csv", "trades.csv", "day.session"):
            self.assertEqual((self.folder / name).read_bytes(), (MARKET / name).read_bytes(), name)

    def test_the_trades_are_those_of_the_bench(self) -> None:
        subprocess.run([sys.executable, ROOT / "bench/markets.py", self.folder, "gen1"], check=True)
        self.assertEqual((self.folder / "gen1-trades.csv").read_bytes(), (MARKET / "trades.csv").read_bytes())
        roster = (MARKET / "roster.csv").read_text().replace("OPS,operator,KO\n", "")
        self.assertEqual((self.folder / "gen1-roster.csv").read_text(), roster)

    def test_the_first_trade_is_known(self) -> None:
        self.assertEqual(trades()[0].seller, "C34")

    def test_the_summary_has_the_figures_of_the_trades(self) -> None:
        lines = []
        for product, least in zip(PRODUCTS, LEAST):
            f = figures(network(product))
            lines.append(f"product {product} {f.gross} {least} {f.floor_m} {f.bilateral}\n")
            self.assertTrue(f.floor_m <= least <= f.gross)
        summary = Ran(0, "".join([*lines, "end 8\n"]).encode(), b"")
        for _ in range(2):
            self.assertEqual(run([program(), "gen", "1"]), summary)

    def test_each_number_has_a_summary_of_its_form(self) -> None:
        form = rb"".join(rb"product P%d [1-9]\d* [1-9]\d* [1-9]\d* [1-9]\d*\n" % place for place in range(8)) + rb"end 8\n"
        found = set()
        for number in ("1", "2", "7", "999999999999999999", "1000000000000000000"):
            ran = run([program(), "gen", number])
            self.assertEqual((ran.status, ran.errors), (0, b""))
            self.assertRegex(ran.output, rb"\A" + form + rb"\Z")
            found.add(ran.output)
        self.assertEqual(len(found), 5)

    def test_what_is_no_number_of_a_market_is_out_of_form(self) -> None:
        for words in (["gen"], ["gen", "0"], ["gen", "01"], ["gen", "-1"], ["gen", "1000000000000000001"], ["gen", "1", "1"]):
            self.assertEqual(run([program(), *words]), Ran(2, b"", b"bad words\n"), words)

    def test_a_whole_day(self) -> None:
        self.assertEqual(set(MEMBERS), touched())
        solved = run([program(), "solve", MARKET / "roster.csv", MARKET / "trades.csv", "hybrid"])
        self.assertEqual((solved.status, solved.errors), (0, b""))
        (self.folder / "proposal.txt").write_bytes(solved.output)
        words: list[str | Path] = [MARKET / "roster.csv", MARKET / "trades.csv", "hybrid", self.folder / "proposal.txt"]
        self.assertEqual(run([TOOLS / "check_proposal", *words]), Ran(0, b"yes\n", b""))
        journal = self.folder / "journal"
        ran = run([program(), "script", MARKET / "roster.csv", journal], (MARKET / "day.session").read_bytes())
        self.assertEqual((ran.status, ran.errors), (0, b""))
        self.assertEqual(ran.output.decode().splitlines(), day_replies(steps(rows_of(solved.output))))
        self.assertIn(b"ok 6001 frozen 1 3000\n", ran.output)
        self.assertLess(journal.stat().st_size, 1 << 20)
