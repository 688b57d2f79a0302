"""The compression report: its figures by hand and beside the program's, and the page itself."""

import csv
import io
import re
import sys
import tempfile
import unittest
from pathlib import Path

from markets import market
from running import EXAMPLES, TOOLS, Ran, program, run

sys.path.insert(0, str(TOOLS))

from delkwoan.compressions import compression_of, replays_compared
from delkwoan.ending import Stop
from delkwoan.figures import Between, Compression, Member, Share, Sums, rows_of, trades_after
from delkwoan.replayed import Execution

REPORT = TOOLS / "report"
ROSTER, TRADES, PROPOSAL = HUB = [
    str(EXAMPLES / f"hub-{name}") for name in ("roster.csv", "trades.csv", "proposal.txt")
]


LEI = "5493001KJTIIGC8Y1R12"

# The hub's trades and the proposal's rows, by seller, buyer and amount, as `replay` tells them of a journal.
BEFORE_TRADES = [("A", "E", 5), ("D", "E", 5), ("E", "B", 5), ("E", "C", 5)]
AFTER_TRADES = [("A", "B", 5), ("D", "C", 5)]


def trade_row(number: int, trade: tuple[str, str, int], state: str = "live") -> str:
    return f"trade {number} {trade[0]} {trade[1]} P {trade[2]} 2026-03-02 {state} -\n"


def replay_text(rows: dict[str, list[str]], executions: int = 0) -> str:
    """The text of `replay` for the rows of each member."""
    text = "".join(f"member {name} {len(rows[name])}\n" + "".join(rows[name]) for name in rows)
    return text + "execution 9 1 1 4 0 2\nat 1774958400\n" * executions + "end 9\n"


def rows_by_member(trades: list[tuple[str, str, int]], first: int, state: str = "live") -> dict[str, list[str]]:
    numbered = list(enumerate(trades, first))
    return {
        member: [trade_row(number, trade, state) for number, trade in numbered if member in trade[:2]]
        for member in "ABCDE"
    }


class InFolder(unittest.TestCase):
    def setUp(self) -> None:
        folder = tempfile.TemporaryDirectory()
        self.addCleanup(folder.cleanup)
        self.folder = Path(folder.name)


class Figures(InFolder):
    def test_the_hub_by_hand(self) -> None:
        """E stands between A, D and B, C: its four lines fall away, the others keep one of 5 each."""
        compression = compression_of(ROSTER, TRADES, PROPOSAL)
        (group,) = compression.groups
        (product,) = group.products
        self.assertEqual(product.before, Sums(gross=20, floor=10, excess=10, bilateral=20, lines=4, trades=4))
        self.assertEqual(product.after, Sums(gross=10, floor=10, excess=0, bilateral=10, lines=2, trades=2))
        self.assertEqual(group.total(), (product.before, product.after))
        others = [Member(name, "dealer", Share(5, 1, 1), Share(5, 1, 1), 1, 1) for name in "ABCD"]
        hub = Member("E", "dealer", Share(20, 4, 4), Share(0, 0, 0), 1, 1)
        self.assertEqual(group.members, [*others, hub])
        self.assertEqual([member.reduction for member in group.members], [0.0, 0.0, 0.0, 0.0, 1.0])
        nothing = ((0, 0), (0, 0))
        dealers = Between("dealers", (20, 4), (10, 2))
        self.assertEqual(group.between, [dealers, Between("a dealer and a customer", *nothing), Between("customers", *nothing)])
        self.assertEqual(compression.mode, "hybrid")
        self.assertEqual(len([*rows_of(compression)]), 6 + 5 * 4 + 3 * 2)

    def test_modes(self) -> None:
        """The customers' chain is cut by its dealer in free mode alone; without any proposal's rows nothing grows."""
        files = [str(EXAMPLES / f"customer-{name}") for name in ("roster.csv", "trades.csv", "proposal.txt")]
        self.assertEqual(compression_of(*files).mode, "free")
        empty = self.folder / "empty"
        empty.write_bytes(re.sub(rb"row .*\n", b"", Path(PROPOSAL).read_bytes()))
        self.assertEqual(compression_of(ROSTER, TRADES, str(empty)).mode, "conservative")

    def test_trades_that_a_plan_leaves(self) -> None:
        """Trades of 5, 3 and 4 of a pair, which falls from 12 to each amount; and a pair that is new."""
        trades = [((0, 1), amount) for amount in (5, 3, 4)]
        left = {12: 3, 11: 3, 8: 3, 7: 2, 6: 2, 4: 1, 3: 1, 1: 1, 0: 0}
        for amount, count in left.items():
            with self.subTest(amount=amount):
                self.assertEqual(trades_after(trades, {(0, 1): 12}, {(0, 1): amount} if amount else {}), count)
        self.assertEqual(trades_after(trades, {(0, 1): 12}, {(0, 1): 12, (1, 2): 1}), 4)

    def test_currencies_are_apart(self) -> None:
        """The hub, and a product of another currency; one of none stands behind them."""
        about = self.folder / "about"
        names = [self.folder / name for name in ("roster", "trades", "proposal")]
        text = Path(ROSTER).read_text().replace("P,product,2031-06-30\n", "".join(f"{it},product,2031-06-30\n" for it in "PQR"))
        names[0].write_text(text)
        names[1].write_text(Path(TRADES).read_text() + "A,B,Q,7\n")
        pots = "".join(f"pot {name} 0\n" for name in "ABCDE")
        other = f"product Q 7 7 7 7\nrow A B 7\n{pots}bound 7\nproduct R 0 0 0 0\n{pots}bound 0\nend 3\n"
        names[2].write_text(Path(PROPOSAL).read_text().replace("end 1\n", other))
        about.write_text("name,currency\nP,USD\nQ,EUR\n")
        groups = compression_of(str(names[0]), str(names[1]), str(names[2]), str(about)).groups
        told = [(group.currency, [product.name for product in group.products], group.total()[0].gross) for group in groups]
        self.assertEqual(told, [("EUR", ["Q"], 7), ("USD", ["P"], 20), ("", ["R"], 0)])
        self.assertEqual([group.members[0].before.gross for group in groups], [7, 5, 0])
        without = compression_of(*map(str, names)).groups
        self.assertEqual([(group.currency, group.total()[0].gross) for group in without], [("", 27)])

    def test_a_side_file_with_a_fault(self) -> None:
        about = self.folder / "about"
        cases = [
            ("", 1, "columns"),
            ("lei\n", 1, "columns"),
            ("name,lei,what\n", 1, "columns"),
            ("name,name\n", 1, "columns"),
            ("name,lei\nA\n", 2, "columns"),
            (f"name,lei\nA,{LEI}\nB,{LEI[:-1]}3\n", 3, "bad-lei"),
            (f"name,lei\nA,{LEI.lower()}\n", 2, "bad-lei"),
            ("name,currency\nP,Eur\n", 2, "bad-currency"),
            ("name,currency\nQ,EUR\n", 2, "unknown-name"),
            ("name,currency\nP,EUR\nA,\nP,EUR\n", 4, "twice"),
        ]
        for text, row, fault in cases:
            with self.subTest(text=text):
                about.write_text(text)
                with self.assertRaises(Stop) as caught:
                    compression_of(ROSTER, TRADES, PROPOSAL, str(about))
                self.assertEqual((caught.exception.status, caught.exception.line), (3, f"about row {row}: {fault}"))
        about.write_text(f"name,lei\nOPS,{LEI}\n")
        self.assertEqual(compression_of(ROSTER, TRADES, PROPOSAL, str(about)).about.leis, {"OPS": LEI})

    def test_a_net_that_does_not_stay(self) -> None:
        proposal = self.folder / "proposal"
        proposal.write_bytes(Path(HUB[2]).read_bytes().replace(b"row A B 5", b"row A B 6"))
        compression = compression_of(ROSTER, TRADES, str(proposal))
        self.assertEqual([member.nets_kept for member in compression.groups[0].members], [0, 0, 1, 1, 1])

    def test_the_hub_as_two_replays(self) -> None:
        """The same figures, of a market in which the four trades ended and the proposal's two came."""
        told = self.replays(*self.hub_texts())
        self.assertEqual(told.executions, [Execution(9, 1, 1, ended=4, cut=0, made=2, moment=1_774_958_400)])
        self.assertEqual(told._replace(executions=[]), compression_of(*HUB))

    def test_a_replay_with_a_fault(self) -> None:
        before, after = self.hub_texts()
        cases = [
            ("", "1: bad-line"),
            (after[:-1], "20: bad-line"),
            (after + "end 9\n", "21: bad-line"),
            (after.replace("end 9\n", ""), "20: bad-line"),
            (after.replace("member A 2\n", "member A 3\n"), "4: bad-line"),
            (after.replace("member A", "member B"), "1: bad-line"),
            (after.replace("member E 4\n", "member E 04\n"), "13: bad-line"),
            (after.replace("trade 5 A B P 5 2026-03-02 live", "trade 5 A B P 6 2026-03-02 live", 1), "6: bad-line"),
            (after.replace("trade 5 A", "trade 6 A", 1).replace("trade 6 D", "trade 5 D", 1), "9: bad-line"),
            (after.replace("trade 5 A B P", "trade 5 A F P", 1), "3: unknown-name"),
            (after.replace("trade 5 A B P", "trade 5 A B Q", 1), "3: unknown-name"),
            (after.replace("trade 5 A B P", "trade 5 A A P", 1), "3: same-party"),
            (after.replace("P 5 ", "P 0 ", 1), "2: bad-amount"),
            (after.replace("2026-03-02", "2026-02-30", 1), "2: bad-day"),
            (after.replace(" live -\n", " live\n", 1), "3: columns"),
            (after.replace(" live -\n", " live held -\n", 1), "3: columns"),
            (after.replace(" live ", " dead ", 1), "3: bad-line"),
            (after.replace("execution 9 1", "execution 9"), "18: columns"),
            (after.replace("execution 9 1", "execution 9 -1"), "18: bad-line"),
            (after.replace("execution", "posting"), "18: bad-line"),
            (after.replace("at 1774958400\n", ""), "19: bad-line"),
            (after.replace("at 1774958400", "at -1"), "19: bad-line"),
            (after.replace("at 1774958400", "at 1774958400 0"), "19: columns"),
            (after.replace("end 9", "at 1774958400\nend 9"), "20: bad-line"),
        ]
        for text, told in cases:
            with self.subTest(told=told, text=text):
                with self.assertRaises(Stop) as caught:
                    self.replays(before, text)
                self.assertEqual((caught.exception.status, caught.exception.line), (3, f"after row {told}"))
        with self.assertRaises(Stop) as caught:
            self.replays(before + "\n", after)
        self.assertEqual(caught.exception.line, "before row 15: bad-line")

    def hub_texts(self) -> tuple[str, str]:
        ended, made = rows_by_member(BEFORE_TRADES, 1, "ended"), rows_by_member(AFTER_TRADES, 5)
        before = replay_text(rows_by_member(BEFORE_TRADES, 1))
        return before, replay_text({name: ended[name] + made[name] for name in ended}, executions=1)

    def replays(self, before: str, after: str) -> Compression:
        for name, text in (("before", before), ("after", after)):
            (self.folder / name).write_text(text)
        return replays_compared(ROSTER, str(self.folder / "before"), str(self.folder / "after"))

    def test_the_programs_figures(self) -> None:
        """GROSS, LEAST, M and BILATERAL of what the program solves are the report's."""
        built = program()
        for number in range(20):
            with self.subTest(market=number):
                made = market(number)
                names = [self.folder / name for name in ("roster", "trades", "proposal")]
                names[0].write_bytes(made.roster)
                names[1].write_bytes(made.trades)
                solved = run([built, "solve", *names[:2], made.mode])
                names[2].write_bytes(solved.output)
                told = [
                    line.split(" ")[1:] for line in solved.output.decode().splitlines() if line.startswith("product")
                ]
                compression = compression_of(str(names[0]), str(names[1]), str(names[2]))
                own = [
                    [p.name, *map(str, (p.before.gross, p.after.gross, p.before.floor, p.before.bilateral))]
                    for p in compression.products
                ]
                self.assertEqual(own, told)
                members = [member for group in compression.groups for member in group.members]
                self.assertTrue(all(member.nets_kept == member.nets for member in members))
                modes = ["conservative", "hybrid", "free"]
                self.assertLessEqual(modes.index(compression.mode), modes.index(made.mode))
                self.assertEqual(
                    [p.after.floor for p in compression.products], [p.before.floor for p in compression.products]
                )


    def test_the_trades_that_the_programs_plan_leaves(self) -> None:
        """A whole day of the market: what its execution ended, cut and made."""
        built = program()
        files = [EXAMPLES / "market" / name for name in ("roster.csv", "trades.csv")]
        proposal = self.folder / "proposal"
        proposal.write_bytes(run([built, "solve", *files, "hybrid"]).output)
        day = (EXAMPLES / "market/day.session").read_bytes()
        ran = run([built, "script", files[0], self.folder / "journal"], day)
        (told,) = re.findall(rb"executed 1 1 (\d+) \d+ (\d+)", ran.output)
        compression = compression_of(str(files[0]), str(files[1]), str(proposal))
        before, after = compression.groups[0].total()
        self.assertEqual((before.trades, after.trades), (3000, 3000 - int(told[0]) + int(told[1])))
        self.assertEqual(compression.mode, "hybrid")
        replay = self.folder / "after"
        replay.write_bytes(run([built, "replay", files[0], self.folder / "journal"]).output)
        (self.folder / "before").write_bytes(run([built, "replay", files[0], self.folder / "none"]).output)
        replayed = replays_compared(str(files[0]), str(self.folder / "before"), str(replay))
        self.assertEqual(replayed.groups[0].total()[1], after)
        self.assertEqual([it.cycle for it in replayed.executions], [1])


class Pages(InFolder):
    def setUp(self) -> None:
        super().setUp()
        self.output = str(self.folder / "out")

    def test_the_page_and_the_figures(self) -> None:
        ran = run([REPORT, *HUB, self.output])
        told = f"{self.output}.html and {self.output}.csv: gross 20 before, 10 after\n"
        self.assertEqual(ran, Ran(0, told.encode(), b""))
        page = Path(self.output + ".html").read_text()
        self.assertEqual(re.findall(r"<script|<link|@import|src=|href=|url\((?!#)", page), [])
        self.assertEqual(page.count('role="img"'), 4)
        for part in ("50.0 %", "5 of 5", "100.0 %", "Between</th>", "only amounts between dealers grow"):
            self.assertIn(part, page)
        rows = list(csv.reader(io.StringIO(Path(self.output + ".csv").read_text())))
        self.assertEqual(
            rows[:3],
            [
                ["of", "name", "currency", "figure", "before", "after"],
                ["product", "P", "", "gross", "20", "10"],
                ["product", "P", "", "floor", "10", "10"],
            ],
        )
        self.assertEqual(rows[1:], [list(map(str, row)) for row in rows_of(compression_of(ROSTER, TRADES, PROPOSAL))])

    def test_two_replays(self) -> None:
        for name, trades, first in (("before", BEFORE_TRADES, 1), ("after", AFTER_TRADES, 5)):
            (self.folder / name).write_text(replay_text(rows_by_member(trades, first)))
        words: list[str | Path] = ["--replay", ROSTER, self.folder / "before", self.folder / "after", self.output]
        told = f"{self.output}.html and {self.output}.csv: gross 20 before, 10 after\n"
        self.assertEqual(run([REPORT, "--product", "P", *words]), Ran(0, told.encode(), b""))
        page = Path(self.output + ".html").read_text()
        self.assertIn("two texts of <code>replay</code>", page)
        self.assertIn("No cycle was executed between the two texts.", page)
        (self.folder / "after").write_text(self.executed())
        self.assertEqual(run([REPORT, "--mode", "conservative", *words]).status, 0)
        page = Path(self.output + ".html").read_text()
        self.assertIn("Cycle 1, version 1, executed at position 9, 2026-03-31 12:00:00 UTC: 4 trades ended, 0 were cut, 2 were made.", page)
        self.assertIn("That is more than the mode allows.", page)

    def executed(self) -> str:
        return replay_text(rows_by_member(AFTER_TRADES, 5), executions=1)

    def test_currencies_and_leis(self) -> None:
        (self.folder / "about").write_text(f"name,lei,currency\nE,{LEI},\nP,,CHF\n")
        ran = run([REPORT, "--about", self.folder / "about", "--mode", "hybrid", *HUB, self.output])
        self.assertTrue(ran.output.endswith(b": gross 20 before, 10 after in CHF\n"), ran)
        page = Path(self.output + ".html").read_text()
        for part in (LEI, "In CHF", "Mode: hybrid. "):
            self.assertIn(part, page)

    def test_a_market_of_many_products_is_short(self) -> None:
        """The chart has the greatest products alone, and the table all of them."""
        products = [f"P{number}" for number in range(64)]
        (self.folder / "roster").write_text("name,role,key\nA,dealer,K\n" + "".join(f"{it},product,2031-06-30\n" for it in products))
        (self.folder / "trades").write_text("seller,buyer,product,amount\n")
        parts = [f"product {it} 0 0 0 0\npot A 0\nbound 0\n" for it in products]
        (self.folder / "proposal").write_text("".join(parts) + "end 64\n")
        names = [self.folder / name for name in ("roster", "trades", "proposal")]
        self.assertEqual(run([REPORT, *names, self.output]).status, 0)
        page = Path(self.output + ".html").read_text()
        self.assertEqual(page.count('class="before"'), 16)
        self.assertIn("the table has all 64", page)
        self.assertIn("No currency is told of any product", page)

    def test_it_is_the_same_each_time(self) -> None:
        pages = []
        for _ in range(2):
            run([REPORT, "--product", "P", *HUB, self.output])
            pages.append(Path(self.output + ".html").read_bytes())
        self.assertEqual(*pages)

    def test_markets_without_anything(self) -> None:
        (self.folder / "roster").write_bytes(b"name,role,key\n")
        (self.folder / "trades").write_bytes(b"seller,buyer,product,amount\n")
        (self.folder / "proposal").write_bytes(b"end 0\n")
        names = [self.folder / name for name in ("roster", "trades", "proposal")]
        self.assertEqual(run([REPORT, *names, self.output]).status, 0)
        (self.folder / "roster").write_bytes(b"name,role,key\nA,dealer,K\nP,product,2031-06-30\n")
        (self.folder / "proposal").write_bytes(b"product P 0 0 0 0\npot A 0\nbound 0\nend 1\n")
        self.assertEqual(run([REPORT, *names, self.output]).status, 0)

    def test_words_and_files(self) -> None:
        cases: list[list[str]] = [
            [],
            HUB,
            [*HUB, "x", "y"],
            [*HUB, "-x"],
            ["--product", *HUB, "x"],
            ["--what", "P", *HUB, "x"],
            ["--replay", *HUB],
            ["--replay", "--replay", *HUB, "x"],
            ["--product", "P", "--product", "P", *HUB, "x"],
            ["--mode", "loose", *HUB, "x"],
        ]
        for words in cases:
            with self.subTest(words=words):
                self.assertEqual(run([REPORT, *words]), Ran(2, b"", b"bad words\n"))
        self.assertEqual(run([REPORT, "--product", "Q", *HUB, self.output]), Ran(2, b"", b"no such product: Q\n"))
        self.assertEqual(run([REPORT, "none", *HUB[1:], self.output]), Ran(11, b"", b"file fault\n"))
        self.assertEqual(run([REPORT, *HUB, self.folder / "none/out"]), Ran(11, b"", b"file fault\n"))
        ran = run([REPORT, HUB[1], *HUB[1:], self.output])
        self.assertEqual(ran, Ran(3, b"", b"roster row 1: columns\n"))
        self.assertEqual(list(self.folder.iterdir()), [])

    def test_an_output_that_fails(self) -> None:
        ran = run(["sh", "-c", 'exec "$0" "$@" > /dev/full', REPORT, *HUB, self.output])
        self.assertEqual(ran, Ran(5, b"", b"sink fault\n"))


if __name__ == "__main__":
    unittest.main()
