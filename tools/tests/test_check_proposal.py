"""The second checker: by cases worked out by hand, and beside the program to the byte."""

import os
import re
import subprocess
import tempfile
import unittest
from pathlib import Path

import faulty_files as files
from markets import Market, changed, market
from running import EXAMPLES, ROOT, TOOLS, Ran, program, run

CHECKER = TOOLS / "check_proposal"
MARKETS = 3
"""How many markets are solved, and their proposals made wrong in each way."""


def checks_of_the_theory() -> list[tuple[list[str], Ran]]:
    """The words of each check that docs/THEORY.md shows, and what it says is answered."""
    shown = re.findall(r"^\$ compress_cli check (.+)\n(.+\n)", (ROOT / "docs/THEORY.md").read_text(), re.M)
    checks = []
    for words, answer in shown:
        found = [str(ROOT / word) if "/" in word else word for word in words.split()]
        checks.append((found, Ran(0 if answer == "yes\n" else 1, answer.encode(), b"")))
    return checks


def line(text: bytes) -> bytes:
    return text + b"\n" if text else b""


class Folder(unittest.TestCase):
    """Tests in a folder of their own."""

    def setUp(self) -> None:
        folder = tempfile.TemporaryDirectory()
        self.addCleanup(folder.cleanup)
        self.folder = Path(folder.name)

    def write(
        self, roster: bytes = files.ROSTER, trades: bytes = files.TRADES, proposal: bytes = files.PROPOSAL
    ) -> None:
        for name, text in (("roster", roster), ("trades", trades), ("proposal", proposal)):
            (self.folder / name).write_bytes(text)

    def check(self, *words: str) -> Ran:
        return run([CHECKER, *words], folder=self.folder)


class ByHand(Folder):
    def test_answers_and_faults_of_proposals(self) -> None:
        for proposal, mode, status, answer, error in files.LINES:
            with self.subTest(proposal=proposal[:200], mode=mode):
                self.write(proposal=proposal)
                self.assertEqual(
                    self.check("roster", "trades", mode, "proposal"), Ran(status, line(answer), line(error))
                )

    def test_faults_of_rosters(self) -> None:
        for roster, error in files.ROSTER_FAULTS:
            with self.subTest(roster=roster[-60:]):
                self.write(roster=roster)
                self.assertEqual(self.check("roster", "none", "hybrid", "none"), Ran(3, b"", line(error)))

    def test_faults_of_trade_files(self) -> None:
        for trades, error in files.TRADE_FAULTS:
            with self.subTest(trades=trades[-60:]):
                self.write(trades=trades)
                self.assertEqual(self.check("roster", "trades", "hybrid", "none"), Ran(3, b"", line(error)))

    def test_forms_of_the_same_files(self) -> None:
        for roster, trades in files.RIGHT:
            with self.subTest(roster=roster, trades=trades):
                self.write(roster, trades)
                self.assertEqual(self.check("roster", "trades", "conservative", "proposal"), Ran(0, b"yes\n", b""))

    def test_most_of_all(self) -> None:
        self.write(trades=files.filled(100_000, 1))
        ran = self.check("roster", "trades", "hybrid", "proposal")
        self.assertEqual(ran, Ran(1, b"no P above B C\n", b""))

    def test_words_that_are_bad(self) -> None:
        self.write()
        right = ["roster", "trades", "hybrid", "proposal"]
        bad: list[list[str]] = [[], right[:3], [*right, "x"], ["roster", "trades", "Hybrid", "proposal"], ["roster", "trades", "loose", "proposal"]]
        bad += [[*right[:at], "-" + right[at], *right[at + 1 :]] for at in range(4)]
        for words in bad:
            with self.subTest(words=words):
                self.assertEqual(self.check(*words), Ran(2, b"", b"bad words\n"))
        ran = run([CHECKER, "roster", "trades", "hybrid", b"\xff"], folder=self.folder)
        self.assertEqual(ran, Ran(2, b"", b"bad words\n"))

    def test_files_that_cannot_be_read(self) -> None:
        self.write(trades=b"")
        for words in (["none", "trades", "hybrid", "x"], [".", "trades", "hybrid", "x"], ["", "trades", "hybrid", "x"]):
            with self.subTest(words=words):
                self.assertEqual(self.check(*words), Ran(11, b"", b"file fault\n"))
        self.assertEqual(self.check("roster", "trades", "hybrid", "none"), Ran(3, b"", b"trades row 1: columns\n"))

    def test_output_that_fails(self) -> None:
        self.write()
        with open("/dev/full", "wb") as full:
            words = [str(CHECKER), "roster", "trades", "hybrid", "proposal"]
            done = subprocess.run(words, cwd=self.folder, stdout=full, stderr=subprocess.PIPE)
        self.assertEqual((done.returncode, done.stderr), (5, b"sink fault\n"))
        reader, writer = os.pipe()
        os.close(reader)
        done = subprocess.run(words, cwd=self.folder, stdout=writer, stderr=subprocess.PIPE)
        os.close(writer)
        self.assertEqual((done.returncode, done.stderr), (5, b"sink fault\n"))

    def test_examples(self) -> None:
        for market, mode, status, answer in [
            ("hub", "hybrid", 0, b"yes\n"),
            ("hub", "conservative", 1, b"no P above A B\n"),
            ("customer", "free", 0, b"yes\n"),
            ("customer", "hybrid", 1, b"no P above A C\n"),
        ]:
            names = [str(EXAMPLES / f"{market}-{name}") for name in ("roster.csv", "trades.csv", "proposal.txt")]
            self.assertEqual(self.check(*names[:2], mode, names[2]), Ran(status, answer, b""))

    def test_example_of_the_theory(self) -> None:
        checks = checks_of_the_theory()
        self.assertEqual([answer.status for _, answer in checks], [0, 0, 0, 1, 1])
        for words, answer in checks:
            with self.subTest(words=words[2:]):
                self.assertEqual(self.check(*words), answer)

    def test_length(self) -> None:
        """An auditor reads one short file, which stands on Python's library alone."""
        text = (TOOLS / "delkwoan/checker.py").read_text()
        self.assertLess(len(text.splitlines()), 300)
        self.assertNotRegex(text, r"(?m)^(from|import) +(\.|delkwoan)")


class BesideTheProgram(Folder):
    def setUp(self) -> None:
        super().setUp()
        self.program = program()

    def assert_same(self, *words: str) -> Ran:
        theirs = run([self.program, "check", *words], folder=self.folder)
        self.assertEqual(self.check(*words), theirs)
        return theirs

    def test_example_of_the_theory(self) -> None:
        for words, answer in checks_of_the_theory():
            with self.subTest(words=words[2:]):
                self.assertEqual(self.assert_same(*words), answer)

    def test_solved_markets_and_their_wrong_proposals(self) -> None:
        told: dict[int, int] = {}
        for number in range(MARKETS):
            made = market(number)
            self.write(made.roster, made.trades)
            solved = run([self.program, "solve", "roster", "trades", made.mode], folder=self.folder)
            self.assertEqual((solved.status, solved.errors), (0, b""))
            for name, proposal in changed(number, solved.output):
                (self.folder / "proposal").write_bytes(proposal)
                with self.subTest(market=number, change=name):
                    ran = self.assert_same("roster", "trades", made.mode, "proposal")
                    told[ran.status] = told.get(ran.status, 0) + 1
                    if name == "nothing":
                        self.assertEqual(ran, Ran(0, b"yes\n", b""))
        self.assertEqual(set(told), {0, 1, 3})

    def test_cases_by_hand(self) -> None:
        for proposal, mode, *_ in files.LINES:
            with self.subTest(proposal=proposal[:200], mode=mode):
                self.write(proposal=proposal)
                self.assert_same("roster", "trades", mode, "proposal")
        for roster, _ in files.ROSTER_FAULTS:
            with self.subTest(roster=roster[-60:]):
                self.write(roster=roster)
                self.assert_same("roster", "trades", "hybrid", "proposal")
        for trades, _ in files.TRADE_FAULTS:
            with self.subTest(trades=trades[-60:]):
                self.write(trades=trades)
                self.assert_same("roster", "trades", "hybrid", "proposal")
        for roster, trades in files.RIGHT:
            with self.subTest(roster=roster, trades=trades):
                self.write(roster, trades)
                self.assert_same("roster", "trades", "conservative", "proposal")

    def test_words_and_files(self) -> None:
        self.write()
        cases: list[list[str]] = [
            [],
            ["roster", "trades", "hybrid"],
            ["roster", "trades", "hybrid", "proposal", "x"],
            ["roster", "trades", "free", "proposal"],
            ["roster", "trades", "hybrid", "-proposal"],
            ["none", "trades", "hybrid", "proposal"],
            ["roster", "none", "hybrid", "proposal"],
            ["roster", "trades", "hybrid", "none"],
            [".", "trades", "hybrid", "proposal"],
            ["", "trades", "hybrid", "proposal"],
            ["roster", "proposal", "hybrid", "none"],
        ]
        for words in cases:
            with self.subTest(words=words):
                self.assert_same(*words)
        theirs = run([self.program, "check", "roster", "trades", "hybrid", b"\xff"], folder=self.folder)
        self.assertEqual(run([CHECKER, "roster", "trades", "hybrid", b"\xff"], folder=self.folder), theirs)

    def test_a_solved_market_of_the_most_members(self) -> None:
        rows = [f"M{at},{'dealer' if at < 64 else 'customer'},K" for at in range(256)]
        trades = [f"M{at * 7 % 256},M{(at * 7 + 1 + at % 90) % 256},P,{1 + at % 1000}" for at in range(5000)]
        made = Market(
            "\n".join(["name,role,key", *rows, "P,product,2031-06-30", ""]).encode(),
            "\n".join(["seller,buyer,product,amount", *trades, ""]).encode(),
            "hybrid",
        )
        self.write(made.roster, made.trades)
        solved = run([self.program, "solve", "roster", "trades", made.mode], folder=self.folder)
        (self.folder / "proposal").write_bytes(solved.output)
        self.assertEqual(self.assert_same("roster", "trades", made.mode, "proposal"), Ran(0, b"yes\n", b""))


if __name__ == "__main__":
    unittest.main()
