"""Journals whose records have no moments, as the program wrote them before it knew any: each is opened with its own bytes, and turned.

`journals/chain.hex` is what `script` wrote of `examples/chain-cycle.session`, and `journals/plain.hex` what it wrote of the same session
before files had slots. `journals/folded.hex` was folded twice, and ends at its closed gate.
"""

import tempfile
import unittest
from pathlib import Path

import spelled
from running import EXAMPLES, TOOLS, Ran, program, run

ROSTER = EXAMPLES / "roster.csv"
JOURNALS = Path(__file__).resolve().parent / "journals"
TURN = bytes.fromhex("01 08000000") + spelled.TURN + b"\0"
CHAIN_GATE = 29


def kept(name: str) -> bytes:
    return bytes.fromhex((JOURNALS / f"{name}.hex").read_text())


def old_journals() -> dict[str, bytes]:
    chain = kept("chain")
    return {
        "slots": chain,
        "slots without records": chain[:CHAIN_GATE] + b"\0",
        "plain": kept("plain"),
        "plain without records": spelled.PLAIN + b"\0\0",
        "folded": kept("folded"),
    }


class Opened(unittest.TestCase):
    def setUp(self) -> None:
        self.program = program()
        folder = tempfile.TemporaryDirectory()
        self.addCleanup(folder.cleanup)
        self.journal = Path(folder.name) / "journal"

    def replay(self) -> Ran:
        return run([self.program, "replay", ROSTER, self.journal])

    def test_they_are_turned_behind_their_own_bytes(self) -> None:
        for name, old in old_journals().items():
            with self.subTest(journal=name):
                end = len(old) - (name == "plain without records")
                self.journal.write_bytes(old)
                before = self.replay()
                self.assertEqual((before.status, self.journal.read_bytes()), (0, old))
                self.assertEqual(run([self.program, "script", ROSTER, self.journal]), Ran(0, b"", b""))
                turned = old[: end - 1] + TURN
                self.assertEqual((self.replay(), self.journal.read_bytes()), (before, turned))
                self.assertEqual(run([self.program, "script", ROSTER, self.journal]), Ran(0, b"", b""))
                self.assertEqual(self.journal.read_bytes(), turned)

    def test_a_plain_file_of_no_changes_is_begun_anew(self) -> None:
        self.journal.write_bytes(spelled.PLAIN + b"\0")
        before = self.replay()
        self.assertEqual((before.status, len(self.journal.read_bytes())), (0, 9))
        self.assertEqual(run([self.program, "script", ROSTER, self.journal]), Ran(0, b"", b""))
        self.assertEqual((self.replay(), self.journal.read_bytes()), (before, kept("chain")[:CHAIN_GATE] + TURN))

    def test_both_files_of_one_session_have_the_same_records(self) -> None:
        self.assertEqual(kept("plain"), spelled.PLAIN + kept("chain")[CHAIN_GATE:])

    def test_changes_behind_the_turn_have_moments(self) -> None:
        for name, old in old_journals().items():
            with self.subTest(journal=name):
                self.journal.write_bytes(old)
                ran = run([self.program, "script", ROSTER, self.journal], b"HELLO A KA\nTOL B P out 6 -\nBYE\n")
                self.assertEqual((ran.status, ran.output.count(b"ok ")), (0, 3))
                inspected = run([TOOLS / "journal", self.journal]).output.decode().splitlines()
                self.assertIn("turn, 8 bytes", inspected[-3])
                self.assertRegex(inspected[-2], r": 20\d\d-[0-9 :-]+ UTC, seat 0, A: TOL B P out 6 -$")
                audited = run([TOOLS / "audit", ROSTER, self.journal]).output
                self.assertTrue(audited.endswith(self.replay().output))


if __name__ == "__main__":
    unittest.main()
