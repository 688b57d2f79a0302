"""A journal without room for all that is asked: each change that has none is refused, and the others are kept.

One that is full in an open cycle is rolled with --cancel, and its market goes on.
"""

import tempfile
import unittest
from pathlib import Path

from running import EXAMPLES, TOOLS, Ran, program, run

ROSTER = EXAMPLES / "roster.csv"
MOST = 268_435_456
"""The bytes that a journal has at most."""
FRONT = b"OTCJRNLC\0"
BODY = bytes(4) + b"\x01\x08\0\0\0MOMENTS2\0"
"""A turned body without a change."""
DAY = "2026-03-02"
BEFORE = f"HELLO A KA\nTRADE A B P 10 {DAY}\nTRADE A B P 20 {DAY}\nHELLO B KB\n"
TOLD_BEFORE = "ok 0 hello A\nok 1 trade 1\nok 2 trade 2\nok 2 hello B\n"
TRADE = 38
FREEZE = 26
"""The bytes of the records of a TRADE and of a FREEZE with their frames. Each other one here has 28."""
LINES = f"AFFIRM 1\nHOLD 1\nNETS P\nTRADE B C P 5 {DAY}\nAFFIRM 2\nFREE 1\nNETS P\n"


def full(left: int) -> str:
    return f"25 journal-full {MOST - left}"


ALLEGED = "12 wrong-trade-state alleged"
MADE = ["ok 3 live 1", "ok 4 held 1", "ok 4 nets 0 10 -10"]
CASES = {
    27: (27, [f"no 2 {full(27)}", f"no 2 {ALLEGED}", "ok 2 nets 0 0 0", f"no 2 {full(27)}", f"no 2 {full(27)}", f"no 2 {ALLEGED}", "ok 2 nets 0 0 0"]),
    56: (0, [*MADE, f"no 4 {full(0)}", f"no 4 {full(0)}", f"no 4 {full(0)}", "ok 4 nets 0 10 -10"]),
    93: (9, [*MADE, f"no 4 {full(37)}", "ok 5 live 2", f"no 5 {full(9)}", "ok 5 nets 0 30 -30"]),
    94: (0, [*MADE, "ok 5 trade 3", f"no 5 {full(0)}", f"no 5 {full(0)}", "ok 5 nets 0 10 -10"]),
    149: (27, [*MADE, "ok 5 trade 3", "ok 6 live 2", f"no 6 {full(27)}", "ok 6 nets 0 30 -30"]),
    150: (0, [*MADE, "ok 5 trade 3", "ok 6 live 2", "ok 7 freed 1", "ok 7 nets 0 30 -30"]),
}
"""The room that B's lines have, the room that they leave, and what they are told."""


class OfFullJournals(unittest.TestCase):
    def setUp(self) -> None:
        folder = tempfile.TemporaryDirectory()
        self.addCleanup(folder.cleanup)
        self.journal = Path(folder.name) / "journal"
        self.program = program()

    def told(self, lines: str) -> Ran:
        return run([self.program, "script", ROSTER, self.journal], lines.encode())

    def begin(self, place: int, body: bytes) -> None:
        """A journal whose body is at this place. Before it are zeros that the file does not have."""
        with self.journal.open("wb") as file:
            file.write(FRONT + place.to_bytes(8, "little") + bytes(8))
            file.seek(place)
            file.write(body)


class FullJournal(OfFullJournals):
    def test_what_has_no_room_is_refused_and_the_rest_is_kept(self) -> None:
        for room, (left, replies) in CASES.items():
            with self.subTest(room=room):
                place = MOST - room - 2 * TRADE - len(BODY)
                self.begin(place, BODY)
                due = TOLD_BEFORE + "".join(reply + "\n" for reply in replies)
                self.assertEqual(self.told(BEFORE + LINES), Ran(0, due.encode(), b""))
                self.assertEqual(self.journal.stat().st_size, MOST - left)
                with self.journal.open("rb") as file:
                    file.seek(place)
                    body = file.read()
                self.begin(25, body)
                last = replies[-1]
                self.assertEqual(self.told("HELLO B KB\nNETS P\n"), Ran(0, f"ok {last.split()[1]} hello B\n{last}\n".encode(), b""))


STUCK = "HELLO OPS KO\nFREEZE 2026-03-31\nCANCEL 1\nHELLO A KA\nEND 1\n"
"""In a journal with room for the FREEZE alone, nothing is left that could be done."""
TOLD_STUCK = f"ok 2 hello OPS\nok 3 frozen 1 0\nno 3 {full(0)}\nok 3 hello A\nno 3 {full(0)}\n"


class StuckCycle(OfFullJournals):
    def test_a_full_journal_with_an_open_cycle_is_rolled(self) -> None:
        self.begin(MOST - FREEZE - 2 * TRADE - len(BODY), BODY)
        self.assertEqual(self.told(BEFORE + STUCK), Ran(0, (TOLD_BEFORE + TOLD_STUCK).encode(), b""))
        self.assertEqual(self.told("HELLO OPS KO\nCANCEL 1\n"), Ran(0, f"ok 3 hello OPS\nno 3 {full(0)}\n".encode(), b""))
        new = self.journal.parent / "new"
        words: list[str | Path] = [TOOLS / "roll", "--program", self.program, ROSTER, self.journal, ROSTER, new]
        self.assertEqual(run(words), Ran(15, b"", b"cannot roll: a cycle is open\n"))
        self.assertEqual(run([*words, "--cancel"]), Ran(0, b"position 5: trades 2, settings 0; trades left out 0\n", b""))
        self.journal = new
        due = "ok 5 hello B\nok 6 live 1\nok 6 hello OPS\nok 7 frozen 2 1\n"
        self.assertEqual(self.told("HELLO B KB\nAFFIRM 1\nHELLO OPS KO\nFREEZE 2026-03-31\n"), Ran(0, due.encode(), b""))


if __name__ == "__main__":
    unittest.main()
