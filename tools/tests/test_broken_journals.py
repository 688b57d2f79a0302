"""Broken journals and failing calls to the program that was built: what docs/FORMATS.md and docs/OPERATIONS.md say, worked out by hand."""

import unittest
from pathlib import Path

from running import EXAMPLES, Ran, run
from test_refusals import Refused

ROSTER = EXAMPLES / "roster.csv"
RECORD = bytes.fromhex("19000000 00000000 0141 01 0141 0142 0150 0a00000000000000 ea070302 00")
"""A's `TRADE A B P 10 2026-03-02` from seat 0, without a moment: its length, itself, and the closed gate behind it."""
SLOTTED = bytes.fromhex("4f54434a524e4c43 00 1900000000000000 0000000000000000 00000000 01") + RECORD
PLAIN = bytes.fromhex("4f54434a524e4c31 01") + RECORD
TURN = bytes.fromhex("01 08000000") + b"MOMENTS2\0"

NOTHING = Ran(0, b"member A 0\nmember B 0\nmember C 0\nend 0\n", b"")
TRADE = b"trade 1 A B P 10 2026-03-02 alleged -\n"
ONE = Ran(0, b"member A 1\n" + TRADE + b"member B 1\n" + TRADE + b"member C 0\nend 1\n", b"")

CUTS: list[tuple[bytes, int, int, int]] = [(SLOTTED, 30, 29, 60), (PLAIN, 9, 8, 39)]
"""A file; up to which size it holds nothing; the gate that is damaged then; its whole size."""


def damaged(at: int) -> Ran:
    return Ran(7, b"", b"damaged at %d\n" % at)


def due(size: int, short: int, gate: int, whole: int) -> Ran:
    """What is told of the front of a file with one record: with one byte too few, the gate behind the record is due at the end."""
    if size <= short:
        return NOTHING
    return ONE if size == whole else damaged(size if size == whole - 1 else gate)


class Broken(Refused):
    def replay(self, journal: Path) -> Ran:
        return run([self.program, "replay", ROSTER, journal])

    def test_each_front_of_a_file(self) -> None:
        for file, short, gate, whole in CUTS:
            self.assertEqual(len(file), whole)
            for size in range(whole + 1):
                with self.subTest(begins=file[:8], size=size):
                    self.journal.write_bytes(file[:size])
                    self.assertEqual(self.replay(self.journal), due(size, short, gate, whole))
                    self.assertEqual(self.journal.read_bytes(), file[:size])

    def opened(self, call: int) -> Ran:
        """A script without lines, whose call to the journal with this number fails."""
        environ = {"LD_PRELOAD": str(self.library), "REFUSE_DISK": str(call), "REFUSED": str(self.folder / "refused")}
        return run(["env", *[f"{name}={value}" for name, value in environ.items()], self.program, "script", ROSTER, self.journal])

    def test_each_call_of_an_opening_fails(self) -> None:
        """Opened again, the journal has what it had; it is turned where the first call of the turn's four was done."""
        turned = PLAIN[:-1] + TURN
        fails = 0
        while fails < 100:
            self.journal.write_bytes(PLAIN)
            (self.folder / "refused").unlink(missing_ok=True)
            told = self.opened(fails + 1)
            if not (self.folder / "refused").exists():
                break
            fails += 1
            with self.subTest(call=fails):
                self.assertEqual(told, Ran(6, b"", b"disk fault\n"))
                left = self.journal.read_bytes()
                self.assertEqual(left[:38], PLAIN[:38])
                self.assertEqual(self.replay(self.journal), ONE)
                self.assertEqual(run([self.program, "script", ROSTER, self.journal]), Ran(0, b"", b""))
                self.assertEqual((self.replay(self.journal), self.journal.read_bytes()), (ONE, turned))
        self.assertEqual((told, self.journal.read_bytes()), (Ran(0, b"", b""), turned))
        self.assertGreaterEqual(fails, 9)

    def test_lines_of_bytes_that_are_no_text(self) -> None:
        bad = b"no 0 3 bad-line 0\n"
        for line in [b"\0", b"\xff", b"\xff\xff\xff", b"\0" * 4096, b"\xff" * 4096, b"\0\r"]:
            for end in [b"\n", b""] if not line.endswith(b"\r") else [b"\n"]:
                with self.subTest(line=line[:4], size=len(line), end=end):
                    told = run([self.program, "script", ROSTER, self.folder / "other"], line + end)
                    self.assertEqual(told, Ran(0, bad, b""))


if __name__ == "__main__":
    unittest.main()
