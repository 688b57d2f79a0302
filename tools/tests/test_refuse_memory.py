"""A program that is refused some of its requests for memory, and one that then keeps what it should not."""

import re
import shutil
import tempfile
import unittest
from pathlib import Path

from running import TOOLS, program, run

COUNTED = re.compile(r"(.+): (\d+) requests refused: (\d+) ended, (\d+) answered, (\d+) not needed; (\d+) wrong")
SESSIONS = ["first-trades", "chain-cycle", "ring-cycle"]
FORGETFUL = """#!/bin/sh
"{program}" "$@"
status=$?
[ $1 = script ] && [ "$REFUSE_MEMORY" != 0 ] && printf x >> "$3"
exit $status
"""
"""A program that leaves a byte too many in the journal of a script that was refused memory."""


class RefuseMemory(unittest.TestCase):
    def setUp(self) -> None:
        self.program = program()
        if shutil.which("cc") is None:
            self.skipTest("no cc")

    def test_what_is_refused_leaves_nothing(self) -> None:
        ran = run([TOOLS / "refuse-memory", "--every", "10", self.program])
        self.assertEqual((ran.status, ran.errors), (0, b""), ran)
        told = [COUNTED.fullmatch(line) for line in ran.output.decode().splitlines()]
        self.assertEqual([found and found[1] for found in told], [*SESSIONS, "gen 1"])
        for found in told:
            assert found is not None
            refused, ended, answered, not_needed, wrong = map(int, found.groups()[1:])
            self.assertEqual((refused, wrong), (ended + answered + not_needed, 0))
            self.assertGreater(ended, 0)
            self.assertEqual(answered > 0, found[1] in SESSIONS)

    def test_what_is_left_all_the_same_is_seen(self) -> None:
        with tempfile.TemporaryDirectory() as folder:
            forgetful = Path(folder) / "forgetful"
            forgetful.write_text(FORGETFUL.format(program=self.program))
            forgetful.chmod(0o755)
            ran = run([TOOLS / "refuse-memory", "--every", "40", forgetful])
        self.assertEqual(ran.status, 1)
        self.assertIn(b"answered, and something differs", ran.output)

    def test_words(self) -> None:
        for words in [["--every", "0"], ["--most", "x"], ["--every", "1", "--every", "1"], ["a", "b"]]:
            with self.subTest(words=words):
                ran = run([TOOLS / "refuse-memory", *words])
                self.assertEqual((ran.status, ran.output, ran.errors), (2, b"", b"bad words\n"))


if __name__ == "__main__":
    unittest.main()
