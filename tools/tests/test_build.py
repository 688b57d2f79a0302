"""Building with progress shown, over a small tree and with a prover that a script stands for."""

import os
import re
import shutil
import subprocess
import tempfile
import unittest
from pathlib import Path

from running import PATIENCE, TOOLS, Ran

# It begins each crate that has no library, says how far it is, and answers as the program does.
PROVER = """#!/bin/sh
[ "$1 $2 $3" = "run -- script" ] && [ -e "$4" ] && [ ! -e "$5" ] || exit 3
for name in low high compress_cli; do
    [ -e "../$name/out/rlib/stamp" ] || echo "rt: chose --jobs 2 for $name" >&2
    [ "$name" != "$FAILS" ] || { echo "fn $name::wrong: not proved" >&2; exit 1; }
    echo "so far: 1 of 2 functions checked" >&2
done
cat
"""

FILES = {
    "crates.txt": "low: thiserror\nhigh: low\ncompress_cli: high\nother: low\n",
    "crates/low/src/lib.rt": "low",
    "crates/high/src/lib.rt": "high",
    "crates/compress_cli/src/main.rt": "program",
    "crates/other/src/lib.rt": "other",
    "examples/roster.csv": "",
    "examples/first-trades.session": "HELLO A KA\n",
}

LINE = re.compile(r"(\w+), (\d) of (\d) crates, \d+%: about \d+ min left")


class Build(unittest.TestCase):
    def setUp(self) -> None:
        folder = tempfile.TemporaryDirectory()
        self.addCleanup(folder.cleanup)
        self.top = Path(folder.name)
        self.tree = self.top / "tree"
        for name, text in {**{f"tree/{it}": text for it, text in FILES.items()}, "bin/rt": PROVER}.items():
            (self.top / name).parent.mkdir(parents=True, exist_ok=True)
            (self.top / name).write_text(text)
        (self.top / "bin/rt").chmod(0o755)
        shutil.copytree(TOOLS / "delkwoan", self.tree / "tools/delkwoan")
        shutil.copy2(TOOLS / "crates.py", self.tree / "tools/crates.py")
        shutil.copy2(TOOLS / "build", self.tree / "tools/build")

    def build(self, fails: str = "") -> Ran:
        settings = {**os.environ, "PATH": f"{self.top / 'bin'}:{os.environ['PATH']}", "FAILS": fails}
        done = subprocess.run([self.tree / "tools/build"], env=settings, capture_output=True, timeout=PATIENCE)
        return Ran(done.returncode, done.stdout, done.stderr)

    def assert_shown(self, ran: Ran, crates: list[tuple[str, str, str]]) -> None:
        """The program's answer is all that is written, and each crate has a line with its place."""
        self.assertEqual((ran.status, ran.output), (0, b"HELLO A KA\n"))
        self.assertEqual([LINE.findall(line) for line in ran.errors.decode().splitlines()], [[it] for it in crates])

    def test_from_nothing(self) -> None:
        self.assert_shown(self.build(), [("low", "1", "3"), ("high", "2", "3"), ("compress_cli", "3", "3")])

    def test_over_what_was_built(self) -> None:
        kept = self.tree / "crates/low/out/rlib/stamp"
        kept.parent.mkdir(parents=True)
        kept.write_text("")
        self.assert_shown(self.build(), [("high", "1", "2"), ("compress_cli", "2", "2")])

    def test_a_proof_that_fails(self) -> None:
        ran = self.build("high")
        self.assertEqual((ran.status, ran.output), (1, b""))
        self.assertTrue(ran.errors.decode().endswith("rt: chose --jobs 2 for high\nfn high::wrong: not proved\n"))


if __name__ == "__main__":
    unittest.main()
