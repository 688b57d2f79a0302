"""Trying wrong bodies, over a small tree and with a prover that a script stands for."""

import os
import shutil
import signal
import subprocess
import sys
import tempfile
import unittest
from pathlib import Path

from running import PATIENCE, TOOLS, Ran

# It refuses an edit whose name begins with `wrong`, and says what it was given.
PROVER = """#!/bin/sh
[ "$1" = must-fail ] || exit 3
echo "kept: $(cd crates && ls -d */out/* | tr '\\n' ' ')"
status=0
for edit in crates/"$2"/must-fail/*.edit; do
    case "$edit" in
    */wrong*) echo "rt: must-fail $2/${edit##*/}: refused, as it must be: src/lib.rt" ;;
    */slow*) echo slow; exec sleep 6000 ;;
    *) echo "rt: must-fail $2/${edit##*/}: NOT REFUSED: the crate is still proved"; status=1 ;;
    esac
done
exit $status
"""

FILES = {
    "crates.txt": "# a comment\n\nlow: thiserror\nhigh: low\nbare: low\nslow: low\n",
    "HANDLES": "Handles allowed: none.\n",
    "crates/low/src/lib.rt": "",
    "crates/low/out/rlib/stamp": "",
    "crates/low/out/incremental/kept": "",
    "crates/low/wrong-bodies/wrong_sum.edit": "",
    "crates/high/out/rlib/stamp": "",
    "crates/high/out/incremental/kept": "",
    "crates/high/wrong-bodies/wrong_order.edit": "",
    "crates/high/wrong-bodies/wrong_sign.edit": "",
    "crates/high/must-fail/right.edit": "",
    "crates/bare/src/lib.rt": "",
    "crates/slow/wrong-bodies/slow.edit": "",
}

KEPT_LOW = "kept: low/out/incremental low/out/rlib \n"
KEPT_HIGH = "kept: high/out/incremental high/out/rlib low/out/rlib \n"


def refused(name: str) -> str:
    return f"rt: must-fail {name}.edit: refused, as it must be: src/lib.rt\n"


class WrongBodies(unittest.TestCase):
    def setUp(self) -> None:
        folder = tempfile.TemporaryDirectory()
        self.addCleanup(folder.cleanup)
        self.top = Path(folder.name)
        self.tree = self.top / "tree"
        for name, text in {**{f"tree/{it}": text for it, text in FILES.items()}, "bin/rt": PROVER}.items():
            (self.top / name).parent.mkdir(parents=True, exist_ok=True)
            (self.top / name).write_text(text)
        (self.top / "bin/rt").chmod(0o755)
        shutil.copytree(TOOLS / "delkwoan", self.tree / "tools/delkwoan")
        shutil.copy2(TOOLS / "crates.py", self.tree / "tools/crates.py")
        shutil.copy2(TOOLS / "wrong-bodies", self.tree / "tools/wrong-bodies")

    def start(self, *words: str, path: str | None = None) -> subprocess.Popen[bytes]:
        settings = {**os.environ, "PATH": path or f"{self.top / 'bin'}:{os.environ['PATH']}"}
        settings.pop("TMPDIR", None)
        pipe = subprocess.PIPE
        return subprocess.Popen([self.tree / "tools/wrong-bodies", *words], env=settings, stdout=pipe, stderr=pipe)

    def assert_ran(self, words: list[str], status: int, output: str, errors: str = "") -> None:
        """A run says this, and leaves the tree as it was and nothing beside it."""
        with self.subTest(words=words), self.start(*words) as tool:
            said, complained = tool.communicate(timeout=PATIENCE)
            self.assertEqual(Ran(tool.returncode, said, complained), Ran(status, output.encode(), errors.encode()))
            self.assert_clean()

    def assert_clean(self) -> None:
        self.assertEqual(sorted(it.name for it in self.top.iterdir()), ["bin", "tree"])
        files = {str(it.relative_to(self.tree)) for it in self.tree.rglob("*") if it.is_file()}
        self.assertEqual({it for it in files if not it.startswith("tools/")}, set(FILES))

    def test_a_crate(self) -> None:
        self.assert_ran(["low"], 0, KEPT_LOW + refused("low/wrong_sum") + "low: 1 of 1 refused\n")
        both = refused("high/wrong_order") + refused("high/wrong_sign")
        self.assert_ran(["high"], 0, KEPT_HIGH + both + "high: 2 of 2 refused\n")
        self.assert_ran(["bare"], 0, "0 of 0 refused\n")

    def test_one_that_is_not_refused(self) -> None:
        missed = "rt: must-fail high/right.edit: NOT REFUSED: the crate is still proved\n"
        said = KEPT_HIGH + missed + refused("high/wrong_order") + refused("high/wrong_sign") + "high: 2 of 3 refused\n"
        low = KEPT_LOW + refused("low/wrong_sum") + "low: 1 of 1 refused\n"
        self.assert_ran(["--all", "low", "high"], 1, low + said + "3 of 4 refused\n")

    def test_words(self) -> None:
        self.assert_ran(["none"], 2, "", "no crate none\n")

    def test_no_prover(self) -> None:
        bare = self.top / "bin/bare"
        bare.mkdir()
        env = shutil.which("env")
        assert env is not None
        (bare / "env").symlink_to(env)
        (bare / "python3").symlink_to(sys.executable)
        with self.start("low", path=str(bare)) as tool:
            self.assertEqual(tool.communicate(timeout=PATIENCE), (b"", b"no rt on the path\n"))
            self.assertEqual(tool.returncode, 1)
        self.assert_clean()

    def test_one_that_is_stopped(self) -> None:
        for number in (signal.SIGINT, signal.SIGTERM, signal.SIGHUP):
            with self.subTest(number=number), self.start("slow") as tool:
                assert tool.stdout is not None
                while tool.stdout.readline() != b"slow\n":
                    pass
                tool.send_signal(number)
                self.assertEqual(tool.wait(timeout=PATIENCE), 128 + number)
                self.assert_clean()


if __name__ == "__main__":
    unittest.main()
