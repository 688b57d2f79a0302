"""A copy of a journal that is put in place: what it needs, what is kept, and what is refused."""

import os
import re
import shutil
import tempfile
import unittest
from pathlib import Path

from running import EXAMPLES, ROOT, TOOLS, Ran, program, run
from test_journal import ONE

RESTORE = TOOLS / "restore"
ROSTER = EXAMPLES / "roster.csv"
FIRST_DAY = (EXAMPLES / "first-trades.session").read_bytes()
LATER_DAY = b"HELLO A KA\nTRADE A B P 5 2026-03-02\n"
MOMENT = r"\d{8}T\d{6}Z"


class Restore(unittest.TestCase):
    def setUp(self) -> None:
        folder = tempfile.TemporaryDirectory()
        self.addCleanup(folder.cleanup)
        self.folder = Path(folder.name)
        self.state, self.settings, self.copy = (self.folder / name for name in ("state", "settings", "copy"))
        self.journal, self.roster = self.state / "journal", self.settings / "roster.csv"
        self.script(self.copy, FIRST_DAY)

    def script(self, journal: Path, lines: bytes) -> None:
        """Has a session make changes in a journal."""
        journal.parent.mkdir(exist_ok=True)
        self.assertEqual(run([program(), "script", ROSTER, journal], lines).status, 0)

    def market(self) -> None:
        """A service's folders, with a journal of three changes."""
        self.settings.mkdir()
        shutil.copyfile(ROSTER, self.roster)
        self.script(self.journal, FIRST_DAY + LATER_DAY)

    def restore(self, *words: str | Path) -> Ran:
        return run([RESTORE, "--state", self.state, "--settings", self.settings, "--program", program(), *words])

    def files(self) -> dict[str, bytes]:
        return {str(path.relative_to(self.folder)): path.read_bytes() for path in self.folder.rglob("*") if path.is_file()}

    def test_over_another(self) -> None:
        """The copy is the journal then, and what was there is kept, with its position."""
        self.market()
        before, copy = self.journal.read_bytes(), self.copy.read_bytes()
        ran = self.restore(self.copy)
        self.assertRegex(ran.output.decode(), rf"\A{self.journal}: position 2; before: {self.journal}.before-{MOMENT}, position 3\n\Z")
        (kept,) = self.state.glob("journal.before-*")
        self.assertEqual((self.journal.read_bytes(), kept.read_bytes(), ran.errors), (copy, before, b""))
        self.assertEqual(sorted(path.name for path in self.state.iterdir()), sorted(["journal", kept.name]))

    def test_on_a_new_machine(self) -> None:
        """Both folders are made, and both files are their owner's alone."""
        ran = self.restore("--roster", ROSTER, self.copy)
        self.assertEqual(ran, Ran(0, f"{self.roster}: {ROSTER}\n{self.journal}: position 2\n".encode(), b""))
        self.assertEqual((self.journal.read_bytes(), self.roster.read_bytes()), (self.copy.read_bytes(), ROSTER.read_bytes()))
        self.assertEqual([path.stat().st_mode & 0o777 for path in (self.journal, self.roster, self.state)], [0o600, 0o600, 0o700])

    def test_a_roster_is_kept_too(self) -> None:
        self.market()
        other = self.folder / "other.csv"
        other.write_text(ROSTER.read_text().replace("KA", "KX"))
        self.roster.chmod(0o640)
        ran = self.restore("--roster", other, self.copy)
        self.assertRegex(ran.output.decode(), rf"\A{self.roster}: {other}; before: {self.roster}.before-{MOMENT}\n{self.journal}: ")
        (kept,) = self.settings.glob("roster.csv.before-*")
        self.assertEqual((self.roster.read_bytes(), kept.read_bytes()), (other.read_bytes(), ROSTER.read_bytes()))
        self.assertEqual(self.roster.stat().st_mode & 0o777, 0o640)

    def test_the_owner_is_the_folders(self) -> None:
        if os.geteuid() != 0:
            self.skipTest("root alone gives files away")
        self.market()
        os.chown(self.state, 7001, 7002)
        self.copy.chmod(0o644)
        self.assertEqual(self.restore(self.copy).status, 0)
        found = self.journal.stat()
        self.assertEqual((found.st_uid, found.st_gid, found.st_mode & 0o777), (7001, 7002, 0o600))

    def test_a_seed(self) -> None:
        """It stands beside the journal's place, and the journal that was there has another name."""
        self.market()
        shutil.copyfile(self.journal, self.copy)
        before = self.journal.read_bytes()
        self.assertEqual(self.restore("--seed", self.copy).status, 0)
        self.assertTrue(run([program(), "replay", ROSTER, self.state / "seed"]).output.endswith(b"end 3\n"))
        self.assertEqual([path.read_bytes() for path in self.state.glob("journal*")], [before])
        self.assertFalse(self.journal.exists())

    def test_what_is_refused(self) -> None:
        """With the file and the reason; all files are as they were."""
        self.market()
        names = {name: self.folder / name for name in ("none", "empty", "flipped", "folder", "short.csv", "bad.csv", "others.csv", "liar")}
        names["empty"].write_bytes(b"")
        flipped = bytearray(self.copy.read_bytes())
        flipped[-2] ^= 1
        names["flipped"].write_bytes(ONE[:-1])
        names["folder"].mkdir()
        names["bad.csv"].write_text("name,role,key\nA\n")
        names["others.csv"].write_text(ROSTER.read_text().replace("A,dealer,KA\n", ""))
        names["liar"].write_text("#!/bin/sh\necho end 7\n")
        names["liar"].chmod(0o755)
        cases: list[tuple[list[str | Path], int, str]] = [
            ([names["none"]], 11, f"{names['none']}: No such file or directory"),
            ([names["folder"]], 11, f"{names['folder']}: Is a directory"),
            ([names["empty"]], 7, f"{names['empty']}: no journal: it has no change"),
            ([names["flipped"]], 7, f"{names['flipped']}: damaged at {len(ONE) - 1}: a gate is due, and the file ends"),
            (["--roster", names["none"], self.copy], 11, f"{names['none']}: No such file or directory"),
            (["--roster", names["bad.csv"], self.copy], 3, f"{names['bad.csv']}: roster row 2: column"),
            (["--roster", names["others.csv"], self.copy], 7, f"{self.copy}: damaged at "),
            (["--program", names["liar"], self.copy], 20, f"{self.copy}: the program replays another history"),
        ]
        before = self.files()
        for words, status, line in cases:
            with self.subTest(line):
                own: list[str | Path] = [] if "--program" in words else ["--program", program()]
                ran = run([RESTORE, "--state", self.state, "--settings", self.settings, *own, *words])
                self.assertEqual((ran.status, ran.output, ran.errors.decode()[: len(line)]), (status, b"", line))
                self.assertEqual(self.files(), before)

    def test_one_that_somebody_has(self) -> None:
        self.market()
        before = self.files()
        import fcntl

        with open(self.journal, "rb") as file:
            fcntl.flock(file, fcntl.LOCK_EX)
            ran = self.restore(self.copy)
        self.assertEqual(ran, Ran(6, b"", f"{self.journal} is in use\n".encode()))
        self.assertEqual(self.files(), before)

    def test_words(self) -> None:
        cases: list[list[str]] = [[], ["a", "b"], ["--roster"], ["--seed", "--seed", "a"], ["--state", "a", "--state", "b", "c"], ["--nothing", "a"]]
        for words in cases:
            with self.subTest(words=words):
                self.assertEqual(run([RESTORE, *words]), Ran(2, b"", b"bad words\n"))


if __name__ == "__main__":
    unittest.main()
