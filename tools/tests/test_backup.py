"""Backups beside a service: what they have, what is found in them, and what is put in place again."""

import fcntl
import re
import shutil
import subprocess
import sys
import tempfile
import unittest
from pathlib import Path

from running import EXAMPLES, TOOLS, Ran, program, run

sys.path.insert(0, str(TOOLS))

from delkwoan.copies import backup_in
from delkwoan.ending import Stop

ROSTER = EXAMPLES / "roster.csv"
FIRST_DAY = (EXAMPLES / "first-trades.session").read_bytes()
NAMES = ["SHA256SUMS", "journal", "position", "roster.csv"]


class Backups(unittest.TestCase):
    def setUp(self) -> None:
        folder = tempfile.TemporaryDirectory()
        self.addCleanup(folder.cleanup)
        self.folder = Path(folder.name)
        self.journal, self.backups = self.folder / "journal", self.folder / "backups"
        self.trade(FIRST_DAY)

    def trade(self, lines: bytes = b"HELLO A KA\nTRADE A B P 5 2026-03-02\n") -> None:
        """Has a session make changes in the journal."""
        self.assertEqual(run([program(), "script", ROSTER, self.journal], lines).status, 0)

    def backup(self, *words: str | Path, journal: Path | None = None) -> Ran:
        own: list[str | Path] = ["--roster", ROSTER, "--journal", journal or self.journal, "--program", program()]
        return run([TOOLS / "backup", *own, *words, self.backups])

    def made(self, name: str) -> Path:
        """A backup of the journal as it is, by a name of the form that backups have."""
        ran = self.backup()
        self.assertEqual(ran.status, 0, ran.errors)
        made = Path(ran.output.decode().split(": ")[0])
        return made.rename(self.backups / name)

    def verify(self, place: Path | None = None) -> Ran:
        return run([TOOLS / "verify", "--program", program(), place or self.backups])

    def test_what_a_backup_has(self) -> None:
        """Beside a program that has the journal: its bytes, its roster and its position, readable by nobody else."""
        with open(self.journal, "rb") as held:
            fcntl.flock(held, fcntl.LOCK_EX)
            ran = self.backup()
        (made,) = self.backups.iterdir()
        self.assertEqual(ran, Ran(0, f"{made}: position 2\n".encode(), b""))
        self.assertTrue(re.fullmatch(r"\d{8}T\d{6}Z", made.name))
        self.assertEqual(sorted(path.name for path in made.iterdir()), NAMES)
        found = [(made / name).read_bytes() for name in NAMES[1:]]
        self.assertEqual(found, [self.journal.read_bytes(), b"2\n", ROSTER.read_bytes()])
        self.assertEqual({path.stat().st_mode & 0o777 for path in made.iterdir()} | {made.stat().st_mode & 0o777}, {0o600, 0o700})
        if shutil.which("sha256sum"):
            self.assertEqual(run(["sha256sum", "--check", "--quiet", "SHA256SUMS"], folder=made), Ran(0, b"", b""))
        self.assertEqual(self.verify(), Ran(0, f"{made}: position 2\n".encode(), b""))

    def test_each_flipped_bit_is_found(self) -> None:
        made = self.made("20260101T000000Z")
        flips = 0
        for name in NAMES[1:]:
            content = (made / name).read_bytes()
            for bit in range(8 * len(content)):
                flipped = bytearray(content)
                flipped[bit // 8] ^= 1 << bit % 8
                (made / name).write_bytes(flipped)
                with self.assertRaisesRegex(Stop, f"{name}: its SHA-256 is not the one in SHA256SUMS"):
                    backup_in(made)
                flips += 1
            (made / name).write_bytes(content)
        self.assertEqual(flips, 8 * sum((made / name).stat().st_size for name in NAMES[1:]))
        backup_in(made)

    def test_what_is_found(self) -> None:
        """A missing file, a changed one, an older copy in a newer one's place, and another market's journal or roster."""
        older = self.made("20260101T000000Z")
        self.trade()
        newer = self.made("20260102T000000Z")
        good = f"{older}: position 2\n"
        self.assertEqual(self.verify(), Ran(0, f"{good}{newer}: position 3\n".encode(), b""))
        cases = [
            ("rm {newer}/journal", 11, "{newer}/journal: No such file or directory"),
            ("rm {newer}/SHA256SUMS", 11, "{newer}/SHA256SUMS: No such file or directory"),
            ("cp {older}/journal {older}/position {newer}", 7, "{newer}/journal: its SHA-256 is not the one in SHA256SUMS"),
            ("cp {older}/journal {newer}/journal", 7, "{newer}/journal: its SHA-256 is not the one in SHA256SUMS"),
            ("rm -r {newer}; cp -r {older} {newer}; mv {older} {older}x; cp -r {kept} {older}", 7, "{newer}: its position is 2, and that of the backup before it 3"),
            ("cd {newer}; sed -i /^A,/d roster.csv; sha256sum journal roster.csv position > SHA256SUMS", 7, "{newer}/journal: damaged at "),
            ("cd {newer}; echo 9 > position; sha256sum journal roster.csv position > SHA256SUMS", 7, "{newer}/journal: its position is 3, and not 9"),
        ]
        kept = self.folder / "kept"
        shutil.copytree(newer, kept)
        saved = self.folder / "saved"
        shutil.copytree(self.backups, saved)
        for change, status, line in cases:
            with self.subTest(change):
                names = {"older": older, "newer": newer, "kept": kept}
                subprocess.run(["sh", "-ec", change.format(**names)], check=True)
                ran = self.verify()
                self.assertEqual(ran.status, status)
                self.assertIn(f"1 of 2 backups have a fault; the first: {line.format(**names)}", ran.errors.decode())
                shutil.rmtree(self.backups)
                shutil.copytree(saved, self.backups)

    def test_what_is_not_copied(self) -> None:
        """With the file and the reason, and no backup is there after it."""
        empty, damaged = self.folder / "empty", self.folder / "damaged"
        empty.write_bytes(b"")
        damaged.write_bytes(self.journal.read_bytes()[:-3])
        cases = [(self.folder / "none", 11, "No such file or directory"), (empty, 7, "no journal: it has no change"), (damaged, 7, "damaged at ")]
        for journal, status, reason in cases:
            with self.subTest(reason):
                ran = self.backup(journal=journal)
                self.assertEqual((ran.status, ran.output), (status, b""))
                self.assertIn(f"{journal}: {reason}", ran.errors.decode())
                self.assertEqual([*self.backups.glob("*")], [])
        self.assertEqual(self.verify(), Ran(11, b"", f"{self.backups}: No such file or directory\n".encode()))
        self.backups.mkdir()
        self.assertEqual(self.verify(), Ran(11, b"", f"{self.backups}: no backup\n".encode()))

    def test_an_older_journal_is_not_copied(self) -> None:
        """As it would be if a service were started over an older copy by mistake."""
        older = self.folder / "older"
        shutil.copyfile(self.journal, older)
        self.trade()
        self.made("20260101T000000Z")
        ran = self.backup(journal=older)
        line = f"{older}: its position is 2, and that of the newest backup 3: it is an older or another market's\n"
        self.assertEqual(ran, Ran(7, b"", line.encode()))

    def test_old_ones_are_thinned_out(self) -> None:
        for day in (1, 2, 3):
            self.made(f"2026010{day}T000000Z")
        other = self.backups / "notes"
        other.write_text("of a person")
        ran = self.backup("--keep", "2")
        self.assertTrue(ran.output.endswith(b": position 2; removed 2\n"), ran)
        left = sorted(path.name for path in self.backups.iterdir())
        self.assertEqual((left[0], left[2], len(left)), ("20260103T000000Z", "notes", 3))

    def test_it_is_put_in_place(self) -> None:
        """With the roster of the backup; and not if a file was changed."""
        made = self.made("20260101T000000Z")
        state, settings = self.folder / "state", self.folder / "settings"
        words: list[str | Path] = [TOOLS / "restore", "--state", state, "--settings", settings, "--program", program(), made]
        with open(made / "position", "ab") as file:
            file.write(b" ")
        self.assertEqual(run(words), Ran(7, b"", f"{made}/position: its SHA-256 is not the one in SHA256SUMS\n".encode()))
        (made / "position").write_bytes(b"2\n")
        self.assertEqual(run(words).status, 0)
        self.assertEqual(((state / "journal").read_bytes(), (settings / "roster.csv").read_bytes()), (self.journal.read_bytes(), ROSTER.read_bytes()))

    def test_words(self) -> None:
        bad: dict[str, list[list[str]]] = {
            "backup": [[], ["a", "b"], ["--keep", "0", "a"], ["--keep", "x", "a"], ["--keep", "1"]],
            "verify": [[], ["a", "b"], ["--keep", "1", "a"]],
        }
        for tool, cases in bad.items():
            for words in cases:
                with self.subTest(tool=tool, words=words):
                    self.assertEqual(run([TOOLS / tool, *words]), Ran(2, b"", b"bad words\n"))


if __name__ == "__main__":
    unittest.main()
