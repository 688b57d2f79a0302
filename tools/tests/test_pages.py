"""docs/check over the documents as they are, and over ones that are broken in each way that it looks for."""

import shutil
import tempfile
import unittest
from pathlib import Path

from running import ROOT, Ran, run

UNNAMED = "\n```rust\nlet unnamed = 1;\n```\n"

# What is changed in a document, and what docs/check then says. If there is no old text, the new one comes at the end.
BROKEN: list[tuple[str, str, str, str]] = [
    ("docs/LIMITS.md", "| 256, 64, 64 |", "| 256, 65, 64 |", "docs/LIMITS.md: `MOST_DEALERS` is 64, and not 65"),
    ("docs/LIMITS.md", ", `MOST_IDLE` |", " |", "docs/LIMITS.md: no limit has `MOST_IDLE`"),
    ("README.md", "64 of them dealers", "63 of them dealers", "README.md: `MOST_DEALERS` is 64, and not 63"),
    ("docs/PROVED.md", "", "\n`IsNothing`\n", "docs/PROVED.md: no definition has the document's `IsNothing`"),
    ("docs/PROTOCOL.md", "| TOL | 4, 5, 6, 7, 23 |", "| TOL | 5, 4, 6, 7, 23 |", "the order of TOL: the definitions have [4, 5, 6, 7, 23]"),
    ("docs/PROTOCOL.md", "begun | 16, 21, 17, 18 |", "begun | 21, 16, 17, 18 |", "the order of PROPOSE once its version has begun: the definitions have [16, 21, 17, 18]"),
    ("docs/PROTOCOL.md", "| `10 trades-full`", "| `30 trades-full`", "refusals: no definition has the document's `30 trades-full`"),
    ("docs/PROTOCOL.md", "`ok N bye`", "`ok N gone`", "replies: no definition has the document's `gone`"),
    ("docs/PROTOCOL.md", "ok 8 cancelled 1", "ok 9 cancelled 1", "chain-by-hand: the document's replies are not the end of"),
    ("docs/MODEL.md", "", "\n[x](NONE.md)\n", "docs/MODEL.md: nothing is at NONE.md"),
    ("docs/TOOLS.md", "", "\n[x](PROTOCOL.md#a-heading)\n", "docs/TOOLS.md: nothing is at PROTOCOL.md#a-heading"),
    ("docs/THEORY.md", "", "\n![x](pictures/none.png)\n", "docs/THEORY.md: nothing is at pictures/none.png"),
    ("docs/TRUST.md", "", "\n```\n$ tools/none roster.csv\n```\n", "docs/TRUST.md: nothing is at tools/none"),
    ("docs/STUDY.md", "", "\nSee `NONE.md`.\n", "docs/STUDY.md: nothing is at NONE.md"),
    ("crates/seats/README.md", "# seats", "# seat", "crates/seats/README.md: it does not begin with `# seats`"),
    ("crates/posting/README.md", "None => posted_plan(", "None => planned(", "crates/posting/README.md: crates/cycle_states/src/machine/commands/post.rt has no"),
    ("crates/outside/README.md", "From `crates/", "From `crate/", "crates/outside/README.md: lines of no file: 'disk.write_at"),
    ("crates/trade_file/README.md", "", UNNAMED, "crates/trade_file/README.md: lines of no file: 'let unnamed"),
]


class Pages(unittest.TestCase):
    def setUp(self) -> None:
        folder = tempfile.TemporaryDirectory()
        self.addCleanup(folder.cleanup)
        self.tree = Path(folder.name)
        shutil.copytree(ROOT / "docs", self.tree / "docs", ignore=shutil.ignore_patterns("__pycache__"))
        shutil.copy2(ROOT / "README.md", self.tree)
        self.link(ROOT, self.tree, {"crates", "docs", "README.md", ".git"})
        for crate in (ROOT / "crates").iterdir():
            copied = self.tree / "crates" / crate.name
            copied.mkdir(parents=True)
            self.link(crate, copied, {"README.md"})
            shutil.copy2(crate / "README.md", copied)

    def link(self, source: Path, copied: Path, left: set[str]) -> None:
        """Links to all in a folder but what is left out."""
        for path in source.iterdir():
            if path.name not in left:
                (copied / path.name).symlink_to(path)

    def told(self) -> Ran:
        return run([self.tree / "docs/check"])

    def test_nothing_is_told_of_what_agrees(self) -> None:
        self.assertEqual(self.told(), Ran(0, b"", b""))

    def test_a_page_may_say_what_it_needs(self) -> None:
        long = "\n" + "word " * 1000 + "word.\n\n| Word | Meaning |\n|---|---|\n| one | " + "x" * 1000 + " |\n"
        for name in ("README.md", "docs/MODEL.md", "crates/doors/README.md"):
            path = self.tree / name
            path.write_text(path.read_text() + long * 20)
        page = self.tree / "crates/house/README.md"
        page.write_text(page.read_text().replace("## ", "## About: "))
        self.assertEqual(self.told(), Ran(0, b"", b""))

    def test_each_break_is_told(self) -> None:
        (self.tree / "crates/doors/README.md").rename(self.tree / "crates/doors/page.md")
        self.assertIn("crates/doors/README.md: it is not there", self.told().output.decode())
        (self.tree / "crates/doors/page.md").rename(self.tree / "crates/doors/README.md")
        for name, old, new, _ in BROKEN:
            path = self.tree / name
            text = path.read_text()
            if old:
                self.assertIn(old, text, name)
            path.write_text(text.replace(old, new, 1) if old else text + new)
        ended = self.told()
        self.assertEqual((ended.status, ended.errors), (1, b""))
        lines = ended.output.decode().splitlines()
        for name, _, _, told in BROKEN:
            with self.subTest(name=name, told=told):
                self.assertTrue(any(line.startswith(told) for line in lines), lines)
