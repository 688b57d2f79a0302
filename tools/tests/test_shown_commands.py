"""The commands that pages show, played as a reader would: each prints what its page says."""

import os
import re
import subprocess
import tempfile
import unittest
from pathlib import Path

from running import EXAMPLES, PATIENCE, ROOT, TOOLS, Ran, program, run
from serving import ROSTER, InService
from shown import Shown, blocks_of, section_of

BEFORE = {
    0: [("A", "TRADE A B P 10 2026-03-02"), ("C", "TRADE C A P 10 2026-03-02"), ("B", "TRADE B C P 7 2026-03-02")],
    1: [("OPS", "FREEZE 2026-06-30")],
    2: [("OPS", "PROPOSE 1 conservative")],
}
"""What others do before a member plays the blocks of TRUST, by the block's place."""


class Member(InService):
    def play(self, shown: Shown) -> None:
        done = subprocess.run(
            ["bash", "-c", shown.command.replace("127.0.0.1:7000", self.address)],
            cwd=self.folder,
            stdin=subprocess.DEVNULL,
            capture_output=True,
            env={**os.environ, "COMPRESS_CLI": str(self.program)},
            timeout=PATIENCE,
        )
        with self.subTest(command=shown.command):
            self.assertEqual(Ran(done.returncode, done.stdout, done.stderr), Ran(0, shown.output.encode(), b""))

    def others(self, place: int) -> None:
        for name, line in BEFORE.get(place, []):
            with self.session(name) as session:
                session.ask(line)
        if place == 0:
            for name, trade in (("B", 1), ("A", 2), ("C", 3)):
                with self.session(name) as session:
                    session.affirm(trade)

    def test_a_member_tests_its_part_as_trust_shows(self) -> None:
        self.start()
        (self.folder / "tools").symlink_to(TOOLS)
        (self.folder / "roster.csv").write_bytes(run([TOOLS / "public_roster", ROSTER]).output)
        page = ROOT / "docs/TRUST.md"
        blocks = blocks_of(page, "## A member: is my part of the proposal right?") + blocks_of(page, "### How the hashes are made")
        self.assertEqual([len(block) for block in blocks], [4, 1, 2, 2])
        for place, block in enumerate(blocks):
            self.others(place)
            for shown in block:
                self.play(shown)


class Readme(unittest.TestCase):
    def test_what_there_is_to_try_works_in_its_order(self) -> None:
        commands = re.findall(r"^\| `((?:compress_cli|tools/).+?)` \|", section_of(ROOT / "README.md", "## Use it"), re.M)
        self.assertEqual(len(commands), 8)
        with tempfile.TemporaryDirectory() as folder:
            for path in ("examples", "tools"):
                (Path(folder) / path).symlink_to(ROOT / path)
            environ = {**os.environ, "PATH": os.pathsep.join([str(program().parent), os.environ["PATH"]]), "JOURNALS": folder}
            for command in commands:
                with self.subTest(command=command):
                    done = subprocess.run(["bash", "-c", command], cwd=folder, stdin=subprocess.DEVNULL, capture_output=True, env=environ, timeout=PATIENCE)
                    self.assertEqual((done.returncode, done.stderr), (0, b""))
                    if " check " in command:
                        self.assertEqual(done.stdout, b"yes\n")

    def test_the_first_session_prints_what_the_page_shows(self) -> None:
        self.assertIn(f"```\n{(EXAMPLES / 'first-trades.replies').read_text()}```\n", section_of(ROOT / "README.md", "## Try it"))

    def test_the_service_has_seats_for_the_gateway_and_two_terminals(self) -> None:
        """The gateway takes three by itself; a connection that finds no seat waits without a word."""
        found = re.search(r"serve --seats (\d+) ", section_of(ROOT / "README.md", "## Use it"))
        assert found
        self.assertGreaterEqual(int(found[1]), 3 + 2 + 1)


if __name__ == "__main__":
    unittest.main()
