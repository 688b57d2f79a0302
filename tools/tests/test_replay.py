"""A replay of the real file: beside a program that has it locked or writes to it, of one that is not there, and of a folder."""

import fcntl
import tempfile
import threading
import time
import unittest
from pathlib import Path

from running import EXAMPLES, Ran, program, run
from serving import InService

ROSTER = EXAMPLES / "roster.csv"


def replay(journal: Path, roster: Path = ROSTER) -> Ran:
    return run([program(), "replay", roster, journal])


class Replay(unittest.TestCase):
    def setUp(self) -> None:
        folder = tempfile.TemporaryDirectory()
        self.addCleanup(folder.cleanup)
        self.journal = Path(folder.name) / "journal"

    def written(self, session: str) -> bytes:
        """The journal that the example session leaves."""
        ran = run([program(), "script", ROSTER, self.journal], (EXAMPLES / f"{session}.session").read_bytes())
        self.assertEqual(ran.status, 0, ran)
        return self.journal.read_bytes()

    def test_a_journal_that_is_not_there_is_not_made(self) -> None:
        ran = replay(self.journal)
        self.assertEqual((ran.status, ran.errors), (0, b""))
        self.assertTrue(ran.output.endswith(b"end 0\n"))
        self.assertFalse(self.journal.exists())

    def test_a_journal_that_is_locked_or_read_only_is_told_and_stays(self) -> None:
        content = self.written("ring-cycle")
        alone = replay(self.journal)
        self.assertEqual(alone.status, 0)
        self.assertIn(b"execution ", alone.output)
        with open(self.journal, "r+b") as file:
            fcntl.flock(file, fcntl.LOCK_EX)
            self.assertEqual(run([program(), "script", ROSTER, self.journal]).status, 6)
            self.assertEqual(replay(self.journal), alone)
        self.journal.chmod(0o400)
        self.assertEqual(replay(self.journal), alone)
        self.assertEqual(self.journal.read_bytes(), content)

    def test_a_folder_is_a_fault_of_the_disk(self) -> None:
        self.assertEqual(replay(self.journal.parent), Ran(6, b"", b"disk fault\n"))


def of_trades(count: int) -> bytes:
    """What a replay tells of A's first so many trades, of 1, 2 and so on to B."""
    rows = "".join(f"trade {number} A B P {number} 2026-03-02 alleged -\n" for number in range(1, count + 1))
    return f"member A {count}\n{rows}member B {count}\n{rows}member C 0\nend {count}\n".encode()


MOST_TRADES = 20_000
REPLAYS = 5


class Beside(InService):
    def test_a_journal_that_a_service_writes_to_meanwhile(self) -> None:
        """Each replay tells the trades up to one, of which all were asked for, and all that were acknowledged before it."""
        self.start("--seats", "1")
        session = self.session("A")
        asked = acknowledged = 0
        enough = threading.Event()

        def trade() -> None:
            nonlocal asked, acknowledged
            while not enough.is_set() and asked < MOST_TRADES:
                asked += 1
                acknowledged = session.trade("A", "B", "P", asked, "2026-03-02").position
                time.sleep(0.005)

        thread = threading.Thread(target=trade)
        thread.start()
        counts: list[int] = []
        try:
            while thread.is_alive() and len(set(counts)) < REPLAYS:
                least = acknowledged
                ran = replay(self.journal)
                count = int(ran.output.rsplit(maxsplit=1)[-1])
                self.assertTrue(least <= count <= asked, (least, count, asked))
                self.assertEqual(ran, Ran(0, of_trades(count), b""))
                counts.append(count)
        finally:
            enough.set()
            thread.join()
        self.assertEqual(counts, sorted(counts))
        self.assertEqual(len(set(counts)), REPLAYS)
        self.assertEqual(acknowledged, asked)
        self.assertEqual(replay(self.journal), Ran(0, of_trades(asked), b""))


if __name__ == "__main__":
    unittest.main()
