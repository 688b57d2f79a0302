"""What the gateway keeps and follows: calls in their file, the trade of a lost reply, and how full a journal is."""

import asyncio
import sys
import tempfile
import unittest
from pathlib import Path

import spelled
from running import TOOLS
from test_journal import AFFIRM, BASED, ONE, SLOTTED, SLOTTED_ONE, frame

sys.path.insert(0, str(TOOLS))

from delkwoan.gateway.desk import candidates_of, largest_of
from delkwoan.gateway.follower import Fill, Follower
from delkwoan.gateway.kept import Faulty, Kept, Row

TERMS = "TRADE A B P 10 2026-03-02"


class KeptCalls(unittest.TestCase):
    def setUp(self) -> None:
        folder = tempfile.TemporaryDirectory()
        self.addCleanup(folder.cleanup)
        self.path = str(Path(folder.name) / "calls")

    def test_what_is_put_down_is_found_again(self) -> None:
        async def spend() -> list[Row | None]:
            kept = Kept(self.path)
            await asyncio.gather(*(kept.begin("A", f"k{place}", f"TRADE {place}", place, True) for place in range(100)))
            await kept.end("A", "k1", "TRADE 1", "ok 2 trade 1")
            await kept.end("A", "k2", "TRADE 2", None, 2)
            await kept.forget("A", "k3", "TRADE 3")
            kept.close()
            again = Kept(self.path)
            found = [await again.find("A", f"k{place}") for place in range(5)]
            await again.spoil("TRADE 4")
            await again.spoil_member("B")
            found += [await again.find("A", "k4"), await again.find("A", "k5"), await again.find("B", "k5")]
            await again.spoil_member("A")
            found.append(await again.find("A", "k5"))
            again.close()
            return found

        rows = [
            Row("TRADE 0", 0, True, None, None),
            Row("TRADE 1", 1, True, "ok 2 trade 1", None),
            Row("TRADE 2", 2, True, None, 2),
            None,
            Row("TRADE 4", 4, True, None, None),
            Row("TRADE 4", 4, False, None, None),
            Row("TRADE 5", 5, True, None, None),
            None,
            Row("TRADE 5", 5, False, None, None),
        ]
        self.assertEqual(asyncio.run(spend()), rows)

    def test_the_same_line_of_two_calls_is_neithers_alone(self) -> None:
        async def spend() -> list[bool]:
            kept = Kept(self.path)
            await asyncio.gather(kept.begin("A", "k", "TRADE", 0, True), kept.begin("B", "k", "TRADE", 0, True))
            rows = [await kept.find(member, "k") for member in "AB"]
            kept.close()
            return [row.is_alone for row in rows if row is not None]

        self.assertEqual(asyncio.run(spend()), [False, False])

    def test_one_gateway_has_it(self) -> None:
        kept = Kept(self.path)
        self.assertRaises(Faulty, Kept, self.path)
        kept.close()
        Path(self.path).write_bytes(b"no database" * 100)
        for path in (self.path, self.path + "/none"):
            self.assertRaises(Faulty, Kept, path)


class Journals(unittest.TestCase):
    def test_how_full_they_are(self) -> None:
        """A journal with one trade, as it is written piece by piece, and files that are none."""
        with tempfile.TemporaryDirectory() as folder:
            path = Path(folder) / "journal"
            follower = Follower(str(path))
            self.assertIsNone(follower.fill())
            for text in (b"", b"no journal at all, but long enough"):
                path.write_bytes(text)
                self.assertIsNone(follower.fill())
            none, one = SLOTTED + b"\0", SLOTTED_ONE
            two, more = (before[:-1] + SLOTTED_ONE[len(SLOTTED) :] for before in (one, BASED))
            for text, trades in ((none, 0), (one, 1), (two, 2), (two[:-1] + frame(AFFIRM) + b"\0", 2), (one, 1), (ONE, 1), (BASED, 1), (more, 2)):
                path.write_bytes(text)
                self.assertEqual(follower.fill(), Fill(len(text), 268_435_456 - len(text), trades, 100_000 - trades))

    def test_how_full_they_are_where_records_have_moments(self) -> None:
        """Behind a turn, which is written meanwhile, and behind a base whose records all have them."""
        dated = [spelled.record(f"A: {TERMS}", moment=1_774_958_400), spelled.record("B: AFFIRM 1", moment=1_774_958_401)]
        base = spelled.Base(3, 0, 0, ("A", "B"), ("P",), (), ("0 1 0 10 2026-03-02 live out - 0",), b"\2").spelled()
        turned = SLOTTED_ONE[:-1] + spelled.frames([spelled.TURN])
        with tempfile.TemporaryDirectory() as folder:
            path = Path(folder) / "journal"
            follower = Follower(str(path))
            for text, trades in ((SLOTTED_ONE, 1), (turned, 1), (turned[:-1] + spelled.frames(dated), 2), (spelled.slotted(base, dated, 1), 2)):
                path.write_bytes(text)
                told = follower.fill()
                self.assertEqual((told, Follower(str(path)).fill()), (Fill(len(text), 268_435_456 - len(text), trades, 100_000 - trades), told))


class Candidates(unittest.TestCase):
    STATEMENT = "\n".join(
        [
            "ok 9 statement 4",
            "trade 3 A B P 10 2026-03-02 live -",
            "trade 5 A B P 10 2026-03-02 alleged -",
            "trade 6 A B P 11 2026-03-02 alleged -",
            "trade 8 A B P 10 2026-03-02 ended held",
        ]
    )

    def test_those_with_the_terms_and_later(self) -> None:
        for largest, due in ((0, [3, 5, 8]), (3, [5, 8]), (6, [8]), (8, [])):
            row = Row(TERMS, largest, True, None, None)
            self.assertEqual([trade["trade"] for trade in candidates_of(self.STATEMENT, row)], due)

    def test_the_largest(self) -> None:
        self.assertEqual((largest_of(self.STATEMENT), largest_of("ok 0 statement 0")), (8, 0))


if __name__ == "__main__":
    unittest.main()
