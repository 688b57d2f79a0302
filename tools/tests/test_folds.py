"""Journals that begin again from a base, by the program: a fold byte for byte, sessions behind it, old journals, and copies.

The bytes of a base are spelled here from docs/FORMATS.md, "Bases".
"""

import random
import struct
import tempfile
import unittest
from pathlib import Path
from typing import Iterator

from running import EXAMPLES, TOOLS, Ran, program, run
from serving import InService

ROSTER = EXAMPLES / "roster.csv"
PLAIN = b"OTCJRNL1"
FIRST_GATE = 29
"""Of a file with slots that was begun and not folded."""
TURN = b"\x01\x08\0\0\0MOMENTS2"
"""The record behind which changes have their moments, with its gate and its length."""
THOUSAND = 1000
"""The fewest changes behind a base with which a journal is folded."""
GOES_ON = b"HELLO A KA\nTRADE A B P 1 2026-03-02\n"
GONE_ON = Ran(0, b"ok 1000 hello A\nok 1001 trade 501\n", b"")


def traded(trades: int, affirmed: int) -> bytes:
    """So many trades by which A sells 1 to B, of which B affirms the first so many."""
    affirmations = b"".join(b"AFFIRM %d\n" % number for number in range(1, affirmed + 1))
    return b"HELLO A KA\n" + b"TRADE A B P 1 2026-03-02\n" * trades + b"HELLO B KB\n" + affirmations


def holds(number: int) -> bytes:
    """A holds this trade and frees it, in so many changes as a fold wants."""
    return b"HELLO A KA\n" + b"HOLD %d\nFREE %d\n" % (number, number) * (THOUSAND // 2)


def body(position: int, trades: int) -> bytes:
    """The base of a market of so many live trades of A and B, with its length and a closed gate."""
    base = b"\x02" + struct.pack("<QQQ", position, 0, 0)
    base += b"\x03\0\x01A\x01B\x01C" + b"\x01\0\x01P" + struct.pack("<QQ", 0, trades)
    base += struct.pack("<HHHQHBBBBBB", 0, 1, 0, 1, 2026, 3, 2, 1, 1, 0, 0) * trades
    return struct.pack("<I", len(base)) + base + b"\0"


def plain_of(file: bytes) -> bytes:
    """The plain journal of the records of a file that was not folded."""
    return PLAIN + file[FIRST_GATE:]


def with_bytes(file: bytes, at: int, bytes: bytes) -> bytes:
    return file[:at] + bytes + file[at + len(bytes) :]


class OfJournals(unittest.TestCase):
    def setUp(self) -> None:
        folder = tempfile.TemporaryDirectory()
        self.addCleanup(folder.cleanup)
        self.folder = Path(folder.name)
        self.journal = self.folder / "journal"
        self.program = program()

    def script(self, lines: bytes = b"", journal: Path | None = None) -> Ran:
        return run([self.program, "script", ROSTER, journal or self.journal], lines)

    def replay(self, content: bytes | None = None) -> Ran:
        """What a replay tells of the journal, or of one with these bytes."""
        if content is None:
            return run([self.program, "replay", ROSTER, self.journal])
        other = self.folder / "replayed"
        other.write_bytes(content)
        ran = run([self.program, "replay", ROSTER, other])
        self.assertEqual(other.read_bytes(), content)
        return ran

    def written(self, lines: bytes) -> bytes:
        """The journal behind these lines, each of which is accepted."""
        ran = self.script(lines)
        self.assertEqual((ran.status, ran.errors), (0, b""))
        self.assertNotIn(b"\nno ", b"\n" + ran.output)
        return self.journal.read_bytes()

    def folded(self) -> bytes:
        """The journal behind an opening without input."""
        self.assertEqual(self.script(), Ran(0, b"", b""))
        return self.journal.read_bytes()


class Folds(OfJournals):
    def test_five_hundred_trades(self) -> None:
        whole = self.written(traded(500, 500))
        self.assertEqual(len(whole), 33_043)
        told = self.replay()
        self.assertTrue(told.output.endswith(b"\nend 1000\n"))
        due = with_bytes(with_bytes(whole, 8, b"\x01"), 17, struct.pack("<Q", 33_043)) + body(1000, 500)
        self.assertEqual(self.folded(), due)
        self.assertEqual(len(due), 44_101)
        self.assertEqual(self.replay(), told)
        self.assertEqual(self.folded(), due)
        self.assertEqual(self.script(GOES_ON), GONE_ON)
        self.assertEqual(self.journal.read_bytes()[: len(due) - 1], due[:-1])

    def test_it_is_told_in_words(self) -> None:
        self.written(traded(500, 500))
        self.folded()
        self.script(GOES_ON)
        ran = run([TOOLS / "journal", self.journal])
        self.assertEqual((ran.status, ran.errors), (0, b""))
        lines = ran.output.decode().splitlines()
        self.assertEqual(lines[0], "8 selector: slot 1")
        self.assertEqual(lines[1:3], ["9 slot 0: offset 25", "17 slot 1: offset 33043"])
        self.assertEqual(lines[3], "33043 base, 11053 bytes: settings: 0, trades: 500")
        self.assertEqual(lines[4], "  position 1000, cycle 0, version 0")
        self.assertEqual(lines[-3], "  trade 500 A B P 1 2026-03-02 live, submitted by A")
        self.assertRegex(lines[-2], "^44100 record 1, 33 bytes: 20[0-9 :-]+ UTC, seat 0, A: TRADE A B P 1 2026-03-02$")
        self.assertEqual(lines[-1], "44138 closed gate, end 44139; records: 1; left: trades 99499, bytes 268391317")

    def test_what_is_not_folded(self) -> None:
        """One change fewer, an open cycle, and a plain journal of any length."""
        fewer = self.written(traded(500, 499))
        self.assertEqual(len(fewer), 33_015)
        self.assertEqual(self.folded(), fewer)
        frozen = self.written(b"HELLO OPS KO\nFREEZE 2026-03-31\n")
        self.assertEqual(self.folded(), frozen)
        self.journal.unlink()
        plain = plain_of(self.written(traded(500, 500)))
        self.journal.write_bytes(plain)
        self.assertEqual(self.folded(), plain)
        self.assertEqual(self.script(GOES_ON), GONE_ON)
        self.assertEqual(self.journal.read_bytes()[:8], PLAIN)

    def test_behind_a_cycle_it_is_folded(self) -> None:
        """A fold waits for the end of the cycle, and keeps its number."""
        self.written(traded(500, 500) + b"HELLO OPS KO\nFREEZE 2026-03-31\n")
        self.written(b"HELLO OPS KO\nCANCEL 1\n")
        self.assertEqual(self.folded()[8:9], b"\x01")
        ran = self.script(b"HELLO OPS KO\nFREEZE 2026-03-31\nPLAN 0\n")
        self.assertEqual(ran.output, b"ok 1002 hello OPS\nok 1003 frozen 2 500\nno 1003 16 wrong-cycle 2\n")

    def test_to_the_front_and_to_the_end(self) -> None:
        self.written(traded(500, 500))
        first = self.written(holds(1))
        self.assertEqual(len(first), 72_101)
        second = self.folded()
        due = with_bytes(with_bytes(with_bytes(first, 8, b"\0"), 9, struct.pack("<Q", 25)), 25, body(2000, 500))
        self.assertEqual(second, due)
        third = self.written(holds(1))
        self.assertEqual(len(third), 72_101)
        fourth = self.folded()
        due = with_bytes(with_bytes(with_bytes(third, 8, b"\x01"), 17, struct.pack("<Q", 39_083)), 39_083, body(3000, 500))
        self.assertEqual(fourth, due)
        self.assertTrue(self.replay().output.endswith(b"\nend 3000\n"))


OLD = bytes.fromhex(
    "4f54434a524e4c31"
    "0119000000000000000141010141014201500a00000000000000ea070302"
    "010f000000000000000142020100000000000000"
    "00"
)
"""What a script wrote of A's TRADE A B P 10 2026-03-02 and B's AFFIRM 1, before journals had slots."""
OLD_BEHIND = bytes.fromhex("00000000014104010000000000000000")
"""A's HOLD 1 behind its moment, and the closed gate."""


class OldJournals(OfJournals):
    def test_it_is_read_and_appended(self) -> None:
        self.journal.write_bytes(OLD)
        self.assertEqual(self.script(), Ran(0, b"", b""))
        turned = OLD[:-1] + TURN
        self.assertEqual(self.journal.read_bytes(), turned + b"\0")
        rows = b"trade 1 A B P 10 2026-03-02 live -\n"
        due = b"member A 1\n" + rows + b"member B 1\n" + rows + b"member C 0\nend 2\n"
        self.assertEqual(self.replay(), Ran(0, due, b""))
        ran = self.script(b"HELLO A KA\nHOLD 1\n")
        self.assertEqual(ran, Ran(0, b"ok 2 hello A\nok 3 held 1\n", b""))
        content = self.journal.read_bytes()
        self.assertEqual(content[: len(turned) + 5], turned + b"\x01\x17\0\0\0")
        self.assertEqual(content[len(turned) + 13 :], OLD_BEHIND)

    def test_one_without_a_change_gets_slots(self) -> None:
        for size in range(10):
            with self.subTest(size=size):
                self.journal.write_bytes((PLAIN + b"\0")[:size])
                self.assertEqual(self.folded(), b"OTCJRNLC\0" + struct.pack("<QQI", 25, 0, 0) + TURN + b"\0")

    def test_each_cut(self) -> None:
        for size in range(len(OLD)):
            with self.subTest(size=size):
                self.journal.write_bytes(OLD[:size])
                if size < 10:
                    self.assertEqual(self.script().status, 0)
                else:
                    at = 8 if size < 38 else 38 if size < 58 else 58
                    self.assertEqual(self.script(), Ran(7, b"", b"damaged at %d\n" % at))
                    self.assertEqual(self.journal.read_bytes(), OLD[:size])


FIRST = b"HELLO A KA\nTRADE A B P 30 2026-04-02\nHELLO B KB\nAFFIRM 1\nHELLO C KC\nTRADE C A P 30 2026-04-02\n"
SET_AGAIN = b"HELLO B KB\n" + b"TOL C P in 0 50\n" * 700
"""So many changes that the second opening from here on folds."""
SPEAKERS = {"A": "KA", "B": "KB", "C": "KC", "OPS": "KO"}


def session(chance: random.Random, trades: int, cycle: int) -> Iterator[str]:
    """Some lines of everybody, which may be accepted or refused."""
    members = ["A", "B", "C"]
    for speaker in chance.choices([*members, "OPS"], k=12):
        yield f"HELLO {speaker} {SPEAKERS[speaker]}"
        number = chance.randint(1, trades + 3)
        other = chance.choice(members)
        day = f"2026-03-{chance.randint(10, 31)}"
        yield from chance.sample(
            [
                f"TRADE {speaker} {other} P {chance.randint(1, 50)} {day}",
                f"TRADE {other} {speaker} P {chance.randint(1, 50)} {day}",
                f"AFFIRM {number}",
                f"AFFIRM {number + 1}",
                f"END {number}",
                f"HOLD {number}",
                f"FREE {number}",
                f"TOL {other} P {chance.choice(['out', 'in'])} {chance.randint(0, 9)} {chance.choice(['-', '60'])}",
                f"FREEZE {day}",
                f"PROPOSE {cycle + 1} {chance.choice(['conservative', 'hybrid', 'free'])}",
                f"ACCEPT {cycle + 1} 1",
                f"CANCEL {cycle + 1}",
                f"PLAN {cycle}",
                "STATEMENT",
                "NETS P",
            ],
            8,
        )


def without_executions(text: bytes) -> list[bytes]:
    """All but the executions and their moments, which the two runs need not share."""
    return [line for line in text.splitlines() if not line.startswith((b"execution ", b"at "))]


def executions(text: bytes) -> list[bytes]:
    return [line for line in text.splitlines() if line.startswith(b"execution ")]


class Lives(OfJournals):
    """Each session over a journal with slots and over a plain one, which keeps all changes."""

    def test_sessions_behind_bases_are_answered_as_over_all_changes(self) -> None:
        plain = self.folder / "plain"
        folds = 0
        for seed in range(6):
            self.journal.unlink(missing_ok=True)
            plain.unlink(missing_ok=True)
            chance = random.Random(seed)
            self.assertEqual(self.script(FIRST).status, 0)
            plain.write_bytes(plain_of(self.journal.read_bytes()))
            trades, cycle = 2, 0
            for _ in range(8):
                lines = "".join(f"{line}\n" for line in session(chance, trades, cycle)).encode()
                lines += SET_AGAIN + b"HELLO OPS KO\n"
                lines += b"".join(b"CANCEL %d\n" % (cycle + more) for more in range(13)) + b"PLAN 0\n"
                before = self.journal.read_bytes()
                ran = self.script(lines)
                self.assertEqual(ran, self.script(lines, plain), seed)
                folds += ran.status == 0 and self.journal.read_bytes()[8:25] != before[8:25]
                trades += ran.output.count(b" trade ")
                told = ran.output.splitlines()[-1].split(b" ")
                cycle = int(told[-1]) if told[3] == b"wrong-cycle" else cycle
                since, whole = self.replay().output, self.replay(plain.read_bytes()).output
                self.assertEqual(without_executions(since), without_executions(whole))
                self.assertTrue(b"\n".join(executions(whole)).endswith(b"\n".join(executions(since))))
        self.assertGreater(folds, 12)


class Copies(OfJournals):
    """A copy that is taken front to end while the journal is opened has the front of what was and the rest of what is."""

    def copies(self, old: bytes, new: bytes) -> Iterator[bytes]:
        """Fronts of the old bytes with the rest of the new ones, at each place of the header and at some of the rest."""
        chance = random.Random(1)
        edges = [at for middle in (25, len(old), len(new)) for at in range(middle - 6, middle + 7)]
        for at in sorted({*range(30), *edges, *(chance.randrange(len(new)) for _ in range(60))}):
            yield old[:at] + new[at:] if at <= len(old) else old + new[len(old) :][: at - len(old)]

    def assert_kept(self, old: bytes, new: bytes, position: int) -> None:
        due = self.replay(old)
        self.assertTrue(due.output.endswith(b"\nend %d\n" % position))
        for content in self.copies(old, new):
            self.assertEqual(self.replay(content), due)

    def test_a_copy_opens_that_is_taken_while_a_journal_folds(self) -> None:
        whole = self.written(traded(500, 500))
        folded = self.folded()
        staged = with_bytes(folded, 8, b"\0")
        self.assert_kept(whole, staged, 1000)
        self.assert_kept(staged, folded, 1000)
        self.assert_kept(whole, folded, 1000)
        more = self.written(holds(1))
        front = self.folded()
        self.assert_kept(more, front, 2000)

    def test_a_copy_of_which_the_service_writes_over_the_old_base_is_damaged(self) -> None:
        """Changes behind a fold to the front come to the base before, to which the front of the copy still leads."""
        self.written(traded(500, 500))
        more = self.written(holds(1))
        self.folded()
        late = self.written(GOES_ON + holds(1))
        damaged = self.replay(more[:40] + late[40:])
        self.assertEqual(damaged, Ran(7, b"", b"damaged at 33043\n"))
        self.assertEqual(run([TOOLS / "journal", self.folder / "replayed"]).status, 7)


class Served(InService):
    def test_a_service_that_is_started_anew_folds(self) -> None:
        run([self.program, "script", ROSTER, self.journal], traded(500, 500))
        self.start()
        self.assertEqual(self.journal.read_bytes()[8:9], b"\x01")
        self.assertEqual(self.session("A").trade("A", "B", "P", 1, "2026-03-02").trade, 501)
        self.assertEqual(len(self.records()), 1)


if __name__ == "__main__":
    unittest.main()
