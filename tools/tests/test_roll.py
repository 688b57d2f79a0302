"""Journals that go on over a new roster."""

import random
import stat
import sys
import unittest
from pathlib import Path
from typing import NamedTuple

from days import Day, market_of
from running import EXAMPLES, TOOLS, Ran, run
from serving import InService
from spelled import Base, record, slotted
from test_folds import OfJournals

sys.path.insert(0, str(TOOLS))

from delkwoan.audit import Audit, names_of
from delkwoan.bases import base_of
from delkwoan.frames import lead_of
from delkwoan.rolled import Differs, check_base
from delkwoan.session import Session

ROSTER = EXAMPLES / "roster.csv"
GROWN = b"name,role,key\nD,customer,KD\nB,dealer,KB\nA,dealer,KX\nC,dealer,KC\nOPS,operator,KO\nQ,product,2031-06-30\nP,product,2032-06-30\n"
"""The names of the example's roster, B before A, behind a new member and a new product; A has another key."""

OLD = b"""HELLO A KA
TRADE A B P 10 2026-03-02
TRADE A C P 7 2026-03-02
TRADE A B P 3 2026-03-02
TRADE A C P 5 2026-03-02
TOL B P out 2 40
TOL C P in 1 -
HELLO B KB
AFFIRM 1
AFFIRM 3
HOLD 1
HELLO C KC
AFFIRM 4
END 4
HELLO A KA
END 3
HELLO B KB
END 3
"""
"""A owes B 10 live, which B holds; 7 alleged to C; 3, which ended, to B; and 5 live to C, which C has marked."""
CHANGES = 13
"""How many of these lines are changes."""


NEW = slotted(
    Base(
        CHANGES + 1,
        0,
        0,
        "DBAC",
        "QP",
        ["2 1 1 out 2 40", "2 1 3 in 1 -"],
        ["2 1 1 10 2026-03-02 live out - 2", "2 3 1 7 2026-03-02 alleged out - 0", "2 3 1 5 2026-03-02 live out in 0"],
        b"\2",
    ).spelled(),
    [],
)
"""The journal behind those lines, over the grown roster."""
TOLD = b"position 14: trades 3, settings 2; trades left out 1\n"


class OfRolls(OfJournals):
    def setUp(self) -> None:
        super().setUp()
        self.grown = self.file("grown.csv", GROWN)
        self.new = self.folder / "new"

    def file(self, name: str, content: bytes) -> Path:
        path = self.folder / name
        path.write_bytes(content)
        return path

    def roll(self, roster: Path, *options: str | Path, program: Path | None = None) -> Ran:
        content = self.journal.read_bytes()
        ran = run([TOOLS / "roll", "--program", program or self.program, ROSTER, self.journal, roster, self.new, *options])
        self.assertEqual(self.journal.read_bytes(), content)
        return ran

    def assert_refused(self, roster: Path, status: int, told: bytes, *options: str) -> None:
        """The tool and the form refuse alike, and write nothing."""
        self.assertEqual(self.roll(roster, *options), Ran(status, b"", told))
        self.assertEqual(run([self.program, "roll", *options, ROSTER, self.journal, roster]), Ran(status, b"", told))
        self.assertFalse(self.new.exists())
        self.assertEqual(self.parts(), [])

    def parts(self) -> list[Path]:
        """What a tool that was killed may leave beside the new journal's name."""
        return list(self.folder.glob("new.*"))


class Rolls(OfRolls):
    def test_a_market_over_a_grown_roster(self) -> None:
        self.written(OLD)
        self.assertEqual(self.roll(self.grown), Ran(0, TOLD, b""))
        self.assertEqual(self.new.read_bytes(), NEW)
        self.assertEqual(run([self.program, "roll", ROSTER, self.journal, self.grown]), Ran(0, NEW, b""))
        self.assertEqual(self.parts(), [])
        self.assertEqual(stat.S_IMODE(self.new.stat().st_mode), stat.S_IMODE(self.journal.stat().st_mode))

    def test_it_goes_on_there(self) -> None:
        self.written(OLD)
        self.roll(self.grown)
        lines = b"HELLO D KD\nTRADE D A Q 4 2026-03-02\nHELLO C KC\nAFFIRM 2\nHELLO A KA\nEND 3\nHELLO A KX\nEND 3\nNETS P\n"
        ran = run([self.program, "script", self.grown, self.new], lines)
        told = ran.output.splitlines()
        self.assertEqual((ran.status, told[0], told[1]), (0, b"ok 14 hello D", b"ok 15 trade 4"))
        self.assertEqual([line[:2] for line in told], [b"ok", b"ok", b"ok", b"ok", b"no", b"no", b"ok", b"ok", b"ok"])
        self.assertEqual(told[-1], b"ok 17 nets 17 0 17")

    def test_the_numbers_are_told(self) -> None:
        self.written(OLD)
        table = self.folder / "numbers.csv"
        self.assertEqual(self.roll(self.grown, "--map", table), Ran(0, TOLD, b""))
        self.assertEqual(table.read_bytes(), b"before,after\n1,1\n2,2\n4,3\n")

    def test_products_that_mature(self) -> None:
        self.written(OLD)
        without = self.file("without.csv", GROWN.replace(b"P,product,2032-06-30\n", b""))
        gone = b"cannot roll: the product of trade 1 is gone\n"
        self.assert_refused(without, 15, gone)
        self.assert_refused(without, 15, gone, "--matured", "2031-06-29")
        left = b"position 14: trades 0, settings 0; trades left out 4\n"
        self.assertEqual(self.roll(without, "--matured", "2031-06-30"), Ran(0, left, b""))

    def test_it_is_rolled_twice(self) -> None:
        self.written(OLD)
        self.roll(self.grown)
        again = self.folder / "again"
        ran = run([TOOLS / "roll", "--program", self.program, self.grown, self.new, ROSTER, again])
        self.assertEqual(ran, Ran(0, b"position 15: trades 3, settings 2; trades left out 0\n", b""))
        self.assertEqual(self.new.read_bytes(), NEW)

    def test_a_trade_of_a_plan_above_what_TRADE_takes(self) -> None:
        """A owes B 10^15 twice and C 10^15 owes A as much twice: the plan makes a trade of 2 * 10^15."""
        most = 10**15
        lines = f"HELLO A KA\nTRADE A B P {most} 2026-03-02\nTRADE A B P {most} 2026-03-02\nTRADE C A P {most} 2026-03-02\nTRADE C A P {most} 2026-03-02\n"
        lines += "HELLO B KB\nAFFIRM 1\nAFFIRM 2\nHELLO C KC\nAFFIRM 3\nAFFIRM 4\nHELLO OPS KO\nFREEZE 2026-03-31\nPROPOSE 1 hybrid\n"
        lines += "".join(f"HELLO {name} K{name}\nACCEPT 1 1\n" for name in "ABC")
        self.written(lines.encode())
        self.assertIn(f" C B P {2 * most} ".encode(), self.replay().output)
        ran = self.roll(self.grown)
        self.assertEqual((ran.status, ran.errors), (0, b""))
        told = run([self.program, "replay", self.grown, self.new]).output
        self.assertIn(f"trade 1 C B P {2 * most} ".encode(), told)

    def test_random_days(self) -> None:
        for seed in range(4):
            with self.subTest(seed=seed):
                self.assert_day_rolls(random.Random(seed))

    def assert_day_rolls(self, chance: random.Random) -> None:
        market = market_of(chance)
        roster = self.file("random.csv", market.roster(2))
        journal, new = self.folder / "random", self.folder / "random.new"
        journal.unlink(missing_ok=True)
        new.unlink(missing_ok=True)
        with Session.script(self.program, roster, journal) as session:
            day = Day(session, market, chance)
            day.spend(300)
            day.cancel()
        members = ["NEW", *chance.sample(market.members, len(market.members))]
        rows = [f"{name},{'dealer' if name in market.members[:2] else 'customer'},K{name}" for name in members]
        rest = market.roster(2).decode().splitlines()[1 + len(market.members) :]
        grown = self.file("random-grown.csv", "\n".join(["name,role,key", *rows, *rest, ""]).encode())
        ran = run([TOOLS / "roll", "--program", self.program, roster, journal, grown, new])
        self.assertEqual((ran.status, ran.errors), (0, b""))


SETTINGS = ["2 1 1 out 2 40", "2 1 3 in 1 -"]
HELD, ALLEGED, MARKED, BACK = (
    "2 1 1 10 2026-03-02 live out - 2",
    "2 3 1 7 2026-03-02 alleged out - 0",
    "2 3 1 5 2026-03-02 live out in 0",
    "3 2 1 5 2026-03-02 live out - 0",
)
"""What stands of the trades behind OLD over the grown roster, and one by which C owes A 5."""
OWED = b"HELLO C KC\nTRADE C A P 5 2026-03-02\nHELLO A KA\nAFFIRM 5\n"
FROZEN = b"HELLO OPS KO\nFREEZE 2026-03-31\n"
PROPOSED = OWED + FROZEN + b"PROPOSE 1 hybrid\n"


class Cycle(NamedTuple):
    """Lines behind OLD, how many of them are changes, and what is rolled with --cancel: its cycle and version, and how it is written."""

    lines: bytes
    changes: int
    version: tuple[int, int]
    trades: list[str]
    settings: list[str] = SETTINGS
    is_open: bool = True


CYCLES = {
    "frozen": Cycle(FROZEN, 1, (1, 0), [HELD, ALLEGED, MARKED]),
    "begun": Cycle(FROZEN + b"BEGIN 1 hybrid\n", 2, (1, 1), [HELD, ALLEGED, MARKED]),
    "begun twice": Cycle(FROZEN + b"BEGIN 1 hybrid\nBEGIN 1 free\n", 3, (1, 2), [HELD, ALLEGED, MARKED]),
    "proposed": Cycle(PROPOSED, 5, (1, 1), [HELD, ALLEGED, MARKED, BACK]),
    "voted": Cycle(PROPOSED + b"HELLO C KC\nACCEPT 1 1\n", 6, (1, 1), [HELD, ALLEGED, MARKED, BACK]),
    "declined": Cycle(PROPOSED + b"HELLO C KC\nDECLINE 1 1\n", 6, (1, 1), [HELD, ALLEGED, MARKED, BACK]),
    "broken": Cycle(FROZEN + b"HELLO A KA\nEND 4\n", 2, (1, 0), [HELD, ALLEGED]),
    "marked": Cycle(FROZEN + b"HELLO A KA\nEND 1\n", 2, (1, 0), ["2 1 1 10 2026-03-02 live out out 2", ALLEGED, MARKED]),
    "set": Cycle(FROZEN + b"HELLO A KA\nTOL B P out 3 41\n", 2, (1, 0), [HELD, ALLEGED, MARKED], ["2 1 1 out 3 41", SETTINGS[1]]),
    "second": Cycle(FROZEN + b"CANCEL 1\nFREEZE 2026-03-31\n", 3, (2, 0), [HELD, ALLEGED, MARKED]),
    "none": Cycle(b"", 0, (0, 0), [HELD, ALLEGED, MARKED], is_open=False),
    "cancelled": Cycle(FROZEN + b"CANCEL 1\n", 2, (1, 0), [HELD, ALLEGED, MARKED], is_open=False),
}


class Cancelled(OfRolls):
    def assert_cancelled(self, cycle: Cycle) -> None:
        self.journal.unlink(missing_ok=True)
        self.new.unlink(missing_ok=True)
        self.written(OLD + cycle.lines)
        position = CHANGES + cycle.changes + cycle.is_open + 1
        due = slotted(Base(position, *cycle.version, "DBAC", "QP", cycle.settings, cycle.trades, b"\2").spelled(), [])
        self.assertEqual(run([self.program, "roll", "--cancel", ROSTER, self.journal, self.grown]), Ran(0, due, b""))
        ran = self.roll(self.grown, "--cancel")
        self.assertEqual((ran.status, ran.errors), (0, b""))
        self.assertEqual(self.new.read_bytes(), due)
        if cycle.is_open:
            self.written(b"HELLO OPS KO\nCANCEL %d\n" % cycle.version[0])
        self.assertEqual(run([self.program, "roll", ROSTER, self.journal, self.grown]), Ran(0, due, b""))

    def test_a_cycle_in_each_phase(self) -> None:
        """The bytes are those of a roll after the operator cancelled it."""
        for name, cycle in CYCLES.items():
            with self.subTest(name):
                self.assert_cancelled(cycle)

    def test_the_next_cycle_opens_there(self) -> None:
        self.written(OLD + FROZEN)
        self.roll(self.grown, "--cancel")
        ran = run([self.program, "script", self.grown, self.new], b"HELLO OPS KO\nCANCEL 1\nFREEZE 2026-03-31\n")
        self.assertEqual(ran.output.splitlines(), [b"ok 16 hello OPS", b"no 16 17 wrong-phase none", b"ok 17 frozen 2 2"])

    def test_it_is_refused_as_without(self) -> None:
        self.written(OLD + FROZEN)
        without = self.file("without.csv", GROWN.replace(b"C,dealer,KC\n", b""))
        self.assert_refused(without, 15, b"cannot roll: a member of trade 2 is gone\n", "--cancel")

    def test_a_roster_without_an_operator(self) -> None:
        """In its market no cycle is open."""
        alone = self.file("alone.csv", b"name,role,key\nA,dealer,KA\nB,dealer,KB\nC,dealer,KC\nP,product,2031-06-30\n")
        lines = b"HELLO A KA\nTRADE A B P 10 2026-03-02\n"
        self.assertEqual(run([self.program, "script", alone, self.journal], lines).status, 0)
        due = run([self.program, "roll", alone, self.journal, self.grown])
        self.assertEqual(due.status, 0)
        self.assertEqual(run([self.program, "roll", "--cancel", alone, self.journal, self.grown]), due)

    def test_the_last_positions(self) -> None:
        """A CANCEL takes a position too: of 10^18 and those behind it none is left."""
        for before, told in ((2, None), (1, b"no position is left"), (0, b"a number is above 10^18")):
            with self.subTest(before=before):
                self.journal.write_bytes(slotted(Base(10**18 - before - 1, 0, 0, "ABC", "P").spelled(), [record("OPS: FREEZE 2026-03-31")]))
                if told is None:
                    ran = Ran(0, f"position {10**18}: trades 0, settings 0; trades left out 0\n".encode(), b"")
                    self.assertEqual(self.roll(self.grown, "--cancel"), ran)
                    self.new.unlink()
                else:
                    self.assert_refused(self.grown, 15, b"cannot roll: " + told + b"\n", "--cancel")


class Refusals(OfRolls):
    def test_an_open_cycle(self) -> None:
        self.written(OLD + FROZEN)
        self.assert_refused(self.grown, 15, b"cannot roll: a cycle is open\n")

    def test_members_that_are_gone_or_have_another_role(self) -> None:
        """C has the trades 2 and 4 that are open; a member without one may go, come and change."""
        self.written(OLD)
        without = self.file("without.csv", GROWN.replace(b"C,dealer,KC\n", b""))
        self.assert_refused(without, 15, b"cannot roll: a member of trade 2 is gone\n")
        other = self.file("other.csv", GROWN.replace(b"C,dealer", b"C,customer"))
        self.assert_refused(other, 15, b"cannot roll: a member of trade 2 has another role\n")
        renamed = self.file("renamed.csv", GROWN.replace(b"C,dealer", b"C-2,dealer"))
        self.assert_refused(renamed, 15, b"cannot roll: a member of trade 2 is gone\n")
        self.written(b"HELLO A KA\nEND 2\nEND 4\n")
        ran = self.roll(renamed)
        self.assertEqual(ran, Ran(0, b"position 16: trades 1, settings 1; trades left out 3\n", b""))

    def test_a_product_that_matures_on_the_day_of_a_trade(self) -> None:
        """The day behind it is late enough."""
        self.written(OLD)
        early = self.file("early.csv", GROWN.replace(b"2032-06-30", b"2026-03-02"))
        self.assert_refused(early, 15, b"cannot roll: the product of trade 1 matures too early\n")
        behind = self.file("behind.csv", GROWN.replace(b"2032-06-30", b"2026-03-03"))
        self.assertEqual(self.roll(behind), Ran(0, TOLD, b""))

    def test_the_last_position(self) -> None:
        """A history of 10^18 changes has no position behind it; one that is a change shorter has one."""
        self.journal.write_bytes(slotted(Base(10**18, 0, 0, "ABC", "P").spelled(), []))
        self.assert_refused(self.grown, 15, b"cannot roll: no position is left\n")
        self.journal.write_bytes(slotted(Base(10**18 - 1, 0, 0, "ABC", "P").spelled(), []))
        told = f"position {10**18}: trades 0, settings 0; trades left out 0\n".encode()
        self.assertEqual(self.roll(self.grown), Ran(0, told, b""))

    def test_faults_of_the_files(self) -> None:
        self.written(OLD)
        twice = self.file("twice.csv", GROWN + b"A,dealer,KA\n")
        self.assert_refused(twice, 3, b"new-roster row 9: twice\n")
        self.assert_refused(self.folder / "none.csv", 11, b"file fault\n")
        self.journal.write_bytes(self.journal.read_bytes()[:-1])
        damaged = f"damaged at {self.journal.stat().st_size}".encode()
        self.assertEqual(run([self.program, "roll", ROSTER, self.journal, self.grown]), Ran(7, b"", damaged + b"\n"))
        ran = self.roll(self.grown)
        self.assertEqual((ran.status, ran.output, ran.errors.partition(b":")[0]), (7, b"", damaged))
        self.assertEqual(self.parts(), [])

    def test_a_name_that_is_taken(self) -> None:
        self.written(OLD)
        self.new.write_bytes(b"")
        self.assertEqual(self.roll(self.grown), Ran(11, b"", f"{self.new} is there already\n".encode()))
        self.assertEqual(self.new.read_bytes(), b"")
        self.new.unlink()
        table = self.file("numbers.csv", b"mine")
        self.assertEqual(self.roll(self.grown, "--map", table), Ran(11, b"", f"{table} is there already\n".encode()))
        self.assertEqual(table.read_bytes(), b"mine")
        self.assertFalse(self.new.exists())
        self.assertEqual(self.parts(), [])

    def test_bad_words(self) -> None:
        for options in (["--matured", "2031-02-29"], ["--matured"], ["another"], ["--map", "a", "--map", "b"], ["--cancel", "--cancel"], ["--cancel=yes"]):
            with self.subTest(options=options):
                self.assertEqual(run([TOOLS / "roll", "a", "b", "c", "d", *options]), Ran(2, b"", b"bad words\n"))


class Fronts(OfRolls):
    def test_each_front_is_damaged_or_empty(self) -> None:
        for size in range(len(NEW)):
            with self.subTest(size=size):
                self.new.write_bytes(NEW[:size])
                ran = run([self.program, "replay", self.grown, self.new])
                due = (0, b"member D 0\nmember B 0\nmember A 0\nmember C 0\nend 0\n") if size < 31 else (7, b"")
                self.assertEqual((ran.status, ran.output), due)


WRAPPED = """#!/bin/sh
# The program, which counts its calls in the file `calls`.
echo >> '{folder}/calls'
calls=$(wc -l < '{folder}/calls')
{before}
'{program}' "$@" > '{folder}/written'
status=$?
{behind}
exit $status
"""


class OfPrograms(OfRolls):
    def wrapped(self, before: str = "", behind: str = "") -> Path:
        """The program with something before each call and behind it, where its output is in a file."""
        (self.folder / "calls").unlink(missing_ok=True)
        text = WRAPPED.format(folder=self.folder, program=self.program, before=before, behind=behind or f"cat '{self.folder}/written'")
        path = self.file("wrapped", text.encode())
        path.chmod(0o755)
        return path


STEPS = ("open", "fcntl.flock", "os.chmod", "os.chown", "os.link", "os.remove", "subprocess.Popen", "tempfile.mkstemp")
"""What Python tells before it is done."""
KILLED = f"""
import os, signal, sys
sys.path.insert(0, {str(TOOLS)!r})
from delkwoan.roll import command
left = int(sys.argv.pop(1))
def look(event, _):
    global left
    if event in {STEPS}:
        left -= 1
        if left == 0:
            os.kill(os.getpid(), signal.SIGKILL)
sys.addaudithook(look)
command()
"""
"""The tool, which is killed before the step with the number of its first word."""


class Killed(OfPrograms):
    def test_a_tool_that_is_killed_at_each_call(self) -> None:
        """Before the program is called, and when it has written a part of a journal or of a replay."""
        self.written(OLD)
        for call in (1, 2, 3):
            for is_before in (True, False):
                with self.subTest(call=call, is_before=is_before):
                    part = "true" if is_before else f"head -c 40 '{self.folder}/written'"
                    kill = f"if test $calls = {call}; then {part}; kill -KILL $PPID; exit; fi"
                    program = self.wrapped(kill) if is_before else self.wrapped("", f"{kill}; cat '{self.folder}/written'")
                    self.assertEqual(self.roll(self.grown, program=program).status, -9)
                    self.assertFalse(self.new.exists())
        self.assertEqual(self.roll(self.grown), Ran(0, TOLD, b""))
        self.assertEqual(self.new.read_bytes(), NEW)

    def test_a_tool_that_is_killed_at_each_step(self) -> None:
        """The old journal stays, and the new one is whole or absent."""
        self.written(OLD)
        content = self.journal.read_bytes()
        table = self.folder / "numbers.csv"
        ends: list[tuple[int, bytes | None]] = []
        for step in range(1, 1000):
            self.new.unlink(missing_ok=True)
            table.unlink(missing_ok=True)
            words: list[str | Path] = ["--program", self.program, "--map", table, ROSTER, self.journal, self.grown, self.new]
            ran = run([sys.executable, "-B", "-c", KILLED, str(step), *words])
            self.assertEqual(self.journal.read_bytes(), content)
            ends.append((ran.status, self.new.read_bytes() if self.new.exists() else None))
            if ran.status != -9:
                break
        self.assertEqual(ran, Ran(0, TOLD, b""))
        self.assertGreater(len(ends), len(STEPS))
        self.assertEqual(ends[-1], (0, NEW))
        self.assertEqual(set(ends[:-1]), {(-9, None), (-9, NEW)})


WRONG: list[tuple[int, bytes, str]] = [
    (30, b"\x0f", "position"),
    (38, b"\x01", "cycle"),
    (85, b"\x03", "setting"),
    (109, b"\x00", "setting"),
    (-61, b"\x0b", "trade"),
    (-46, b"\x00", "trade"),
    (-46, b"\x03", "trade"),
    (-39, b"\x08", "trade"),
    (-27, b"\x01", "trade"),
    (-26, b"\x02", "trade"),
    (-6, b"\x03", "trade"),
    (-3, b"\x00", "trade"),
]
"""A place in the new journal, from its end where it is below 0, what is written there, and what is another then."""
TELLS = [("10", "11", "net position"), ("2026-03-02", "2026-03-01", "trade"), ("trade 3", "trade 4", "number"), ("end 14", "end 15", "position")]
"""What the program tells of the new journal, what it is to tell in its place, and what is another then."""


class Compared(OfPrograms):
    def test_a_base_that_is_wrong(self) -> None:
        self.written(OLD)
        names, new = names_of(ROSTER.read_bytes()), names_of(GROWN)
        audit = Audit(names, self.journal.read_bytes())
        audit.run()
        check_base(audit.history, new, base_of(lead_of(NEW).base), set())
        for place, other, told in WRONG:
            with self.subTest(told=told, place=place):
                at = place % len(NEW)
                wrong = NEW[:at] + other + NEW[at + 1 :]
                self.assertNotEqual(wrong, NEW)
                with self.assertRaisesRegex(Differs, told):
                    check_base(audit.history, new, base_of(lead_of(wrong).base), set())

    def test_a_program_that_tells_otherwise(self) -> None:
        self.written(OLD)
        for due, other, told in TELLS:
            with self.subTest(told=told):
                behind = f"if test $calls = 3; then sed 's/{due}/{other}/' '{self.folder}/written'; else cat '{self.folder}/written'; fi"
                ran = self.roll(self.grown, program=self.wrapped("", behind))
                self.assertEqual(ran, Ran(20, b"", f"the new journal has another {told}\n".encode()))
                self.assertFalse(self.new.exists())
                self.assertEqual(self.parts(), [])

    def test_a_program_that_rolls_otherwise(self) -> None:
        self.written(OLD)
        behind = f"if test $calls = 1; then head -c -1 '{self.folder}/written'; else cat '{self.folder}/written'; fi"
        ran = self.roll(self.grown, program=self.wrapped("", behind))
        self.assertEqual(ran, Ran(20, b"", b"the program rolls another journal\n"))
        self.assertFalse(self.new.exists())
        self.assertEqual(self.parts(), [])

    def test_a_program_that_fails(self) -> None:
        self.written(OLD)
        ran = self.roll(self.grown, program=self.wrapped("kill -SEGV $$"))
        self.assertEqual(ran, Ran(20, b"", b"the program ended with status -11\n"))
        ran = self.roll(self.grown, program=self.folder)
        self.assertEqual(ran, Ran(11, b"", b"the program could not be started\n"))


class Full(OfRolls):
    def test_100_000_trades_of_which_99_000_ended(self) -> None:
        records = [record("A: TRADE A B P 1 2026-03-02")] * 100_000
        records += [record(f"A: END {number}") for number in range(1, 99_001)]
        self.journal.write_bytes(slotted(b"", records))
        full = self.script(b"HELLO A KA\nTRADE A B P 1 2026-03-02\n").output
        self.assertTrue(full.endswith(b"10 trades-full\n"), full)
        self.assertEqual(self.roll(self.grown), Ran(0, b"position 199001: trades 1000, settings 0; trades left out 99000\n", b""))
        ran = run([self.program, "script", self.grown, self.new], b"HELLO A KX\nTRADE A B P 1 2026-03-02\n")
        self.assertEqual(ran.output, b"ok 199001 hello A\nok 199002 trade 1001\n")


class InUse(InService):
    def test_a_journal_that_a_service_has(self) -> None:
        self.start()
        new = self.folder / "new"
        ran = run([TOOLS / "roll", "--program", self.program, ROSTER, self.journal, ROSTER, new])
        self.assertEqual(ran, Ran(6, b"", f"{self.journal} is in use\n".encode()))
        self.assertFalse(new.exists())


if __name__ == "__main__":
    unittest.main()
