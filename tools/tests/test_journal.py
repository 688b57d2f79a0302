"""The journal inspector: by the worked bytes of docs/FORMATS.md, bases and records spelled by hand, the program's journals."""

import tempfile
import unittest
from pathlib import Path

from running import EXAMPLES, TOOLS, Ran, program, run, sessions

INSPECTOR = TOOLS / "journal"
HEADER = "4f54434a524e4c31"
TRADE = "00000000 0141 01 0141 0142 0150 0a00000000000000 ea070302"
AFFIRM = "00000000 0142 02 0100000000000000"
ONE = bytes.fromhex(f"{HEADER} 01 19000000 {TRADE} 00")
PLAIN_TWO = ONE[:-1] + bytes.fromhex(f"01 0f000000 {AFFIRM} 00")
FIRST = b"8 record 1, 25 bytes: seat 0, A: TRADE A B P 10 2026-03-02\n"
SHORT = Ran(0, b"no records: fewer than ten bytes; end 30; left: trades 100000, bytes 268435426\n", b"")
WHOLE = Ran(0, FIRST + b"38 closed gate, end 39; records: 1; left: trades 99999, bytes 268435417\n", b"")

TURN = b"MOMENTS2".hex()
NOON = "40b7cb6900000000"
"""The moment of noon on the last of March 2026."""
TURNED = ONE[:-1] + bytes.fromhex(f"01 08000000 {TURN} 01 17000000 {NOON} {AFFIRM} 00")
TURN_TEXT = b"38 turn, 8 bytes: each change behind it has its moment\n"
DATED_TEXT = b"51 record 2, 23 bytes: 2026-03-31 12:00:00 UTC, seat 0, B: AFFIRM 1\n"
"""The trade without its moment, the turn, and the affirmation with one."""

SLOTTED = bytes.fromhex("4f54434a524e4c43 00 1900000000000000 0000000000000000 00000000")
EMPTY = b"8 selector: slot 0\n9 slot 0: offset 25\n17 slot 1: offset 0\n25 no base\n"
SLOTTED_ONE = SLOTTED + ONE[8:]
SLOTTED_FIRST = FIRST.replace(b"8 ", b"29 ", 1)
SHORT_SLOTTED = Ran(0, b"no records: slots, and fewer than 31 bytes; end 30; left: trades 100000, bytes 268435426\n", b"")
SLOTTED_WHOLE = Ran(0, EMPTY + SLOTTED_FIRST + b"59 closed gate, end 60; records: 1; left: trades 99999, bytes 268435396\n", b"")


def frame(record: str) -> bytes:
    """An open gate, the record's length, and the record."""
    content = bytes.fromhex(record)
    return b"\x01" + len(content).to_bytes(4, "little") + content


def number(value: int) -> str:
    return value.to_bytes(8, "little").hex()


WORDS: list[tuple[str, str]] = [
    (TRADE, "seat 0, A: TRADE A B P 10 2026-03-02"),
    (AFFIRM, "seat 0, B: AFFIRM 1"),
    ("01020000 0141 03" + number(7), "seat 513, A: END 7"),
    ("ffffffff 0141 04" + number(2**64 - 1), "seat 4294967295, A: HOLD 18446744073709551615"),
    ("00000000 0141 05" + number(0), "seat 0, A: FREE 0"),
    ("00000000 0141 06 0142 0150 00" + number(5) + "00", "seat 0, A: TOL B P out 5 -"),
    (
        "00000000 0141 06 0142 0150 01" + number(0) + "01" + number(10**18),
        "seat 0, A: TOL B P in 0 1000000000000000000",
    ),
    ("00000000 034f5053 07 0f270c1f", "seat 0, OPS: FREEZE 9999-12-31"),
    ("00000000 034f5053 07 0000021d", "seat 0, OPS: FREEZE 0000-02-29"),
    ("00000000 034f5053 08" + number(1) + "00", "seat 0, OPS: BEGIN 1 conservative"),
    ("00000000 034f5053 08" + number(2) + "01", "seat 0, OPS: BEGIN 2 hybrid"),
    ("00000000 034f5053 08" + number(3) + "02", "seat 0, OPS: BEGIN 3 free"),
    ("00000000 034f5053 09" + number(1) + number(2) + "0000", "seat 0, OPS: POST 1 2"),
    (
        "00000000 034f5053 09"
        + number(1)
        + number(1)
        + "0100 0200 01000000 0000 0100"
        + number(5)
        + "01000000 c0bdf0ff",
        "seat 0, OPS: POST 1 1\n  solution 0: 2 members, 1 rows\n    row 0 1 5\n    potentials 1 -1000000",
    ),
    ("00000000 0141 0a" + number(1) + number(3), "seat 0, A: ACCEPT 1 3"),
    ("00000000 0141 0b" + number(1) + number(3), "seat 0, A: DECLINE 1 3"),
    ("00000000 034f5053 0c" + number(1), "seat 0, OPS: CANCEL 1"),
    ("00000000 10" + b"ABCDEFGHIJKLMNO-".hex() + "0c" + number(1), "seat 0, ABCDEFGHIJKLMNO-: CANCEL 1"),
]

POST = "00000000 034f5053 09" + number(1) + number(1)
BAD: list[tuple[str, int]] = [
    ("", 0),
    ("000000", 0),
    ("00000000", 4),
    ("00000000 00 02" + number(1), 4),
    ("00000000 0242", 4),
    ("00000000 0162 02" + number(1), 4),
    ("00000000 11" + b"ABCDEFGHIJKLMNO-Q".hex() + "02" + number(1), 4),
    ("00000000 0142", 6),
    ("00000000 0142 00" + number(1), 6),
    ("00000000 0142 0d" + number(1), 6),
    ("00000000 0142 02 01000000000000", 7),
    (AFFIRM + "00", 15),
    ("00000000 0141 01 0141 0142 0150 0000000000000000 ea070302", 13),
    ("00000000 0141 01 0141 0142 0150" + number(10**18 + 1) + "ea070302", 13),
    ("00000000 0141 01 0141 0142 0150 0a00000000000000 ea07021d", 21),
    ("00000000 0141 01 0141 0142 0150 0a00000000000000 10270101", 21),
    ("00000000 0141 01 0141 0142 0150 0a00000000000000 ea0703", 21),
    ("00000000 0141 06 0142 0150 02" + number(5) + "00", 11),
    ("00000000 0141 06 0142 0150 00" + number(10**18 + 1) + "00", 12),
    ("00000000 0141 06 0142 0150 00" + number(5) + "02", 20),
    ("00000000 0141 06 0142 0150 00" + number(5) + "01 0000", 21),
    ("00000000 034f5053 08" + number(1) + "03", 17),
    (POST + "4100", 25),
    (POST + "0100 0101 00000000", 27),
    (POST + "0100 0200 0000", 29),
    (POST + "0100 0200 01000000 0000 0200" + number(1), 33),
    (POST + "0100 0200 01000000 0100 0100" + number(1), 33),
    (POST + "0100 0200 01000000 0000 0100" + number(0), 33),
    (POST + "0100 0200 02000000 0100 0000" + number(1) + "0000 0100" + number(1), 45),
    (POST + "0100 0200 02000000 0000 0100" + number(10**18) + "0100 0000" + number(1), 45),
    (POST + "0100 0100 00000000 41420f00", 33),
    (POST + "0100 0100 00000000 bfbdf0ff", 33),
    (POST + "0100 0200 00000000 00000000 000000", 37),
]
"""Records that spell no change, with the first byte of the first field that breaks the rules."""


BASE = (
    f"01 {number(7)} {number(2)} {number(3)} 0300 0141 0142 0143 0100 0150"
    f"{number(1)} 0000 0000 0200 00 {number(5)} 01 {number(9)}"
    f"{number(1)} 0000 0100 0000 {number(10)} ea070302 01 01 00 02"
)
BASED = bytes.fromhex(f"4f54434a524e4c43 01 {number(25)} {number(33)} ffffffffffffffff 63000000 {BASE} 00")
BASED_SLOTS = b"8 selector: slot 1\n9 slot 0: offset 25\n17 slot 1: offset 33\n"
BASED_TEXT = BASED_SLOTS + (
    b"33 base, 99 bytes: settings: 1, trades: 1\n  position 7, cycle 2, version 3\n  members A B C\n  products P\n"
    b"  setting A: TOL C P out 5 9\n  trade 1 A B P 10 2026-03-02 live, submitted by A, held by B\n"
)
"""A base at 33, which slot 1 has, and what is told of it."""

BAD_BASES: list[tuple[int, int, int]] = [
    (37, 3, 37),
    (65, 0x61, 64),
    (70, 2, 74),
    (88, 2, 88),
    (96, 0x7F, 89),
    (97, 2, 97),
    (106, 2, 136),
    (120, 0, 120),
    (130, 13, 128),
    (132, 3, 132),
    (133, 3, 133),
    (134, 3, 134),
    (135, 4, 135),
]
"""A byte of the base that is another one, and the first byte of the first field that breaks the rules."""


class Inspected(unittest.TestCase):
    def setUp(self) -> None:
        folder = tempfile.TemporaryDirectory()
        self.addCleanup(folder.cleanup)
        self.file = Path(folder.name) / "journal"

    def inspect(self, content: bytes) -> Ran:
        self.file.write_bytes(content)
        return run([INSPECTOR, self.file])

    def assert_damaged(self, content: bytes, at: int, printed: bytes, says: bytes) -> None:
        ran = self.inspect(content)
        self.assertEqual((ran.status, ran.output), (7, printed))
        self.assertEqual(ran.errors.split(b": ")[0], b"damaged at %d" % at)
        self.assertIn(says, ran.errors)

    def test_the_worked_bytes(self) -> None:
        self.assertEqual(self.inspect(ONE), WHOLE)
        self.assertEqual(self.inspect(ONE + b"anything"), WHOLE)
        self.assertEqual(self.inspect(bytes.fromhex("4f54434a524e4c3100")), SHORT)

    def test_each_cut(self) -> None:
        for size in range(39):
            with self.subTest(size=size):
                if size < 10:
                    self.assertEqual(self.inspect(ONE[:size]), SHORT)
                elif size < 13:
                    self.assert_damaged(ONE[:size], 8, b"", b"length of its record passes the file's end")
                elif size < 38:
                    self.assert_damaged(ONE[:size], 8, b"", b"record of 25 bytes passes the file's end")
                else:
                    self.assert_damaged(ONE[:size], 38, FIRST, b"a gate is due, and the file ends")

    def test_each_cut_of_a_file_with_slots(self) -> None:
        self.assertEqual(self.inspect(SLOTTED_ONE), SLOTTED_WHOLE)
        for size in range(60):
            with self.subTest(size=size):
                if size < 31:
                    self.assertEqual(self.inspect(SLOTTED_ONE[:size]), SHORT if size < 10 else SHORT_SLOTTED)
                elif size < 59:
                    self.assert_damaged(SLOTTED_ONE[:size], 29, EMPTY, b"passes the file's end")
                else:
                    self.assert_damaged(SLOTTED_ONE[:size], 59, EMPTY + SLOTTED_FIRST, b"a gate is due, and the file ends")

    def test_slots_and_bases(self) -> None:
        """A base behind the selected offset, and what is damaged there; the other slot means nothing."""
        closed = b"136 closed gate, end 137; records: 0; left: trades 99999, bytes 268435319\n"
        self.assertEqual(self.inspect(BASED), Ran(0, BASED_TEXT + closed, b""))
        behind = BASED[:-1] + frame(AFFIRM) + b"\0"
        second = b"136 record 1, 15 bytes: seat 0, B: AFFIRM 1\n156 closed gate, end 157; records: 1; left: trades 99999, bytes 268435299\n"
        self.assertEqual(self.inspect(behind), Ran(0, BASED_TEXT + second, b""))
        self.assert_damaged(BASED[:24] + b"\xff" + BASED[25:], 33 + (255 << 56), b"", b"length of its base passes the file's end")
        self.assert_damaged(BASED[:17] + b"\x18" + BASED[18:], 24, b"", b"slot 1 leads below 25")
        self.assert_damaged(BASED[:8] + b"\x02" + BASED[9:], 25, b"", b"at or past 268435456")
        self.assert_damaged(BASED[:135], 33, b"", b"base of 99 bytes passes the file's end")
        self.assert_damaged(BASED[:136], 136, BASED_TEXT, b"a gate is due, and the file ends")
        ran = self.inspect(BASED[:9] + b"\xff" + BASED[10:])
        self.assertEqual((ran.status, ran.output), (0, ran.output.replace(b"offset 25\n", b"offset 255\n")))

    def test_trades_that_are_left(self) -> None:
        """A trade of a base counts where it was submitted, ended or not, and so does each TRADE behind it."""
        for submitter, state, left in ((1, 1, 99_997), (1, 2, 99_997), (0, 1, 99_998), (0, 2, 99_998)):
            with self.subTest(submitter=submitter, state=state):
                based = BASED[:132] + bytes([state, submitter]) + BASED[134:-1]
                ran = self.inspect(based + frame(TRADE) + frame(AFFIRM) + frame(TRADE) + b"\0")
                due = b"216 closed gate, end 217; records: 3; left: trades %d, bytes 268435239\n" % left
                self.assertEqual((ran.status, ran.output.splitlines(True)[-1]), (0, due))

    def test_bases_that_spell_no_state(self) -> None:
        for place, other, at in BAD_BASES:
            with self.subTest(place=place, other=other):
                ran = self.inspect(BASED[:place] + bytes([other]) + BASED[place + 1 :])
                self.assertEqual((ran.status, ran.errors), (7, b"damaged at 33: its base spells no state\n"))
                told = f"33 base, 99 bytes: spells no state at offset {at}, ".encode()
                self.assertTrue(ran.output.startswith(BASED_SLOTS + told), ran.output)

    def test_moments(self) -> None:
        closed = b"79 closed gate, end 80; records: 2; left: trades 99999, bytes 268435376\n"
        self.assertEqual(self.inspect(TURNED), Ran(0, FIRST + TURN_TEXT + DATED_TEXT + closed, b""))
        for moment, date in ((0, b"1970-01-01 00:00:00"), (253_402_300_799, b"9999-12-31 23:59:59")):
            dated = TURNED.replace(bytes.fromhex(NOON), bytes.fromhex(number(moment)))
            self.assertIn(b" bytes: %s UTC, seat 0, B: AFFIRM 1\n" % date, self.inspect(dated).output)
        for moment in (253_402_300_800, 2**64 - 1):
            self.assert_bad_second(TURNED.replace(bytes.fromhex(NOON), bytes.fromhex(number(moment))), 23, b"the moment: ")

    def test_turns(self) -> None:
        """One turns the body; a second one spells no change, and neither does one behind a base with the second mark."""
        self.assert_bad_second(TURNED[:51] + frame(TURN) + b"\0", 8, b"the moment: ")
        based = BASED[:37] + b"\2" + BASED[38:-1]
        dated = b"136 record 1, 23 bytes: 2026-03-31 12:00:00 UTC, seat 0, B: AFFIRM 1\n"
        dated += b"164 closed gate, end 165; records: 1; left: trades 99999, bytes 268435291\n"
        self.assertEqual(self.inspect(based + frame(NOON + AFFIRM) + b"\0"), Ran(0, BASED_TEXT + dated, b""))
        ran = self.inspect(based + frame(TURN) + b"\0")
        self.assertEqual((ran.status, ran.errors), (7, b"damaged at 136: its record spells no change\n"))

    def assert_bad_second(self, content: bytes, size: int, what: bytes) -> None:
        """Behind the turn there is a record of so many bytes whose first field breaks the rules."""
        ran = self.inspect(content)
        self.assertEqual((ran.status, ran.errors), (7, b"damaged at 51: its record spells no change\n"))
        told = b"51 record 2, %d bytes: spells no change at offset 56, %s" % (size, what)
        self.assertTrue(ran.output.startswith(FIRST + TURN_TEXT + told), ran.output)

    def test_other_bytes(self) -> None:
        for at in range(8):
            with self.subTest(at=at):
                self.assert_damaged(ONE[:at] + b"\x00" + ONE[at + 1 :], 0, b"", b"it begins neither with OTCJRNL1 nor")
        for gate in (0, 2, 255):
            changed = ONE[:8] + bytes([gate]) + ONE[9:]
            self.assertEqual(self.inspect(changed), Ran(0, b"8 closed gate, end 9; records: 0; left: trades 100000, bytes 268435447\n", b""))
            self.assertEqual(self.inspect(ONE[:38] + bytes([gate])), WHOLE)
        self.assert_damaged(ONE[:38] + b"\x01", 38, FIRST, b"length")
        self.assert_damaged(ONE[:9] + b"\x1b" + ONE[10:], 8, b"", b"record of 27 bytes passes")
        self.assert_damaged(ONE[:9] + b"\xff\xff\xff\xff" + ONE[13:], 8, b"", b"at or past 268435456")
        self.assert_damaged(ONE[:9] + b"\xf2\xff\xff\x0f" + ONE[13:], 8, b"", b"passes the file's end")
        self.assert_damaged(ONE[:9] + b"\xf3\xff\xff\x0f" + ONE[13:], 8, b"", b"at or past 268435456")

    def test_damage_by_the_walk_comes_first(self) -> None:
        longer = ONE[:9] + b"\x1a" + ONE[10:]
        ran = self.inspect(longer)
        self.assertEqual((ran.status, ran.errors), (7, b"damaged at 39: a gate is due, and the file ends\n"))
        self.assertEqual(
            ran.output, b"8 record 1, 26 bytes: spells no change at offset 38, something behind the last field\n"
        )

    def test_each_kind_of_change(self) -> None:
        content = bytes.fromhex(HEADER) + b"".join(frame(record) for record, _ in WORDS) + b"\0"
        at, due = 8, ""
        for count, (record, words) in enumerate(WORDS, 1):
            size = len(bytes.fromhex(record))
            due += f"{at} record {count}, {size} bytes: {words}\n"
            at += 5 + size
        due += f"{at} closed gate, end {at + 1}; records: {len(WORDS)}; left: trades 99999, bytes {268_435_455 - at}\n"
        self.assertEqual(self.inspect(content), Ran(0, due.encode(), b""))

    def test_each_kind_of_change_with_its_moment(self) -> None:
        content = bytes.fromhex(HEADER) + frame(TURN) + b"".join(frame(NOON + record) for record, _ in WORDS) + b"\0"
        words = [line.split(": ", 2)[1:] for line in self.inspect(content).output.decode().splitlines() if " record " in line]
        asked = [words.split("\n")[0].split(": ", 1) for _, words in WORDS]
        self.assertEqual(words, [[f"2026-03-31 12:00:00 UTC, {who}", change] for who, change in asked])

    def test_records_that_spell_no_change(self) -> None:
        for record, at in BAD:
            with self.subTest(record=record):
                content = ONE[:-1] + frame(record) + b"\0"
                ran = self.inspect(content)
                self.assertEqual((ran.status, ran.errors), (7, b"damaged at 38: its record spells no change\n"))
                size = len(bytes.fromhex(record))
                second = f"38 record 2, {size} bytes: spells no change at offset {43 + at}, ".encode()
                self.assertTrue(ran.output.startswith(FIRST + second), ran.output)

    def test_the_file_stays(self) -> None:
        self.file.write_bytes(ONE)
        self.file.chmod(0o444)
        before = self.file.stat()
        run([INSPECTOR, self.file])
        after = self.file.stat()
        self.assertEqual((before.st_mtime_ns, before.st_size), (after.st_mtime_ns, after.st_size))
        self.assertEqual(self.file.read_bytes(), ONE)
        self.assertEqual([path.name for path in self.file.parent.iterdir()], ["journal"])

    def test_words_and_files(self) -> None:
        self.assertEqual(run([INSPECTOR]), Ran(2, b"", b"bad words\n"))
        self.assertEqual(run([INSPECTOR, "-x"]), Ran(2, b"", b"bad words\n"))
        self.assertEqual(run([INSPECTOR, "a", "b"]), Ran(2, b"", b"bad words\n"))
        self.assertEqual(run([INSPECTOR, self.file]), Ran(11, b"", b"file fault\n"))
        self.assertEqual(run([INSPECTOR, self.file.parent]), Ran(11, b"", b"file fault\n"))
        self.file.write_bytes(ONE)
        for output in ("> /dev/full", ">&-"):
            ran = run(["sh", "-c", f'exec "$0" "$1" {output}', INSPECTOR, self.file])
            self.assertEqual(ran, Ran(5, b"", b"sink fault\n"))


def changes_of(session: bytes, replies: bytes, before: int) -> list[str]:
    """The changes that a session made since this position, by its replies: where a position is above the one before."""
    heads = [line for line in replies.decode().splitlines() if line.startswith(("ok ", "no "))]
    made: list[str] = []
    for line, head in zip(session.decode().splitlines(), heads):
        position = int(head.split(" ")[1])
        if position > before:
            verb, *words = line.split(" ")
            proposed = (
                [f"BEGIN {words[0]} {words[1]}", "POST " + " ".join(head.split(" ")[3:5])] if verb == "PROPOSE" else []
            )
            made += proposed or [line]
        before = position
    return made


class OfTheProgram(unittest.TestCase):
    def setUp(self) -> None:
        self.program = program()
        folder = tempfile.TemporaryDirectory()
        self.addCleanup(folder.cleanup)
        self.folder = Path(folder.name)
        self.script(EXAMPLES / "first-trades.session", self.folder / "two")
        if not (self.folder / "two").exists():
            self.skipTest("the program writes no journal")

    def script(self, session: Path, journal: Path) -> Ran:
        return run([self.program, "script", EXAMPLES / "roster.csv", journal], input=session.read_bytes())

    def test_the_journals_of_the_example_sessions(self) -> None:
        made: dict[str, list[str]] = {}
        for session in sessions():
            with self.subTest(session=session.name):
                name = session.name.split(".")[0]
                ran = self.script(session, self.folder / name)
                self.assertEqual(ran.status, 0)
                due = made.setdefault(name, [])
                due += changes_of(session.read_bytes(), ran.output, len(due))
                inspected = run([INSPECTOR, self.folder / name])
                self.assertEqual((inspected.status, inspected.errors), (0, b""))
                told = [line for line in inspected.output.decode().splitlines() if " record " in line]
                self.assertEqual([line.split(": ", 2)[2] for line in told], due)

    def test_the_place_of_damage(self) -> None:
        """Where the inspector tells damage of a journal, the program tells it at the same place, and leaves the file."""
        far = {33 + (255 << 8 * byte) for byte in range(1, 8)}
        self.assertEqual(self.places(PLAIN_TWO), {0, 8, 38, 58})
        self.assertEqual(self.places((self.folder / "two").read_bytes()), {0, 25, 29, 42, 80, 108, 230} | {at - 8 for at in far})
        self.assertEqual(self.places(BASED), {0, 25, 33, 136, 222} | far)

    def places(self, whole: bytes) -> set[int]:
        """Where the inspector tells damage of each cut of a journal, and of it with each byte another one."""
        changed = [whole[:size] for size in range(len(whole))]
        changed += [whole[:at] + bytes([255 - whole[at]]) + whole[at + 1 :] for at in range(len(whole))]
        places = set()
        for content in changed:
            with self.subTest(content=content):
                journal = self.folder / "changed"
                journal.write_bytes(content)
                inspected = run([INSPECTOR, journal])
                if inspected.status == 7:
                    ran = self.script(EXAMPLES / "first-trades.session", journal)
                    place = inspected.errors.split(b": ")[0] + b"\n"
                    self.assertEqual((ran.status, ran.errors), (7, place))
                    self.assertEqual(journal.read_bytes(), content)
                    places.add(int(place.rsplit(b" ", 1)[1]))
        return places


if __name__ == "__main__":
    unittest.main()
