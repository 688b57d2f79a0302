"""Records that are read in few steps, beside the same ones read field by field, as they are and with other bytes."""

import random
import struct
import sys
import unittest
from typing import Callable

from running import TOOLS
from spelled import Solution, record

sys.path.insert(0, str(TOOLS))

from delkwoan.moments import MOST_MOMENT
from delkwoan.quick import quick_change
from delkwoan.records import BadField, Kind, Record, record_by_fields, record_of

SAID = [
    "A: TRADE A BCDEFGHIJKLMNO-9 P 10 2026-03-02",
    "B: TRADE B A P 1000000000000000000 0000-02-29",
    *(f"A: {verb} 7" for verb in ("AFFIRM", "END", "HOLD", "FREE", "CANCEL")),
    "A: TOL B P out 4 -",
    "B: TOL A P in 0 1000000000000000000",
    "OPS: FREEZE 9999-12-31",
    "OPS: BEGIN 1 free",
    "A: ACCEPT 1 2",
    "A: DECLINE 3 4",
]
TIMES = 400


def read(reader: Callable[[bytes, Kind], Record], bytes: bytes, kind: Kind) -> Record | tuple[int, str]:
    """What a reader gives, or the place and the words of what it refuses."""
    try:
        return reader(bytes, kind)
    except BadField as bad:
        return bad.at, bad.what


class Quick(unittest.TestCase):
    def setUp(self) -> None:
        posted = Solution([(0, 1, 5), (1, 0, 3)], [1, -1])
        self.records = [*(record(said, seat=513) for said in SAID), record("OPS: POST 1 1", [posted])]
        self.dated = [struct.pack("<Q", moment) + bytes for bytes in self.records for moment in (0, 1_774_958_400, MOST_MOMENT)]
        for bytes in self.records:
            record_by_fields(bytes, Kind.UNDATED)

    def test_what_is_read_in_few_steps(self) -> None:
        quick = [quick_change(bytes, 5 + bytes[4]) for bytes in self.records]
        self.assertEqual([str(change) for change in quick if change is not None], [said.split(": ", 1)[1] for said in SAID if "OPS" not in said])

    def test_both_read_the_same(self) -> None:
        draw = random.Random(1)
        read_so = [*((bytes, Kind.UNDATED) for bytes in self.records), *((bytes, Kind.DATED) for bytes in self.dated)]
        for bytes, kind in read_so:
            self.assertEqual(record_of(bytes, kind), record_by_fields(bytes, kind))
            for _ in range(TIMES):
                at = draw.randrange(len(bytes) + 1)
                other = draw.choice((b"", bytes[at : at + 1] * 2, draw.randbytes(1), b"\0", b"\1", b"\xff"))
                changed = bytes[:at] + other + bytes[at + 1 :]
                with self.subTest(changed=changed.hex()):
                    self.assertEqual(read(record_of, changed, kind), read(record_by_fields, changed, kind))

    def test_moments(self) -> None:
        said = record("A: AFFIRM 7", moment=MOST_MOMENT)
        self.assertEqual(record_of(said, Kind.DATED).moment, MOST_MOMENT)
        self.assertEqual(read(record_of, record("A: AFFIRM 7", moment=MOST_MOMENT + 1), Kind.DATED), (0, f"the moment: {MOST_MOMENT + 1} is out of its range"))
        self.assertEqual(read(record_of, said[:7], Kind.DATED), (0, "the moment: the bytes end in it"))


if __name__ == "__main__":
    unittest.main()
