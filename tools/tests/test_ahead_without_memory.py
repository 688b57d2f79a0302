"""Lines that are made together, of which one gets no memory: it alone is told so, and what the others make is kept."""

import itertools
import os
import subprocess
import unittest
from functools import cache
from typing import NamedTuple

from running import PATIENCE, Ran
from serving import ROSTER
from test_refusals import Refused

DAY = "2026-03-02"
LINES = (
    "HELLO A KA",
    f"TRADE A B P 1 {DAY}",
    f"TRADE A B P 2 {DAY}",
    "NETS P",
    f"TRADE A C P 4 {DAY}",
    "END 9",
    f"TRADE A B P 8 {DAY}",
    f"TRADE A B P 16 {DAY}",
    "HELLO B KB",
    "AFFIRM 1",
    "HOLD 1",
    "NETS P",
    "AFFIRM 2",
    "HOLD 2",
    "FREE 2",
)
"""Two calls of several lines, of A's and of B's, whose changes depend on one another, with reads and refusals between them."""
CHANGES = {at for at, line in enumerate(LINES) if line.split()[0] in ("TRADE", "AFFIRM", "HOLD", "FREE")}
NOON = 1_774_958_400
"""What the clock tells in each run: noon on 31 March 2026."""


class Made(NamedTuple):
    """What a script of lines has told, line by line, and kept."""

    status: int
    errors: bytes
    replies: list[bytes]
    journal: bytes


ENDED = Ran(9, b"", b"memory\n")
"""There was no memory for the session."""


class OneOfSeveral(Refused):
    def made(self, lines: tuple[str, ...], refused: int) -> tuple[Made, bool]:
        """What a script on a new journal makes that is refused this request for memory, and whether there was such a request."""
        journal, mark = self.folder / "made", self.folder / "refused"
        journal.unlink(missing_ok=True)
        mark.unlink(missing_ok=True)
        settings = {"LD_PRELOAD": str(self.library), "MOMENT": str(NOON), "REFUSED": str(mark), "REFUSE_MEMORY": str(refused)}
        text = "".join(line + "\n" for line in lines).encode()
        words = [self.program, "script", ROSTER, journal]
        done = subprocess.run(words, input=text, env={**os.environ, **settings}, capture_output=True, timeout=PATIENCE)
        kept = journal.read_bytes() if journal.exists() else b""
        return Made(done.returncode, done.stderr, done.stdout.splitlines(), kept), mark.exists()

    def without(self, place: int) -> Made:
        """What has to be told and kept where the line at this place gets no memory: what is without it, at the position before it."""
        rest = self.made(LINES[:place] + LINES[place + 1 :], 0)[0]
        position = rest.replies[place - 1].split()[1].decode()
        refusal = f"no {position} 28 memory".encode()
        return rest._replace(replies=[*rest.replies[:place], refusal, *rest.replies[place:]])

    def test_each_request_is_refused_in_turn(self) -> None:
        due, without = self.made(LINES, 0)[0], cache(self.without)
        self.assertEqual((due.status, due.errors, len(due.replies)), (0, b"", len(LINES)))
        lacked = set[int]()
        for number in itertools.count(1):
            made, was_refused = self.made(LINES, number)
            if not was_refused:
                break
            places = [at for at, reply in enumerate(made.replies) if reply.endswith(b" 28 memory")]
            lacked.update(places)
            with self.subTest(number=number):
                if made.status != 0:
                    self.assertEqual(Ran(made.status, b"\n".join(made.replies), made.errors), ENDED)
                else:
                    self.assertLessEqual(len(places), 1)
                    self.assertEqual(made, without(places[0]) if places else due)
        self.assertLessEqual(CHANGES, lacked)


if __name__ == "__main__":
    unittest.main()
