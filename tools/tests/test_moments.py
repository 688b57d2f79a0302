"""The moment of a change: the clock's second at which its line was asked, in one session as it goes on."""

import re
import subprocess
import tempfile
import time
import unittest
from datetime import datetime, timezone
from pathlib import Path
from typing import IO

from running import EXAMPLES, TOOLS, program, run

ROSTER = EXAMPLES / "roster.csv"
CHANGES = (b"TOL B P out 6 -\n", b"TOL B P out 7 -\n")


def wait_past(second: int) -> None:
    while int(time.time()) <= second:
        time.sleep(0.1)


def said_by(session: "subprocess.Popen[bytes]", line: bytes) -> bytes:
    """The first line of the reply to a line."""
    asks: IO[bytes] | None = session.stdin
    replies: IO[bytes] | None = session.stdout
    assert asks is not None and replies is not None
    asks.write(line)
    asks.flush()
    return replies.readline()


class Asked(unittest.TestCase):
    def test_each_change_has_the_second_at_which_it_was_asked(self) -> None:
        folder = tempfile.TemporaryDirectory()
        self.addCleanup(folder.cleanup)
        journal = Path(folder.name) / "journal"
        spans: list[tuple[int, int]] = []
        with subprocess.Popen([program(), "script", ROSTER, journal], stdin=subprocess.PIPE, stdout=subprocess.PIPE) as session:
            self.assertRegex(said_by(session, b"HELLO A KA\n"), rb"^ok ")
            for change in CHANGES:
                wait_past(spans[-1][1] if spans else int(time.time()))
                before = int(time.time())
                self.assertRegex(said_by(session, change), rb"^ok ")
                spans.append((before, int(time.time())))
            self.assertRegex(said_by(session, b"BYE\n"), rb"^ok ")
        told = run([TOOLS / "journal", journal]).output.decode()
        dates = re.findall(r": (20\d\d-\d\d-\d\d \d\d:\d\d:\d\d) UTC, seat 0, A: TOL ", told)
        moments = [int(datetime.strptime(date, "%Y-%m-%d %H:%M:%S").replace(tzinfo=timezone.utc).timestamp()) for date in dates]
        self.assertEqual(len(moments), len(CHANGES))
        for moment, (first, last) in zip(moments, spans):
            self.assertTrue(first <= moment <= last, (first, moment, last))


if __name__ == "__main__":
    unittest.main()
