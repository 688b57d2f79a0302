"""64 connections that a `serve` with 64 seats has at once, for some seconds; `bench/serve.py --held` does it for a minute."""

import unittest

from holding import Holder, faults_of, held
from serving import InService, Kept

SECONDS = 4.0
TRADES = ["TRADE A B P 1 2026-03-02", "TRADE B C P 2 2026-03-02", "TRADE A B P 3 2026-03-02"]
RECORDS = [Kept(1, "A", TRADES[0]), Kept(2, "B", TRADES[1]), Kept(1, "A", TRADES[2])]

BAD_RECORDS = [
    RECORDS[:2],
    [*RECORDS, RECORDS[2]],
    [RECORDS[0], RECORDS[2], RECORDS[1]],
    [RECORDS[0], RECORDS[1]._replace(party="A"), RECORDS[2]],
    [RECORDS[0], RECORDS[1]._replace(seat=1), RECORDS[2]],
    [RECORDS[0], RECORDS[1], RECORDS[2]._replace(seat=3)],
    [RECORDS[0], RECORDS[1], RECORDS[2]._replace(line=TRADES[0])],
]
"""A record is lost, comes twice, stands elsewhere, is another member's, has another's seat or a second one, or is another."""


class Judged(unittest.TestCase):
    def test_what_is_lost_or_mixed(self) -> None:
        one, other = Holder(0, 2), Holder(1, 2)
        one.trades, other.trades = {1: TRADES[0], 3: TRADES[2]}, {2: TRADES[1]}
        self.assertEqual(faults_of([one, other], RECORDS), [])
        for records in BAD_RECORDS:
            with self.subTest(records=records):
                self.assertNotEqual(faults_of([one, other], records), [])
        other.fault = "timed out"
        self.assertEqual(faults_of([one, other], RECORDS), ["timed out"])


class Held(InService):
    def test_64_connections(self) -> None:
        self.start("--seats", "64")
        holders = held(self.port, 64, SECONDS)
        self.assertEqual(faults_of(holders, self.records()), [])
        self.assertTrue(all(holder.trades for holder in holders))


if __name__ == "__main__":
    unittest.main()
