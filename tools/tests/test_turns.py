"""Waiting and waking in the lock: all interleavings of few seats, and 64 seats of a service that are always at work."""

import unittest

from holding import faults_of, held
from serving import InService
from turns import Lock, Wrong

SECONDS = 60.0

SIZES = [(2, 2, 1, 2), (2, 2, 2, 1), (3, 1, 2, 3), (3, 1, 2, 2)]
"""Seats, calls of each, bells, and places; `turns.py` walks other sizes."""

LOST = {wrong: (2, 2, 2, 2) for wrong in Wrong} | {Wrong.WAKES_ONE: (3, 1, 1, 3)}
"""Where a wrong lock loses a wake-up: to wake one of two is wrong only where they share a bell."""


class Walked(unittest.TestCase):
    def test_no_seat_sleeps_on(self) -> None:
        for size in SIZES:
            with self.subTest(size=size):
                walked = Lock().walk(*size)
                self.assertEqual((walked.lost, walked.doubled), (None, None))

    def test_wrong_locks(self) -> None:
        for wrong, size in LOST.items():
            with self.subTest(wrong=wrong):
                self.assertIsNotNone(Lock(wrong).walk(*size).lost)


class AtWork(InService):
    def test_64_seats(self) -> None:
        self.start("--seats", "64")
        holders = held(self.port, 64, SECONDS, pause=0)
        self.assertEqual(faults_of(holders, self.records()), [])
        self.assertTrue(all(holder.trades for holder in holders))


if __name__ == "__main__":
    unittest.main()
