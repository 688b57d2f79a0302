"""Connections of a service with `--idle` that send nothing, or take nothing."""

import socket
import time
import unittest

from running import PATIENCE
from serving import InService

IDLE = 2
LONG_IDLE = 5
NO_LINE = b"no 0 3 bad-line 0\n"
CLOCKS = 0.1
"""By how much the system's clock for a call may differ from the test's."""


class Silence(InService):
    def connect(self) -> socket.socket:
        connection = socket.create_connection(("127.0.0.1", self.port), PATIENCE)
        self.addCleanup(connection.close)
        return connection

    def is_answered(self, connection: socket.socket) -> bool:
        connection.sendall(b"\n")
        return connection.recv(64) == NO_LINE

    def test_eight_silent_connections_at_four_seats(self) -> None:
        """Four have the seats, four wait for them; each is closed behind its time, with no reply, and then the ninth is served."""
        self.start("--idle", str(IDLE))
        begun = time.monotonic()
        silent = [self.connect() for _ in range(8)]
        ninth = self.connect()
        self.assertTrue(self.is_answered(ninth))
        took = time.monotonic() - begun
        self.assertGreaterEqual(took, 2 * IDLE - CLOCKS)
        self.assertLess(took, 60 * IDLE)
        for connection in silent:
            self.assertEqual(connection.recv(64), b"")

    def test_half_a_line_is_silence(self) -> None:
        self.start("--idle", "1", "--seats", "1")
        half = self.connect()
        half.sendall(b"HELLO A K")
        self.assertTrue(self.is_answered(self.connect()))
        self.assertEqual(half.recv(64), b"")

    def test_a_byte_in_time_is_enough_to_stay(self) -> None:
        """For as long as two such times it sends, with more room for each byte than a busy machine takes."""
        self.start("--idle", str(LONG_IDLE))
        connection = self.connect()
        end = time.monotonic() + 2 * LONG_IDLE
        while time.monotonic() < end:
            connection.sendall(b"X")
            time.sleep(0.2)
        self.assertTrue(self.is_answered(connection))

    def test_one_that_takes_nothing_is_closed(self) -> None:
        """It sends lines until nothing more goes, since its replies fill all room; another is served behind its time."""
        self.start("--idle", "1", "--seats", "1")
        greedy = socket.socket()
        self.addCleanup(greedy.close)
        greedy.setsockopt(socket.SOL_SOCKET, socket.SO_RCVBUF, 4096)
        greedy.connect(("127.0.0.1", self.port))
        greedy.setblocking(False)
        stalled = time.monotonic()
        while time.monotonic() < stalled + 0.5:
            try:
                greedy.send(b"\n" * 65_536)
                stalled = time.monotonic()
            except BlockingIOError:
                time.sleep(0.01)
            except ConnectionError:
                break
        self.assertTrue(self.is_answered(self.connect()))

    def test_without_the_option_nobody_is_closed(self) -> None:
        self.start("--seats", "1")
        silent, waiting = self.connect(), self.connect()
        waiting.settimeout(IDLE + 1)
        with self.assertRaises(TimeoutError):
            self.is_answered(waiting)
        silent.close()
        waiting.settimeout(PATIENCE)
        self.assertEqual(waiting.recv(64), NO_LINE)


if __name__ == "__main__":
    unittest.main()
