"""Bad input to a `serve`: it gets its own refusals, or ends its own session or start, and the others are served on.

What is due is written from docs/PROTOCOL.md and docs/OPERATIONS.md.
"""

import os
import socket
import struct
import sys
import time
import unittest
from typing import NamedTuple

from running import PATIENCE, TOOLS, Ran, run
from serving import ROSTER, InService

sys.path.insert(0, str(TOOLS))

from delkwoan import replies

NAMES = b"ABCDEFGHIJKLMNOPQRSTUVWXYZ0123456789-"
"""The bytes of a name."""


def unknown(count: int) -> bytes:
    """The replies to so many lines whose first word is no command."""
    return count * b"no 0 3 bad-line 0\n"


def of_product(byte: int) -> bytes:
    """The replies to `NETS`, a blank, a byte and a line feed, where nobody has greeted."""
    if byte == 10:
        return b"no 0 3 bad-line 5\n" + unknown(1)
    return b"no 0 1 not-greeted\n" if byte in NAMES else b"no 0 3 bad-line 5\n"


BYTES = [bytes([value]) for value in range(256)]
EACH = b"".join(BYTES)
OF_EACH_VALUE: list[tuple[str, bytes, bytes]] = [
    ("all but a line feed", EACH.replace(b"\n", b"") + b"\n", unknown(1)),
    ("all, with a line feed among them", EACH, unknown(2)),
    ("all from the last on", EACH[::-1] + b"\n", unknown(2)),
    ("a line of each", b"".join(byte + b"\n" for byte in BYTES), unknown(257)),
    ("each as a product", b"".join(b"NETS " + byte + b"\n" for byte in BYTES), b"".join(map(of_product, range(256)))),
]

OF_LENGTHS: list[tuple[bytes, bytes]] = [
    (b"X" * 4095 + b"\n", unknown(1)),
    (b"X" * 4096 + b"\n", unknown(1)),
    (b"X" * 4097 + b"\n", b"no 0 3 bad-line 4096\n"),
    (b"X" * 4095 + b"\r\n", unknown(1)),
    (b"X" * 4096 + b"\r\n", b"no 0 3 bad-line 4096\n"),
    (b"X" * 4096, unknown(1)),
    (b"X" * 4097, b"no 0 3 bad-line 4096\n"),
    (b"\n" * 5000, unknown(5000)),
]
"""Lines about as long as one may be, and their replies."""

class Half(NamedTuple):
    """Half a line; the reply to it as a last line; the rest of it, with more lines, and the replies to all of them."""

    half: bytes
    reply: bytes
    rest: bytes
    replies: bytes


GREETED = b"ok 0 hello B\nok 0 bye\n"
HALVES = [
    Half(b"HELLO B K", b"no 0 2 bad-key\n", b"B\nBYE\n", GREETED),
    Half(
        b"TRADE A B P 10 2026-03-0",
        b"no 0 3 bad-line 15\n",
        b"2\nHELLO B KB\nBYE\n",
        b"no 0 1 not-greeted\n" + GREETED,
    ),
    Half(b"\xff", unknown(1), b"\nHELLO B KB\nBYE\n", unknown(1) + GREETED),
]

IDLE = 9
"""The descriptors of a service with four seats that serves nobody; each connection has one more."""

NO_ADDRESSES = ["", "127.0.0.1", "127.0.0.1:", "127.0.0.1:65536", "127.0.0.1:x", "203.0.113.1:7000", "no.invalid:7000"]


def end_of(connection: socket.socket) -> bytes:
    """What comes to the connection's end."""
    given = b""
    while piece := connection.recv(65_536):
        given += piece
    return given


def reset(connection: socket.socket) -> None:
    """Ends a connection at once: the peer's next call fails."""
    connection.setsockopt(socket.SOL_SOCKET, socket.SO_LINGER, struct.pack("ii", 1, 0))
    connection.close()


class BadInput(InService):
    def setUp(self) -> None:
        """A service with four seats, of which a member has one all the time."""
        super().setUp()
        self.start()
        self.member = self.session("A")

    def connection(self) -> socket.socket:
        return socket.create_connection(("127.0.0.1", self.port), PATIENCE)

    def told(self, *pieces: bytes) -> bytes:
        """The replies to a text, which is sent in these pieces and ends behind the last. Between them the member is served."""
        with self.connection() as connection:
            for piece in pieces:
                connection.sendall(piece)
                self.assert_member_is_served()
            connection.shutdown(socket.SHUT_WR)
            return end_of(connection)

    def assert_member_is_served(self) -> None:
        self.assertEqual(self.member.nets("P"), replies.Nets(0, 0, 0, 0))

    def assert_all_are_served(self) -> None:
        """The member is served, and on each of the other three seats another one."""
        self.assert_member_is_served()
        for session in [self.session("B") for _ in range(3)]:
            self.assertEqual(session.bye(), replies.Bye(0))

    def test_a_line_of_50_mebibytes(self) -> None:
        for filling in (b"X", b" ", b"HELLO B KB\r"):
            half = filling * (26_214_400 // len(filling))
            due = b"no 0 3 bad-line 4096\n"
            with self.subTest(filling=filling):
                self.assertEqual(self.told(half, half), due)
                self.assertEqual(self.told(half, half, b"\nHELLO B KB\n"), due + b"ok 0 hello B\n")
        self.assert_all_are_served()

    def test_lengths_of_lines(self) -> None:
        for text, due in OF_LENGTHS:
            with self.subTest(text=text[-2:], size=len(text)):
                self.assertEqual(self.told(text), due)

    def test_bytes_of_each_value(self) -> None:
        for name, text, due in OF_EACH_VALUE:
            with self.subTest(name):
                self.assertEqual(self.told(text), due)
                self.assertEqual(self.told(*(text[at : at + 97] for at in range(0, len(text), 97))), due)
        self.assert_all_are_served()

    def test_half_a_line_that_ends(self) -> None:
        """A last line without a line feed counts."""
        for case in HALVES:
            with self.subTest(half=case.half):
                self.assertEqual(self.told(case.half), case.reply)
        self.assertEqual(self.told(b"HELLO B KB\nBYE"), GREETED)
        self.assert_all_are_served()

    def test_half_a_line_and_then_nothing(self) -> None:
        """It is held open and gets nothing, and then the rest of the line comes."""
        for case in HALVES:
            with self.subTest(half=case.half), self.connection() as connection:
                connection.sendall(case.half)
                self.assert_member_is_served()
                connection.settimeout(0.2)
                with self.assertRaises(TimeoutError):
                    connection.recv(1)
                self.assert_member_is_served()
                connection.settimeout(PATIENCE)
                connection.sendall(case.rest)
                self.assertEqual(end_of(connection), case.replies)
        self.assert_all_are_served()

    def test_half_a_line_that_is_lost(self) -> None:
        """Three hold the other seats with half a line each, and go away without a word. No change is made of it."""
        for leave in (socket.socket.close, reset):
            held = [self.connection() for _ in HALVES]
            for connection, case in zip(held, HALVES):
                connection.sendall(b"HELLO A KA\n")
                self.assertEqual(connection.recv(100), b"ok 0 hello A\n")
                connection.sendall(case.half)
            self.assert_member_is_served()
            for connection in held:
                leave(connection)
            self.assert_all_are_served()
        self.assertEqual(self.records(), [])

    def test_a_line_that_lacks_its_end_where_the_connection_fails(self) -> None:
        """It is no last line, since the text did not end."""
        connection = self.connection()
        connection.sendall(b"HELLO A KA\n")
        self.assertEqual(connection.recv(100), b"ok 0 hello A\n")
        connection.sendall(b"TRADE A B P 10 2026-03-02")
        reset(connection)
        self.assert_all_are_served()
        self.assertEqual(self.records(), [])

    def test_a_peer_that_does_not_read(self) -> None:
        """It sends until nothing more is taken from it, and holds up its own seat alone; then it reads all replies."""
        text = 10_000 * b"NETS P\n"
        with socket.socket() as connection:
            connection.setsockopt(socket.SOL_SOCKET, socket.SO_RCVBUF, 4096)
            connection.connect(("127.0.0.1", self.port))
            connection.settimeout(1)
            sent = 0
            with self.assertRaises(TimeoutError):
                while sent < 1 << 30:
                    sent += connection.send(text[sent % len(text) :])
            for _ in range(100):
                self.assert_member_is_served()
            connection.settimeout(PATIENCE)
            due = b"no 0 1 not-greeted\n" * (sent // len(b"NETS P\n"))
            given = bytearray()
            while len(given) < len(due) and (piece := connection.recv(65_536)):
                given += piece
        self.assertTrue(given == due, f"{len(given)} bytes of {len(due)}")
        self.assert_all_are_served()

    def test_a_thousand_connections(self) -> None:
        """One after another they are opened and closed, in four ways, and nothing is left of them."""
        for count in range(1000):
            connection = self.connection()
            if count % 2:
                connection.sendall(b"HELLO A KA\nTRADE A B P 1 2026")
            leave = reset if count % 4 > 1 else socket.socket.close
            leave(connection)
            if count % 50 == 0:
                self.session("B").close()
                self.assert_member_is_served()
        self.assert_all_are_served()
        end = time.monotonic() + PATIENCE
        while self.descriptors() != IDLE + 1 and time.monotonic() < end:
            time.sleep(0.01)
        self.assertEqual(self.descriptors(), IDLE + 1)
        self.assertEqual(self.records(), [])

    def descriptors(self) -> int:
        assert self.service is not None
        return len(os.listdir(f"/proc/{self.service.pid}/fd"))

    def test_an_address_in_use(self) -> None:
        """Another service at this address ends, and has changed nothing of its journal; this one serves on."""
        other = self.folder / "other"
        self.assertEqual(run([self.program, "script", ROSTER, other], b"HELLO A KA\nTRADE A B P 10 2026-03-02\n").status, 0)
        before = other.read_bytes()
        self.assertEqual(run(self.words(other)), Ran(10, b"", b"listener fault\n"))
        self.assertEqual(other.read_bytes(), before)
        self.assert_all_are_served()

    def test_what_is_no_address(self) -> None:
        for address in NO_ADDRESSES:
            with self.subTest(address=address):
                words = [self.program, "serve", ROSTER, self.folder / "other", address]
                self.assertEqual(run(words), Ran(10, b"", b"listener fault\n"))
        self.assertEqual(self.records(self.folder / "other"), [])
        self.assert_all_are_served()


if __name__ == "__main__":
    unittest.main()
