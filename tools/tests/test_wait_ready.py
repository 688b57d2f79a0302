"""Waiting until an address takes connections."""

import socket
import subprocess
import threading
import time
import unittest

from running import PATIENCE, TOOLS, Ran, run
from serving import free_port

WAIT = TOOLS / "wait-ready"
ENOUGH = 12
"""Seconds in which a busy machine answers each connection that is answered at all."""

BAD: list[list[str]] = [[], ["127.0.0.1:1", "1", "1"], ["127.0.0.1"], [":1"], ["127.0.0.1:"], ["127.0.0.1:65536"]]
BAD += [["127.0.0.1:x"], ["::1:7000"], ["127.0.0.1:1", "x"], ["127.0.0.1:1", "-1"], ["127.0.0.1:1", "nan"]]
BAD += [["--seats"], ["--seats", "2"], ["--seat", "2", "127.0.0.1:1"], ["--seats=x", "127.0.0.1:1"]]
BAD += [["--seats", number, "127.0.0.1:1"] for number in ("0", "65", "01", "-1", "")]
BAD += [["--process", number, "127.0.0.1:1"] for number in ("x", "0", "-1", "01", "99999999")]
ENDED = Ran(1, b"", b"the service ended before it took a connection: its own line and status say why\n")


def answer(server: socket.socket, answered: int, asked: int) -> None:
    """Takes a connection, which only looks, and `asked` more, and answers the first of these once all are there."""
    server.accept()[0].close()
    connections = [server.accept()[0] for _ in range(asked)]
    for connection in connections[:answered]:
        connection.sendall(b"no 0 3 bad-line 0\n")
    for connection in connections:
        while connection.recv(64):
            pass
        connection.close()


def answer_one(server: socket.socket, waits: socket.socket) -> None:
    """Takes a connection, which only looks, and one more, which is answered once another one waits."""
    server.accept()[0].close()
    connection = server.accept()[0]
    waits.connect(server.getsockname())
    connection.sendall(b"no 0 3 bad-line 0\n")
    while connection.recv(64):
        pass
    connection.close()


class Waiting(unittest.TestCase):
    def test_one_that_listens(self) -> None:
        with socket.create_server(("127.0.0.1", 0)) as server:
            self.assertEqual(run([WAIT, f"127.0.0.1:{server.getsockname()[1]}", "0"]), Ran(0, b"", b""))
            self.assertEqual(run([WAIT, f"localhost:{server.getsockname()[1]}"]), Ran(0, b"", b""))

    def test_none_that_listens(self) -> None:
        begin = time.monotonic()
        self.assertEqual(run([WAIT, f"127.0.0.1:{free_port()}", "0.5"]), Ran(1, b"", b""))
        self.assertGreaterEqual(time.monotonic() - begin, 0.5)
        self.assertEqual(run([WAIT, "nowhere.invalid:7000", "0"]), Ran(1, b"", b""))

    def test_one_that_listens_later(self) -> None:
        port = free_port()
        servers: list[socket.socket] = []
        later = threading.Timer(0.7, lambda: servers.append(socket.create_server(("127.0.0.1", port))))
        later.start()
        self.assertEqual(run([WAIT, f"127.0.0.1:{port}", str(PATIENCE)]), Ran(0, b"", b""))
        later.join()
        servers[0].close()

    def test_seats(self) -> None:
        """A server that answers this many connections, all open, and lets the others wait."""
        lacking = Ran(1, b"2 of 3 answered\n", b"")
        for answered, asked, seconds, told in ((3, 3, PATIENCE, Ran(0, b"", b"")), (2, 3, ENOUGH, lacking)):
            with self.subTest(answered=answered), socket.create_server(("127.0.0.1", 0)) as server:
                thread = threading.Thread(target=answer, args=(server, answered, asked))
                thread.start()
                address = f"127.0.0.1:{server.getsockname()[1]}"
                self.assertEqual(run([WAIT, "--seats", str(asked), address, str(seconds)]), told)
                thread.join()

    def test_seats_that_others_have(self) -> None:
        """A server of two seats: one that another has counts as answered, and one that waits for a seat does not."""
        short = b"1 of 3 answered, and others have 1\n"
        for asked, seconds, told in ((2, PATIENCE, Ran(0, b"", b"")), (3, ENOUGH, Ran(1, short, b""))):
            with self.subTest(asked=asked), socket.create_server(("127.0.0.1", 0)) as server, socket.socket() as other, socket.socket() as waits:
                other.connect(server.getsockname())
                taken = server.accept()[0]
                thread = threading.Thread(target=answer_one, args=(server, waits))
                thread.start()
                address = f"127.0.0.1:{server.getsockname()[1]}"
                self.assertEqual(run([WAIT, "--seats", str(asked), address, str(seconds)]), told)
                taken.close()
                thread.join()

    def test_a_process_that_ends(self) -> None:
        """The wait is over then, whether anybody has asked for its status or not."""
        address = f"127.0.0.1:{free_port()}"
        for name, line in (("at once", "true"), ("later", "sleep 1")):
            with self.subTest(name), subprocess.Popen(["sh", "-c", line]) as process:
                self.assertEqual(run([WAIT, f"--process={process.pid}", address, str(PATIENCE)]), ENDED)
        self.assertEqual(run([WAIT, f"--process={process.pid}", address, str(PATIENCE)]), ENDED)
        self.assertEqual(run([WAIT, "--process=", address, str(PATIENCE)]), ENDED)

    def test_a_process_that_goes_on(self) -> None:
        with subprocess.Popen(["sleep", str(PATIENCE)]) as process:
            with socket.create_server(("127.0.0.1", 0)) as server:
                self.assertEqual(run([WAIT, f"--process={process.pid}", f"127.0.0.1:{server.getsockname()[1]}"]), Ran(0, b"", b""))
            self.assertEqual(run([WAIT, f"--process={process.pid}", f"127.0.0.1:{free_port()}", "0.5"]), Ran(1, b"", b""))
            process.kill()

    def test_words(self) -> None:
        for words in BAD:
            with self.subTest(words=words):
                self.assertEqual(run([WAIT, *words]), Ran(2, b"", b"bad words\n"))


if __name__ == "__main__":
    unittest.main()
