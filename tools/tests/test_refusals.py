"""What a service does where the system refuses it a connection, descriptors or threads: a library that is preloaded refuses them."""

import errno
import os
import resource
import shutil
import socket
import subprocess
import tempfile
import time
import unittest
from pathlib import Path

from running import PATIENCE, TOOLS, Ran, run
from serving import ROSTER, InService, started

GONE = ["ENETDOWN", "EPROTO", "ENOPROTOOPT", "EHOSTDOWN", "ENONET", "EHOSTUNREACH", "EOPNOTSUPP", "ENETUNREACH"]
GONE += ["ECONNABORTED", "ECONNRESET", "ETIMEDOUT"]
"""A connection that is gone before it was accepted."""
SHORT = ["EPERM", "EMFILE", "ENFILE", "ENOBUFS", "ENOMEM"]
"""A machine that is short of something for a moment, and a rule of its network."""
LASTING = ["EBADF", "EINVAL"]
"""A socket that is none any more."""

MANY = 100
FOR_EVER = 1_000_000_000
SEATS = 4
MINUTE = 60_000
READY = 120
"""Seconds in which seats answer."""
LACKING = 10
"""Seconds that are waited for seats that do not."""


class Refused(InService):
    """A service that is refused calls by a library which the test builds."""

    library: Path

    @classmethod
    def setUpClass(cls) -> None:
        super().setUpClass()
        if shutil.which("gcc") is None:
            raise unittest.SkipTest("no gcc")
        folder = tempfile.TemporaryDirectory()
        cls.addClassCleanup(folder.cleanup)
        cls.library = Path(folder.name) / "refusals.so"
        built = run(["gcc", "-shared", "-fPIC", "-o", cls.library, TOOLS / "tests/refusals.c", "-ldl"])
        if built.status != 0:
            raise unittest.SkipTest(f"gcc builds no library: {built.errors.decode()}")

    def refuse(self, setting: str, *options: str) -> None:
        """Starts a service whose calls are refused by this setting, and does not wait for it."""
        name, value = setting.split("=")
        self.slept = self.folder / "slept"
        self.slept.unlink(missing_ok=True)
        environ = {**os.environ, "LD_PRELOAD": str(self.library), name: value, "SLEPT": str(self.slept)}
        self.service = started([*self.words(), *options], environ)

    def sleeps(self) -> list[int]:
        """The milliseconds of each sleep that the service asked for."""
        return [int(line) for line in self.slept.read_text().split()] if self.slept.exists() else []

    def ready(self, seats: int, seconds: int) -> Ran:
        """What `wait-ready` says of so many seats."""
        return run([TOOLS / "wait-ready", "--seats", str(seats), self.address, str(seconds)])

    def ended(self) -> Ran:
        """How the service ended by itself."""
        assert self.service is not None
        output, errors = self.service.communicate(timeout=PATIENCE)
        ran = Ran(self.service.returncode, output, errors)
        self.service = None
        return ran


class RefusedConnections(Refused):
    def test_a_connection_that_is_gone_is_passed_over(self) -> None:
        for name in GONE:
            for count in (1, MANY):
                with self.subTest(error=name, count=count):
                    self.refuse(f"REFUSE_ACCEPT={getattr(errno, name)}:{count}")
                    self.assertEqual(self.ready(SEATS, READY), Ran(0, b"", b""))
                    self.assertEqual(self.sleeps(), [])
                    self.kill()

    def test_a_moment_without_room_is_waited_for(self) -> None:
        for name in SHORT:
            for count in (1, MANY):
                with self.subTest(error=name, count=count):
                    self.refuse(f"REFUSE_ACCEPT={getattr(errno, name)}:{count}")
                    self.assertEqual(self.ready(SEATS, READY), Ran(0, b"", b""))
                    self.assertEqual(len(self.sleeps()), count)
                    self.kill()

    def test_each_wait_is_twice_the_one_before_and_a_minute_is_all(self) -> None:
        for name in SHORT:
            with self.subTest(error=name):
                self.refuse(f"REFUSE_ACCEPT={getattr(errno, name)}:{FOR_EVER}", "--seats", "1")
                told = (9, b"memory\n") if name == "ENOMEM" else (10, b"listener fault\n")
                self.assertEqual(self.ended(), Ran(told[0], b"history 0\n", told[1]))
                waits = self.sleeps()
                self.assertEqual(waits[:8], [8, 16, 32, 64, 128, 256, 512, 1000])
                self.assertEqual(max(waits), 1000)
                self.assertEqual(sum(waits), MINUTE)

    def test_a_socket_that_gives_none_ends_each_seat(self) -> None:
        for name in LASTING:
            with self.subTest(error=name):
                self.refuse(f"REFUSE_ACCEPT={getattr(errno, name)}:{FOR_EVER}")
                self.assertEqual(self.ended(), Ran(10, b"history 0\n", b"listener fault\n"))
                self.assertEqual(self.sleeps(), [])

    def test_a_signal_ends_a_seat_that_waits(self) -> None:
        self.refuse(f"REFUSE_ACCEPT={errno.EMFILE}:{FOR_EVER}", "--seats", "1")
        deadline = time.monotonic() + PATIENCE
        while not self.sleeps() and time.monotonic() < deadline:
            time.sleep(0.01)
        assert self.service is not None
        self.service.terminate()
        self.assertEqual(self.service.wait(PATIENCE), -15)


class Descriptors(InService):
    def test_a_service_with_few_descriptors_serves_one_after_another(self) -> None:
        """Four connections at once, and a descriptor for one: each is answered once those before it are closed."""
        few = 10

        def limit() -> None:
            resource.setrlimit(resource.RLIMIT_NOFILE, (few, few))

        self.service = service = started(self.words(), limit=limit)
        self.assertEqual(run([TOOLS / "wait-ready", self.address, str(PATIENCE)]), Ran(0, b"", b""))
        waiting = [socket.create_connection(("127.0.0.1", self.port), PATIENCE) for _ in range(SEATS)]
        for connection in waiting:
            connection.sendall(b"\n")
        answered = 0
        while waiting:
            served = self.next_answered(waiting)
            self.assertEqual(served.recv(64), b"no 0 3 bad-line 0\n")
            waiting.remove(served)
            served.close()
            answered += 1
        self.assertEqual(answered, SEATS)
        self.assertIsNone(service.poll())

    def next_answered(self, waiting: list[socket.socket]) -> socket.socket:
        """The first of these to which something comes."""
        deadline = time.monotonic() + PATIENCE
        while time.monotonic() < deadline:
            for connection in waiting:
                connection.settimeout(0.05)
                try:
                    connection.recv(1, socket.MSG_PEEK)
                    return connection
                except TimeoutError:
                    continue
        raise self.failureException("nobody is answered")


class RefusedThreads(Refused):
    def test_seats_without_threads_are_told(self) -> None:
        """Seats that can't have a thread share one: each connection is served, but not all at once, and that is told."""
        self.refuse(f"REFUSE_THREAD={errno.EAGAIN}:{FOR_EVER}", "--seats", "3")
        self.assertEqual(run([TOOLS / "wait-ready", self.address, str(PATIENCE)]), Ran(0, b"", b""))
        self.assertEqual(self.ready(3, LACKING), Ran(1, b"1 of 3 answered\n", b""))
        for _ in range(3):
            self.assertEqual(self.ready(1, READY), Ran(0, b"", b""))
        self.kill()

    def test_one_refused_thread_is_told(self) -> None:
        self.refuse(f"REFUSE_THREAD={errno.EAGAIN}:1", "--seats", "3")
        self.assertEqual(run([TOOLS / "wait-ready", self.address, str(PATIENCE)]), Ran(0, b"", b""))
        told = self.ready(3, LACKING)
        self.assertEqual((told.status, told.errors), (1, b""))
        self.assertIn(told.output, (b"1 of 3 answered\n", b"2 of 3 answered\n"))
        self.kill()
        self.start("--seats", "3")
        self.assertEqual(self.ready(3, READY), Ran(0, b"", b""))


LINES = b"HELLO A KA\nTRADE A B P 10 2026-03-02\n"
MOST_REQUESTS = 200
"""More than a script of these lines has: the last run is refused nothing."""

ANSWERED = Ran(0, b"ok 0 hello A\nok 1 trade 1\n", b"")
NO_MEMORY = {Ran(9, b"", b"memory\n"), Ran(0, b"ok 0 hello A\nno 0 28 memory\n", b"")}
"""What is told where memory was refused before a session, and to the change of one."""


class RefusedMemory(Refused):
    def with_refusal(self, number: int) -> Ran:
        """A script over a new journal, whose request for memory with this number is refused."""
        environ = {**os.environ, "LD_PRELOAD": str(self.library), "REFUSE_MEMORY": str(number)}
        words = [self.program, "script", ROSTER, self.folder / f"journal{number}"]
        done = subprocess.run(words, input=LINES, env=environ, capture_output=True, timeout=PATIENCE)
        return Ran(done.returncode, done.stdout, done.stderr)

    def test_want_of_memory_is_no_fault_of_the_disk(self) -> None:
        """A script with one change, each of whose requests for memory is refused in turn."""
        told = [self.with_refusal(number) for number in range(1, MOST_REQUESTS + 1)]
        for number, ran in enumerate(told, 1):
            with self.subTest(number=number):
                self.assertIn(ran, NO_MEMORY | {ANSWERED})
        self.assertEqual(told[-1], ANSWERED)
        self.assertLessEqual(NO_MEMORY, set(told))


if __name__ == "__main__":
    unittest.main()
