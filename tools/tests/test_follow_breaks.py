"""A standby whose connection breaks, that is told to end at any moment, or whose primary comes back with another history."""

import os
import random
import shutil
import signal
import socket
import threading
import time
import unittest
from pathlib import Path

from running import Ran, run
from serving import ROSTER, started
from standing import WithStandby, children_of, outage, stored


class Breaks(WithStandby):
    def test_the_primary_starts_again(self) -> None:
        cases: list[list[str]] = [[], ["--compare"]]
        for options in cases:
            with self.subTest(options=options):
                self.start()
                self.trade(10, 20)
                self.follow(*options)
                self.wait_for(stored(self.journal).end)
                position = stored(self.journal).end
                self.restart()
                self.trade(30)
                self.wait_for(position + 1)
                self.assertEqual(self.stopped(), Ran(0, b"", b"".join(outage(self.port, position))))
                self.kill()
                self.assert_prefix()

    def test_the_primary_comes_later(self) -> None:
        self.follow()
        lost, made = outage(self.port, 0)
        self.assertEqual(self.line(), lost)
        self.start()
        self.trade(10)
        self.wait_for(1)
        self.assertEqual(self.stopped(), Ran(0, b"", made))

    def test_it_ends_without_a_primary(self) -> None:
        """Where none was ever there, and where it has gone."""
        self.follow()
        told = Ran(21, b"", f"no connection to 127.0.0.1 at {self.port}\n".encode())
        self.assertEqual(self.line(), outage(self.port, 0)[0])
        self.assertEqual(self.stopped(), told)
        self.start()
        self.trade(10)
        self.follow()
        self.wait_for(1)
        self.kill()
        self.assertEqual(self.line(), outage(self.port, 1)[0])
        self.assertEqual(self.stopped(), told)

    def test_replies_that_break_at_each_byte(self) -> None:
        """A relay ends each connection behind some bytes more than the one before; one program reads all of it."""
        self.start()
        self.trade(*range(1, 31))
        relay = Breaking(self.port)
        self.addCleanup(relay.close)
        words = [word if word != self.address else f"127.0.0.1:{relay.port}" for word in self.follow_words()]
        self.following = started(words)
        self.wait(lambda: self.following is not None and bool(children_of(self.following.pid)))
        assert self.following is not None
        program = children_of(self.following.pid)
        self.wait_for(30)
        self.assertEqual(children_of(self.following.pid), program)
        self.assertGreater(relay.count, 10)
        relay.most, count = None, relay.count
        self.wait(lambda: relay.count > count)
        self.trade(40)
        self.wait_for(31)
        self.assertEqual(self.stopped().status, 0)
        self.assertEqual(stored(self.standby), stored(self.journal))

    def test_it_ends_though_its_program_takes_nothing(self) -> None:
        """What it does not take up in time stays with the primary, and the program is killed, which is safe."""
        self.start()
        self.trade(10)
        self.follow()
        self.wait_for(1)
        assert self.following is not None
        (program,) = children_of(self.following.pid)
        os.kill(program, signal.SIGSTOP)
        self.trade(20)
        ended = self.stopped()
        self.assertEqual((ended.status, ended.errors[:21]), (21, b"stopped at position 1"))
        self.drop()
        self.assertIn(stored(self.standby).end, (1, 2))
        self.assert_prefix()

    def test_a_signal_at_any_moment(self) -> None:
        """It ends the standby, in order as soon as that is up; before, it may kill it."""
        self.start()
        self.trade(10, 20)
        chance = random.Random(1)
        for _ in range(10):
            self.follow()
            time.sleep(chance.uniform(0, 0.4))
            self.assertIn(self.stopped().status, (0, 21, -signal.SIGTERM))
            self.assert_prefix()

    def test_a_tool_that_is_killed_leaves_no_program(self) -> None:
        """Its program ends by itself, so that the journal is to be had again."""
        self.start()
        self.trade(10)
        self.follow()
        self.wait_for(1)
        self.drop()
        self.follow()
        self.wait_for(1)
        self.assertEqual(self.stopped(), Ran(0, b"", b""))


class Breaking:
    """A relay that ends each connection behind some more bytes of replies than the one before."""

    STEP = 5

    def __init__(self, service: int) -> None:
        self.service = service
        self.listener = socket.create_server(("127.0.0.1", 0))
        self.port: int = self.listener.getsockname()[1]
        self.most: int | None = 0
        self.count = 0
        threading.Thread(target=self.accept, daemon=True).start()

    def close(self) -> None:
        self.listener.close()

    def accept(self) -> None:
        while True:
            try:
                near, _ = self.listener.accept()
                far = socket.create_connection(("127.0.0.1", self.service))
            except OSError:
                return
            self.count += 1
            threading.Thread(target=self.lines, args=[near, far], daemon=True).start()
            threading.Thread(target=self.replies, args=[near, far, self.most], daemon=True).start()
            if self.most is not None:
                self.most += self.STEP

    def lines(self, near: socket.socket, far: socket.socket) -> None:
        try:
            while piece := near.recv(4096):
                far.sendall(piece)
        except OSError:
            pass

    def replies(self, near: socket.socket, far: socket.socket, most: int | None) -> None:
        try:
            while (most is None or most > 0) and (piece := far.recv(4096)):
                near.sendall(piece if most is None else piece[:most])
                most = None if most is None else most - len(piece)
        except OSError:
            pass
        for end in (near, far):
            try:
                end.shutdown(socket.SHUT_RDWR)
            except OSError:
                pass
            end.close()


class Forks(WithStandby):
    def forked(self) -> Path:
        """A journal that has the service's first change, and then others; the service has two."""
        self.start()
        self.trade(10)
        self.kill()
        fork = self.folder / "fork"
        shutil.copyfile(self.journal, fork)
        self.start()
        self.trade(20)
        lines = b"HELLO A KA\nTRADE A B P 30 2026-03-02\nTRADE A B P 40 2026-03-02\n"
        self.assertEqual(run([self.program, "script", ROSTER, fork], lines).status, 0)
        return fork

    def test_one_that_is_seen_at_the_start(self) -> None:
        fork = self.forked()
        self.follow()
        self.wait_for(2)
        self.assertEqual(self.stopped(), Ran(0, b"", b""))
        self.follow("--compare")
        self.wait_for(2)
        self.assertEqual(self.stopped(), Ran(0, b"", b""))
        self.restart(fork)
        self.follow("--compare")
        self.assertEqual(self.ended(), Ran(13, b"", b"peer broken at 15\n"))
        self.assertEqual(stored(self.standby).end, 2)

    def test_one_that_is_seen_over_a_new_connection(self) -> None:
        fork = self.forked()
        self.follow("--compare")
        self.wait_for(2)
        self.restart(fork)
        ended = self.ended()
        self.assertEqual((ended.status, ended.errors.splitlines()[-1][:15]), (13, b"peer broken at "))
        self.assertEqual(stored(self.standby).end, 2)

    def test_a_primary_that_went_back(self) -> None:
        """It has less than the standby, as one of an older copy does."""
        self.start()
        self.trade(10)
        self.kill()
        copy = self.folder / "copy"
        shutil.copyfile(self.journal, copy)
        self.start()
        self.trade(20)
        self.follow()
        self.wait_for(2)
        self.restart(copy)
        ended = self.ended()
        self.assertEqual((ended.status, ended.errors.splitlines()[-1]), (12, b"peer refused 32"))


if __name__ == "__main__":
    unittest.main()
