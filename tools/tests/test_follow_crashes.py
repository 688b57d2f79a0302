"""Kills of a service and of its standby at random, under load: a standby that is promoted has all that both acknowledged.

KILL_SECONDS says for how long, which is a minute where it is absent.
"""

import os
import random
import re
import signal
import threading
import time
import unittest

from running import PATIENCE
from serving import started
from standing import WithStandby, children_of, stored

from delkwoan.records import Kind, record_of
from delkwoan.session import LinkClosed, Session

SECONDS = float(os.environ.get("KILL_SECONDS", "60"))
FEW = 5

NOTED = """#!/bin/bash
# The program, whose lines are noted. What is noted was said, and where all is killed the last lines may lack.
set -o pipefail
'{program}' "$@" | tee -a '{log}'
"""


class Setter:
    """A member that sets one tolerance to another ceiling each time, and the ceiling at each position that was acknowledged."""

    def __init__(self, port: int, place: int) -> None:
        self.port, self.name, self.other = port, "ABC"[place], "ABC"[(place + 1) % 3]
        self.ceiling = place
        self.kept: dict[int, int] = {}
        self.is_over = False

    def run(self) -> None:
        while not self.is_over:
            try:
                with Session.connect("127.0.0.1", self.port, PATIENCE) as session:
                    session.hello(self.name, f"K{self.name}")
                    while not self.is_over:
                        self.ceiling += 3
                        self.kept[session.tol(self.other, "P", "out", 0, self.ceiling).position] = self.ceiling
            except (OSError, LinkClosed):
                time.sleep(0.02)


class Kills(WithStandby):
    def setUp(self) -> None:
        super().setUp()
        self.chance = random.Random()
        self.log = self.folder / "log"
        self.log.touch()
        self.noted = self.folder / "noted"
        self.noted.write_text(NOTED.format(program=self.program, log=self.log))
        self.noted.chmod(0o755)

    def said(self) -> list[int]:
        """The positions that the standby asked past, which are those of all changes that it acknowledged."""
        return [*map(int, re.findall(r"^NEXT (\d+)$", self.log.read_text(), re.MULTILINE))]

    def begin_standby(self) -> None:
        """Starts the standby, again and again while the program of the one before still has the journal."""
        end = time.monotonic() + PATIENCE
        while True:
            count = self.log.read_text().count("HELLO")
            self.following = started(self.follow_words("--compare", "--pause", "2", program=self.noted))
            while self.following.poll() is None:
                if self.log.read_text().count("HELLO") > count:
                    return
                self.assertLess(time.monotonic(), end, "the standby does not begin")
                time.sleep(0.01)
            ended = self.ended()
            self.assertEqual(ended.status, 6, ended)

    def kill_standby(self) -> None:
        """Kills the standby's program, its tool, or both."""
        assert self.following is not None
        which = self.chance.choice(["program", "tool", "both"])
        shells = children_of(self.following.pid)
        programs = [it for shell in shells for it in children_of(shell)]
        for process in [*(programs if which != "tool" else []), *([self.following.pid] if which != "program" else [])]:
            try:
                os.kill(process, signal.SIGKILL)
            except ProcessLookupError:
                pass
        self.following.communicate(timeout=PATIENCE)
        self.following = None

    def go_on(self, setters: list[Setter]) -> None:
        """A while of changes, some of which come to the standby."""
        due, asked = [len(it.kept) + FEW for it in setters], len(self.said()) + FEW
        time.sleep(self.chance.uniform(0.05, 0.4))
        self.wait(lambda: all(len(it.kept) >= count for it, count in zip(setters, due)) and len(self.said()) >= asked)

    def loaded(self, setters: list[Setter]) -> None:
        """Kills and starts for so long, with a cycle open: so no journal begins again, and all changes stay in both."""
        end = time.monotonic() + SECONDS
        while time.monotonic() < end:
            self.go_on(setters)
            what = self.chance.randrange(3)
            if what != 1:
                self.kill()
            if what != 0:
                self.kill_standby()
            if what != 1:
                self.start()
            if what != 0:
                self.begin_standby()
        self.go_on(setters)

    def test_a_standby_that_is_promoted_has_all_that_both_acknowledged(self) -> None:
        self.start()
        with self.session("OPS") as session:
            session.freeze("2026-03-02")
        self.begin_standby()
        setters = [Setter(self.port, place) for place in range(3)]
        threads = [threading.Thread(target=setter.run) for setter in setters]
        for thread in threads:
            thread.start()
        try:
            self.loaded(setters)
            self.kill()
            self.kill_standby()
        finally:
            for setter in setters:
                setter.is_over = True
            for thread in threads:
                thread.join()
        self.judge({position: ceiling for setter in setters for position, ceiling in setter.kept.items()})

    def judge(self, kept: dict[int, int]) -> None:
        """The standby's journal begins the service's, has what it acknowledged, and goes on as a service."""
        self.assert_prefix()
        ours, most = stored(self.standby), max(self.said())
        self.assertGreaterEqual(ours.end, most)
        self.assertGreater(most, 0)
        for position, ceiling in kept.items():
            if position <= most:
                record = record_of(ours.at(position - 1), Kind.DATED)
                self.assertTrue(str(record.change).endswith(f" {ceiling}"), (position, record))
        self.assertGreater(sum(position <= most for position in kept), FEW)
        self.journal = self.standby
        self.start()
        session = self.session("A")
        self.assertEqual(session.position, ours.end)
        self.assertEqual(session.tol("B", "P", "out", 0, 1).position, ours.end + 1)


if __name__ == "__main__":
    unittest.main()
