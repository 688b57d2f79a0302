"""Markets on their way: solved by Dask's workers, whatever these do, checked here, and put away.

Dask has the workers, gives a lost worker's markets to others, and serves its own dashboard. What a worker sends is checked
before it counts. What one of the checks refuses, and what came without an answer, is solved again, a few times.
"""

import queue
import subprocess
import tempfile
import time
from asyncio import CancelledError
from concurrent.futures import BrokenExecutor, Executor
from pathlib import Path
from typing import Any, Callable, Iterator, NamedTuple

from ..client import found_program
from ..ending import Stop
from .markets import Market
from .verdicts import FILES, Question, refusal

TRIES = 5
"""How often a market is solved before the run ends."""
AHEAD = 4
"""How many markets are on their way for each thread of a worker."""
LOOK = 5.0
"""After how many seconds the number of threads is asked for again."""


class Job(NamedTuple):
    """What is asked of workers: a mode, and the program on their machines, or none where it is the one that they find."""

    mode: str
    program: str | None


class Answer(NamedTuple):
    """What a worker sends: a proposal, or a line that tells why there is none."""

    proposal: bytes
    error: str


def solve(job: Job, roster: bytes, trades: bytes) -> Answer:
    """Solves a market on a worker."""
    try:
        with tempfile.TemporaryDirectory() as room:
            names = [Path(room) / name for name in FILES[:2]]
            for name, text in zip(names, (roster, trades)):
                name.write_bytes(text)
            words = [job.program or found_program(), "solve", *map(str, names), job.mode, "--workers", "1"]
            done = subprocess.run(words, stdin=subprocess.DEVNULL, capture_output=True)
    except (OSError, Stop) as fault:
        return Answer(b"", str(fault))
    return Answer(done.stdout, f"status {done.returncode}" if done.returncode else "")


class Sent(NamedTuple):
    """A market on its way, with its files, and how often it was sent."""

    market: Market
    roster: bytes
    trades: bytes
    tries: int


class Event(NamedTuple):
    """Something that came back: a worker's answer, or, with the answer's proposal, the checks' verdict on it."""

    sent: Sent
    future: Any
    proposal: bytes | None = None


class Distribution:
    """Sends markets to workers, as many as these take, and has what comes back checked and put away."""

    def __init__(self, client: Any, checks: Executor, job: Job, program: str, keep: Callable[[Sent, bytes], None]) -> None:
        self.client = client
        self.checks = checks
        self.job = job
        self.program = program
        self.keep = keep
        self.events: queue.SimpleQueue[Event] = queue.SimpleQueue()
        self.out: dict[int, Any] = {}
        self.again: list[str] = []
        self.room = 1
        self.looked = 0.0

    def send(self, sent: Sent) -> None:
        future = self.client.submit(solve, self.job, sent.roster, sent.trades, pure=False)
        self.out[sent.market.number] = future
        future.add_done_callback(lambda done: self.events.put(Event(sent, done)))

    def check(self, sent: Sent, proposal: bytes) -> None:
        """Has a proposal checked, wherever it is from."""
        self.out[sent.market.number] = None
        asked = Question(sent.roster, sent.trades, self.job.mode, proposal)
        verdict = self.checks.submit(refusal, self.program, asked)
        verdict.add_done_callback(lambda done: self.events.put(Event(sent, done, proposal)))

    def send_again(self, sent: Sent, why: str) -> None:
        """Sends a market once more; where that was often enough, ends the run."""
        self.again.append(why)
        if sent.tries == TRIES:
            raise Stop(20, f"market {sent.market.number}: no right answer in {TRIES} tries: {why}")
        self.send(sent._replace(tries=sent.tries + 1))

    def take(self, event: Event) -> bool:
        """Takes what came back, and tells whether it ends a market's way."""
        if event.proposal is None:
            self.answered(event)
            return False
        try:
            refused = event.future.result()
        except (OSError, BrokenExecutor):
            raise Stop(11, "a check could not be run") from None
        if refused is not None:
            self.send_again(event.sent, refused)
            return False
        self.keep(event.sent, event.proposal)
        del self.out[event.sent.market.number]
        return True

    def answered(self, event: Event) -> None:
        """A worker's answer is checked; where there is none, Dask gave up on a market whose workers were lost."""
        try:
            answer = event.future.result()
        except (Exception, CancelledError) as fault:
            if self.client.status != "running":
                raise Stop(21, "connection lost to the scheduler") from None
            answer = Answer(b"", type(fault).__name__)
        if answer.error:
            self.send_again(event.sent, answer.error)
        else:
            self.check(event.sent, answer.proposal)

    def has_room(self) -> bool:
        """Whether workers take one more market."""
        if time.monotonic() > self.looked + LOOK:
            self.looked = time.monotonic()
            self.room = AHEAD * max(1, sum(self.client.nthreads().values()))
        return len(self.out) < self.room

    def run(self, begun: Iterator[Callable[[], None]]) -> Iterator[int]:
        """Begins markets as long as there is room, until all are put away, and tells each time how many are."""
        done = 0
        is_all_begun = False
        while True:
            while not is_all_begun and self.has_room():
                begin = next(begun, None)
                is_all_begun = begin is None
                if begin is not None:
                    begin()
            if is_all_begun and not self.out:
                return
            done += self.take(self.events.get())
            yield done
