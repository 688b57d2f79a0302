"""Random sessions side by side at a `serve`, judged by a `script`.

Each reply prints its position, the history's length. A script that takes all lines in the order of their positions, a
change in front of what was answered behind it, must give the same replies, byte for byte, and the same records.
"""

import random
import socket
import sys
import threading
import unittest
from io import BufferedRWPair
from typing import NamedTuple

from running import PATIENCE, TOOLS, run
from serving import ROSTER, InService

sys.path.insert(0, str(TOOLS))

from delkwoan.replies import count_of

KEYS = {"A": "KA", "B": "KB", "C": "KC", "OPS": "KO"}
QUESTIONS = {"hello", "nets", "market", "statement", "limits", "plan"}
SEATS = 4
LINES = 1_000


class Told(NamedTuple):
    """A line, who spoke, and the whole reply."""

    speaker: str
    line: str
    reply: str

    @property
    def place(self) -> tuple[int, bool]:
        """Its position, and whether it changed nothing, so that it comes behind the change of that position."""
        word, position, *rest = self.reply.split(" ", 3)
        return int(position), word == "no" or rest[0].strip() in QUESTIONS


class Known:
    """What speakers know of the market, so that many of their lines are accepted. Nobody speaks beside a PROPOSE: its
    beginning and its posting are two changes, of which the reply tells the second one's position alone."""

    def __init__(self) -> None:
        self.trades, self.cycle, self.version = 0, 1, 0
        self.lock = threading.Lock()
        self.alone = threading.Condition(self.lock)
        self.speaking = 0

    def learn(self, reply: str) -> None:
        words = reply.split()
        with self.lock:
            if words[2] == "trade":
                self.trades = max(self.trades, int(words[3]))
            elif words[2] == "frozen":
                self.cycle, self.version = int(words[3]), 0
            elif words[2] in ("begun", "proposed"):
                self.version = int(words[4])

    def ask(self, file: BufferedRWPair, line: str) -> str:
        """The reply to a line; a PROPOSE waits until no other line is on the way, and holds up those behind it."""
        is_alone = line.startswith("PROPOSE")
        with self.alone:
            self.alone.wait_for(lambda: self.speaking == 0 if is_alone else self.speaking >= 0)
            self.speaking += -1 if is_alone else 1
        try:
            file.write(line.encode() + b"\n")
            file.flush()
            head = file.readline().decode()
            return head + "".join(file.readline().decode() for _ in range(count_of(head.rstrip("\n"))))
        finally:
            with self.alone:
                self.speaking += 1 if is_alone else -1
                self.alone.notify_all()


def operators_lines(known: Known) -> list[str]:
    cycle, version = known.cycle, known.version
    proposals = [f"PROPOSE {cycle} {mode}" for mode in ("hybrid", "conservative", "free")]
    lines = [f"BEGIN {cycle} hybrid", f"POST {cycle} {version}", f"CANCEL {cycle}", "TRADE A B P 1 2026-03-02"]
    lines += 2 * [f"FREEZE 2026-0{3 + cycle % 6}-15"]
    return lines + 3 * [*proposals, "LIMITS P", "NETS P", f"PLAN {cycle}"]


def members_lines(known: Known, chance: random.Random, speaker: str) -> list[str]:
    cycle, version, other = known.cycle, known.version, chance.choice("ABC")
    trade, amount = max(1, known.trades - chance.randint(-1, 8)), chance.randint(1, 50)
    lines = [f"TRADE {speaker} {other} P {amount} 2026-03-02", f"TRADE {other} {speaker} P {amount} 2026-03-02"]
    lines += [f"HOLD {trade}", f"FREE {trade}", f"END {trade}", "STATEMENT", f"PLAN {cycle}", "WHAT"]
    lines += [f"TOL {other} P {chance.choice(['out', 'in'])} 0 {chance.choice(['-', '40', '0'])}"]
    lines += [f"DECLINE {cycle} {version}"]
    return lines + 3 * [f"AFFIRM {trade}", "NETS P"] + 8 * [f"ACCEPT {cycle} {version}"]


class SideBySide(InService):
    def speak(self, known: Known, chance: random.Random, told: list[Told]) -> None:
        """Some sessions one after another."""
        left = LINES
        while left > 0:
            with socket.create_connection(("127.0.0.1", self.port), PATIENCE) as connection:
                file = connection.makefile("rwb")
                speaker = ""
                for _ in range(min(left, chance.randint(20, 200))):
                    if not speaker or chance.random() < 0.1:
                        speaker = chance.choice([*KEYS])
                        line = f"HELLO {speaker} {KEYS[speaker]}"
                    elif speaker == "OPS":
                        line = chance.choice(operators_lines(known))
                    else:
                        line = chance.choice(members_lines(known, chance, speaker))
                    told.append(Told(speaker, line, known.ask(file, line)))
                    known.learn(told[-1].reply)
                    left -= 1
                file.close()

    def test_replies_are_those_of_one_history(self) -> None:
        self.start()
        known, told = Known(), [list[Told]() for _ in range(SEATS)]
        given = [(known, random.Random(seed), lines) for seed, lines in enumerate(told)]
        threads = [threading.Thread(target=self.speak, args=words) for words in given]
        for thread in threads:
            thread.start()
        for thread in threads:
            thread.join()
        self.kill()
        ordered = sorted(sum(told, []), key=lambda one: one.place)
        self.assertEqual(len(ordered), SEATS * LINES)
        changes = [one.place[0] for one in ordered if not one.place[1]]
        self.assertEqual(len(changes), len({*changes}))
        lines = "".join(f"HELLO {one.speaker} {KEYS[one.speaker]}\n{one.line}\n" for one in ordered)
        again = self.folder / "again"
        replies = run([self.program, "script", ROSTER, again], lines.encode()).output.decode()
        self.assert_replies(replies, ordered)
        one, other = ([(kept.party, kept.line) for kept in self.records(path)] for path in (again, self.journal))
        self.assertEqual(one, other)

    def assert_replies(self, replies: str, ordered: list[Told]) -> None:
        """The replies of a script to a greeting and a line for each of these."""
        place = 0
        for one in ordered:
            place = replies.index("\n", place) + 1
            self.assertEqual(replies[place : place + len(one.reply)], one.reply, f"{one.speaker}: {one.line}")
            place += len(one.reply)
        self.assertEqual(place, len(replies))


if __name__ == "__main__":
    unittest.main()
