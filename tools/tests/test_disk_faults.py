"""What members make of a disk that fails under many connections: no trade is made twice, and none counts as not made that was.

The real program is refused a call to its journal's file, one after another in runs of their own, while the changes of eight connections
share its syncs. Then it is started again. Everybody goes on as the documents say: over a connection with a look and, where the trade is not
there, the line again over the same connection; through the gateway with the same call and the same key.
"""

import os
import sys
import threading
import unittest
from typing import Callable

from gateways import Answered, Caller, InGateway
from running import PATIENCE, TOOLS, Ran, run
from serving import started
from test_refusals import Refused

sys.path.insert(0, str(TOOLS))

from delkwoan import replies

DAY = "2026-03-02"
MEMBERS, EACH = 8, 2
"""How many allege trades at once, and how many each."""
SLOW = 50
"""The milliseconds that a sync takes, so that the changes of many share one."""
NUMBERS = range(19, 23)
"""The calls to the file that fail, each in a run: those of the third append, which has the changes that came during the second."""
MOST_TURNS = 6
"""How often a run is tried, each time with a disk that is twice as slow, until two members' changes share a sync."""
IN_DOUBT = (26, 27)


def side_by_side(acts: list[Callable[[], None]]) -> None:
    threads = [threading.Thread(target=act) for act in acts]
    for thread in threads:
        thread.start()
    for thread in threads:
        thread.join()


def lines_of(place: int) -> list[str]:
    """One member's lines: no other line is the same."""
    one, other = "ABC"[place % 3], "ABC"[(place + 1) % 3]
    return [f"TRADE {one} {other} P {1 + place + MEMBERS * count} {DAY}" for count in range(EACH)]


ALL = sorted(line for place in range(MEMBERS) for line in lines_of(place))


class BadDisk(Refused):
    def begin(self, number: int, slow: int = SLOW) -> None:
        """A service whose call to the journal's file with this number fails."""
        settings = {"LD_PRELOAD": str(self.library), "REFUSE_DISK": str(number), "SLOW_DISK": str(slow)}
        self.service = started([*self.words(), "--seats", "12"], {**os.environ, **settings})
        self.assertEqual(run([TOOLS / "wait-ready", self.address, str(PATIENCE)]), Ran(0, b"", b""))

    def end(self) -> list[str]:
        """The lines of the changes that the journal has after the service was killed."""
        self.kill()
        return [record.line for record in self.records()]


class Plainly(BadDisk):
    """Over connections."""

    def allege(self, place: int) -> None:
        with self.session("ABC"[place % 3]) as session:
            for line in lines_of(place):
                try:
                    session.ask(line)
                except replies.Refused as refused:
                    self.told[line] = refused.number

    def look(self, line: str) -> None:
        """Sends a line again over the connection that has shown that its trade is not there."""
        terms = tuple(line.split(" ")[1:])
        with self.session(terms[0]) as session:
            trades = session.statement().rows
            if terms not in [(it.seller, it.buyer, it.product, str(it.amount), it.day) for it in trades]:
                session.ask(line)

    def test_a_look_and_the_line_again(self) -> None:
        kept = set[bool]()
        for number in NUMBERS:
            self.journal = self.folder / f"journal{number}"
            self.told: dict[str, int] = {}
            self.begin(number)
            side_by_side([lambda place=place: self.allege(place) for place in range(MEMBERS)])  # type: ignore[misc]
            records = self.end()
            self.assertLessEqual({*self.told.values()}, {*IN_DOUBT})
            kept |= {line in records for line in self.told}
            self.start("--seats", "12")
            for line in self.told:
                self.look(line)
            self.assertEqual(sorted(self.end()), ALL, number)
        self.assertEqual(kept, {False, True}, "no doubt in any run")


class ByKey(BadDisk, InGateway):
    """Through the gateway, which stays; each run has another journal and other keys."""

    def setUp(self) -> None:
        super().setUp()
        self.start("--seats", "12")
        self.open("--seats", "8")
        self.callers = {name: self.caller(name) for name in "ABC"}
        self.kill()

    def begin_run(self, name: str) -> None:
        self.run_name = name
        self.journal = self.folder / f"journal{name}"

    def say(self, caller: Caller, line: str) -> Answered:
        """What is answered to a call, whose key is the run's and the line's alone, once it has a seat."""
        return self.seated(lambda: caller.say(line, key=f"{self.run_name} {line}"))

    def again(self, line: str) -> Answered:
        return self.say(self.callers[line.split(" ")[1]], line)

    def allege(self, place: int, told: dict[str, Answered]) -> None:
        caller, name = Caller(self.gate), "ABC"[place % 3]
        caller.token, caller.name = self.callers[name].token, name
        for line in lines_of(place):
            told[line] = self.say(caller, line)
        caller.close()

    def judge(self, number: int, slow: int) -> bool:
        """A run; tells whether a change was answered 26 and made."""
        self.begin(number, slow)
        told: dict[str, Answered] = {}
        side_by_side([lambda place=place: self.allege(place, told) for place in range(MEMBERS)])  # type: ignore[misc]
        self.assertEqual({answered.error for answered in told.values() if answered.status != 200}, {"unknown"})
        in_doubt = {line: answered.content for line, answered in told.items() if answered.status != 200}
        self.assertLessEqual({content["number"] for content in in_doubt.values()}, {*IN_DOUBT})
        for line in [*in_doubt][:2]:
            again = self.again(line)
            self.assertEqual((again.error, again.content["number"], again.content["candidates"]), ("unknown", 26, []))
        records = self.end()
        self.start("--seats", "12")
        outcomes: dict[str, Answered] = {}
        side_by_side([lambda place=place: self.allege(place, outcomes) for place in range(MEMBERS)])  # type: ignore[misc]
        self.assertEqual({answered.status for answered in outcomes.values()}, {200}, outcomes)
        made = self.end()
        self.assertEqual(sorted(made), ALL)
        self.assertEqual([made[outcomes[line].content["fields"]["trade"] - 1] for line in ALL], ALL)
        return any(content["number"] == 26 and line in records for line, content in in_doubt.items())

    def test_the_same_call_again(self) -> None:
        has_made_one = False
        for turn in range(MOST_TURNS):
            for number in NUMBERS:
                self.begin_run(f"{turn}-{number}")
                has_made_one = self.judge(number, SLOW << turn) or has_made_one
            if has_made_one:
                return
        self.fail("no change was answered 26 and made")


if __name__ == "__main__":
    unittest.main()
