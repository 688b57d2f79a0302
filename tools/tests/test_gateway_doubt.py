"""Which refusals leave open at the gateway whether a change was made, and until when."""

import asyncio
import sqlite3
import sys
import tempfile
import unittest
from contextlib import closing
from pathlib import Path
from typing import NamedTuple

from running import PATIENCE, TOOLS
from scripted import Scripted

sys.path.insert(0, str(TOOLS))

from delkwoan.address import Address
from delkwoan.gateway.calls import CALLS, Call
from delkwoan.gateway.desk import Asked, Desk, InDoubt, Outcome
from delkwoan.gateway.fields import Reply
from delkwoan.gateway.kept import Kept, Row
from delkwoan.gateway.seats import Seats
from delkwoan.gateway.sessions import Sessions

TRADE, TOL, ACCEPT, PROPOSE = "TRADE A B P 10 2026-03-02", "TOL B P in 0 -", "ACCEPT 1 1", "PROPOSE 1 free"
STOPPED, FAULT, MEMORY = "26 stopped 7", "27 disk-fault", "28 memory"
UNKNOWN_TRADE, WRONG_STATE, NOT_HELD = "11 unknown-trade", "12 wrong-trade-state alleged", "12 wrong-trade-state live"


EARLIER = """
CREATE TABLE calls (
    member TEXT NOT NULL, key TEXT NOT NULL, line TEXT NOT NULL, at REAL NOT NULL,
    largest INTEGER, is_alone INTEGER NOT NULL, reply TEXT, found INTEGER,
    PRIMARY KEY (member, key)
) WITHOUT ROWID
"""


def call_of(line: str) -> Call:
    (call,) = (call for call in CALLS if call.verb == line.split(" ")[0])
    return call


class Case(NamedTuple):
    line: str
    refusal: str
    error: str
    """What is answered while no connection was told of a stop."""
    after: str
    """What is answered after one was."""


CASES = [
    *(Case(line, FAULT, "unknown", "unknown") for line in (TRADE, "AFFIRM 1", "END 1", "HOLD 1", "FREE 1", TOL, ACCEPT, PROPOSE)),
    *(Case(line, STOPPED, "unknown", "unknown") for line in (TRADE, "AFFIRM 1", "END 1", "HOLD 1", "FREE 1", PROPOSE)),
    *(Case(line, STOPPED, "refused", "refused") for line in (TOL, ACCEPT)),
    *(Case(line, MEMORY, "unknown", "unknown") for line in (TRADE, "AFFIRM 1", "END 1", "HOLD 1", "FREE 1")),
    *(Case(line, MEMORY, "refused", "refused") for line in (TOL, PROPOSE)),
    *(Case(line, UNKNOWN_TRADE, "refused", "unknown") for line in ("AFFIRM 1", "END 1", "HOLD 1", "FREE 1")),
    *(Case(line, WRONG_STATE, "refused", "unknown") for line in ("HOLD 1",)),
    *(Case(line, NOT_HELD, "refused", "unknown") for line in ("FREE 1",)),
    *(Case(line, NOT_HELD, "refused", "refused") for line in ("AFFIRM 1", "END 1")),
    *(Case(line, refusal, "refused", "refused") for line, refusal in ((TRADE, "9 gross-over"), ("HOLD 1", "13 trade-frozen 1"), (TOL, "6 own-trade"))),
]


class Doubt(unittest.IsolatedAsyncioTestCase):
    """The desk of a gateway, over a service that refuses as the test says."""

    def setUp(self) -> None:
        folder = tempfile.TemporaryDirectory()
        self.addCleanup(folder.cleanup)
        self.file = str(Path(folder.name) / "calls")
        self.scripted = Scripted()
        self.addCleanup(self.scripted.close)
        self.scripted.position = 7

    async def asyncSetUp(self) -> None:
        asyncio.get_running_loop().set_debug(False)
        await self.open()

    async def asyncTearDown(self) -> None:
        await self.shut()

    async def open(self) -> None:
        sessions = Sessions(PATIENCE)
        self.a = sessions.open("A", "KA", False)
        self.desk = Desk(Seats(Address("127.0.0.1", self.scripted.port), 2, PATIENCE), sessions, Kept(self.file))
        self.desk.seats.start()

    async def shut(self) -> None:
        await self.desk.seats.stop()
        self.desk.kept.close()

    async def answered(self, line: str, refusal: str, key: str = "") -> Outcome:
        """What becomes of a line that the service refuses so."""
        self.scripted.replies[line.split(" ")[0]] = f"no {{}} {refusal}"
        asked = Asked(self.a, call_of(line), line, key=key)
        return await (self.desk.once(asked) if key else self.desk.plainly(asked))

    async def error(self, line: str, refusal: str, key: str = "") -> str:
        outcome = await self.answered(line, refusal, key)
        self.assertIsInstance(outcome, Reply | InDoubt)
        return "unknown" if isinstance(outcome, InDoubt) else "refused"

    async def test_each_refusal(self) -> None:
        """First while no stop was told, so without those that tell one; then all."""
        tells = [case for case in CASES if case.refusal in (STOPPED, FAULT)]
        tells_none = [case for case in CASES if case not in tells]
        turns = [*((case, case.error) for case in tells_none), *((case, case.after) for case in [*tells, *tells_none])]
        for count, (case, error) in enumerate(turns):
            for key in ("", f"k{count}"):
                with self.subTest(case=case, key=key):
                    self.assertEqual(await self.error(case.line, case.refusal, key), error)

    async def test_a_stop_ends_with_its_connections(self) -> None:
        await self.answered(TRADE, STOPPED)
        self.assertEqual(await self.error("FREE 1", NOT_HELD), "unknown")
        await self.lose()
        self.assertEqual(await self.error("FREE 1", NOT_HELD), "refused")

    async def lose(self) -> None:
        """All connections end, as where the service is started again."""
        gone = [*self.desk.seats.ready]
        self.scripted.end()
        for connection in gone:
            await connection.closed

    async def lose_and_grow(self) -> None:
        await self.lose()
        self.scripted.position += 1
        await self.desk.question(self.a, "STATEMENT")

    async def grow(self) -> None:
        self.scripted.position += 1
        for connection in self.desk.seats.ready:
            await connection.probe()

    async def stop(self) -> None:
        await self.answered(TRADE, STOPPED)

    async def test_a_refusal_is_sure_after_a_longer_history(self) -> None:
        """Until then the same call is answered alike while its connection stands. It stays open if that ends before, or after a stop."""
        for key, error, end in (("longer", Reply, self.grow), ("gone", InDoubt, self.lose_and_grow), ("stopped", InDoubt, self.stop)):
            with self.subTest(key=key):
                due = Reply(f"no {self.scripted.position} {NOT_HELD}", self.scripted.position)
                self.assertEqual([await self.answered("FREE 1", NOT_HELD, key) for _ in range(2)], [due] * 2)
                said = len(self.scripted.lines)
                await end()
                again = await self.answered("FREE 1", NOT_HELD, key)
                self.assertEqual((type(again), again if error is Reply else again[0]), (error, due))
                self.assertNotIn("FREE 1", self.scripted.lines[said:])
        await self.lose()
        self.assertEqual(await self.error("FREE 1", NOT_HELD, "killed"), "refused")
        await self.shut()
        await self.open()
        self.assertEqual([await self.error("FREE 1", NOT_HELD, key) for key in ("longer", "gone", "killed")], ["refused", "unknown", "unknown"])

    async def test_another_connection_may_tell_the_stop(self) -> None:
        """The 12 comes before the 26 of a change that was made together with it."""
        self.scripted.late.add("TRADE")
        trading = asyncio.create_task(self.error(TRADE, STOPPED))
        while not self.scripted.lines:
            await asyncio.sleep(0.01)
        freeing = asyncio.create_task(self.error("FREE 1", NOT_HELD))
        while len(self.scripted.lines) < 2:
            await asyncio.sleep(0.01)
        self.scripted.is_time.set()
        self.assertEqual([await trading, await freeing], ["unknown", "unknown"])

    async def test_a_trade_is_sent_again_where_it_is_not_there(self) -> None:
        self.assertEqual([await self.error(TRADE, refusal, "k") for refusal in (STOPPED, "9 gross-over", "6 own-trade")], ["unknown", "refused", "refused"])
        self.assertEqual(self.scripted.lines, [TRADE] * 2)


class OfAnEarlierGateway(unittest.TestCase):
    def test_its_refusals_are_in_doubt(self) -> None:
        """Such a file took 26 for an answer."""
        with tempfile.TemporaryDirectory() as folder:
            path = str(Path(folder) / "calls")
            with closing(sqlite3.connect(path)) as database, database:
                database.execute(EARLIER)
                for key, line, reply in (("k", TRADE, f"no 7 {STOPPED}"), ("l", TOL, f"no 7 {STOPPED}"), ("m", TRADE, "ok 8 trade 3"), ("n", "END 26", "ok 8 ended 26")):
                    database.execute("INSERT INTO calls VALUES ('A', ?, ?, 1e11, 0, 1, ?, NULL)", (key, line, reply))

            async def found() -> list[Row | None]:
                kept = Kept(path)
                try:
                    return [await kept.find("A", key) for key in "klmn"]
                finally:
                    kept.close()

            for _ in range(2):
                self.assertEqual(
                    asyncio.run(found()),
                    [
                        Row(TRADE, 0, False, None, None, f"no 7 {STOPPED}"),
                        Row(TOL, 0, True, f"no 7 {STOPPED}", None),
                        Row(TRADE, 0, True, "ok 8 trade 3", None),
                        Row("END 26", 0, True, "ok 8 ended 26", None),
                    ],
                )


if __name__ == "__main__":
    unittest.main()
