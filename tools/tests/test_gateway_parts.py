"""The gateway's parts by themselves: sessions, connections and seats, and replies as fields."""

import asyncio
import sys
import unittest
from unittest import mock

from running import PATIENCE, TOOLS

sys.path.insert(0, str(TOOLS))

from delkwoan.address import Address
from delkwoan.gateway import sessions
from delkwoan.gateway.connection import BadKey, Connection, Lost
from delkwoan.gateway.fields import fields_of, kind_of, refusal_of
from delkwoan.gateway.seats import NoSeat, Seats
from delkwoan.gateway.sessions import Sessions


class SignedIn(unittest.TestCase):
    def test_a_token_is_one_sessions(self) -> None:
        open = Sessions(100)
        one, other = open.open("A", "KA", False), open.open("A", "KA", False)
        self.assertNotEqual(one.token, other.token)
        self.assertIs(open.find(one.token), one)
        self.assertIsNone(open.find("none"))
        self.assertEqual(open.count("A"), 2)
        open.close(one)
        self.assertEqual((open.find(one.token), open.find(other.token)), (None, other))
        open.close_all("A", "KA")
        self.assertEqual(len(open), 0)

    def test_it_ends_when_it_is_idle(self) -> None:
        open = Sessions(100)
        with mock.patch("time.monotonic", return_value=0.0) as clock:
            used, idle = open.open("A", "KA", False), open.open("B", "KB", False)
            clock.return_value = 90.0
            self.assertIsNotNone(open.find(used.token))
            clock.return_value = 110.0
            self.assertEqual((open.find(idle.token), open.count("B")), (None, 0))
            self.assertIsNotNone(open.find(used.token))

    def test_one_more_ends_the_names_own(self) -> None:
        """The one that was used longest ago, and none of another name."""
        open = Sessions(100)
        with mock.patch("time.monotonic", return_value=0.0) as clock:
            other = open.open("OPS", "KO", True)
            mine = [open.open("A", "KA", False) for _ in range(sessions.MOST_EACH)]
            clock.return_value = 1.0
            open.find(mine[0].token)
            for _ in range(3):
                mine.append(open.open("A", "KA", False))
            self.assertEqual([open.find(it.token) for it in mine[1:4]], [None] * 3)
            self.assertEqual([open.find(it.token) for it in (other, mine[0], *mine[4:])], [other, mine[0], *mine[4:]])
            self.assertEqual((open.count("A"), len(open)), (sessions.MOST_EACH, sessions.MOST_EACH + 1))

    def test_nothing_shows_the_key(self) -> None:
        self.assertNotRegex(str(Sessions(1).open("A", "SECRET", False)), "SECRET|token")


class InPieces(unittest.TestCase):
    """Replies as they come, cut anywhere, go to the lines that they are due to."""

    TEXT = b"ok 3 hello A\nok 3 statement 2\ntrade 1 A B P 1 2026-01-01 live -\ntrade 2 A B P 1 2026-01-01 live -\nok 3 hello B\nno 3 7 not-party\n"

    def replies(self, size: int) -> list[list[str]]:
        async def spend() -> list[list[str]]:
            connection = Connection()
            connection.connection_made(mock.Mock(is_closing=lambda: False))
            asked = [asyncio.create_task(connection.ask(["HELLO", "X"])) for _ in range(2)]
            await asyncio.sleep(0)
            for at in range(0, len(self.TEXT), size):
                connection.data_received(self.TEXT[at : at + size])
            return [[reply.text for reply in await it] for it in asked]

        return asyncio.run(spend())

    def test_any_pieces(self) -> None:
        lines = self.TEXT.decode().splitlines()
        due = [[lines[0], "\n".join(lines[1:4])], [lines[4], lines[5]]]
        for size in (1, 2, 7, 13, 64, 1_000):
            self.assertEqual(self.replies(size), due, size)

    def test_an_end_and_what_is_no_reply(self) -> None:
        async def spend(end: bytes | None) -> None:
            connection = Connection()
            transport = mock.Mock(is_closing=lambda: False)
            transport.abort = lambda: connection.connection_lost(None)
            connection.connection_made(transport)
            asked = asyncio.create_task(connection.ask(["X"]))
            await asyncio.sleep(0)
            connection.connection_lost(None) if end is None else connection.data_received(end)
            await asyncio.wait_for(asked, PATIENCE)

        for end in (None, b"what is this\n", b"ok x statement y\n", b"\n", b"\xff\n"):
            with self.assertRaises(Lost, msg=end), mock.patch("delkwoan.gateway.connection.log"):
                asyncio.run(spend(end))

    def test_a_greeting_that_is_refused(self) -> None:
        """Nothing goes behind it; and no line goes ahead before its name and key were accepted over this connection."""

        async def spend() -> list[bytes]:
            connection = Connection()
            transport = mock.Mock(is_closing=lambda: False)
            connection.connection_made(transport)
            for replies in ([b"no 0 2 bad-key\n"], [b"ok 0 hello A\n", b"ok 0 hello A\nno 0 11 unknown-trade\n"]):
                asking = asyncio.create_task(connection.say(("A", "K"), ["END 1"]))
                for reply in replies:
                    await asyncio.sleep(0.01)
                    connection.data_received(reply)
                try:
                    self.assertEqual([reply.text for reply in await asking], ["no 0 11 unknown-trade"])
                except BadKey:
                    self.assertEqual(len(replies), 1)
            return [call.args[0] for call in transport.write.call_args_list]

        self.assertEqual(asyncio.run(spend()), [b"HELLO A K\n", b"HELLO A K\n", b"HELLO A K\nEND 1\n"])


class WhoGetsASeat(unittest.TestCase):
    """Connections that answer nothing, of which calls take seats."""

    def seats(self, count: int, wait: float = 0.2) -> Seats:
        seats = Seats(Address("127.0.0.1", 1), count, wait)
        for _ in range(count):
            connection = Connection()
            connection.connection_made(mock.Mock(is_closing=lambda: False))
            seats.ready.append(connection)
        return seats

    def test_the_one_with_the_fewest_calls(self) -> None:
        async def spend() -> list[int]:
            seats = self.seats(2)
            async with seats.seat() as one, seats.seat() as other, seats.seat():
                self.assertIsNot(one, other)
                return sorted(it.taken for it in seats.ready)

        self.assertEqual(asyncio.run(spend()), [1, 2])

    def test_a_call_that_is_alone(self) -> None:
        """It waits for those before it, nothing comes behind it, and the others have another connection."""

        async def spend() -> None:
            seats = self.seats(2)
            async with seats.seat() as first, seats.seat() as second:
                with self.assertRaises(NoSeat):
                    async with seats.seat(True):
                        pass
                self.assertFalse(first.is_alone or second.is_alone)
            async with seats.seat(True) as alone:
                async with seats.seat() as one, seats.seat() as other:
                    self.assertTrue(one is other and one is not alone)
                with self.assertRaises(NoSeat):
                    async with seats.seat(True):
                        pass
            async with seats.seat(True) as again, seats.seat() as one:
                self.assertIsNot(again, one)

        asyncio.run(spend())

    def test_a_call_that_waits_gets_the_next(self) -> None:
        async def spend() -> Connection:
            seats = self.seats(1, PATIENCE)

            async def wait() -> Connection:
                async with seats.seat() as connection:
                    return connection

            async with seats.seat(True):
                waiting = asyncio.create_task(wait())
                await asyncio.sleep(0.05)
                self.assertEqual((seats.queue, seats.busy), (1, 1))
            return await waiting

        self.assertEqual(asyncio.run(spend()).taken, 0)

    def test_a_connection_that_has_ended_is_nobodys(self) -> None:
        async def spend() -> None:
            seats = self.seats(1)
            seats.ready[0].connection_lost(None)
            async with seats.seat():
                pass

        self.assertRaises(NoSeat, asyncio.run, spend())


class Fields(unittest.TestCase):
    def test_each_form(self) -> None:
        cases = [
            ("ok 1 tol", "tol", {}),
            ("ok 1 executed 2 3 4 5 6", "executed", {"cycle": 2, "version": 3, "ended": 4, "cut": 5, "made": 6}),
            ("ok 1 nets 1 2 -1", "nets", {"out": 1, "into": 2, "net": -1}),
            ("ok 1 statement 0", "statement", {"rows": []}),
            ("ok 1 limits 1\nlimit A B 1 2 -", "limits", {"rows": [{"seller": "A", "buyer": "B", "lower": 1, "now": 2, "upper": None}]}),
            ("ok 1 plan 1 2 1\ncut 1 10 3", "plan", {"cycle": 1, "version": 2, "rows": [{"step": "cut", "trade": 1, "before": 10, "after": 3}]}),
            (
                "ok 1 proof 1 2 2026-03-31 free 3 1\npot P A -1",
                "proof",
                {"cycle": 1, "version": 2, "day": "2026-03-31", "mode": "free", "begun": 3, "rows": [{"row": "pot", "product": "P", "member": "A", "value": -1}]},
            ),
        ]
        for text, kind, due in cases:
            self.assertEqual((kind_of(text), fields_of(text), refusal_of(text)), (kind, due, None), text)
        self.assertEqual(refusal_of("no 5 24 bad-certificate P above A B"), (24, "bad-certificate", "P above A B"))
        self.assertEqual(kind_of("no 5 11 unknown-trade"), "unknown-trade")


if __name__ == "__main__":
    unittest.main()
