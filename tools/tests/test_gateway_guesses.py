"""Guesses of keys at the gateway: they are counted before they are asked, and keep nobody out who has the right key."""

import asyncio
import http.client
import json
import socket
import sys
import threading
import time
import unittest
from unittest import mock

from gateways import Caller, InGateway
from running import PATIENCE, TOOLS

sys.path.insert(0, str(TOOLS))

from delkwoan.gateway import guesses
from delkwoan.gateway.guesses import AT_ONCE, MOST_HOMES, PACE, Guesses, Lane, Slowed, place_of

MANY = 500


class Places(unittest.TestCase):
    def test_networks_and_addresses(self) -> None:
        same_network = [("10.1.2.3", "10.1.2.200"), ("2001:db8:1:2::1", "2001:db8:1:3::1"), ("fe80::1%eth0", "fe80::1"), ("::ffff:10.1.2.3", "10.1.2.4")]
        other_network = [("10.1.2.3", "10.1.3.3"), ("2001:db8:1::1", "2001:db8:2::1"), ("::1", "0.0.0.1")]
        same_address = [("2001:db8:1:2::1", "2001:db8:1:2:3::9"), ("::ffff:10.1.2.3", "10.1.2.3")]
        other_address = [("10.1.2.3", "10.1.2.4"), ("2001:db8:1:2::1", "2001:db8:1:3::1")]
        for pairs, part, is_same in ((same_network, 0, True), (other_network, 0, False), (same_address, 1, True), (other_address, 1, False)):
            for one, other in pairs:
                with self.subTest(one=one, other=other, part=part):
                    self.assertEqual(place_of(one)[part] == place_of(other)[part], is_same)


class Lanes(unittest.TestCase):
    def test_a_few_at_once_and_then_one_each_while(self) -> None:
        with mock.patch("time.monotonic", return_value=100.0) as clock:
            lane, told = Lane(3), []
            for _ in range(5):
                told.append(lane.left)
                lane.take()
            self.assertEqual(told, [0, 0, 0, PACE, 2 * PACE])
            clock.return_value += 2 * PACE
            self.assertEqual(lane.left, PACE)
            lane.debt -= 1
            self.assertEqual(lane.left, 0)
            clock.return_value += 1000 * PACE
            self.assertEqual((lane.left, lane.debt), (0, 0))


class Turns(unittest.IsolatedAsyncioTestCase):
    async def asyncSetUp(self) -> None:
        """A turn comes by what is given back alone, and not by time."""
        asyncio.get_running_loop().set_debug(False)
        patch = mock.patch.object(guesses, "PACE", 1e6)
        patch.start()
        self.addCleanup(patch.stop)
        self.guesses = Guesses(PATIENCE)

    async def ask(self, name: str, address: str) -> Lane:
        return await self.guesses.turn(name, place_of(address))

    async def waiting(self, name: str, address: str) -> "asyncio.Task[Lane]":
        """A guess that waits for its turn."""
        task = asyncio.create_task(self.ask(name, address))
        await asyncio.sleep(0)
        self.assertFalse(task.done())
        return task

    async def test_one_that_was_right_counts_for_nothing(self) -> None:
        for _ in range(100):
            (await self.ask("A", "10.0.0.1")).give_back()

    async def test_it_waits_until_the_one_before_was_right(self) -> None:
        lane = await self.ask("A", "10.0.0.1")
        task = await self.waiting("A", "10.0.0.1")
        lane.give_back()
        self.assertIs(await task, lane)

    async def test_an_address_has_one_that_waits(self) -> None:
        await self.ask("A", "10.0.0.1")
        task = await self.waiting("A", "10.0.0.1")
        with self.assertRaises(Slowed):
            await self.ask("A", "10.0.0.1")
        task.cancel()

    async def test_other_names_and_homes_do_not_wait(self) -> None:
        self.guesses.right("A", place_of("10.9.9.9"))
        await self.ask("A", "10.0.0.1")
        task = await self.waiting("A", "10.0.0.2")
        await self.ask("B", "10.0.0.1")
        for _ in range(AT_ONCE):
            await self.ask("A", "10.9.9.9")
        task.cancel()

    async def test_a_lot_is_drawn_among_networks(self) -> None:
        """Of one network a hundred wait, of another one alone: it has every second turn, and not every hundredth."""
        first = 0
        for _ in range(200):
            self.guesses = Guesses(PATIENCE)
            lane = await self.ask("A", "10.0.0.1")
            crowd = [await self.waiting("A", f"10.0.0.{count}") for count in range(2, 22)]
            alone = await self.waiting("A", "10.0.1.1")
            lane.give_back()
            await asyncio.wait([alone, *crowd], return_when=asyncio.FIRST_COMPLETED)
            first += alone.done()
            for task in (alone, *crowd):
                task.cancel()
            await asyncio.gather(alone, *crowd, return_exceptions=True)
        self.assertIn(first, range(50, 151))

    async def test_a_crowd_does_not_fill_the_room(self) -> None:
        """One more sends away one of the network that has most."""
        with mock.patch.object(guesses, "MOST_WAITING", 10):
            lanes = [await self.ask(f"N{count}", "10.0.0.1") for count in range(11)]
            crowd = [await self.waiting(f"N{count}", "10.0.0.1") for count in range(10)]
            alone = await self.waiting("N10", "10.0.1.1")
            done, _ = await asyncio.wait(crowd, return_when=asyncio.FIRST_COMPLETED)
            self.assertEqual([type(task.exception()) for task in done], [Slowed])
            lanes[10].give_back()
            self.assertIs(await alone, lanes[10])
            for task in crowd:
                task.cancel()

    async def test_what_is_kept_is_bounded(self) -> None:
        with mock.patch.object(guesses, "MOST_LANES", 10):
            for count in range(100):
                await self.ask(f"N{count}", "10.0.0.1")
                self.guesses.right("A", place_of(f"10.0.{count}.1"))
        self.assertEqual((len(self.guesses.rest), len(self.guesses.homes["A"])), (10, MOST_HOMES))


def sign_in(name: str, key: str) -> bytes:
    body = json.dumps({"name": name, "key": key}).encode()
    return b"POST /api/session HTTP/1.1\r\nHost: x\r\nContent-Type: application/json\r\nContent-Length: %d\r\n\r\n" % len(body) + body


class Guessed(InGateway):
    def setUp(self) -> None:
        super().setUp()
        self.start("--seats", "5")
        self.open("--wait", "5")

    def connect(self, address: str) -> socket.socket:
        """A connection from one of this machine's own addresses."""
        connection = socket.create_connection(("127.0.0.1", self.gate), PATIENCE, (address, 0))
        self.addCleanup(connection.close)
        return connection

    def at_once(self, address: str, keys: list[str]) -> list[int]:
        """The statuses of sign-ins that are sent side by side."""
        connections = [self.connect(address) for _ in keys]
        for connection, key in zip(connections, keys):
            connection.sendall(sign_in("A", key))
        return [int(connection.makefile("rb").readline().split()[1]) for connection in connections]

    def from_(self, address: str) -> Caller:
        caller = Caller(self.gate)
        caller.http = http.client.HTTPConnection("127.0.0.1", self.gate, PATIENCE, (address, 0))
        self.addCleanup(caller.close)
        return caller

    def test_many_at_once(self) -> None:
        """One is tried, and then one each while; the service is asked for no other."""
        begun = time.monotonic()
        statuses = self.at_once("127.0.0.2", [f"K{number}" for number in range(MANY)])
        tried = self.logged().count("wrong key: name A")
        self.assertEqual(statuses.count(401), tried)
        self.assertIn(tried, range(1, 2 + int((time.monotonic() - begun) / PACE)))
        self.assertEqual(statuses.count(429), MANY - tried)

    def guess(self, address: str, is_over: threading.Event, counts: list[int]) -> None:
        guesser = self.from_(address)
        while not is_over.is_set():
            counts.append(guesser.sign_in("A", "WRONG").status)

    def test_the_holder_gets_in(self) -> None:
        """While its key is guessed all the time: at once at home, in the end elsewhere; and others at the guesser's address at once."""
        home = self.from_("127.0.0.1")
        self.assertEqual(home.sign_in("A").status, 201)
        is_over, counts = threading.Event(), list[int]()
        places = [f"127.{network}.0.{place}" for network in (2, 3) for place in (1, 2)]
        guessers = [threading.Thread(target=self.guess, args=(place, is_over, counts)) for place in places]
        for guesser in guessers:
            guesser.start()
        try:
            while 429 not in counts:
                time.sleep(0.01)
            self.assertEqual([home.sign_in("A").status for _ in range(3)], [201] * 3)
            self.assertEqual(self.from_(places[0]).sign_in("B").status, 201)
            elsewhere, end = self.from_("127.9.0.1"), time.monotonic() + PATIENCE
            while (status := elsewhere.sign_in("A").status) == 429:
                self.assertLess(time.monotonic(), end)
            self.assertEqual(status, 201)
        finally:
            is_over.set()
            for guesser in guessers:
                guesser.join()
        self.assertLessEqual({*counts}, {401, 429})


class Sessions(InGateway):
    def test_one_member_ends_its_own_alone(self) -> None:
        self.start("--seats", "5")
        self.open()
        operator, first = self.caller("OPS"), self.caller("A")
        for _ in range(64):
            self.assertEqual(self.caller().sign_in("A").status, 201)
        self.assertEqual([it.ask("GET", "/api/session").status for it in (operator, first)], [200, 401])


if __name__ == "__main__":
    unittest.main()
