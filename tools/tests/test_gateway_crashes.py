"""What a kill of the gateway or of the service leaves: nothing that was acknowledged is lost, and nothing is sent twice."""

import http.client
import threading
import time
import unittest

from gateway_relay import Relay
from gateways import Answered, Caller, InGateway
from running import PATIENCE, run
from serving import ROSTER, trades_by

TERMS = "TRADE A B P 10 2026-03-02"
FEW = 4
NEARLY_A_FOLD = 995
"""How many changes stand in the journal before the calls: with a few calls more it is folded at the next start. On a fast machine
the calls alone come to that many, on a slow one they don't."""


class Keyed:
    """Who alleges trades with a key each, and calls again with the same key until it is answered. Its amounts are no other's."""

    def __init__(self, gate: int, name: str, place: int) -> None:
        self.gate, self.name, self.place = gate, name, place
        self.other = "ABC"[("ABC".index(name) + 1) % 3]
        self.outcomes: dict[str, Answered] = {}
        self.is_over = False
        self.caller = Caller(gate)

    def answered(self, line: str, key: str) -> Answered:
        """What is answered in the end: neither a lost connection, nor a token of a gateway that was killed, nor a want of a seat."""
        while True:
            try:
                if not self.caller.token:
                    self.caller.sign_in(self.name)
                answered = self.caller.say(line, key)
            except (OSError, http.client.HTTPException):
                time.sleep(0.05)
                continue
            if answered.status == 401:
                self.caller.token = ""
            elif answered.status not in (429, 503):
                return answered

    def run(self) -> None:
        count = 0
        while not self.is_over:
            count += 1
            line = f"TRADE {self.name} {self.other} P {3 * count + self.place} 2026-03-02"
            self.outcomes[line] = self.answered(line, f"key {count}")


class Kills(InGateway):
    def go_on(self, keyed: list[Keyed]) -> None:
        """A while of calls, in which each caller is answered at least a few times."""
        due, end = [len(it.outcomes) + FEW for it in keyed], time.monotonic() + PATIENCE
        time.sleep(0.4)
        while any(len(it.outcomes) < count for it, count in zip(keyed, due)):
            self.assertLess(time.monotonic(), end, "a caller is answered no more")
            time.sleep(0.02)

    def outcomes(self, end: int) -> dict[str, Answered]:
        """What callers are answered while the gateway or the service is killed and started again."""
        keyed = [Keyed(self.gate, name, place) for place, name in enumerate("ABC")]
        threads = [threading.Thread(target=it.run, daemon=True) for it in keyed]
        for thread in threads:
            thread.start()
        try:
            for _ in range(end):
                self.go_on(keyed)
                self.shut()
                self.open()
                self.go_on(keyed)
                self.kill()
                self.start("--seats", "5")
        finally:
            for it in keyed:
                it.is_over = True
        for thread in threads:
            thread.join()
        return {line: answered for it in keyed for line, answered in it.outcomes.items()}

    def fill(self) -> None:
        """Makes changes until the journal is nearly to be folded."""
        lines = ["HELLO A KA", *(f"TOL B P out 0 {ceiling}" for ceiling in range(NEARLY_A_FOLD))]
        done = run([self.program, "script", ROSTER, self.journal], "".join(f"{line}\n" for line in lines).encode())
        self.assertEqual((done.status, len(self.records())), (0, NEARLY_A_FOLD))

    def test_in_the_middle_of_trades(self) -> None:
        self.fill()
        self.start("--seats", "5")
        self.open()
        outcomes = self.outcomes(3)
        self.kill()
        told = self.inspected()
        self.assertIn(b"base, ", told)
        lines = trades_by(told)
        self.assertEqual(len(lines), len({*lines}))
        trades = {line: number for number, line in enumerate(lines, 1)}
        for line, answered in outcomes.items():
            if answered.status == 200:
                self.assertEqual(answered.content["fields"]["trade"], trades.pop(line), line)
            else:
                self.assertEqual((answered.status, answered.error), (409, "unknown"))
                candidates = [it["trade"] for it in answered.content["candidates"]]
                self.assertEqual(candidates, [trades.pop(line)] if line in trades else [], line)
        self.assertEqual(trades, {})
        self.assertGreater(len(outcomes), 20)


class LostReplies(InGateway):
    def setUp(self) -> None:
        super().setUp()
        self.start("--seats", "8")
        self.relay = Relay(self.port)
        self.addCleanup(self.relay.listener.close)
        self.open()

    @property
    def service_address(self) -> str:
        return f"127.0.0.1:{self.relay.port}"

    def lines(self) -> list[str]:
        self.kill()
        return [kept.line for kept in self.records()]

    def test_a_trade_is_found_or_is_unknown(self) -> None:
        """The only one that can be is found; else nothing is sent again, and the candidates are told."""
        caller, other = self.caller("A"), self.caller("B")
        caller.say(TERMS)
        self.relay.lose("TRADE", is_sent=True)
        found = caller.say(TERMS, "made")
        self.assertEqual((found.status, found.content["fields"], found.content["found"]), (200, {"trade": 2}, True))
        self.assertEqual(caller.say(TERMS, "made").content["fields"], {"trade": 2})
        self.relay.lose("TRADE", is_sent=False)
        unknown = caller.say(TERMS, "not made")
        self.assertEqual((unknown.status, unknown.error, unknown.content["candidates"]), (409, "unknown", []))
        self.assertEqual(caller.say(TERMS, "not made").content["candidates"], [])
        self.assertEqual(other.say(TERMS, "other").content["fields"], {"trade": 3})
        unknown = caller.say(TERMS, "not made")
        self.assertEqual([trade["trade"] for trade in unknown.content["candidates"]], [3])
        self.assertEqual(self.lines(), [TERMS] * 3)

    def test_another_session_may_have_made_it(self) -> None:
        caller, other = self.caller("A"), self.caller("A")
        self.relay.lose("TRADE", is_sent=True)
        unknown = caller.say(TERMS, "k")
        self.assertEqual((unknown.error, [trade["trade"] for trade in unknown.content["candidates"]]), ("unknown", [1]))
        other.ask("DELETE", "/api/session")
        self.relay.lose("TRADE B A", is_sent=True)
        self.assertTrue(caller.say("TRADE B A P 10 2026-03-02", "l").content["found"])

    def test_a_gateway_that_was_killed_knows_it(self) -> None:
        caller = self.caller("A")
        self.relay.lose("TRADE", is_sent=True, is_closing=False)
        calling = threading.Thread(target=self.assertRaises, args=[(OSError, http.client.HTTPException), caller.say, TERMS, "k"])
        calling.start()
        self.assertTrue(self.relay.lost.wait(PATIENCE))
        self.shut()
        calling.join()
        self.open()
        found = self.caller("A").say(TERMS, "k")
        self.assertEqual((found.status, found.content["fields"], found.content.get("found")), (200, {"trade": 1}, True))
        self.assertEqual(self.lines(), [TERMS])

    def test_other_lines(self) -> None:
        """A question is asked again; of a change without a key, or of another command, it is told what sending it again does."""
        caller, other = self.caller("A"), self.caller("B")
        caller.say(TERMS)
        self.relay.lose("NETS", is_sent=True)
        self.assertEqual(caller.say("NETS P").text, "ok 1 nets 0 0 0")
        for caller, line, key, told in (
            (caller, TERMS, "", "alleges a second trade"),
            (other, "AFFIRM 1", "k", "is refused"),
            (other, "TOL A P in 0 -", "l", "sets the same once more"),
        ):
            self.relay.lose(line.split(" ")[0], is_sent=True)
            unknown = caller.say(line, key)
            self.assertEqual((unknown.status, unknown.error, unknown.content["again"]), (409, "unknown", told), line)
        self.assertEqual(other.say("AFFIRM 1", "m").content["name"], "wrong-trade-state")
        self.assertEqual(self.lines(), [TERMS, TERMS, "AFFIRM 1", "TOL A P in 0 -"])


if __name__ == "__main__":
    unittest.main()
