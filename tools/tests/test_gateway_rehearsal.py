"""Proposals that are rehearsed over copies of the journal: each mode's reply is the service's own, and the service knows nothing of it."""

import unittest
from pathlib import Path
from typing import Any

from gateways import Answered, InGateway
from running import TOOLS, run

ROSTER = "name,role,key\nA,dealer,KA\nB,dealer,KB\nC,customer,KC\nD,dealer,KD\nOPS,operator,KO\nP,product,2031-06-30\n"
DAY = [("A", "TRADE A B P 10 2026-03-02"), ("B", "TRADE B A P 4 2026-03-02"), ("B", "TRADE B D P 5 2026-03-02"), ("B", "TRADE B C P 3 2026-03-02")]
DAY += [("B", "AFFIRM 1"), ("A", "AFFIRM 2"), ("D", "AFFIRM 3"), ("C", "AFFIRM 4"), ("B", "TOL D P out 2 -"), ("OPS", "FREEZE 2026-03-31")]
AFTER = {"conservative": 14, "hybrid": 11, "free": 8}
"""The gross of 22 after each mode, by hand: B's 2 to D stay, a customer's pair grows in the free mode alone."""
SYSTEM = Path("/usr/bin/python3")


class Rehearsal(InGateway):
    def setUp(self) -> None:
        super().setUp()
        self.roster = self.folder / "roster.csv"
        self.roster.write_text(ROSTER)

    def begin(self) -> None:
        self.start("--seats", "5")
        self.open("--roster", self.roster, "--journal", self.journal)
        callers = {name: self.caller(name) for name in ("A", "B", "C", "D", "OPS")}
        for name, line in DAY:
            self.assertEqual(callers[name].say(line).status, 200, line)

    def rehearsed(self, name: str = "OPS", **body: Any) -> Answered:
        return self.caller(name).ask("POST", "/api/rehearsal", body or {"cycle": 1})

    def test_each_mode_is_answered_as_the_service_does(self) -> None:
        self.begin()
        before = self.journal.read_bytes()
        modes = {it["mode"]: it for it in self.rehearsed().content["modes"]}
        self.assertEqual({mode: (it["fields"]["before"], it["fields"]["after"]) for mode, it in modes.items()}, {mode: (22, it) for mode, it in AFTER.items()})
        self.assertEqual(self.journal.read_bytes(), before)
        operator = self.caller("OPS")
        self.assertEqual(operator.ask("GET", "/api/cycle").content["fields"], {"cycle": 1, "phase": "frozen"})
        for mode in AFTER:
            with self.subTest(mode):
                self.assertEqual(self.rehearsed().content["modes"][[*AFTER].index(mode)]["reply"], operator.say(f"PROPOSE 1 {mode}").text)
                self.assertEqual(self.caller("A").say(f"DECLINE 1 {[*AFTER].index(mode) + 1}").status, 200)

    def test_what_can_not_be_rehearsed(self) -> None:
        self.begin()
        self.assertEqual((self.rehearsed("A").status, self.rehearsed("A").error), (403, "wrong-role"))
        self.assertEqual((self.rehearsed(day="2026-03-31").status, self.rehearsed(cycle="1 2").status), (422, 422))
        self.assertEqual({it["kind"] for it in self.rehearsed(cycle=7).content["modes"]}, {"wrong-cycle"})
        self.assertEqual(self.caller().ask("POST", "/api/rehearsal", {"cycle": 1}).status, 401)
        self.roster.write_text(ROSTER.replace("KO", "KX"))
        self.assertEqual((self.rehearsed().status, self.rehearsed().error), (503, "no-rehearsal"))
        self.journal.write_bytes(b"no journal")
        self.assertEqual(self.rehearsed().error, "no-rehearsal")
        self.journal.unlink()
        self.assertEqual(self.rehearsed().error, "no-rehearsal")

    def test_without_a_journal_or_a_roster(self) -> None:
        self.start("--seats", "5")
        given: list[tuple[str | Path, ...]] = [(), ("--roster", self.roster), ("--journal", self.journal)]
        for words in given:
            self.open(*words)
            self.assertEqual((self.rehearsed().status, self.rehearsed().error), (404, "no-stage"))
            self.shut()


@unittest.skipUnless(SYSTEM.exists(), f"no {SYSTEM}")
class Lacking(unittest.TestCase):
    def test_all_packages_are_named_at_once(self) -> None:
        """By a Python that has none of them."""
        told = run([SYSTEM, "-I", "-S", TOOLS / "gateway", "127.0.0.1:1", "127.0.0.1:2", "calls"])
        packages = "python3-starlette python3-uvicorn python3-prometheus-client"
        self.assertEqual((told.status, told.errors.decode()), (11, f"no starlette, uvicorn, prometheus_client: install {packages}, for {SYSTEM}\n"))


if __name__ == "__main__":
    unittest.main()
