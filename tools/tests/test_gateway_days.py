"""Days through the gateway, against a `script`: each reply is the one that `script` gives at its position."""

import random
import sys
import threading
import unittest
from concurrent.futures import ThreadPoolExecutor
from typing import NamedTuple

from days import PRODUCTS, Day, Market, market_of
from gateways import Answered, Caller, InGateway
from running import TOOLS, run

sys.path.insert(0, str(TOOLS))

from delkwoan import replies
from delkwoan.replies import Answer

CHANGES = ("TRADE", "AFFIRM", "END", "HOLD", "FREE", "TOL", "FREEZE", "BEGIN", "POST", "PROPOSE", "ACCEPT", "DECLINE", "CANCEL")


class Said(NamedTuple):
    """What was said, over the lines that went before it in its call, and the reply."""

    speaker: str
    line: str
    reply: str
    before: tuple[str, ...] = ()

    @property
    def position(self) -> int:
        return int(self.reply.split(" ")[1])

    @property
    def is_change(self) -> bool:
        return self.reply.startswith("ok ") and self.line.split(" ")[0] in CHANGES


def replies_of(text: str) -> list[str]:
    """Whole replies, each without its last line feed."""
    found: list[list[str]] = []
    for line in text.splitlines():
        if line.startswith(("ok ", "no ")):
            found.append([])
        found[-1].append(line)
    return ["\n".join(lines) for lines in found]


class Asking:
    """A session for a day, in which each line is a call by the last speaker, and the rows and potentials go with the POST."""

    def __init__(self, callers: dict[str, Caller]) -> None:
        self.callers = callers
        self.speaker = ""
        self.draft: list[str] = []
        self.said: list[Said] = []

    def ask(self, line: str) -> Answer:
        verb, *words = line.split(" ")
        if verb == "HELLO":
            self.speaker, self.draft = words[0], []
            return replies.Hello(0, words[0])
        if verb == "ROW":
            self.draft.append(line)
            return replies.Noted(0, len(self.draft))
        forms = ("product", "seller", "buyer", "amount")
        rows = [dict(zip(forms, row.split(" ")[1:])) for row in self.draft]
        answered = self.callers[self.speaker].say(line, more={"rows": rows, "potentials": []} if verb == "POST" else None)
        self.said.append(Said(self.speaker, line, answered.text, tuple(self.draft) if verb == "POST" else ()))
        head, *details = answered.text.split("\n")
        return replies.answer_of(head, details)


class InDay(InGateway):
    def begin(self, market: Market, dealers: int) -> dict[str, Caller]:
        """A service of this market, and everybody signed in."""
        self.roster = self.folder / "roster.csv"
        self.roster.write_bytes(market.roster(dealers))
        self.start("--seats", "5")
        self.open()
        with ThreadPoolExecutor(8) as threads:
            return dict(zip([*market.members, "OPS"], threads.map(self.signed_in, [*market.members, "OPS"])))

    def signed_in(self, name: str) -> Caller:
        caller = self.caller()
        self.assertEqual(caller.sign_in(name, f"K{name}").status, 201)
        return caller

    def assert_as_script(self, said: list[Said]) -> None:
        """Each reply is the one of a script in which the changes stand in their order, and the rest where its position says."""
        ordered = sorted(said, key=lambda it: (it.position, not it.is_change))
        lines = [line for it in ordered for line in (f"HELLO {it.speaker} K{it.speaker}", *it.before, it.line)]
        ran = run([self.program, "script", self.roster, self.folder / "script"], "".join(f"{line}\n" for line in lines).encode())
        self.assertEqual((ran.status, ran.errors), (0, b""))
        answers = iter(replies_of(ran.output.decode()))
        for it in ordered:
            *_, answer = [next(answers) for _ in range(len(it.before) + 2)]
            self.assertEqual(it.reply, answer, it)


class Days(InDay):
    def test_random_days(self) -> None:
        """One speaker after another, as the days of the tests of the program have them."""
        chance = random.Random(55)
        market = market_of(chance)
        asking = Asking(self.begin(market, 2))
        day = Day(asking, market, chance)
        day.spend(250)
        self.assertGreater(len({it.line.split(" ")[0] for it in asking.said}), 10)
        self.assertGreater(sum(it.is_change for it in asking.said), 100)
        self.assert_as_script(asking.said)


class Crowd:
    """Many members who call at once, in rounds; between two of them the operator has the service for itself."""

    def __init__(self, callers: dict[str, Caller], market: Market) -> None:
        self.callers = callers
        self.market = market
        self.said: list[Said] = []
        self.faults: list[Answered] = []
        self.trades = 1
        self.cycle = 0
        self.guard = threading.Lock()

    def say(self, speaker: str, line: str) -> str:
        answered = self.callers[speaker].say(line)
        if answered.status not in (200, 409) or "reply" not in answered.content:
            self.faults.append(answered)
            return ""
        with self.guard:
            self.said.append(Said(speaker, line, answered.text))
            if answered.text.startswith("ok ") and " trade " in answered.text.split("\n")[0]:
                self.trades = max(self.trades, int(answered.text.split(" ")[3]))
        return answered.text

    def line(self, name: str, chance: random.Random) -> str:
        """What a member says next."""
        other = chance.choice([it for it in self.market.members if it != name])
        product, trade = chance.choice(self.market.products), chance.randint(1, self.trades)
        pair = (name, other) if chance.random() < 0.5 else (other, name)
        lines = [f"TRADE {pair[0]} {pair[1]} {product} {chance.randint(1, 99)} 2026-03-02"] * 4
        lines += [f"NETS {product}", "STATEMENT", f"PLAN {self.cycle}", f"HOLD {trade}", f"END {trade}"]
        return chance.choice([*lines, f"TOL {other} {product} out {chance.randint(0, 9)} -"])

    def act(self, name: str, round: int) -> None:
        """A member's part of a round: it affirms what others alleged, calls what it wants, and votes."""
        chance = random.Random(f"{name} {round}")
        for row in self.say(name, "STATEMENT").split("\n")[1:]:
            if " alleged " in row and chance.random() < 0.8:
                self.say(name, f"AFFIRM {row.split(' ')[1]}")
        for _ in range(3):
            self.say(name, self.line(name, chance))
        self.say(name, f"ACCEPT {self.cycle} 1")

    def operate(self, round: int) -> None:
        """Before a round the operator opens a cycle and proposes, or ends the one that is open."""
        if round % 2:
            self.say("OPS", f"CANCEL {self.cycle}")
            return
        self.cycle += 1
        self.say("OPS", "FREEZE 2026-01-01")
        self.say("OPS", f"PROPOSE {self.cycle} free")

    def spend(self, rounds: int) -> None:
        with ThreadPoolExecutor(16) as threads:
            for round in range(rounds):
                if round:
                    self.operate(round - 1)
                list(threads.map(self.act, self.market.members, [round] * len(self.market.members)))


class ManyMembers(InDay):
    def test_a_day_of_255_members(self) -> None:
        """All at once over four seats: each is answered as itself, and each change stands where its reply says."""
        market = Market([f"M{place}" for place in range(255)], [name for name, _ in PRODUCTS])
        crowd = Crowd(self.begin(market, 60), market)
        crowd.spend(3)
        self.assertEqual(crowd.faults, [])
        kinds = {it.reply.split(" ")[2] for it in crowd.said if it.reply.startswith("ok ")}
        self.assertLessEqual({"trade", "live", "nets", "statement", "plan", "frozen", "proposed", "accepted", "tol"}, kinds)
        positions = sorted(it.position for it in crowd.said if it.is_change and not it.line.startswith("PROPOSE"))
        self.assertEqual(len(positions), len({*positions}))
        self.assertGreater(len(crowd.said), 3_000)
        self.assert_as_script(crowd.said)


if __name__ == "__main__":
    unittest.main()
