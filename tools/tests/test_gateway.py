"""The gateway's calls: what each answers, and what is refused."""

import re
import sys
import unittest

from gateways import Answered, Caller, InGateway, call_of
from running import EXAMPLES, TOOLS, Ran, run

sys.path.insert(0, str(TOOLS))

from delkwoan import replies
from delkwoan.gateway.calls import CALLS, POSTING

SESSION = EXAMPLES / "chain-cycle.session"


def fields(answered: Answered) -> object:
    return answered.content.get("fields")


def heads(name: str) -> list[str]:
    """The whole replies of an example session, without the last line feed of each."""
    lines = (EXAMPLES / f"{name}.replies").read_text().splitlines()
    starts = [at for at, line in enumerate(lines) if line.startswith(("ok ", "no "))] + [len(lines)]
    return ["\n".join(lines[start:end]) for start, end in zip(starts, starts[1:])]


class Calls(InGateway):
    def test_an_example_session(self) -> None:
        """Each line is a call, and each call's reply is the session's."""
        self.start("--seats", "5")
        self.open()
        callers: dict[str, Caller] = {}
        caller = self.caller()
        lines = SESSION.read_text().splitlines()
        for line, reply in zip(lines, heads("chain-cycle"), strict=True):
            verb, *words = line.split(" ")
            if verb == "HELLO":
                caller = callers.setdefault(words[0], self.caller())
                if not caller.token:
                    self.assertEqual(caller.sign_in(*words).status, 201)
            elif verb != "BYE":
                answered = caller.say(line)
                self.assertEqual((answered.text, answered.status), (reply, 200 if reply.startswith("ok") else 409), line)

    def test_what_is_answered(self) -> None:
        """Of a service whose trades the tests before made: refusals, replies as fields, and where a cycle stands."""
        self.start("--seats", "5")
        self.open()
        self.refusals()
        self.fields()
        self.stands()
        self.draft()
        self.document()

    def fields(self) -> None:
        one, other = self.caller("A"), self.caller("B")
        cases = [
            (one, "TRADE A B P 10 2026-03-02", {"trade": 1}),
            (other, "AFFIRM 1", {"trade": 1}),
            (one, "NETS P", {"out": 10, "into": 0, "net": 10}),
            (one, "TOL B P out 0 -", {}),
            (self.caller("OPS"), "NETS P", {"gross": 10, "floor": 10, "excess": 0, "bilateral": 10}),
        ]
        for caller, line, told in cases:
            answered = caller.say(line)
            self.assertEqual((answered.status, fields(answered)), (200, told), line)
            self.assertEqual(answered.content["position"], replies.position_of(answered.text))
        row = {"trade": 1, "seller": "A", "buyer": "B", "product": "P", "amount": 10, "day": "2026-03-02", "state": "live", "is_held": False}
        self.assertEqual(fields(one.say("STATEMENT")), {"rows": [row]})
        one.say("END 1")
        self.assertEqual(other.say("END 1").content["kind"], "ended")

    def refusals(self) -> None:
        caller = self.caller("A")
        bad = {"seller": "A", "buyer": "B", "product": "P", "amount": 10, "day": "2026-03-02"}
        cases = [
            (caller.say("AFFIRM 9"), 409, "refused"),
            (caller.say("FREEZE 2026-03-02"), 409, "refused"),
            (caller.say("NETS p"), 422, "refused"),
            (caller.say("HOLD 01"), 422, "refused"),
            (caller.ask("GET", "/api/market/P"), 403, "wrong-role"),
            (caller.ask("POST", "/api/trades", {**bad, "buyer": "B\nBYE"}), 422, "bad-field"),
            (caller.ask("POST", "/api/trades", {**bad, "buyer": "B C"}), 422, "bad-field"),
            (caller.ask("POST", "/api/trades", {**bad, "buyer": ""}), 422, "bad-field"),
            (caller.ask("POST", "/api/trades", {**bad, "amount": True}), 422, "bad-field"),
            (caller.ask("POST", "/api/trades", {**bad, "amount": 1.5}), 422, "bad-field"),
            (caller.ask("POST", "/api/trades", {**bad, "more": 1}), 422, "bad-field"),
            (caller.ask("POST", "/api/trades", {"seller": "A"}), 422, "bad-field"),
            (caller.ask("GET", "/api/nets/P%0ABYE"), 422, "bad-field"),
            (caller.ask("POST", "/api/trades", b"[1]"), 422, "bad-body"),
            (caller.ask("POST", "/api/trades", b"{"), 422, "bad-body"),
            (caller.ask("POST", "/api/trades", b"[" * 10_000), 422, "bad-body"),
            (caller.ask("POST", "/api/trades", b" " * 20_000), 413, "too-long"),
            (caller.ask("POST", "/api/trades", bad, key="k" * 200), 422, "bad-idempotency-key"),
        ]
        self.assertEqual([(answered.status, answered.error) for answered, _, _ in cases], [(status, error) for _, status, error in cases])
        refused = caller.say("AFFIRM 9").content
        told = {"error": "refused", "reply": "no 0 11 unknown-trade", "position": 0, "number": 11, "name": "unknown-trade", "value": ""}
        self.assertEqual(refused, told)

    def test_a_draft_is_posted(self) -> None:
        """By the lines of an example session, whose rows and potentials go with the call that posts them."""
        self.start("--seats", "5")
        self.open()
        callers = {name: self.caller(name) for name in ("A", "B", "C", "OPS")}
        lines = (EXAMPLES / "chain-by-hand.session").read_text().splitlines()
        speaker, rows, potentials = "", [], []
        for line, reply in zip(lines, heads("chain-by-hand"), strict=True):
            verb, *words = line.split(" ")
            if verb == "HELLO":
                speaker = words[0]
            elif verb == "ROW":
                rows.append(dict(zip(("product", "seller", "buyer", "amount"), words)))
            elif verb == "POT":
                potentials.append(dict(zip(("product", "member", "value"), words)))
            elif verb != "BYE":
                more = {"rows": rows, "potentials": potentials} if verb == "POST" else {}
                self.assertEqual(callers[speaker].say(line, more=more).text, reply, line)

    def draft(self) -> None:
        """A draft with a line that is refused is not posted, and one with other lines is another."""
        caller = self.caller("OPS")
        row = {"product": "P", "seller": "A", "buyer": "B", "amount": 1}
        answered = caller.say("POST 1 1", "d", {"rows": [row, {**row, "buyer": "X"}]})
        self.assertEqual((answered.status, answered.content["line"], answered.content["number"]), (409, "ROW P A X 1", 4))
        self.assertEqual(caller.say("POST 1 1", "d", {"rows": [row]}).content["name"], "cycle-broken")
        self.assertEqual(caller.say("POST 1 1", "d", {"rows": [row, row]}).error, "other-line")

    def stands(self) -> None:
        one, other, operator = (self.caller(name) for name in ("A", "B", "OPS"))

        def stands() -> object:
            return fields(one.ask("GET", "/api/cycle"))

        self.assertEqual(stands(), {"cycle": 0, "phase": "none"})
        for seller, buyer in (("A", "B"), ("B", "A")):
            one.say(f"TRADE {seller} {buyer} P 10 2026-03-02")
        other.say("AFFIRM 2")
        other.say("AFFIRM 3")
        operator.say("FREEZE 2026-01-01")
        self.assertEqual(stands(), {"cycle": 1, "phase": "frozen"})
        operator.say("PROPOSE 1 conservative")
        self.assertEqual(stands(), {"cycle": 1, "phase": "proposed", "version": 1})
        steps = [{"step": "end", "trade": 2}, {"step": "end", "trade": 3}]
        self.assertEqual(fields(one.say("PLAN 1")), {"cycle": 1, "version": 1, "rows": steps})
        proof = one.say("PROOF 1").content["fields"]
        self.assertEqual((proof["day"], proof["mode"], [row["row"] for row in proof["rows"]]), ("2026-01-01", "conservative", 2 * ["pot"] + 2 * ["pair"]))
        pair = {"row": "pair", "product": "P", "seller": "A", "buyer": "B", "lower": 0, "lower_of": "none", "now": 10, "next": 0}
        self.assertEqual(proof["rows"][2], {**pair, "upper": 10, "upper_of": "now"})
        one.say("END 2")
        other.say("END 2")
        self.assertEqual(stands(), {"cycle": 1, "phase": "broken", "trade": 2})

    def document(self) -> None:
        document = self.caller().ask("GET", "/openapi.json").content
        for call in (*CALLS, POSTING):
            operation = document["paths"][call.path][call.method.lower()]
            names = [it["name"] for it in operation["parameters"] if it["in"] == "path"]
            schema = operation.get("requestBody", {}).get("content", {}).get("application/json", {}).get("schema", {})
            more = ["rows", "potentials"] if call is POSTING else []
            self.assertEqual(sorted([*names, *schema.get("properties", {})]), sorted([*call.words, *more]), call.path)
        names = [it["operationId"] for operations in document["paths"].values() for it in operations.values() if "operationId" in it]
        self.assertEqual((len({*names}), len(names)), (len(CALLS) + 1, len(CALLS) + 1))
        page = str(self.caller().ask("GET", "/api").content)
        self.assertTrue(all(call.path in page for call in CALLS))
        self.assertEqual(re.findall(r"https?://", page), [])


class Words(unittest.TestCase):
    def test_bad_words(self) -> None:
        bad: list[list[str]] = [[], ["127.0.0.1:1", "127.0.0.1:2"], ["a", "b", "c"], ["--seats", "65", "127.0.0.1:1", "127.0.0.1:2", "c"]]
        bad += [["--key", "k", "127.0.0.1:1", "127.0.0.1:2", "c"], ["--clients", "k", "127.0.0.1:1", "127.0.0.1:2", "c"]]
        for words in bad:
            self.assertEqual(run([TOOLS / "gateway", *words]), Ran(2, b"", b"bad words\n"), words)

    def test_each_command_of_a_session_is_a_call(self) -> None:
        from delkwoan.names import COMMANDS

        without = {"HELLO", "BYE", "ROW", "POT", "NEXT"}
        self.assertEqual({call_of(verb).verb for verb in COMMANDS if verb not in without}, set(COMMANDS) - without)
        for call in CALLS:
            self.assertEqual(len(call.words), len(COMMANDS[call.verb].split()), call.verb)


if __name__ == "__main__":
    unittest.main()
