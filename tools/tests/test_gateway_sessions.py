"""Sign-in and sign-out at the gateway, keys that are wrong or were changed, want of a seat, and the figures."""

import re
import unittest

from gateways import InGateway
from running import EXAMPLES, ROOT



class SignIn(InGateway):
    def test_in_and_out_and_wrong_keys(self) -> None:
        self.start("--seats", "5")
        self.open()
        caller = self.caller()
        self.assertEqual((caller.say("STATEMENT").status, caller.say("STATEMENT").error), (401, "not-signed-in"))
        told = caller.sign_in("OPS", "KO").content
        self.assertEqual((told["name"], told["role"], told["idle"]), ("OPS", "operator", 1800.0))
        self.assertEqual(caller.ask("GET", "/api/session").content, {"name": "OPS", "role": "operator"})
        self.assertEqual(caller.ask("DELETE", "/api/session").status, 204)
        self.assertEqual(caller.ask("GET", "/api/session").status, 401)
        self.assertEqual([caller.sign_in("A", "SECRET-KEY").status for _ in range(2)], [401, 401])
        self.assertRegex(self.logged(), r"^(2\d{3}-\d\d-\d\d \d\d:\d\d:\d\d,\d+ WARNING wrong key: name A, address 127\.0\.0\.1\n)+$")
        self.assertEqual([caller.sign_in(*words).status for words in (("A\n", "K"), ("A", "K K"))], [422, 422])

    def test_an_idle_session_ends(self) -> None:
        self.start("--seats", "5")
        self.open("--idle", "0")
        caller = self.caller("A")
        self.assertEqual(caller.say("STATEMENT").error, "not-signed-in")

    def test_a_key_that_was_changed(self) -> None:
        """The service starts again with another key: no line of the session is answered, in whoever's name."""
        self.roster = self.folder / "roster.csv"
        self.roster.write_bytes((EXAMPLES / "roster.csv").read_bytes())
        self.start("--seats", "5")
        self.open("--seats", "1")
        one, other = self.caller("A"), self.caller("B")
        self.kill()
        self.roster.write_text(self.roster.read_text().replace("A,dealer,KA", "A,dealer,K2"))
        self.start("--seats", "5")
        self.assertEqual(other.say("TRADE B C P 5 2026-03-02").status, 200)
        self.assertEqual(one.say("TRADE A B P 7 2026-03-02").error, "bad-key")
        self.assertEqual(one.say("TRADE A B P 7 2026-03-02").error, "not-signed-in")
        self.kill()
        self.assertEqual([(kept.party, kept.line) for kept in self.records()], [("B", "TRADE B C P 5 2026-03-02")])

    def test_no_seat(self) -> None:
        """Others have all the seats: nothing is sent, and a call may be sent again later."""
        self.start("--seats", "1")
        self.open("--wait", "1", "--seats", "1")
        caller = self.caller("A")
        self.kill()
        refused = caller.say("TRADE A B P 5 2026-03-02", key="k")
        self.assertEqual((refused.status, refused.error, refused.headers["Retry-After"]), (503, "no-seat", "2"))
        self.start("--seats", "1")
        self.assertEqual(self.seated(lambda: caller.say("TRADE A B P 5 2026-03-02", key="k")).status, 200)
        self.kill()
        self.assertEqual(len(self.records()), 1)


class Figures(InGateway):
    def figures(self) -> dict[str, float]:
        text = str(self.caller().ask("GET", "/metrics").content)
        return {name: float(value) for name, value in re.findall(r"^(\w+(?:\{[^}]*\})?) (\S+)$", text, re.MULTILINE)}

    def test_they_are_those_of_the_day(self) -> None:
        self.start("--seats", "5")
        self.open("--journal", self.journal)
        caller = self.caller("A")
        for amount in range(1, 6):
            caller.say(f"TRADE A B P {amount} 2026-03-02")
        caller.say("AFFIRM 1")
        figures = self.figures()
        told = {name: figures[name] for name in figures if not name.startswith("delkwoan_call_") and "created" not in name}
        self.assertEqual(told.pop("delkwoan_journal_bytes"), self.journal.stat().st_size)
        self.assertEqual(told.pop("delkwoan_journal_bytes_left"), 268_435_456 - self.journal.stat().st_size)
        self.assertGreaterEqual(told.pop("delkwoan_connections"), 2)
        due = {"requests": 1, "history_length": 5, "trades_used": 5, "trades_left": 99_995, "seats": 4, "seats_busy": 0, "sessions": 1}
        due |= {'replies_total{kind="trade"}': 5, 'replies_total{kind="not-party"}': 1, "wrong_keys_total": 0, "calls_waiting": 0}
        self.assertEqual(told, {f"delkwoan_{name}": value for name, value in due.items()})
        self.assertEqual(figures['delkwoan_call_seconds_count{verb="TRADE"}'], 5)

    def test_without_a_journal_they_are_fewer(self) -> None:
        self.start("--seats", "5")
        self.open("--journal", self.folder / "none")
        self.assertFalse({name for name in self.figures() if "journal" in name or "trades" in name})

    def test_health(self) -> None:
        self.start("--seats", "5")
        self.open("--wait", "0.5")
        caller = self.caller()
        self.assertEqual(self.seated(lambda: caller.ask("GET", "/healthz")).content, {"position": 0})
        self.kill()
        self.assertEqual(caller.ask("GET", "/healthz").status, 503)


class Alerts(InGateway):
    def test_they_are_over_figures_that_there_are(self) -> None:
        self.start("--seats", "5")
        self.open("--journal", self.journal)
        caller = self.caller("A")
        caller.say("NETS P")
        caller.sign_in("A", "WRONG")
        figures = str(caller.ask("GET", "/metrics").content)
        names = set(re.findall(r"delkwoan_\w+", (ROOT / "packaging/gateway-alerts.yml").read_text()))
        self.assertGreater(len(names), 7)
        self.assertEqual({name for name in names if not re.search(rf"^{name}\b", figures, re.MULTILINE)}, set())


if __name__ == "__main__":
    unittest.main()
