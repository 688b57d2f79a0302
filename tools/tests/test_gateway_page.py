"""The gateway's page, in a headless Chromium and with the program that was built."""

import gzip
import json
import os
import re
from pathlib import Path
from typing import Any

from browsing import PHONE, InBrowser, Page
from gateways import Caller, InGateway
from running import PATIENCE
from serving import ROSTER

PICTURES = Path(os.environ["PICTURES"]) if "PICTURES" in os.environ else None
"""Where to leave a picture of each step, for eyes."""


class Day(InBrowser):
    """A day of three members and the operator."""

    def picture(self, page: Page, name: str) -> None:
        if PICTURES is not None:
            page.picture(PICTURES / f"{name}.png")

    def alleged(self, page: Page, other: str, amount: str) -> None:
        page.type("Other party", other)
        page.type("Product", "P")
        page.type("Amount", amount)
        page.type("Day", "2026-03-02")
        page.press("Allege")
        page.shows(f"owes {other} {amount} of P, 2026-03-02. {other} has to affirm it.")
        page.until(lambda: page.shown("main input", "Amount").get_attribute("value") == "", "empty fields")

    def test_from_sign_in_to_execution(self) -> None:
        self.serve()
        first, third = self.page(), self.page("C", PHONE)
        self.picture(first, "sign-in")
        first.sign_in("A")
        second, operator = self.page("B", is_dark=True), self.page("OPS")
        self.trades(first, second, third)
        second.go("Tolerances")
        self.tolerance(second)
        self.proposed(operator)
        self.declined(first, second, third, operator)
        self.executed(first, second, third, operator)
        for page in (first, second, third, operator):
            self.assertEqual(page.complaints(), [])
            self.assertNotIn("token", page.driver.current_url)
        self.kill()
        kept = [f"{it.party}: {it.line}" for it in self.records()]
        self.assertEqual(kept[:5], ["A: TRADE A B P 10 2026-03-02", "B: AFFIRM 1", "B: TRADE B C P 7 2026-03-02", "C: AFFIRM 2", "B: TOL A P in 5 -"])
        self.assertEqual([it for it in kept if "ACCEPT" in it], ["B: ACCEPT 1 1", "A: ACCEPT 1 2", "B: ACCEPT 1 2", "C: ACCEPT 1 2"])

    def trades(self, first: Page, second: Page, third: Page) -> None:
        self.alleged(first, "B", "10")
        second.press("Affirm trade 1")
        second.shows("Trade 1 is live.")
        self.alleged(second, "C", "7")
        third.shown("button", "Affirm trade 2")
        self.picture(third, "affirm-phone")
        third.press("Affirm trade 2")
        third.shows("Trade 2 is live.")
        first.shows("You owe 10: short")
        self.picture(first, "book")
        self.picture(third, "book-phone")

    def tolerance(self, page: Page) -> None:
        page.type("Other member", "A")
        page.type("Product", "P")
        page.choose("Side", "in")
        page.type("Floor", "5")
        page.press("Set")
        page.shows("It is set.")
        page.shows("1 of 1")
        self.picture(page, "tolerances-dark")

    def proposed(self, operator: Page) -> None:
        operator.shows("P\t17\t10\t7\t17")
        self.picture(operator, "market")
        operator.go("Cycle")
        operator.type("Freeze what matures after", "2026-03-31")
        operator.press("Freeze")
        operator.shows("Cycle 1: 2 trades are frozen.")
        self.picture(operator, "frozen")
        operator.press("Rehearse")
        operator.shows("hybrid\t17\t12\t5\ta proposal")
        operator.shows("it touches nobody")
        self.picture(operator, "rehearsed")
        operator.press("Propose hybrid")
        operator.shows("Version 1, hybrid: the gross goes from 17 to 12.")

    def finds(self, page: Page, version: int, name: str) -> None:
        """The proposal came by itself, and the member's own test takes it."""
        page.go("Proposal")
        page.shows(f"Cycle 1, version {version}, ")
        page.shows("not sure — nothing speaks against it, but not all could be compared.")
        self.picture(page, name)
        page.shown("main input", self.vouched(page)).click()
        page.shows("yes — by check_mine it is right, if these are all the tolerances that you have set.")

    def vouched(self, page: Page) -> str:
        """The words of the box by which a member says that it has set no more than its browser noted."""
        return "The 1 tolerance that this browser noted is all that I have set." if page.driver.title.startswith("B ") else "I have set no tolerance."

    def declined(self, first: Page, second: Page, third: Page, operator: Page) -> None:
        self.finds(first, 1, "proposal")
        self.finds(second, 1, "proposal-dark")
        self.finds(third, 1, "proposal-phone")
        second.press("Accept")
        self.picture(second, "sure-dark")
        second.press("Accept", "dialog button")
        second.shows("Version 1 is accepted: 2 more to accept.")
        second.driver.refresh()
        second.sign_in("B")
        second.go("Proposal")
        second.shows("You have accepted this version.")
        self.assertFalse(second.shown("button", "Accepted").is_enabled())
        third.shows("Whether one came by another way is not known here")
        operator.shows("Cycle 1, version 1, through this gateway: accepted by B. By the last reply 2 had not accepted.")
        third.press("Decline")
        third.press("Decline", "dialog button")
        third.shows("Nothing is proposed.")
        first.shows("Cycle 1: trades are frozen.")
        operator.shows("Version 1 was declined by C.")
        operator.shows("Declined by C.")

    def executed(self, first: Page, second: Page, third: Page, operator: Page) -> None:
        operator.press("Propose free")
        operator.shows("Version 2, free: the gross goes from 17 to 12.")
        self.picture(operator, "operator")
        for version, page in enumerate((first, second, third)):
            self.finds(page, 2, f"accept-{version}")
            page.press("Accept")
            page.press("Accept", "dialog button")
            page.shows("carried out" if page is third else "more to accept.")
        for page in (first, operator):
            page.shows("No cycle is open. Cycle 1 was carried out.")
        operator.shows("It is carried out.")
        self.picture(operator, "votes")
        first.go("Book")
        first.shows("2 of 2")
        first.shows("You owe 10: short")
        self.picture(first, "executed")
        asked = first.run("return performance.getEntriesByType('resource').map((it) => it.name)")
        self.assertEqual([it for it in asked if it.endswith(("/api/statement", "/api/book"))][1:], [])
        self.assertTrue(any("/api/book?since=" in it for it in asked), asked)


class Following(InBrowser):
    """What the page does without its WebSocket, without the service, and at a sign-in's end."""

    def test_it_asks_where_it_can_not_listen(self) -> None:
        self.serve()
        script = "window.WebSocket = class { constructor() { setTimeout(() => this.onclose({ code: 1006 })); } close() {} };"
        page = self.page(before=script)
        page.sign_in("B")
        self.assertEqual(self.caller("A").say("TRADE A B P 10 2026-03-02").status, 200)
        page.press("Affirm trade 1")
        page.shows("Trade 1 is live.")

    def test_the_service_ends_and_begins_again(self) -> None:
        self.serve("--wait", "1")
        page = self.page("A")
        self.kill()
        page.shows("The service does not answer.")
        self.start("--seats", "5")
        page.until(lambda: "does not answer" not in page.text(), "the service")
        page.press("Sign out")
        page.shows("Signed out.")
        self.assertNotIn("My trades", page.text())

    def test_a_session_that_ends_elsewhere(self) -> None:
        """The gateway starts again: its sessions are gone, and the page says so."""
        self.serve()
        page = self.page("A")
        assert self.gateway is not None
        self.gateway.terminate()
        self.assertEqual((self.gateway.wait(PATIENCE), self.logged()), (0, ""))
        self.open()
        page.shows("The session is over: sign in again.")
        page.sign_in("A")

    def test_a_wrong_key_and_a_refusal_are_told_as_text(self) -> None:
        self.serve()
        page = self.page()
        page.type("Name", "<img/src=x>")
        page.type("Key", "K")
        page.press("Sign in")
        page.shows("This name and key are not known.")
        self.assertEqual(page.driver.find_elements("css selector", "img"), [])
        page.driver.refresh()
        page.until(lambda: self.caller().sign_in("A").status == 201, "a sign-in")
        page.sign_in("A")
        page.type("Other party", "A")
        page.type("Product", "P")
        page.type("Amount", "1")
        page.press("Allege")
        page.shows("Refused. Other party: this is yourself (own-trade).")


class Served(InGateway):
    """What the page's calls answer, and what a browser is told of the page."""

    def test_the_calls(self) -> None:
        self.start("--seats", "5")
        self.open("--roster", ROSTER)
        page = self.caller().ask("GET", "/")
        policy = page.headers["Content-Security-Policy"]
        self.assertIn("default-src 'none'; script-src 'self'", policy)
        self.assertNotIn("unsafe", policy)
        for name in re.findall(r'"(/page/[a-z-]+\.[a-z]+)"', str(page.content)):
            asked = self.caller().ask("GET", name)
            self.assertEqual((asked.status, asked.headers["X-Content-Type-Options"]), (200, "nosniff"), name)
        self.assertEqual(re.findall(r"https?://|style=|onclick", str(page.content)), [])
        for path in ("/page/../command.py", "/page/main.py", "/page/"):
            self.assertEqual(self.caller().ask("GET", path).status, 404, path)
        caller = self.caller("A")
        told = caller.ask("GET", "/api/roster").content
        self.assertEqual(told["currencies"], {})
        self.assertEqual(re.sub("[A-Z0-9]{16}", "-", told["roster"]), "name,role,key\nA,dealer,-\nB,dealer,-\nC,dealer,-\nOPS,operator,-\nP,product,2031-06-30\n")
        without = [self.caller().ask(*it) for it in (("GET", "/api/roster"), ("GET", "/api/votes"), ("POST", "/api/check"))]
        self.assertEqual([it.status for it in without], [401, 401, 401])
        self.assertEqual(caller.ask("GET", "/api/votes").error, "wrong-role")
        self.assertEqual(self.caller("OPS").ask("GET", "/api/votes").content["accepted"], [])
        self.assertEqual(caller.ask("GET", "/api/votes/mine").content, {"cycle": 0, "version": 0, "vote": None})

    def test_a_members_own_test(self) -> None:
        """The verdict is that of check_mine: over right notes, and over those with a tolerance more."""
        self.start("--seats", "5")
        self.open("--roster", ROSTER)
        first, second, operator = (self.caller(name) for name in ("A", "B", "OPS"))
        for caller, line in [(first, "TRADE A B P 10 2026-03-02"), (second, "AFFIRM 1"), (second, "TRADE B A P 7 2026-03-02"), (first, "AFFIRM 2")]:
            self.assertEqual(caller.say(line).status, 200)
        notes = first.say("STATEMENT").text.partition("\n")[2] + "\n"
        for line in ("FREEZE 2026-03-31", "PROPOSE 1 conservative"):
            self.assertEqual(operator.say(line).status, 200)
        texts = {"notes": notes, "proof": first.say("PROOF 1").text + "\n", "plan": first.say("PLAN 1").text + "\n"}
        compared = {"pairs": 2, "tolerances": 0, "later": 0, "untold": 0, "trades": 2}
        cases: list[tuple[dict[str, Any], dict[str, int], Any]] = [
            ({}, {}, ("unsure", None, ["tolerances"])),
            ({"complete": True}, {}, ("yes", None, [])),
            ({"notes": f"1 TOL B P out 9 -\n{notes}"}, {"tolerances": 1}, ("unsure", "lower below your own", ["tolerances"])),
            ({"notes": f"1 TOL B P out 9 -\n{notes}", "complete": True}, {"tolerances": 1}, ("unsure", "lower below your own", [])),
            ({"notes": f"99 TOL B P out 9 -\n{notes}"}, {"later": 1}, ("unsure", None, ["tolerances"])),
            ({"notes": f"1 TOL C P out 9 -\n{notes}"}, {"untold": 1}, ("unsure", None, ["tolerances"])),
            ({"notes": "", "complete": True}, {"trades": 0}, ("unsure", "strange", ["trades"])),
        ]
        for more, changed, wanted in cases:
            with self.subTest(more=more):
                told = first.ask("POST", "/api/check", {**texts, **more}).content
                self.assertEqual((told["verdict"], told.get("clash"), told["lacks"]), wanted)
                self.assertEqual(told["compared"], {**compared, **changed})
        for old, new, clash in (("pot P B 0", "pot P B 1", "slack"), ("pot P", "pot Z", "strange")):
            with self.subTest(new=new):
                told = first.ask("POST", "/api/check", {**texts, "proof": texts["proof"].replace(old, new, 1)}).content
                self.assertEqual((told["verdict"], told["clash"]), ("no", clash))
        self.assertEqual(first.ask("POST", "/api/check", {**texts, "complete": 1}).content["field"], "complete")
        bad = first.ask("POST", "/api/check", {**texts, "proof": "no\n"})
        self.assertEqual((bad.status, bad.content["told"]), (422, "proof row 1: bad-line"))
        self.assertEqual(first.ask("POST", "/api/check", {**texts, "more": ""}).error, "bad-field")
        self.assertEqual(operator.ask("POST", "/api/check", texts).error, "not-in-roster")
        self.assertEqual(first.ask("POST", "/api/check", {**texts, "roster": "name"}).error, "fault")


    def test_what_has_changed(self) -> None:
        """A page is sent the lines that it lacks, and the whole if the gateway has not kept what it knows."""
        self.start("--seats", "5")
        self.open("--roster", ROSTER)
        first, second, third = (self.caller(name) for name in ("A", "B", "C"))

        def asked(caller: Caller, since: int | None = None) -> tuple[int | None, list[str]]:
            told = caller.ask("GET", "/api/book" if since is None else f"/api/book?since={since}").content
            return told["since"], told["lines"]

        self.assertEqual(first.say("TRADE A B P 10 2026-03-02").status, 200)
        self.assertEqual(asked(second), (None, ["trade 1 A B P 10 2026-03-02 alleged -"]))
        self.assertEqual(asked(second, 1), (1, []))
        self.assertEqual(third.say("TRADE C A P 3 2026-03-02").status, 200)
        self.assertEqual(asked(second, 1), (1, []))
        self.assertEqual(second.say("AFFIRM 1").status, 200)
        self.assertEqual(second.say("TRADE B C P 7 2026-03-02").status, 200)
        lines = ["trade 1 A B P 10 2026-03-02 live -", "trade 3 B C P 7 2026-03-02 alleged -"]
        self.assertEqual(asked(second, 2), (2, lines))
        self.assertEqual(asked(second, 0), (None, lines))
        self.assertEqual(asked(second, 99), (None, lines))
        for since in ("-1", "x", "", "9" * 20):
            self.assertEqual(second.ask("GET", f"/api/book?since={since}").content["field"], "since", since)
        self.assertEqual(self.caller("OPS").ask("GET", "/api/book").error, "refused")

    def test_answers_are_compressed(self) -> None:
        self.start("--seats", "5")
        self.open("--roster", ROSTER)
        caller = self.caller("A")
        for amount in range(40):
            self.assertEqual(caller.say(f"TRADE A B P {amount + 1} 2026-03-02").status, 200)
        for path, coding in (("/api/book", "gzip"), ("/page/main.js", "gzip"), ("/api/session", None)):
            caller.http.request("GET", path, headers={"Accept-Encoding": "gzip", "Authorization": f"Bearer {caller.token}"})
            response = caller.http.getresponse()
            content = response.read()
            self.assertEqual(response.headers["Content-Encoding"], coding, path)
            if path == "/api/book":
                self.assertEqual(len(json.loads(gzip.decompress(content))["lines"]), 40)
        lengths = {len(caller.ask("GET", "/api/cycle").headers["X-Padding"]) for _ in range(20)}
        self.assertGreater(len(lengths), 1)
        self.assertIsNone(caller.ask("GET", "/api/cycle").headers["Content-Encoding"])
