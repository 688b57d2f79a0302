"""Labels, contrast and the order of the focus: axe-core, and what it leaves out, over each state of the page in each look."""

import time

from axe import judged
from browsing import PHONE, WIDE, InBrowser, Page
from gateways import Caller

STOPS_OF_A_DAY = 3
"""How many further stops a day's input has within."""
LOOKS = [(size, is_dark) for size in (WIDE, PHONE) for is_dark in (False, True)]

LEFT_OUT = """
const seen = (it) => it.getClientRects().length > 0;
const colour = (text) => text.match(/[\\d.]+/g).map(Number);
const part = (value) => (value / 255 <= 0.03928 ? value / 255 / 12.92 : ((value / 255 + 0.055) / 1.055) ** 2.4);
const light = ([red, green, blue]) => 0.2126 * part(red) + 0.7152 * part(green) + 0.0722 * part(blue);
const ground = (it) => {
  for (let at = it; at; at = at.parentElement) {
    const found = colour(getComputedStyle(at).backgroundColor);
    if (found.length < 4 || found[3] > 0) return found;
  }
  return colour(getComputedStyle(document.body).backgroundColor);
};
const found = [];
const least = (what, one, other, most) => {
  const [high, low] = [Math.max(light(one), light(other)), Math.min(light(one), light(other))];
  if ((high + 0.05) / (low + 0.05) < most) found.push(`${what}: ${((high + 0.05) / (low + 0.05)).toFixed(2)}`);
};
for (const it of document.querySelectorAll("body *")) {
  const style = getComputedStyle(it);
  const has = [...it.childNodes].some((node) => node.nodeType === Node.TEXT_NODE && node.data.trim()) || it.matches("input, select");
  if (!seen(it) || it.closest("datalist")) continue;
  if (has) least(`text ${it.outerHTML}`, colour(it.closest("svg") ? style.fill : style.color), ground(it), 4.5);
  if (it.matches("rect, line")) least(it.outerHTML, colour(it.matches("rect") ? style.fill : style.stroke), ground(it), 3);
  if (it.matches("input, select, button:not(.sort)")) least(`edge of ${it.outerHTML}`, colour(style.borderColor), ground(it.parentElement), 3);
}
if (document.documentElement.scrollWidth > document.documentElement.clientWidth) found.push("wider than the window");
return found;
"""
"""Texts and bars of pictures, edges of what is operated, and texts over a ground of no colour; and that nothing is cut off at the side."""

RECORD = """
const stop = (it) => {
  const [box, style] = [it.getBoundingClientRect(), getComputedStyle(it)];
  return { at: [...document.querySelectorAll("*")].indexOf(it), html: it.outerHTML.slice(0, 120), left: box.left, top: box.top + scrollY, bottom: box.bottom + scrollY,
    isSeen: box.width > 0 && box.left >= 0, isMarked: style.outlineStyle !== "none" && parseFloat(style.outlineWidth) >= 2 };
};
if (!window.stops) {
  window.stops = [];
  document.addEventListener("focusin", (event) => window.stops.push(stop(event.target)));
}
const dialog = document.querySelector("dialog[open]");
if (dialog) {
  dialog.querySelector("button:last-of-type").focus();
} else {
  document.activeElement.blur();
  scrollTo(0, 0);
  document.body.tabIndex = -1;
  document.body.focus();
  document.body.removeAttribute("tabindex");
}
window.stops = [];
"""
"""Puts the focus in front of the first part, and notes each that it comes to: where that is, and whether it is seen there."""

ALL = """
const lists = (selector) => [...(document.querySelector("dialog[open]") || document).querySelectorAll(selector)];
return lists("a[href], button:not(:disabled), input:not(:disabled), select:not(:disabled), summary, [tabindex='0']")
  .filter((it) => it.getClientRects().length && getComputedStyle(it).visibility === "visible").map((it) => [...document.querySelectorAll("*")].indexOf(it));
"""
"""All that can be operated, in the order of the document."""


class Labels(InBrowser):
    """Each state of the page as a reader of the screen, an eye, and a keyboard meet it."""

    def look(self, page: Page, size: tuple[int, int], is_dark: bool) -> None:
        features = [{"name": "prefers-color-scheme", "value": "dark" if is_dark else "light"}]
        page.driver.execute_cdp_cmd("Emulation.setEmulatedMedia", {"features": features})
        page.driver.execute_cdp_cmd("Emulation.setDeviceMetricsOverride", {"width": size[0], "height": size[1], "deviceScaleFactor": 1, "mobile": False})
        time.sleep(0.1)

    def judge(self, page: Page, state: str) -> None:
        page.run("for (const it of document.querySelectorAll('details')) it.open = true")
        for size, is_dark in LOOKS:
            self.look(page, size, is_dark)
            with self.subTest(state, size=size, is_dark=is_dark):
                found = judged(page)
                self.assertEqual(found.faults, [])
                self.assertIn("color-contrast", found.passed)
                self.assertEqual(page.run(LEFT_OUT), [])
        for size in (PHONE, WIDE):
            self.look(page, size, False)
            with self.subTest(state, size=size):
                self.walk(page)

    def walk(self, page: Page) -> None:
        """The tabulator comes to all that can be operated, in the order of the document, downwards and to the right, and is seen there."""
        from selenium.webdriver.common.action_chains import ActionChains

        page.run(RECORD)
        wanted = page.run(ALL)
        days = len(page.driver.find_elements("css selector", "input[type=date]"))
        ActionChains(page.driver).send_keys("\ue004" * (len(wanted) + STOPS_OF_A_DAY * days)).perform()
        stops = page.run("return window.stops")[: len(wanted)]
        self.assertEqual([it["at"] for it in stops], wanted)
        for before, stop in zip([None, *stops], stops):
            self.assertTrue(stop["isSeen"] and stop["isMarked"], stop)
            if before is not None and stop["top"] < before["bottom"] - 1:
                self.assertGreaterEqual(stop["bottom"], before["top"], (before, stop))
                self.assertGreaterEqual(stop["left"], before["left"], (before, stop))

    def test_of_a_member(self) -> None:
        self.serve()
        first, third, page = self.caller("A"), self.caller("C"), self.page()
        self.judge(page, "signed out")
        page.type("Name", "B")
        page.type("Key", "K")
        page.press("Sign in")
        page.shows("This name and key are not known.")
        self.judge(page, "a wrong key")
        page.until(lambda: self.caller().sign_in("B").status == 201, "a sign-in")
        page.sign_in("B")
        self.judge(page, "an empty book")
        page.go("Proposal")
        self.judge(page, "nothing proposed")
        page.go("Book")
        self.say(first, "TRADE A B P 10 2026-03-02", "TRADE A B P 3 2026-03-02")
        page.press("Affirm trade 1")
        page.shows("Trade 1 is live.")
        self.say(self.caller("B"), "TRADE B C P 7 2026-03-02")
        self.say(third, "AFFIRM 3")
        page.go("Book")  # off the table, which keeps still as long as the focus is in it
        page.shows("You are owed 3: long")
        self.judge(page, "a book")
        page.press("End trade 1")
        self.judge(page, "a question")
        page.press("Back")
        page.go("Tolerances")
        page.type("Other member", "A")
        page.type("Product", "P")
        page.type("Floor", "5")
        page.press("Set")
        page.shows("It is set.")
        self.judge(page, "tolerances")
        self.voted(page)

    def voted(self, page: Page) -> None:
        operator = self.caller("OPS")
        self.say(operator, "FREEZE 2026-03-31", "PROPOSE 1 hybrid")
        page.go("Proposal")
        page.shows("not sure — nothing speaks against it")
        self.judge(page, "a proposal")
        page.shown("main input", "The 1 tolerance that this browser noted is all that I have set.").click()
        page.shows("yes — by check_mine")
        self.judge(page, "a right proposal")
        page.press("Accept")
        page.press("Accept", "dialog button")
        page.shows("more to accept.")
        self.judge(page, "accepted")
        self.say(self.caller("A"), "DECLINE 1 1")
        page.shows("Nothing is proposed.")
        self.say(self.caller("B"), "TOL A P in 9 -")
        self.say(operator, "PROPOSE 1 hybrid")
        page.shows("not sure — the proposal does not fit these notes.")
        self.judge(page, "a doubt")

    def test_of_the_operator(self) -> None:
        self.serve()
        first, second, third, page = self.caller("A"), self.caller("B"), self.caller("C"), self.page("OPS")
        self.say(first, "TRADE A B P 10 2026-03-02")
        self.say(second, "AFFIRM 1", "TRADE B C P 7 2026-03-02")
        self.say(third, "AFFIRM 2")
        page.shows("P\t17\t10\t7\t17")
        self.judge(page, "the market")
        page.go("Cycle")
        self.judge(page, "no cycle")
        page.type("Freeze what matures after", "2026-03-31")
        page.press("Freeze")
        page.shows("Cycle 1: 2 trades are frozen.")
        page.press("Rehearse")
        page.shows("All modes are rehearsed.")
        self.judge(page, "a freeze")
        page.press("Begin free")
        page.shows("Version 1 is begun, free.")
        page.type("Product", "P")
        page.press("Show")
        page.shows("none")
        self.judge(page, "limits")
        page.press("Propose hybrid")
        page.shows("Version 2, hybrid: the gross goes from 17 to 10.")
        self.say(first, "ACCEPT 1 2")
        page.shows("accepted by A.")
        self.judge(page, "votes")
        page.press("Cancel the cycle")
        self.judge(page, "a cancel")

    def say(self, caller: Caller, *lines: str) -> None:
        for line in lines:
            self.assertEqual(caller.say(line).status, 200, line)
