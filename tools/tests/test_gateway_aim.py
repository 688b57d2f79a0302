"""What is pressed on the gateway's page is what was aimed at, whatever other sessions change meanwhile; and what is said of it is seen."""

import random
from typing import Any

from browsing import InBrowser, Page
from gateways import Caller

ROUNDS = 25
"""How often each way of aiming is tried."""
OTHERS = 2
"""How many trades another session affirms in each round, all of them above the one that is aimed at."""
AHEAD = 6
"""How many trades wait above the last one that is aimed at."""
STEPS = {"d": "mousePressed", "u": "mouseReleased"}
MARKED = """
const found = document.querySelector(`[data-key="affirm ${arguments[0]}"]`);
return !found || found.getAttribute("aria-disabled") === "true";
"""
"""Whether the page knows that a trade waits no more: its row is gone, or can't be pressed."""
PLACE = """
const found = document.querySelector(`[data-key="affirm ${arguments[0]}"]`);
found.scrollIntoView({ block: "center" });
const box = found.getBoundingClientRect();
return [Math.round(box.left + box.width / 2), Math.round(box.top + box.height / 2)];
"""
SAID = "return document.getElementById('told').textContent"
UNSAID = "document.getElementById('told').textContent = ''"
UNDER = "const found = document.elementFromPoint(...arguments[0]); return found ? found.dataset.key : null"
STILL = "const stopped = performance.now(); window.later = 0; performance.now = () => stopped + window.later;"
"""A clock that stands until it is moved."""
SEEN = """
const box = [...document.querySelectorAll("#told, #wrong")].find((it) => it.textContent).getBoundingClientRect();
return box.height > 0 && box.top >= 0 && box.left >= 0 && box.bottom <= innerHeight && box.right <= innerWidth;
"""


class Aim(InBrowser):
    def alleged(self, count: int) -> tuple[Caller, Page]:
        """A's trades with B, who looks at them; and another session of B."""
        self.serve()
        first = self.caller("A")
        for place in range(count):
            self.assertEqual(first.say(f"TRADE A B P {place + 1} 2026-03-02").status, 200)
        page = self.page("B")
        page.shown("button", f"Affirm trade {count}")
        return self.caller("B"), page

    def mouse(self, page: Page, kind: str, place: tuple[int, int]) -> None:
        """A way of the mouse at a place: mouseMoved, mousePressed or mouseReleased."""
        button: dict[str, Any] = {} if kind == "mouseMoved" else {"button": "left", "clickCount": 1}
        page.driver.execute_cdp_cmd("Input.dispatchMouseEvent", {"type": kind, "x": place[0], "y": place[1], **button})

    def press(self, page: Page, place: tuple[int, int]) -> None:
        for kind in STEPS.values():
            self.mouse(page, kind, place)

    def affirm(self, page: Page, other: Caller, trades: list[int]) -> None:
        """Another session affirms, and the page comes to know."""
        for trade in trades:
            self.assertEqual(other.say(f"AFFIRM {trade}").status, 200)
        for trade in trades:
            page.until(lambda: page.run(MARKED, trade), f"trade {trade} affirmed by another")

    def place_of(self, page: Page, trade: int) -> tuple[int, int]:
        """Where a trade's button is, once that has been scrolled to."""
        across, down = page.run(PLACE, trade)
        return across, down

    def aimed(self, page: Page, trade: int) -> tuple[int, int]:
        """Where the pointer is once it rests on a trade's button."""
        while True:
            place = self.place_of(page, trade)
            self.mouse(page, "mouseMoved", place)
            if page.run(UNDER, place) == f"affirm {trade}":
                return place

    def aims(self, steps: str) -> None:
        """Presses on trades, in 25 rounds; at the `!` of the steps another session affirms trades above the one aimed at."""
        count = ROUNDS * (OTHERS + 1) + AHEAD
        other, page = self.alleged(count)
        draw, left, aimed, theirs = random.Random(1), list(range(1, count + 1)), [], []
        for _ in range(ROUNDS):
            page.shown("button", f"Affirm trade {left[-1]}")
            target: int = left.pop(draw.randrange(OTHERS, OTHERS + AHEAD))
            ahead = [left.pop(0) for _ in range(OTHERS)]
            place = self.aimed(page, target)
            page.run(UNSAID)
            for step in steps:
                if step == "!":
                    self.affirm(page, other, ahead)
                else:
                    self.mouse(page, STEPS[step], place)
            while "press again" in page.until(lambda: page.run(SAID), f"a word of trade {target}"):
                page.run(UNSAID)
                self.press(page, place)
            self.assertEqual(page.run(SAID), f"Trade {target} is live.")
            aimed.append(target)
            theirs += ahead
            self.mouse(page, "mouseMoved", (2, 2))
        self.assertEqual(page.complaints(), [])
        self.kill()
        made = [int(it.line.split(" ")[1]) for it in self.records() if it.line.startswith("AFFIRM ")]
        self.assertEqual(sorted(made), sorted(aimed + theirs))

    def test_between_aiming_and_pressing(self) -> None:
        self.aims("!du")

    def test_between_the_way_down_and_the_way_up(self) -> None:
        self.aims("d!u")

    def test_rows_that_have_just_moved(self) -> None:
        """The pointer was elsewhere when rows moved, and comes to where its trade was: nothing is sent until one had time to look."""
        other, page = self.alleged(6)
        page.run(STILL)
        place = self.place_of(page, 2)
        self.affirm(page, other, [1])
        self.assertEqual(page.run("return document.elementFromPoint(...arguments[0]).dataset.key", place), "affirm 3")
        self.press(page, place)
        page.shows("Nothing is sent: the rows have just moved. Look, and press again.")
        page.run("window.later = 5000")
        self.press(page, place)
        page.shows("Trade 3 is live.")

    def test_a_row_that_is_no_more(self) -> None:
        """It keeps its place below the pointer, and can't be pressed; the table is drawn anew once the pointer has left it."""
        other, page = self.alleged(3)
        place = self.aimed(page, 1)
        self.affirm(page, other, [1])
        self.assertEqual(page.run(UNDER, place), "affirm 1")
        page.shows("1 changed meanwhile: drawn anew once you leave the table.")
        self.press(page, place)
        page.shows("Nothing is sent: Trade 1 has changed meanwhile.")
        self.mouse(page, "mouseMoved", (2, 2))
        page.until(lambda: not page.run("return document.querySelector('[data-key=\"affirm 1\"]')"), "a table without trade 1")
        self.assertNotIn("meanwhile: drawn anew", page.text())

    def test_what_is_said_is_seen(self) -> None:
        """However far down one has scrolled, and it moves no row."""
        _, page = self.alleged(60)
        place = self.aimed(page, 60)
        self.assertGreater(page.run("return scrollY"), 500)
        self.press(page, place)
        page.shows("Trade 60 is live.")
        self.assertTrue(page.run(SEEN))
        self.assertEqual(page.run(UNDER, place), "affirm 60")
