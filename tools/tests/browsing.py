"""A headless Chromium over the gateway's page, for the tests."""

import importlib.util
import os
import shutil
import sys
import tempfile
import time
import unittest
from pathlib import Path
from typing import Any, Callable

from gateways import InGateway
from running import PATIENCE
from serving import ROSTER

DEBIAN = "/usr/lib/python3/dist-packages"
WIDE, PHONE = (1100, 900), (390, 844)
NAMED = """
const name = (it) => it.getAttribute("aria-label") || (it.labels && it.labels.length ? it.labels[0].textContent : it.textContent);
return [...document.querySelectorAll(arguments[0])].find((it) => it.getClientRects().length && name(it).trim() === arguments[1]) || null;
"""
if importlib.util.find_spec("selenium") is None:
    sys.path.append(DEBIAN)


def need_chromium() -> None:
    """Skips where there is no Chromium to be driven."""
    for program in ("chromium", "chromedriver"):
        if shutil.which(program) is None:
            raise unittest.SkipTest(f"no {program}")
    if importlib.util.find_spec("selenium") is None:
        raise unittest.SkipTest("no python3-selenium")


def driver_of(size: tuple[int, int], is_dark: bool, room: str) -> Any:
    """A browser that leaves its files in a folder."""
    from selenium import webdriver
    from selenium.webdriver.chrome.service import Service

    options = webdriver.ChromeOptions()
    for word in ("--headless=new", "--no-sandbox", "--disable-gpu", "--disable-dev-shm-usage", "--disable-background-networking", "--lang=en"):
        options.add_argument(word)
    if is_dark:
        options.add_argument("--force-dark-mode")
    options.set_capability("goog:loggingPrefs", {"browser": "ALL"})
    service = Service(shutil.which("chromedriver") or "chromedriver", env={**os.environ, "TMPDIR": room})
    driver = webdriver.Chrome(service=service, options=options)
    driver.set_script_timeout(PATIENCE)
    driver.set_page_load_timeout(PATIENCE)
    features = [{"name": "prefers-color-scheme", "value": "dark" if is_dark else "light"}]
    driver.execute_cdp_cmd("Emulation.setEmulatedMedia", {"features": features})
    metrics = {"width": size[0], "height": size[1], "deviceScaleFactor": 1, "mobile": False}
    driver.execute_cdp_cmd("Emulation.setDeviceMetricsOverride", metrics)
    return driver


class Page:
    """The gateway's page in a browser of its own, used as its labels say."""

    def __init__(self, driver: Any, address: str) -> None:
        self.driver = driver
        driver.get(address)

    def run(self, script: str, *values: object) -> Any:
        return self.driver.execute_script(script, *values)

    def until(self, found: Callable[[], Any], what: str) -> Any:
        end = time.monotonic() + PATIENCE / 2
        while not (it := found()):
            if time.monotonic() > end:
                raise AssertionError(f"{what} did not come: {self.text()}")
            time.sleep(0.05)
        return it

    def text(self) -> str:
        return str(self.run("return document.body.innerText"))

    def shows(self, words: str) -> None:
        """Waits until the page shows these words."""
        self.until(lambda: words in self.text(), words)

    def shown(self, selector: str, name: str) -> Any:
        """The element that is seen and has this name."""
        return self.until(lambda: self.run(NAMED, selector, name), f"{selector} {name}")

    def type(self, label: str, value: str) -> None:
        element = self.shown("main input:not([type=file])", label)
        if element.get_attribute("type") == "date":
            self.run("arguments[0].value = arguments[1]", element, value)
            return
        element.clear()
        element.send_keys(value)

    def choose(self, label: str, value: str) -> None:
        from selenium.webdriver.support.ui import Select

        Select(self.shown("main select", label)).select_by_value(value)

    def press(self, name: str, selector: str = "button") -> None:
        """Presses what has this name, by the keyboard; once more where it was made anew meanwhile, for then no key has reached it."""
        from selenium.common.exceptions import ElementNotInteractableException, StaleElementReferenceException

        while True:
            try:
                self.shown(selector, name).send_keys("\ue007")
                return
            except (ElementNotInteractableException, StaleElementReferenceException):
                time.sleep(0.1)

    def go(self, part: str) -> None:
        self.press(part, "nav a")

    def sign_in(self, name: str) -> None:
        self.type("Name", name)
        self.type("Key", "KO" if name == "OPS" else f"K{name}")
        self.press("Sign in")
        self.shows("Sign out")

    def picture(self, file: Path) -> None:
        file.parent.mkdir(parents=True, exist_ok=True)
        self.driver.save_screenshot(str(file))

    def complaints(self) -> list[str]:
        """What the browser wrote of faults and of breaches of the policy, but for refused calls."""
        return [it["message"] for it in self.driver.get_log("browser") if it["level"] == "SEVERE" and "Failed to load resource" not in it["message"]]


class InBrowser(InGateway):
    """Tests with a service, a gateway that has its roster, and browsers."""

    @classmethod
    def setUpClass(cls) -> None:
        need_chromium()
        super().setUpClass()

    def serve(self, *options: str | Path) -> None:
        self.start("--seats", "5")
        self.open("--roster", ROSTER, "--journal", self.journal, *options)

    def page(self, name: str = "", size: tuple[int, int] = WIDE, is_dark: bool = False, before: str = "") -> Page:
        room = tempfile.mkdtemp()
        self.addCleanup(shutil.rmtree, room, ignore_errors=True)
        driver = driver_of(size, is_dark, room)
        self.addCleanup(driver.quit)
        driver.execute_cdp_cmd("Page.addScriptToEvaluateOnNewDocument", {"source": before})
        page = Page(driver, f"http://127.0.0.1:{self.gate}/")
        if name:
            page.sign_in(name)
        return page
