"""axe-core over a page in the browser: the one that Chromium's own developers' tools have, as a text in a script of theirs."""

import functools
import http.client
import re
import unittest
from typing import NamedTuple

from browsing import Page
from running import PATIENCE

BUNDLE = "/devtools/third_party/lighthouse/lighthouse-dt-bundle.js"
TEXT = re.compile(r"`/\*! axe v[^`\\]*(?:\\.[^`\\]*)*`", re.S)
BEGIN = """
const told = (kind, found) => found.flatMap((it) => it.nodes.map((node) => `${kind} ${it.id}: ${node.html} ${node.any.map((part) => part.message).join(" ")}`));
window.judged = null;
axe.run(document, { preload: false, resultTypes: ["violations", "incomplete"] }).then(
  ({ violations, incomplete, passes }) => {
    const unsure = incomplete.filter((it) => it.id !== "color-contrast");
    window.judged = [[...told("fault", violations), ...told("unsure", unsure)], passes.map((it) => it.id)];
  },
  (problem) => { window.judged = [[String(problem)], []]; });
"""


class Judged(NamedTuple):
    """What axe-core finds wrong or cannot decide, by all of its rules, and the rules that something passed.

    The contrast that it cannot decide, as of a picture's texts, is left out."""

    faults: list[str]
    passed: list[str]


@functools.cache
def axe_of(host: str, port: int) -> str:
    """The text of axe-core, as an expression of JavaScript. It skips where this Chromium has none."""
    tools = http.client.HTTPConnection(host, port, timeout=PATIENCE)
    try:
        tools.request("GET", BUNDLE)
        found = TEXT.search(tools.getresponse().read().decode())
    finally:
        tools.close()
    if found is None:
        raise unittest.SkipTest("no axe-core in this Chromium")
    return found[0]


def judged(page: Page) -> Judged:
    if not page.run("return 'axe' in window"):
        host, _, port = page.driver.capabilities["goog:chromeOptions"]["debuggerAddress"].rpartition(":")
        page.run(str(page.run(f"return {axe_of(host, int(port))}")))
    page.run(BEGIN)
    return Judged(*page.until(lambda: page.run("return window.judged"), "axe-core's word"))
