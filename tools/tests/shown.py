"""The commands that a page shows with what they print: a line `$ COMMAND` in a fenced block, and the lines up to the next one."""

import re
from pathlib import Path
from typing import NamedTuple


class Shown(NamedTuple):
    """A command of a page, and the lines that the page shows after it."""

    command: str
    output: str


def shown_in(text: str) -> Shown:
    """A command, which goes on after a line that ends with a backslash, and its lines."""
    found = re.match(r"((?:[^\n]*\\\n)*[^\n]*\n)((?:.|\n)*)", text)
    assert found
    return Shown(found[1], found[2])


def section_of(page: Path, heading: str) -> str:
    """The lines of a page from a heading to the next one."""
    taken, is_in, is_fenced = [], False, False
    for line in page.read_text().splitlines(keepends=True):
        is_fenced ^= line.startswith("```")
        if line.startswith("#") and not is_fenced:
            is_in = line == f"{heading}\n"
        elif is_in:
            taken.append(line)
    assert taken, f"{page}: nothing under {heading}"
    return "".join(taken)


def blocks_of(page: Path, heading: str) -> list[list[Shown]]:
    """The commands of each fenced block under a heading that shows some."""
    blocks = re.findall(r"^```\n(\$ .*?)^```$", section_of(page, heading), re.M | re.S)
    return [[shown_in(it) for it in re.split(r"^\$ ", block, flags=re.M)[1:]] for block in blocks]
