"""What docs/check looks for on the pages: each crate has one, links and paths lead to what is there, lines of Rattle that a page
shows stand in the file that it names, and the limits that pages have are those of the code."""

import os
import re
from glob import glob

FENCE = re.compile(r"^```.*?^```$", re.M | re.S)
FOLDERS = "bench|crates|debian|docs|examples|packaging|studies|tools"
PATH = re.compile(rf"(?<![\w./-])(?:{FOLDERS})/[\w./-]*\w(?![\w*{{<])")
"""A path from the top of the repository; one that goes on with a pattern is left out."""
MADE = re.compile(r"/out\b|\bNAME\b")
"""Of a path: what a build makes, or a word for any name."""


def text(path: str) -> str:
    with open(path, encoding="utf-8") as file:
        return file.read()


def pages() -> list[str]:
    """All pages of the repository."""
    folders = ["docs", "docs/pictures", "crates/*", "tools/delkwoan/gateway", "examples", "studies", "bench"]
    return ["README.md", "CHANGELOG.md", *(page for folder in folders for page in sorted(glob(f"{folder}/*.md")))]


def anchors(page: str) -> set[str]:
    """What a link may name of a page: its headings, in small letters and without marks, with `-` for each space."""
    headings = re.findall(r"^#+ (.*)$", FENCE.sub("", text(page)), re.M)
    return {re.sub(r"[^\w -]", "", heading.lower()).replace(" ", "-") for heading in headings}


def is_there(page: str, link: str) -> bool:
    """Whether a link of a page leads somewhere in the repository, or out of it."""
    if re.match(r"\w+:", link):
        return True
    file, _, anchor = link.partition("#")
    path = os.path.normpath(os.path.join(os.path.dirname(page), file)) if file else page
    return os.path.exists(path) and (not anchor or anchor in anchors(path))


def links(page: str) -> list[str]:
    """The links of a page, its paths from the top of the repository, and the pages that it names without a folder, as far as
    they are not there."""
    shown = text(page)
    prose = FENCE.sub("", shown)
    broken = [link for link in re.findall(r"\]\(([^)\s]+)\)", prose) if not is_there(page, link)]
    broken += [path for path in PATH.findall(shown) if not MADE.search(path) and not os.path.exists(path)]
    beside = [name for name in re.findall(r"`([\w-]+\.md)`", prose) if name != "README.md"]
    broken += [name for name in beside if not os.path.exists(os.path.join(os.path.dirname(page), name)) and not os.path.exists(name)]
    return [f"{page}: nothing is at {it}" for it in broken]


def snippets(path: str) -> list[str]:
    """What is wrong with the lines of Rattle that a page shows. After each fence the page names the file that has them."""
    found = []
    for lines, named in re.findall(r"^```rust\n(.*?)^```\n(?:\nFrom `([^`]+)`)?", text(path), re.M | re.S):
        if not named or not os.path.exists(named):
            found.append(f"{path}: lines of no file: {lines[:40]!r}")
            continue
        shown = "\n".join(line.strip() for line in lines.rstrip("\n").split("\n"))
        source = "\n".join(line.strip() for line in text(named).split("\n"))
        if f"\n{shown}\n" not in f"\n{source}\n":
            found.append(f"{path}: {named} has no such lines: {shown[:40]!r}")
    return found


def page_of_crate(crate: str) -> list[str]:
    """What is wrong with a crate's page."""
    path = f"crates/{crate}/README.md"
    if not os.path.exists(path):
        return [f"{path}: it is not there"]
    if not text(path).startswith(f"# {crate}\n"):
        return [f"{path}: it does not begin with `# {crate}`"] + snippets(path)
    return snippets(path)


def constants() -> dict[str, int]:
    """The limits, by the constants that have them."""
    sources = text("crates/units_core/src/limits.rt") + text("crates/program_words/src/options.rt")
    return {name: int(number.replace("_", "")) for name, number in re.findall(r"^pub const (MOST_\w+): \w+ = ([\d_]+);", sources, re.M)}


def number_of(written: str) -> int:
    base, _, power = written.replace(",", "").partition("^")
    return int(int(base) ** int(power or "1"))


LIMITS = "docs/LIMITS.md"
SHORT = re.compile(r"([\d,]+) members, ([\d,]+) of them dealers, ([\d,]+) products, ([\d,]+) submitted trades")
"""The limits that the README has, and the constants that have them."""
OF_SHORT = ["MOST_MEMBERS", "MOST_DEALERS", "MOST_PRODUCTS", "MOST_SUBMITTED"]


def short_limits() -> list[str]:
    """What differs between the README's few limits and the constants."""
    found = SHORT.search(text("README.md"))
    if found is None:
        return ["README.md: it has no limits"]
    defined = [constants().get(name) for name in OF_SHORT]
    return [
        f"README.md: `{name}` is {limit}, and not {written}"
        for name, limit, written in zip(OF_SHORT, defined, map(number_of, found.groups()))
        if limit != written
    ]


def limits() -> list[str]:
    """What differs between the table of limits and the constants."""
    rows = re.findall(r"^\|[^|]+\| ([\d,^ ]+) \| (`MOST_\w+`(?:, `MOST_\w+`)*) \|$", text(LIMITS), re.M)
    pairs = [pair for numbers, names in rows for pair in zip(names.split(", "), numbers.split(", "))]
    written = {name.strip("`"): number_of(number) for name, number in pairs}
    defined = constants()
    missing = [f"{LIMITS}: no limit has `{name}`" for name in defined if name not in written]
    wrong = [f"{LIMITS}: `{name}` is {defined.get(name)}, and not {number}" for name, number in written.items() if defined.get(name) != number]
    return missing + wrong


def differences() -> list[str]:
    crates = [os.path.basename(crate) for crate in sorted(glob("crates/*")) if os.path.isdir(f"{crate}/src")]
    return [it for crate in crates for it in page_of_crate(crate)] + [it for page in pages() for it in links(page)] + limits() + short_limits()
