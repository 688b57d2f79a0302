"""Markets made by a script from a number, and proposals made wrong in each way, to compare two checkers by."""

import random
import re
from typing import Callable, Iterator, NamedTuple

MODES = ("conservative", "hybrid", "free")


class Market(NamedTuple):
    roster: bytes
    trades: bytes
    mode: str


def market(number: int) -> Market:
    """A market of up to eight members; what it has follows from the number alone."""
    draw = random.Random(number)
    members = [f"M{place}" for place in range(draw.randrange(2, 9))]
    products = [f"P{place}" for place in range(draw.randrange(1, 4))]
    rows = [f"{name},{draw.choice(('dealer', 'customer'))},{name}" for name in members]
    rows += [f"{name},product,2031-06-30" for name in products] + ["OPS,operator,KO"]
    trades = []
    for _ in range(draw.randrange(40)):
        seller, buyer = draw.sample(members, 2)
        amount = draw.choice((1, 5, 10**9, 10**15, draw.randrange(1, 100)))
        trades.append(f"{seller},{buyer},{draw.choice(products)},{amount}")
    return Market(
        "\n".join(["name,role,key", *rows, ""]).encode(),
        "\n".join(["seller,buyer,product,amount", *trades, ""]).encode(),
        draw.choice(MODES),
    )


Change = Callable[[random.Random, list[bytes]], list[bytes]]


def one_of(draw: random.Random, lines: list[bytes], verb: bytes) -> int:
    """The place of one of the lines with a verb, or of any line where there is none."""
    return draw.choice([at for at, line in enumerate(lines) if line.startswith(verb)] or list(range(len(lines))))


def with_line(at: int, lines: list[bytes], *new: bytes) -> list[bytes]:
    return [*lines[:at], *new, *lines[at + 1 :]]


def with_word(verb: bytes, place: int, word: bytes | Callable[[bytes], bytes]) -> Change:
    """Another word at a place of a line with this verb."""

    def change(draw: random.Random, lines: list[bytes]) -> list[bytes]:
        at = one_of(draw, lines, verb)
        words = lines[at].split(b" ")
        old = words[min(place, len(words) - 1)]
        words[min(place, len(words) - 1)] = word(old) if callable(word) else word
        return with_line(at, lines, b" ".join(words))

    return change


def more(by: int) -> Callable[[bytes], bytes]:
    return lambda word: str(int(word) + by).encode() if re.fullmatch(rb"-?[0-9]+", word) else word


def at_line(verb: bytes, new: Callable[[bytes], list[bytes]]) -> Change:
    def change(draw: random.Random, lines: list[bytes]) -> list[bytes]:
        at = one_of(draw, lines, verb)
        return with_line(at, lines, *new(lines[at]))

    return change


def ordered(line: bytes, *places: int) -> bytes:
    """The line with its words in this order, where it has as many."""
    words = line.split(b" ")
    return b" ".join(words[place] for place in places) if len(words) == len(places) else line


def swapped(draw: random.Random, lines: list[bytes]) -> list[bytes]:
    at = draw.randrange(len(lines) - 1)
    return [*lines[:at], lines[at + 1], lines[at], *lines[at + 2 :]]


def cut_short(draw: random.Random, lines: list[bytes]) -> list[bytes]:
    return lines[: draw.randrange(len(lines))]


CHANGES: dict[str, Change] = {
    "the gross is another": with_word(b"product", 2, more(1)),
    "the least gross is another": with_word(b"product", 3, more(1)),
    "the floor is another": with_word(b"product", 4, more(1)),
    "the bilateral gross is another": with_word(b"product", 5, more(1)),
    "the bound is another": with_word(b"bound", 1, more(1)),
    "an amount is more": with_word(b"row", 3, more(1)),
    "an amount is less": with_word(b"row", 3, more(-1)),
    "a row is missing": at_line(b"row", lambda line: []),
    "a row stands twice": at_line(b"row", lambda line: [line, line]),
    "a row is turned round": at_line(b"row", lambda line: [ordered(line, 0, 2, 1, 3)]),
    "a row is of one member": at_line(b"row", lambda line: [ordered(line, 0, 1, 1, 3)]),
    "a row is of no member": with_word(b"row", 1, b"NOBODY"),
    "a row's amount is 0": with_word(b"row", 3, b"0"),
    "a row's amount is the most": with_word(b"row", 3, b"1000000000000000000"),
    "a row's amount is above the most": with_word(b"row", 3, b"1000000000000000001"),
    "a row's amount is far above": with_word(b"row", 3, b"9" * 400),
    "a new row stands first": at_line(b"product", lambda line: [line, b"row M0 M1 7"]),
    "a potential is 1 more": with_word(b"pot", 2, more(1)),
    "a potential is 1 less": with_word(b"pot", 2, more(-1)),
    "a potential is 7 more": with_word(b"pot", 2, more(7)),
    "a potential is the least": with_word(b"pot", 2, b"-1000000"),
    "a potential is below the least": with_word(b"pot", 2, b"-1000001"),
    "a potential is above the most": with_word(b"pot", 2, b"1000001"),
    "a potential is -0": with_word(b"pot", 2, b"-0"),
    "a potential is a plus": with_word(b"pot", 2, b"+1"),
    "a potential is missing": at_line(b"pot", lambda line: []),
    "a potential stands twice": at_line(b"pot", lambda line: [line, line]),
    "a potential is another's": with_word(b"pot", 1, b"M7"),
    "a product is another": with_word(b"product", 1, b"P9"),
    "a product's figure has a zero in front": with_word(b"product", 2, lambda word: b"0" + word),
    "a product's figure is empty": with_word(b"product", 4, b""),
    "a product's figure is above the most": with_word(b"product", 5, b"1000000000000000001"),
    "a figure is missing": at_line(b"product", lambda line: [line.rsplit(b" ", 1)[0]]),
    "a figure is one too many": at_line(b"product", lambda line: [line + b" 1"]),
    "a bound is missing": at_line(b"bound", lambda line: []),
    "a bound stands twice": at_line(b"bound", lambda line: [line, line]),
    "a bound is signed": with_word(b"bound", 1, b"-1"),
    "the end is missing": at_line(b"end", lambda line: []),
    "the end stands twice": at_line(b"end", lambda line: [line, line]),
    "the end has another number": with_word(b"end", 1, more(1)),
    "the end has no number": at_line(b"end", lambda line: [b"end"]),
    "a line stands behind the end": at_line(b"end", lambda line: [line, b"bound 1"]),
    "a line is empty": at_line(b"", lambda line: [b"", line]),
    "two spaces": at_line(b"", lambda line: [line.replace(b" ", b"  ", 1)]),
    "a space behind": at_line(b"", lambda line: [line + b" "]),
    "a space in front": at_line(b"", lambda line: [b" " + line]),
    "a tab": at_line(b"", lambda line: [line.replace(b" ", b"\t", 1)]),
    "a carriage return": at_line(b"", lambda line: [line + b"\r"]),
    "a word in capitals": at_line(b"", lambda line: [line.upper()]),
    "a word that is none": at_line(b"", lambda line: [b"x" + line]),
    "a byte that is no text": at_line(b"", lambda line: [line + b"\xff"]),
    "two lines are swapped": swapped,
    "the lines are cut": cut_short,
}
"""What can be wrong with a proposal, line by line."""

WHOLE: dict[str, Callable[[bytes], bytes]] = {
    "nothing": lambda text: text,
    "no last line feed": lambda text: text[:-1],
    "one more line feed": lambda text: text + b"\n",
    "something behind": lambda text: text + b"x",
    "nothing at all": lambda text: b"",
    "a line feed alone": lambda text: b"\n",
    "half of it": lambda text: text[: len(text) // 2],
    "a byte-order mark": lambda text: b"\xef\xbb\xbf" + text,
}
"""What can be wrong with the text as a whole."""


def changed(number: int, proposal: bytes) -> Iterator[tuple[str, bytes]]:
    """The proposal with each change, at a place that follows from the number."""
    for name, edit in WHOLE.items():
        yield name, edit(proposal)
    for name, change in CHANGES.items():
        lines = proposal.split(b"\n")[:-1]
        yield name, b"".join(line + b"\n" for line in change(random.Random(number), lines))
