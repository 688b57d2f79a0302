"""A second checker of proposals, for an auditor to read: whether a proposal is right for the market of a trade file.

It is written from docs/FORMATS.md and docs/MODEL.md alone, and shares nothing with the program. The three files are read by
`read_roster`, `read_trades` and `read_proposal`, in this order, and `failure_of` tells the first thing that is wrong with
the proposal; a file's first fault is raised as a Fault. `compress-check-proposal` is its command.
"""

import datetime
import re
from typing import Callable, Iterator, NamedTuple

MOST_BYTES, MOST_NUMBER, MOST_POTENTIAL = 67_108_864, 10**18, 1_000_000
MOST_TRADE, MOST_TRADES = 10**15, 100_000
MOST_MEMBERS, MOST_DEALERS, MOST_PRODUCTS = 256, 64, 64
MODES = ("conservative", "hybrid", "free")

Pair = tuple[int, int]  # a seller and a buyer, by their places in the roster
Network = dict[Pair, int]  # what each seller sold to each buyer


class Fault(Exception):
    """A file's first fault, as `FILE row ROW: FAULT` or `FILE: too-long`."""


class Roster(NamedTuple):
    """The places of members and products by their names, for each member whether it is a dealer, and the operator."""

    members: dict[bytes, int]
    is_dealer: list[bool]
    products: dict[bytes, int]
    operators: list[bytes]


class Trade(NamedTuple):
    """A trade's product, by its place in the roster, its pair and its amount."""

    product: int
    pair: Pair
    amount: int


class Part(NamedTuple):
    """What a proposal says of one product: GROSS, LEAST, M and BILATERAL, its rows, its potentials and the bound."""

    figures: list[int]
    network: Network
    potentials: list[int]
    bound: int


def number_of(word: bytes, most: int = MOST_NUMBER) -> int | None:
    """The number up to a most that a word writes."""
    is_number = re.fullmatch(rb"0|[1-9][0-9]{0,18}", word) and int(word) <= most
    return int(word) if is_number else None


def potential_of(word: bytes) -> int | None:
    if not word.startswith(b"-"):
        return number_of(word, MOST_POTENTIAL)
    value = number_of(word[1:], MOST_POTENTIAL)
    return -value if value else None


def is_day(word: bytes) -> bool:
    if re.fullmatch(rb"[0-9]{4}-[0-9]{2}-[0-9]{2}", word) is None:
        return False
    try:
        datetime.date(int(word[:4]) or 400, int(word[5:7]), int(word[8:]))  # year 0 is a leap year, as 400 is
    except ValueError:
        return False
    return True


NAME = re.compile(rb"[A-Z0-9-]{1,16}")
FIELD = re.compile(rb'(?:"([^"]*(?:""[^"]*)*)(?:"|\Z))?([^,\r\n]*)(,|[\r\n]+|\Z)')


def records_of(text: bytes) -> Iterator[list[bytes]]:
    """The records of comma-separated text."""
    text = text.removeprefix(b"\xef\xbb\xbf").lstrip(b"\r\n")
    fields: list[bytes] = []
    for found in FIELD.finditer(text):
        if found.start() == len(text) and not fields:
            return
        quoted, plain, end = found.groups()
        fields.append((quoted or b"").replace(b'""', b'"') + plain)
        if end != b",":
            yield fields
            fields = []


def rows_of(file: str, text: bytes, header: list[bytes]) -> Iterator[tuple[int, list[bytes]]]:
    """The records behind the header, with their numbers."""
    if len(text) > MOST_BYTES:
        raise Fault(f"{file}: too-long")
    records = records_of(text)
    if next(records, None) != header:
        raise Fault(f"{file} row 1: columns")
    return enumerate(records, 2)


def roster_fault(fields: list[bytes]) -> str | None:
    """The first fault of a roster's row by itself."""
    if len(fields) != 3:
        return "columns"
    name, role, key = fields
    if NAME.fullmatch(name) is None:
        return "bad-name"
    if role not in (b"dealer", b"customer", b"operator", b"product"):
        return "bad-role"
    if role == b"product":
        return None if is_day(key) else "bad-day"
    return None if NAME.fullmatch(key) else "bad-name"


def read_roster(text: bytes) -> Roster:
    roster = Roster({}, [], {}, [])
    names: set[bytes] = set()
    for number, fields in rows_of("roster", text, [b"name", b"role", b"key"]):
        fault = roster_fault(fields)
        if fault is not None:
            raise Fault(f"roster row {number}: {fault}")
        name, role, _ = fields
        if name in names or (role == b"operator" and roster.operators):
            raise Fault(f"roster row {number}: twice")
        names.add(name)
        if role == b"product":
            roster.products[name] = len(roster.products)
        elif role == b"operator":
            roster.operators.append(name)
        else:
            roster.members[name] = len(roster.members)
            roster.is_dealer.append(role == b"dealer")
        is_over = len(roster.members) > MOST_MEMBERS or sum(roster.is_dealer) > MOST_DEALERS
        if is_over or len(roster.products) > MOST_PRODUCTS:
            raise Fault(f"roster row {number}: row-limit")
    return roster


def trade_fault(roster: Roster, fields: list[bytes]) -> str | None:
    """The first fault of a trade's row by itself."""
    if len(fields) != 4:
        return "columns"
    seller, buyer, product, amount = fields
    if seller not in roster.members or buyer not in roster.members or product not in roster.products:
        return "unknown-name"
    if seller == buyer:
        return "same-party"
    return None if number_of(amount, MOST_TRADE) else "bad-amount"


def trades_of(text: bytes, roster: Roster) -> Iterator[Trade]:
    """The trades of a file, one after another."""
    grosses = [0 for _ in roster.products]
    for number, fields in rows_of("trades", text, [b"seller", b"buyer", b"product", b"amount"]):
        fault = "row-limit" if number > MOST_TRADES + 1 else trade_fault(roster, fields)
        if fault is not None:
            raise Fault(f"trades row {number}: {fault}")
        pair = (roster.members[fields[0]], roster.members[fields[1]])
        product, amount = roster.products[fields[2]], int(fields[3])
        grosses[product] += amount
        if grosses[product] > MOST_NUMBER:
            raise Fault(f"trades row {number}: gross-limit")
        yield Trade(product, pair, amount)


def read_trades(text: bytes, roster: Roster) -> list[Network]:
    """For each product the sums of its trades."""
    networks: list[Network] = [{} for _ in roster.products]
    for product, pair, amount in trades_of(text, roster):
        networks[product][pair] = networks[product].get(pair, 0) + amount
    return networks


class Lines:
    """The lines of a proposal, taken one after another."""

    def __init__(self, text: bytes) -> None:
        if len(text) > MOST_BYTES:
            raise Fault("proposal: too-long")
        *self.lines, self.rest = text.split(b"\n")
        self.taken = 0

    def fail(self) -> Fault:
        """The fault of the line that was taken last."""
        return Fault(f"proposal row {self.taken}: bad-line")

    def has(self, verb: bytes) -> bool:
        return self.taken < len(self.lines) and self.lines[self.taken].startswith(verb + b" ")

    def take(self, verb: bytes, *reads: Callable[[bytes], int | None]) -> list[int]:
        """The values of the next line, which has this verb and these words."""
        words = self.lines[self.taken].split(b" ")[1:] if self.has(verb) else [b""]
        self.taken += 1
        values = [value for read, word in zip(reads, words) if (value := read(word)) is not None]
        if not len(reads) == len(words) == len(values):
            raise self.fail()
        return values


def read_part(lines: Lines, roster: Roster, product: bytes) -> Part:
    part = Part(lines.take(b"product", {product: 0}.get, *[number_of] * 4)[1:], {}, [], 0)
    last, gross = (-1, -1), 0
    while lines.has(b"row"):
        seller, buyer, amount = lines.take(b"row", roster.members.get, roster.members.get, number_of)
        gross += amount
        if seller == buyer or (seller, buyer) <= last or amount == 0 or gross > MOST_NUMBER:
            raise lines.fail()
        last = (seller, buyer)
        part.network[last] = amount
    for member in roster.members:
        part.potentials.append(lines.take(b"pot", {member: 0}.get, potential_of)[1])
    return part._replace(bound=lines.take(b"bound", number_of)[0])


def read_proposal(text: bytes, roster: Roster) -> list[Part]:
    lines = Lines(text)
    parts = [read_part(lines, roster, product) for product in roster.products]
    lines.take(b"end", {b"%d" % len(parts): 0}.get)
    if lines.taken < len(lines.lines) or lines.rest:
        lines.taken += 1
        raise lines.fail()
    return parts


def nets_of(network: Network, members: int) -> list[int]:
    """What each member sold less what it bought."""
    nets = [0] * members
    for (seller, buyer), amount in network.items():
        nets[seller] += amount
        nets[buyer] -= amount
    return nets


def clash_of(roster: Roster, mode: str, old: Network, part: Part) -> str | None:
    """The first clash of a part's certificate beside the product's network."""
    names = [name.decode() for name in roster.members]
    grows = [mode == "free" or (mode == "hybrid" and is_dealer) for is_dealer in roster.is_dealer]
    new, prices = part.network, part.potentials
    for (i, j), amount in sorted(new.items()):
        if amount > old.get((i, j), 0) and not (grows[i] and grows[j]):
            return f"above {names[i]} {names[j]}"
    for name, before, after in zip(names, nets_of(old, len(names)), nets_of(new, len(names))):
        if before != after:
            return f"net {name}"
    growing = [i for i in range(len(names)) if grows[i]]
    steep = {(i, j) for i in growing for j in growing if 1 - prices[i] + prices[j] < 0}
    for i, j in sorted({*old, *new, *steep}):  # no other pair has an amount, or could grow at a gain
        amount, cost = new.get((i, j), 0), 1 - prices[i] + prices[j]
        if cost < 0 and (amount < old.get((i, j), 0) or (grows[i] and grows[j])):
            return f"open {names[i]} {names[j]}"
        if cost > 0 and amount > 0:
            return f"slack {names[i]} {names[j]}"
    return None


def figures_fault(members: int, old: Network, part: Part) -> str | None:
    """Whether a part's figures are other than those of the product's network and of its own rows."""
    floor = sum(net for net in nets_of(old, members) if net > 0)
    gaps = {frozenset(pair): abs(amount - old.get(pair[::-1], 0)) for pair, amount in old.items()}
    least = sum(part.network.values())
    is_right = part.figures == [sum(old.values()), least, floor, sum(gaps.values())] and part.bound == least
    return None if is_right else "figures"


def failure_of(roster: Roster, mode: str, networks: list[Network], parts: list[Part]) -> str | None:
    """The first product whose part is not right, and why; none where the proposal is."""
    for product, old, part in zip(roster.products, networks, parts):
        failure = clash_of(roster, mode, old, part) or figures_fault(len(roster.members), old, part)
        if failure is not None:
            return f"{product.decode()} {failure}"
    return None
