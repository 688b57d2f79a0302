"""A member's own test of a proposal: by its notes, a roster without keys, and the text of the reply to its PROOF.

It is written from docs/PROTOCOL.md alone, and shares nothing with the program. `read_roster`, `read_notes`, `read_proof` and
`read_plan` read the texts; a text's first fault is raised as a Fault. A text may be all that a session wrote: greetings, refusals
and replies to other lines are passed over. `clash_of` tells the first thing that is wrong, with the line that shows it.
`compress-check-mine` is its command.
"""

import hashlib
from typing import Iterator, NamedTuple

from . import checker
from .checker import Fault

Key = tuple[str, str, str]
SIDES = ("out", "in")
STATES = ("alleged", "live", "ended")
OWNERS = ("seller", "buyer", "hold", "now", "none")


class Roster(NamedTuple):
    """The members in their order, each with whether it is a dealer, and the products, each with its maturity."""

    members: dict[str, bool]
    products: dict[str, str]


class Setting(NamedTuple):
    """What the member set for a side of a pair, and the position of the reply to it."""

    position: int
    floor: int
    ceiling: int | None


class Trade(NamedTuple):
    """A live trade."""

    number: int
    amount: int
    is_held: bool


class Notes(NamedTuple):
    """The member's settings by product, other member and side, the numbers of its trades as a STATEMENT told them at the freeze,
    and those that were live, by product, seller and buyer."""

    settings: dict[Key, list[Setting]]
    numbers: set[int]
    live: dict[Key, list[Trade]]


class Pair(NamedTuple):
    """A pair's line of a PROOF."""

    product: str
    seller: str
    buyer: str
    lower: int
    lower_of: str
    now: int
    next: int
    upper: int | None
    upper_of: str
    line: str

    @property
    def key(self) -> Key:
        return self.product, self.seller, self.buyer


class Proof(NamedTuple):
    """The reply to a PROOF: its head's words, the potentials by product and member, and the pairs."""

    cycle: int
    version: int
    day: str
    mode: str
    begun: int
    potentials: dict[tuple[str, str], int]
    pairs: list[Pair]


class Clash(NamedTuple):
    """What is wrong, and the line that shows it; none where a line is missing.

    One by the notes need not be the proposal's fault: a tolerance or a trade of the member that they lack may be the cause. Any other
    follows from the replies and the roster alone."""

    words: str
    line: str | None
    is_by_notes: bool = False


def read_roster(text: bytes) -> Roster:
    checker.read_roster(text)  # for its faults
    roster = Roster({}, {})
    for _, fields in checker.rows_of("roster", text, [b"name", b"role", b"key"]):
        name, role, key = (field.decode() for field in fields)
        if role == "product":
            roster.products[name] = key
        elif role != "operator":
            roster.members[name] = role == "dealer"
    return roster


def lines_of(file: str, text: bytes) -> Iterator[tuple[str, list[str]]]:
    """The lines of a text, each with its words."""
    if len(text) > checker.MOST_BYTES:
        raise Fault(f"{file}: too-long")
    for line in text.decode("ascii", "replace").splitlines():
        yield line, line.split(" ")


def number(word: str) -> int:
    value = checker.number_of(word.encode())
    if value is None:
        raise ValueError(word)
    return value


def most(word: str) -> int | None:
    return None if word == "-" else number(word)


COUNTED = ("statement", "limits", "plan", "proof")
"""The replies that end with how many detail lines they have."""


class Reply(NamedTuple):
    """A line of a text with its row, counted from 1, its words, and, if it is the head of a reply, the reply's detail lines."""

    row: int
    words: list[str]
    details: list[tuple[str, list[str]]]

    @property
    def is_head(self) -> bool:
        return len(self.words) > 2 and self.words[0] in ("ok", "no") and self.words[1].isdigit()

    @property
    def kind(self) -> str | None:
        """The word that says what is answered; none of a refusal."""
        return self.words[2] if self.is_head and self.words[0] == "ok" else None


def replies_in(file: str, text: bytes) -> Iterator[Reply]:
    """The replies in a text one after another, and by itself each line that is of none."""
    lines = list(lines_of(file, text))
    row = 1
    while row <= len(lines):
        reply = Reply(row, lines[row - 1][1], [])
        row += 1
        if reply.kind in COUNTED:
            count = checker.number_of(reply.words[-1].encode())
            if count is None:
                raise Fault(f"{file} row {reply.row}: bad-line")
            reply = reply._replace(details=lines[row - 1 : row - 1 + count])
            row += count
        if row > len(lines) + 1:
            raise Fault(f"{file} row {len(lines) + 1}: bad-line")
        yield reply


def reply_to(verb: str, text: bytes) -> Reply:
    """The one reply of this kind among those of a session."""
    found: Reply | None = None
    refused: int | None = None
    after = 1
    for reply in replies_in(verb, text):
        if not reply.is_head or (found is not None and reply.kind == verb):
            raise Fault(f"{verb} row {reply.row}: bad-line")
        if reply.kind == verb:
            found = reply
        elif reply.kind is None and refused is None:
            refused = reply.row
        after = reply.row + 1 + len(reply.details)
    if found is None:
        raise Fault(f"{verb} row {after}: bad-line" if refused is None else f"{verb} row {refused}: refused")
    return found


def note(notes: Notes, roster: Roster, words: list[str]) -> None:
    """Takes in a line of the notes: `POSITION TOL OTHER PRODUCT SIDE FLOOR CEILING`, or a trade of a STATEMENT."""
    if words[0] == "trade":
        _, trade, seller, buyer, product, amount, _day, state, held = words
        names = [seller, buyer]
        if number(trade) in notes.numbers or state not in STATES or held not in ("held", "-"):
            raise ValueError(trade)
        notes.numbers.add(number(trade))
        if state == "live":
            notes.live.setdefault((product, seller, buyer), []).append(Trade(number(trade), number(amount), held == "held"))
    else:
        position, verb, other, product, side, floor, ceiling = words
        names = [other]
        if verb != "TOL" or side not in SIDES:
            raise ValueError(verb)
        notes.settings.setdefault((product, other, side), []).append(Setting(number(position), number(floor), most(ceiling)))
    if product not in roster.products or any(name not in roster.members for name in names):
        raise KeyError(product)


def lines_of_notes(notes: Notes, text: bytes) -> Iterator[tuple[int, list[str]]]:
    """The lines of the notes with their rows: those that are of no reply, and those of a STATEMENT, which replaces the one before."""
    for reply in replies_in("notes", text):
        if not reply.is_head:
            yield reply.row, reply.words
        elif reply.kind == "statement":
            notes.numbers.clear()
            notes.live.clear()
            for row, (_, words) in enumerate(reply.details, reply.row + 1):
                if words[0] != "trade":
                    raise Fault(f"notes row {row}: bad-line")
                yield row, words


def read_notes(text: bytes, roster: Roster) -> Notes:
    """The notes of a text that has settings, and trades by themselves or in a reply to STATEMENT."""
    notes = Notes({}, set(), {})
    for row, words in lines_of_notes(notes, text):
        try:
            note(notes, roster, words)
        except ValueError:
            raise Fault(f"notes row {row}: bad-line") from None
        except KeyError:
            raise Fault(f"notes row {row}: unknown-name") from None
    return notes


def head_of(words: list[str]) -> Proof:
    _, position, _, cycle, version, day, mode, begun, _ = words
    number(position)
    if mode not in checker.MODES or not checker.is_day(day.encode()):
        raise ValueError(mode)
    return Proof(number(cycle), number(version), day, mode, number(begun), {}, [])


def take(proof: Proof, line: str, words: list[str]) -> None:
    """Takes in a detail line."""
    if words[0] == "pot":
        _, product, member, value = words
        potential = checker.potential_of(value.encode())
        if potential is None or (product, member) in proof.potentials:
            raise ValueError(value)
        proof.potentials[product, member] = potential
        return
    verb, product, seller, buyer, lower, lower_of, now, following, upper, upper_of = words
    if verb != "pair" or lower_of not in OWNERS or upper_of not in OWNERS:
        raise ValueError(verb)
    bounds = (number(lower), lower_of, number(now), number(following), most(upper), upper_of)
    proof.pairs.append(Pair(product, seller, buyer, *bounds, line))


def read_proof(text: bytes) -> Proof:
    reply = reply_to("proof", text)
    row = reply.row
    try:
        proof = head_of(reply.words)
        for row, (line, words) in enumerate(reply.details, reply.row + 1):
            take(proof, line, words)
    except ValueError:
        raise Fault(f"proof row {row}: bad-line") from None
    return proof


class Plan(NamedTuple):
    """The reply to a PLAN: its cycle and version, and the lines of its steps."""

    cycle: int
    version: int
    steps: list[str]


def read_plan(text: bytes) -> Plan:
    reply = reply_to("plan", text)
    try:
        _, position, _, cycle, version, _ = reply.words
        number(position)
        return Plan(number(cycle), number(version), [line for line, _ in reply.details])
    except ValueError:
        raise Fault(f"plan row {reply.row}: bad-line") from None


class Part(NamedTuple):
    """All that a member's test rests on; the plan is None where it is not known."""

    roster: Roster
    member: str
    notes: Notes
    proof: Proof
    plan: Plan | None = None

    def grows(self, seller: str, buyer: str) -> bool:
        """Whether mode and roles let the pair grow."""
        dealers = self.roster.members[seller] and self.roster.members[buyer]
        return self.proof.mode == "free" or (self.proof.mode == "hybrid" and dealers)

    def frozen(self, key: Key) -> list[Trade]:
        """The pair's trades that the freeze took, by their numbers: the product matures after the freeze's day."""
        return sorted(self.notes.live.get(key, [])) if self.roster.products[key[0]] > self.proof.day else []

    def now(self, key: Key) -> int:
        return sum(trade.amount for trade in self.frozen(key))

    def held(self, key: Key) -> int:
        return sum(trade.amount for trade in self.frozen(key) if trade.is_held)

    def setting(self, product: str, seller: str, buyer: str) -> Setting:
        """What the member had set for its side of a pair when the version began."""
        key = (product, buyer, "out") if seller == self.member else (product, seller, "in")
        before = [it for it in self.notes.settings.get(key, []) if it.position < self.proof.begun]
        return max(before, key=lambda it: it.position, default=Setting(0, 0, None))

    def wanted(self) -> list[Key]:
        """The pairs that the reply has to tell, in their order."""
        members = list(self.roster.members)
        own = [(i, j) for i in members for j in members if i != j and self.member in (i, j)]
        return [
            (product, i, j)
            for product in self.roster.products
            for i, j in own
            if self.now((product, i, j)) or self.grows(i, j)
        ]


def is_strange(part: Part, pair: Pair) -> bool:
    """Whether a pair has to be in no reply to the member, whatever its trades are."""
    names = (pair.seller, pair.buyer)
    if pair.product not in part.roster.products or part.member not in names or not {*names} <= {*part.roster.members}:
        return True
    return pair.now == 0 and not part.grows(*names)


def place_of(part: Part, key: Key) -> tuple[int, ...]:
    """Where a pair stands in the order of the roster."""
    members = [*part.roster.members]
    return [*part.roster.products].index(key[0]), members.index(key[1]), members.index(key[2])


def told_clash(part: Part) -> Iterator[Clash]:
    """Names that the roster has not, pairs that are missing, or told though they need not be, and frozen amounts that are not
    those of the trades."""
    for product, member in part.proof.potentials:
        if product not in part.roster.products or member not in part.roster.members:
            yield Clash("strange", pot_line(part.proof, product, member))
    told = {pair.key: pair for pair in part.proof.pairs}
    wanted = {key: None for key in part.wanted()}
    for key in wanted:
        if key not in told:
            yield Clash(f"missing {key[0]} {key[1]} {key[2]}", None, not part.grows(key[1], key[2]))
    for key, pair in told.items():
        if key not in wanted:
            yield Clash("strange", pair.line, not is_strange(part, pair))
        elif pair.now != part.now(key):
            yield Clash("now", pair.line, True)
    keys = [pair.key for pair in part.proof.pairs]
    if keys != list(wanted):
        places = [place_of(part, key) for key in keys]
        yield Clash("order", None, places == sorted({*places}))


def owners_of_lower(part: Part, pair: Pair) -> set[str]:
    """Whose the lower bound may be, by what the member knows: a hold goes before the seller, the seller before the buyer."""
    is_mine = pair.lower <= part.setting(*pair.key).floor
    if pair.lower == 0:
        return {"none"}
    if pair.lower <= part.held(pair.key):
        return {"hold"}
    if pair.seller == part.member:
        return {"seller"} if is_mine else {"buyer"}
    return {"seller", "buyer"} if is_mine else {"seller"}


def lower_clash(part: Part, pair: Pair) -> Iterator[Clash]:
    kept = max(part.setting(*pair.key).floor, part.held(pair.key))
    words = f"lower is not of {pair.lower_of}"
    if pair.lower < min(pair.now, kept):
        yield Clash("lower below your own", pair.line, True)
    elif pair.lower > pair.now:
        yield Clash("lower above now", pair.line)
    elif pair.lower_of not in owners_of_lower(part, pair):
        yield Clash(words, pair.line, True)
    if pair.lower_of == "now" or (pair.lower == 0) != (pair.lower_of == "none"):
        yield Clash(words, pair.line)


def owners_of_upper(part: Part, pair: Pair, limit: int | None) -> set[str]:
    """Whose the upper bound may be, where the member's own ceiling leaves this one."""
    if not part.grows(pair.seller, pair.buyer):
        return {"now"} if pair.upper == pair.now else set()
    if pair.upper is None:
        return {"none"}
    other = "buyer" if pair.seller == part.member else "seller"
    return {"seller", "buyer"} if pair.upper == limit else {other}


def possible_owners_of_upper(part: Part, pair: Pair) -> set[str]:
    """Whose the upper bound may be, whatever the member has set."""
    if not part.grows(pair.seller, pair.buyer):
        return {"now"} if pair.upper == pair.now else set()
    return {"none"} if pair.upper is None else {"seller", "buyer"}


def upper_clash(part: Part, pair: Pair) -> Iterator[Clash]:
    ceiling = part.setting(*pair.key).ceiling
    limit = None if ceiling is None else max(pair.now, ceiling)
    grows = part.grows(pair.seller, pair.buyer)
    words = f"upper is not of {pair.upper_of}"
    if grows and limit is not None and (pair.upper is None or pair.upper > limit):
        yield Clash("upper above your own", pair.line, True)
    elif pair.upper is not None and (pair.upper < pair.now or (not grows and pair.upper > pair.now)):
        yield Clash("upper is not now", pair.line)
    elif pair.upper_of not in owners_of_upper(part, pair, limit):
        yield Clash(words, pair.line, True)
    if pair.upper_of not in possible_owners_of_upper(part, pair):
        yield Clash(words, pair.line)


def slack_words(part: Part, pair: Pair) -> str | None:
    """Complementary slackness: what may still grow does not gain by it, nor what may still fall."""
    if pair.next < pair.lower or (pair.upper is not None and pair.next > pair.upper):
        return "next out of bounds"
    if pair.upper == 0:
        return None
    potentials = [part.proof.potentials.get((pair.product, name)) for name in (pair.seller, pair.buyer)]
    if potentials[0] is None or potentials[1] is None:
        return "potential missing"
    cost = 1 - potentials[0] + potentials[1]
    if cost < 0 and (pair.upper is None or pair.next < pair.upper):
        return "open"
    if cost > 0 and pair.next > pair.lower:
        return "slack"
    return None


def slack_clash(part: Part, pair: Pair) -> Iterator[Clash]:
    words = slack_words(part, pair)
    if words is not None:
        yield Clash(words, pair.line)


def net_clash(part: Part) -> Iterator[Clash]:
    for product in part.roster.products:
        own = [pair for pair in part.proof.pairs if pair.product == product]
        change = sum((pair.next - pair.now) * (1 if pair.seller == part.member else -1) for pair in own)
        if change:
            yield Clash(f"net {product} {change}", None)


def steps_of(part: Part, pair: Pair) -> Iterator[str]:
    """The steps that bring a pair to its NEXT: trades that nobody holds end in the order of their numbers while they fit into the
    fall, and the next one is cut by the rest."""
    if pair.next > pair.now:
        yield f"new {pair.seller} {pair.buyer} {pair.product} {pair.next - pair.now}"
    fall = max(0, pair.now - pair.next)
    for trade in part.frozen(pair.key):
        if fall and not trade.is_held:
            after = max(0, trade.amount - fall)
            yield f"cut {trade.number} {trade.amount} {after}" if after else f"end {trade.number}"
            fall -= trade.amount - after


def new_clash(part: Part, plan: Plan) -> Iterator[Clash]:
    """The plan's new trades, which follow from the PROOF alone."""
    left = iter([step for step in plan.steps if step.startswith("new ")])
    for pair in part.proof.pairs:
        if pair.next > pair.now and next(left, "") not in steps_of(part, pair):
            yield Clash("plan leads elsewhere", pair.line)
    for step in left:
        yield Clash("plan has a step more", step)


def plan_clash(part: Part) -> Iterator[Clash]:
    """A plan of another version, a pair whose steps are not all there in their order, and a step of none."""
    if part.plan is None:
        return
    if (part.plan.cycle, part.plan.version) != (part.proof.cycle, part.proof.version):
        yield Clash("plan of another version", None)
    left = iter(part.plan.steps)
    for pair in part.proof.pairs:
        for step in steps_of(part, pair):
            if next(left, None) != step:
                yield Clash("plan leads elsewhere", pair.line, True)
    for step in left:
        yield Clash("plan has a step more", step, True)
    yield from new_clash(part, part.plan)


def clashes(part: Part) -> Iterator[Clash]:
    yield from told_clash(part)
    yield from plan_clash(part)
    for pair in part.proof.pairs:
        for test in (lower_clash, upper_clash, slack_clash):
            yield from test(part, pair)
    yield from net_clash(part)


def clash_of(part: Part) -> Clash | None:
    """The first thing that is wrong, or none."""
    return next(clashes(part), None)


class Compared(NamedTuple):
    """What a test compared, by count: the pairs of the PROOF; of the tolerances that the notes have, those that stood at the BEGIN against a
    pair's bounds, those set since then, and those of pairs that the PROOF leaves out; and the trades that the freeze took."""

    pairs: int
    tolerances: int
    later: int
    untold: int
    trades: int


def compared(part: Part) -> Compared:
    told = {pair.key for pair in part.proof.pairs}
    stood = later = untold = 0
    for (product, other, side), settings in part.notes.settings.items():
        key = (product, part.member, other) if side == "out" else (product, other, part.member)
        is_set = any(it.position < part.proof.begun for it in settings)
        later += any(it.position >= part.proof.begun for it in settings)
        stood += is_set and key in told
        untold += is_set and key not in told
    trades = sum(len(part.frozen(key)) for key in part.notes.live)
    return Compared(len(told), stood, later, untold, trades)


def digest(lines: list[str]) -> str:
    return hashlib.sha256("".join(f"{line}\n" for line in lines).encode()).hexdigest()


def head_line(proof: Proof) -> str:
    return f"proof {proof.cycle} {proof.version} {proof.day} {proof.mode} {proof.begun}"


def pot_line(proof: Proof, product: str, member: str) -> str:
    return f"pot {product} {member} {proof.potentials[product, member]}"


def hash_of_all(part: Part) -> str:
    """Of the head, the products and all potentials: equal for all who are near to the same members."""
    keys = [(product, member) for product in part.roster.products for member in part.roster.members]
    pots = [pot_line(part.proof, *key) for key in keys if key in part.proof.potentials]
    return digest([head_line(part.proof), *part.roster.products, *pots])


def hash_with(part: Part, other: str, salt: str) -> str:
    """Of what two members have to be told alike, behind a salt of both: the head, and of each product their pairs, and their
    potentials where a pair of theirs may have an amount; else neither is told the other's."""
    lines = [salt, head_line(part.proof)]
    for product in part.roster.products:
        pairs = [pair for pair in part.proof.pairs if pair.product == product and other in (pair.seller, pair.buyer)]
        near = [it for it in part.roster.members if it in (part.member, other)] if any(pair.upper != 0 for pair in pairs) else []
        lines += [pot_line(part.proof, product, it) for it in near] + [pair.line for pair in pairs]
    return digest(lines)
