"""Replies as values, by docs/PROTOCOL.md: an answer for each head line, and a refusal as an exception.

Every answer begins with its position, the history's length after the command. Amounts are whole numbers, days texts.
"""

from typing import Any, Callable, NamedTuple, TypeVar, get_type_hints, overload

MOST_RECORD = 268_435_456
"""The bytes of an entry."""
MOST_DIGITS = 19
"""Of a number on a line, which is 10^18 at most."""


class BadReply(Exception):
    """What came is no reply."""


class Refused(Exception):
    """The command was refused: at this position, with this number and name, and with a value or the empty text."""

    def __init__(self, position: int, number: int, name: str, value: str) -> None:
        super().__init__(f"{number} {name} {value}".rstrip())
        self.position = position
        self.number = number
        self.name = name
        self.value = value


class TradeRow(NamedTuple):
    """A trade of a statement."""

    trade: int
    seller: str
    buyer: str
    product: str
    amount: int
    day: str
    state: str
    is_held: bool


class LimitRow(NamedTuple):
    """What a pair may come to; `upper` is None without a most."""

    seller: str
    buyer: str
    lower: int
    now: int
    upper: int | None


class EndStep(NamedTuple):
    """A step of a plan: the trade ends."""

    trade: int


class CutStep(NamedTuple):
    """A step of a plan: the trade's amount falls."""

    trade: int
    before: int
    after: int


class NewStep(NamedTuple):
    """A step of a plan: a new trade."""

    seller: str
    buyer: str
    product: str
    amount: int


class PotRow(NamedTuple):
    """A potential of a proof."""

    product: str
    member: str
    value: int


class PairRow(NamedTuple):
    """A pair of a proof, with whose its bounds are; `upper` is None without a most."""

    product: str
    seller: str
    buyer: str
    lower: int
    lower_of: str
    now: int
    next: int
    upper: int | None
    upper_of: str


Row = TradeRow | LimitRow | EndStep | CutStep | NewStep | PotRow | PairRow


class Hello(NamedTuple):
    position: int
    name: str


class Traded(NamedTuple):
    position: int
    trade: int


class Live(NamedTuple):
    position: int
    trade: int


class Ending(NamedTuple):
    """The trade has the speaker's mark, and ends with the other party's."""

    position: int
    trade: int


class Ended(NamedTuple):
    position: int
    trade: int


class Held(NamedTuple):
    position: int
    trade: int


class Freed(NamedTuple):
    position: int
    trade: int


class Tolerance(NamedTuple):
    position: int


class Nets(NamedTuple):
    """What the member owes, what it is owed, and the first less the second."""

    position: int
    out: int
    into: int
    net: int


class Market(NamedTuple):
    position: int
    gross: int
    floor: int
    excess: int
    bilateral: int


class Statement(NamedTuple):
    position: int
    rows: list[TradeRow]


class Frozen(NamedTuple):
    position: int
    cycle: int
    trades: int


class Begun(NamedTuple):
    position: int
    cycle: int
    version: int


class Limits(NamedTuple):
    position: int
    rows: list[LimitRow]


class Noted(NamedTuple):
    position: int
    size: int


class Proposed(NamedTuple):
    """The gross before and after, over all products."""

    position: int
    cycle: int
    version: int
    before: int
    after: int


class Nothing(NamedTuple):
    """The posting touches nobody, and the cycle is over."""

    position: int
    cycle: int
    version: int


class Plan(NamedTuple):
    position: int
    cycle: int
    version: int
    rows: list[EndStep | CutStep | NewStep]


class Proof(NamedTuple):
    """What a member needs to test its own part: the freeze's day, the mode, and where the version began."""

    position: int
    cycle: int
    version: int
    day: str
    mode: str
    begun: int
    rows: list[PotRow | PairRow]


class Accepted(NamedTuple):
    """How many touched members have not accepted yet."""

    position: int
    cycle: int
    version: int
    left: int


class Executed(NamedTuple):
    """How many trades the plan ended, cut and made."""

    position: int
    cycle: int
    version: int
    ended: int
    cut: int
    made: int


class Declined(NamedTuple):
    position: int
    cycle: int
    version: int


class Cancelled(NamedTuple):
    position: int
    cycle: int


class NoEntry(NamedTuple):
    """There is no change behind the position yet."""

    position: int


class Entry(NamedTuple):
    """The change behind the position that was asked: its own position, and its record."""

    position: int
    place: int
    record: bytes


class Bye(NamedTuple):
    position: int


Answer = (
    Hello | Traded | Live | Ending | Ended | Held | Freed | Tolerance | Nets | Market | Statement | Frozen | Begun | Limits
    | Noted | Proposed | Nothing | Plan | Proof | Accepted | Executed | Declined | Cancelled | NoEntry | Entry | Bye
)  # fmt: skip

HEADS: dict[str, Callable[..., Answer]] = {
    "hello": Hello,
    "trade": Traded,
    "live": Live,
    "ending": Ending,
    "ended": Ended,
    "held": Held,
    "freed": Freed,
    "tol": Tolerance,
    "nets": Nets,
    "market": Market,
    "statement": Statement,
    "frozen": Frozen,
    "begun": Begun,
    "limits": Limits,
    "noted": Noted,
    "proposed": Proposed,
    "nothing": Nothing,
    "plan": Plan,
    "proof": Proof,
    "accepted": Accepted,
    "executed": Executed,
    "declined": Declined,
    "cancelled": Cancelled,
    "none": NoEntry,
    "bye": Bye,
}
"""The answer of each head line's word."""

DETAILS: dict[str, Callable[..., Row]] = {
    "trade": TradeRow,
    "limit": LimitRow,
    "end": EndStep,
    "cut": CutStep,
    "new": NewStep,
    "pot": PotRow,
    "pair": PairRow,
}
"""The row of each detail line's word."""


A = TypeVar("A")
B = TypeVar("B")


@overload
def expected(answer: object, kind: type[A]) -> A:
    ...


@overload
def expected(answer: object, kind: type[A], other: type[B]) -> A | B:
    ...


def expected(answer: object, kind: type[A], other: type[B] | None = None) -> A | B:
    """The answer, where it is of this kind or of the other one; else it is no reply to what was asked."""
    if isinstance(answer, kind) or (other is not None and isinstance(answer, other)):
        return answer
    raise BadReply(str(answer))


def value_of(kind: Any, word: str) -> str | bool | int | None:
    """What a word is, as a field of this kind."""
    if kind is str:
        return word
    if kind is bool:
        return word == "held"
    if kind == int | None and word == "-":
        return None
    if not is_number(word.removeprefix("-")):
        raise ValueError(word)
    return int(word)


def is_number(word: str) -> bool:
    """Whether a word has digits alone, and no more than a number of a reply has."""
    return word.isascii() and word.isdigit() and len(word) <= MOST_DIGITS


def position_of(head: str) -> int | None:
    """The position that a head line reports, if it reports one."""
    words = head.split(" ")
    return int(words[1]) if len(words) > 1 and is_number(words[1]) else None


def count_of(head: str) -> int:
    """How many detail lines follow a head line."""
    words = head.split(" ")
    if words[0] != "ok" or words[2:3] not in (["statement"], ["limits"], ["plan"], ["proof"]):
        return 0
    if not is_number(words[-1]):
        raise BadReply(head)
    return int(words[-1])


def size_of(head: str) -> int | None:
    """How many bytes follow a head line of an entry, with a line feed behind them; none where it is no entry's."""
    words = head.split(" ")
    if words[0] != "ok" or words[2:3] != ["entry"]:
        return None
    if len(words) != 5 or not is_number(words[4]) or len(words[4]) > len(str(MOST_RECORD)) or int(words[4]) > MOST_RECORD:
        raise BadReply(head)
    return int(words[4])


def entry_of(head: str, record: bytes) -> Entry:
    """The answer that an entry's reply tells."""
    try:
        _, position, _, place, _ = head.split(" ")
        return Entry(int(position), int(place), record)
    except ValueError:
        raise BadReply(head) from None


def row_of(line: str) -> Row:
    verb, *words = line.split(" ")
    kind = DETAILS[verb]
    return kind(*(value_of(field, word) for field, word in zip(get_type_hints(kind).values(), words, strict=True)))


def answer_of(head: str, details: list[str]) -> Answer:
    """The answer that a reply tells; raises Refused for a refusal, and BadReply for what is no reply."""
    try:
        result, position, *words = head.split(" ")
        if result == "no":
            raise Refused(int(position), int(words[0]), words[1], " ".join(words[2:]))
        kind = HEADS[words[0]]
        fields = get_type_hints(kind)
        rows = []
        if fields.pop("rows", None) is not None:
            words = words[:-1]
            rows = [[row_of(line) for line in details]]
        values = [value_of(field, word) for field, word in zip(fields.values(), [position, *words[1:]])]
        if result != "ok" or len(words) != len(values):
            raise BadReply(head)
        return kind(*values, *rows)
    except (ValueError, KeyError, IndexError, TypeError):
        raise BadReply(head) from None
