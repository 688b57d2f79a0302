"""The changes that a journal keeps, as values. A change's text is its line of docs/PROTOCOL.md."""

from typing import Iterator, NamedTuple


class Row(NamedTuple):
    """An amount of a solution, from one member to another by their places in the roster."""

    seller: int
    buyer: int
    amount: int


class Solution(NamedTuple):
    """A product's network, and a potential for each member."""

    rows: list[Row]
    potentials: list[int]


class Trade(NamedTuple):
    seller: str
    buyer: str
    product: str
    amount: int
    day: str

    def __str__(self) -> str:
        return f"TRADE {self.seller} {self.buyer} {self.product} {self.amount} {self.day}"


class Affirm(NamedTuple):
    trade: int

    def __str__(self) -> str:
        return f"AFFIRM {self.trade}"


class End(NamedTuple):
    trade: int

    def __str__(self) -> str:
        return f"END {self.trade}"


class Hold(NamedTuple):
    trade: int

    def __str__(self) -> str:
        return f"HOLD {self.trade}"


class Free(NamedTuple):
    trade: int

    def __str__(self) -> str:
        return f"FREE {self.trade}"


class Tolerance(NamedTuple):
    """What a pair's amount may come to; `ceiling` is None without a most."""

    other: str
    product: str
    side: str
    floor: int
    ceiling: int | None

    def __str__(self) -> str:
        ceiling = "-" if self.ceiling is None else self.ceiling
        return f"TOL {self.other} {self.product} {self.side} {self.floor} {ceiling}"


class Freeze(NamedTuple):
    day: str

    def __str__(self) -> str:
        return f"FREEZE {self.day}"


class Begin(NamedTuple):
    cycle: int
    mode: str

    def __str__(self) -> str:
        return f"BEGIN {self.cycle} {self.mode}"


class Post(NamedTuple):
    """A version's proposal: a solution for each product."""

    cycle: int
    version: int
    solutions: list[Solution]

    def __str__(self) -> str:
        return f"POST {self.cycle} {self.version}"


class Accept(NamedTuple):
    cycle: int
    version: int

    def __str__(self) -> str:
        return f"ACCEPT {self.cycle} {self.version}"


class Decline(NamedTuple):
    cycle: int
    version: int

    def __str__(self) -> str:
        return f"DECLINE {self.cycle} {self.version}"


class Cancel(NamedTuple):
    cycle: int

    def __str__(self) -> str:
        return f"CANCEL {self.cycle}"


Change = Trade | Affirm | End | Hold | Free | Tolerance | Freeze | Begin | Post | Accept | Decline | Cancel


def rows_of(change: Change) -> Iterator[str]:
    """The solutions of a POST as lines; no other change has any."""
    for place, solution in enumerate(change.solutions if isinstance(change, Post) else []):
        yield f"  solution {place}: {len(solution.potentials)} members, {len(solution.rows)} rows"
        for row in solution.rows:
            yield f"    row {row.seller} {row.buyer} {row.amount}"
        yield "    potentials " + " ".join(map(str, solution.potentials))
