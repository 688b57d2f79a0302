"""What compression comes to, by the program, and each figure certified: by its own check, and by the second checker."""

import itertools
import subprocess
import tempfile
from pathlib import Path
from typing import Iterator, NamedTuple

from delkwoan import check_proposal, checker
from generator import Market, Network

MODES = ("conservative", "hybrid", "free")
WAYS = ("bilateral", *MODES)
"""The ways of compression, each of which takes away no more than the next."""


class NotCertified(Exception):
    """An answer that one of the checks refused, or figures that are out of their bounds."""


class Case(NamedTuple):
    """A market, and what of its pairs' amounts has to stay."""

    market: Market
    floors: Network = {}

    @property
    def loose(self) -> Network:
        """What of the pairs' amounts may go."""
        rest = {pair: amount - self.floors.get(pair, 0) for pair, amount in self.market.network.items()}
        return {pair: amount for pair, amount in rest.items() if amount}


class Figures(NamedTuple):
    """The gross of a market, the least that any market with its nets has (M), and the gross after each way of compression."""

    gross: int
    floor: int
    bilateral: int
    conservative: int
    hybrid: int
    free: int

    @property
    def excess(self) -> int:
        return self.gross - self.floor

    def removed(self, way: str) -> float:
        """The share of the excess that a way takes away."""
        return (self.gross - self.after(way)) / self.excess if self.excess else 0.0

    def after(self, way: str) -> int:
        return int(getattr(self, way))

    def are_bounded(self) -> bool:
        """Whether no way takes away more than the next, and none more than the excess."""
        return self.floor <= self.free <= self.hybrid <= self.conservative <= self.bilateral <= self.gross


def roster_of(market: Market, products: int) -> bytes:
    rows = [f"M{at},{'dealer' if is_dealer else 'customer'},M{at}" for at, is_dealer in enumerate(market.is_dealer)]
    rows += [f"P{at},product,2040-01-01" for at in range(products)]
    return "".join(row + "\n" for row in ["name,role,key", *rows]).encode()


def trades_of(networks: list[Network]) -> bytes:
    rows = [f"M{i},M{j},P{at},{amount}" for at, network in enumerate(networks) for (i, j), amount in network.items()]
    return "".join(row + "\n" for row in ["seller,buyer,product,amount", *rows]).encode()


def certified(program: str, folder: Path, mode: str) -> list[checker.Part]:
    """The parts of the proposal for the files `roster` and `trades` of a folder, where both checks say that it is right."""
    files = [str(folder / name) for name in ("roster", "trades")]
    proposal = str(folder / "proposal")
    with open(proposal, "wb") as text:
        subprocess.run([program, "solve", *files, mode, "--workers", "1"], stdout=text, check=True)
    said = subprocess.run([program, "check", *files, mode, proposal], capture_output=True, check=False).stdout
    failure = check_proposal.check(files[0], files[1], mode, proposal)
    if said != b"yes\n" or failure is not None:
        raise NotCertified(f"{mode}: the program says {said!r}, the second checker {failure or 'yes'}")
    return checker.read_proposal(Path(proposal).read_bytes(), checker.read_roster(Path(files[0]).read_bytes()))


def figures_of(case: Case, parts: dict[str, checker.Part]) -> Figures:
    """The figures of a case by its product's part in each mode, which were found for what may go of it."""
    network, stays = case.market.network, sum(case.floors.values())
    floor = sum(net for net in checker.nets_of(network, case.market.members) if net > 0)
    bilateral = parts["free"].figures[3]
    grosses = [bilateral + stays, *(sum(parts[mode].network.values()) + stays for mode in MODES)]
    figures = Figures(sum(network.values()), floor, *grosses)
    if not figures.are_bounded() or (not stays and figures.free != floor):
        raise NotCertified(f"out of bounds: {figures}")
    return figures


def compressed_together(program: str, cases: list[Case]) -> Iterator[Figures]:
    """The figures of cases of the same members, each as one product of one market."""
    with tempfile.TemporaryDirectory() as room:
        folder = Path(room)
        (folder / "roster").write_bytes(roster_of(cases[0].market, len(cases)))
        (folder / "trades").write_bytes(trades_of([case.loose for case in cases]))
        parts = {mode: certified(program, folder, mode) for mode in MODES}
    for at, case in enumerate(cases):
        yield figures_of(case, {mode: parts[mode][at] for mode in MODES})


def compressed(program: str, cases: list[Case]) -> list[Figures]:
    """The figures of each case, in their order."""
    found: list[Figures] = []
    for _, alike in itertools.groupby(cases, lambda case: (case.market.members, case.market.dealers)):
        group = list(alike)
        for first in range(0, len(group), checker.MOST_PRODUCTS):
            found += compressed_together(program, group[first : first + checker.MOST_PRODUCTS])
    return found
