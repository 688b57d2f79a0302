"""The command compress-many: compresses the trades of any number of products and days, over Dask's workers.

Each market is put away with its files and its proposal, so that anybody can check it again by `compress_cli check`.
"""

import importlib.util
import os
import shutil
import signal
import time
from argparse import Namespace
from contextlib import ExitStack
from functools import partial
from pathlib import Path
from typing import Callable, Iterator, NoReturn

from .. import checker
from ..client import found_program
from ..ending import Stop, run
from ..words import Once, Words, plain
from .folder import Folder, is_inside, look
from .markets import Market, markets_of
from .pieces import HYBRID, Cutter
from .processes import INTERRUPTS, checking, connected, interrupt, quiet
from .tables import Figures, head_of_figures, head_of_trades, names_of, results_of, trades_of
from .trades import Trades, read_members, read_trades
from .workers import Distribution, Job, Sent

MOST_WORKERS = 64


def count(word: str) -> int:
    value = checker.number_of(word.encode(), MOST_WORKERS)
    if not value:
        raise ValueError(word)
    return value


def words() -> Words:
    parser = Words(
        "compress-many",
        "Compresses the trades of any number of products, days and members, over the workers of Dask, and checks each answer twice. "
        "A run that was interrupted goes on where it is started again.",
    )
    members = "each member's name and role; without it a dealer is who both sells and buys in a connected part of a product"
    parser.add_argument("--members", metavar="FILE", action=Once, type=plain, help=members)
    mode = "conservative, hybrid or free; hybrid where it is absent"
    parser.add_argument("--mode", metavar="MODE", action=Once, choices=checker.MODES, help=mode)
    scheduler = "where Dask's scheduler listens, as `tcp://127.0.0.1:8786`; without it the workers are processes of this machine"
    parser.add_argument("--scheduler", metavar="SCHEDULER", action=Once, help=scheduler)
    workers = "how many processes of this machine check, and solve, where no scheduler is named; one a processor where it is absent"
    parser.add_argument("--workers", metavar="COUNT", action=Once, type=count, help=workers)
    parser.add_argument("--program", metavar="FILE", action=Once, type=plain, help="the program that solves and checks")
    markets = "a file of trades, plain or compressed, or a folder of such files: day, product, seller, buyer, amount"
    parser.add_argument("markets", metavar="MARKETS", type=plain, help=markets)
    output = "the folder that is written: a new one, an empty one, or that of an earlier run, whose results are replaced"
    parser.add_argument("output", metavar="OUTPUT", type=plain, help=output)
    return parser


def need(*modules: str) -> None:
    for module in modules:
        if importlib.util.find_spec(module) is None:
            raise Stop(11, f"no {module}: install python3-{module}")


def pages_of(link: str) -> str:
    """Dask's own pages of a run on this machine: its dashboard, or without bokeh, which that wants, the page of workers."""
    return link if importlib.util.find_spec("bokeh") else link.removesuffix("status") + "info/main/workers.html"


class Progress:
    """One line on a terminal that tells how far a run is."""

    def __init__(self, errors: int, markets: int, dashboard: str) -> None:
        self.errors = errors
        self.markets = markets
        self.start = time.monotonic()
        if os.isatty(errors):
            os.write(errors, f"dashboard: {dashboard}\n".encode())

    def show(self, done: int, again: int) -> None:
        if not os.isatty(self.errors) or not done:
            return
        left = (time.monotonic() - self.start) * (self.markets - done) / done
        bar = "#" * (20 * done // self.markets)
        told = f"[{bar:<20}] {done:,} of {self.markets:,} markets, {again} solved again, about {left:.0f} s left"
        os.write(self.errors, f"\r\x1b[K{told}{'' if done < self.markets else chr(10)}".encode())


def beginnings(distribution: Distribution, folder: Folder, markets: list[Market]) -> Iterator[Callable[[], None]]:
    """What begins each market: a check of what is kept of it, or else its way to a worker."""
    for market in markets:
        sent = Sent(market, market.roster(), market.trades(), 1)
        kept = folder.kept(market, sent.roster, sent.trades)
        yield partial(distribution.send, sent) if kept is None else partial(distribution.check, sent, kept)


def mode_of(given: Namespace) -> str:
    return given.mode or HYBRID


def spare_input(given: Namespace) -> None:
    """Refuses an output folder in which the input lies: a table could take its place."""
    for name in (given.markets, given.members):
        if name is not None and is_inside(Path(name), Path(given.output)):
            raise Stop(11, f"{name} lies in {given.output}: name another folder to write to")


def solve_all(given: Namespace, folder: Folder, markets: list[Market]) -> int:
    """Has each market solved, checked and put away, and tells how many answers were not taken."""
    program = found_program() if given.program is None else shutil.which(given.program)
    if program is None:
        raise Stop(11, f"no program at {given.program}")
    processes = given.workers or os.cpu_count() or 1
    job = Job(mode_of(given), given.program if given.scheduler else program)

    def keep(sent: Sent, proposal: bytes) -> None:
        folder.keep(sent.market, sent.roster, sent.trades, proposal)

    with ExitStack() as ending:
        errors = quiet(ending)
        client = connected(given.scheduler, processes, ending)
        checks = checking(processes, ending)
        distribution = Distribution(client, checks, job, program, keep)
        progress = Progress(errors, len(markets), client.dashboard_link if given.scheduler else pages_of(client.dashboard_link))
        for done in distribution.run(beginnings(distribution, folder, markets)):
            progress.show(done, len(distribution.again))
    return len(distribution.again)


def write_tables(folder: Folder, markets: list[Market], trades: Trades, mode: str) -> list[Figures]:
    """Writes the tables from the proposals that were put away, and gives the figures."""
    figures: list[Figures] = []

    def solved() -> Iterator[tuple[Market, list[checker.Part]]]:
        for market in markets:
            yield market, checker.read_proposal(folder.proposal(market), checker.read_roster(market.roster()))

    def left() -> Iterator[str]:
        yield head_of_trades()
        for result in results_of(solved()):
            figures.append(result.figures(trades.networks[result.key], mode))
            yield from trades_of(result, trades.names)

    folder.write("names.csv", names_of(markets, trades))
    folder.write("trades.csv", left())
    folder.write("figures.csv", [head_of_figures(), *(it.line() for it in figures)])
    return figures


def told(figures: list[Figures], markets: int, again: int) -> str:
    """The line of a run that ended."""
    text = f"products {len(figures)}, markets {markets}: gross {sum(it.gross for it in figures)} before, {sum(it.after for it in figures)} after"
    larger = [it for it in figures if not it.is_least]
    if larger:
        text += f"; {len(larger)} not least, by {sum(it.lost for it in larger)} at most: "
        text += f"members left out {sum(it.left_out for it in larger)}, dealers taken as customers {sum(it.demoted for it in larger)}"
    return text + (f"; {again} answers were not taken" if again else "")


def main(line: list[str]) -> int:
    given = words().parse_args(line)
    need("scipy", "distributed", *([] if given.scheduler else ["cryptography"]))
    for it in INTERRUPTS:
        signal.signal(it, interrupt)
    spare_input(given)
    look(Path(given.output))
    roles = None if given.members is None else read_members(Path(given.members))
    trades = read_trades(Path(given.markets), roles)
    markets = list(markets_of(Cutter(trades, roles).pieces()))
    folder = Folder(Path(given.output))
    folder.begin(len(markets))
    again = solve_all(given, folder, markets)
    figures = write_tables(folder, markets, trades, mode_of(given))
    print(told(figures, len(markets), again))
    return 0


def command() -> NoReturn:
    run(main)
