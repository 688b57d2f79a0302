"""A compression from its files: a trade file and a proposal, or two texts of `replay`, from before it and from after it.

The files are read by the modules `checker` and `replayed`. What is compared are the trades and the proposal's rows, never the
proposal's own figures.
"""

from . import checker
from .about import About, about_of
from .checker import Network, Pair, Roster
from .ending import Stop, read_file
from .figures import Compression, Side, compared, trades_after
from .replayed import MOST_REPLAY_BYTES, Replay, read_replay

MOST_BYTES = checker.MOST_BYTES + 1


def compression_of(roster_file: str, trade_file: str, proposal_file: str, about_file: str | None = None) -> Compression:
    """The figures of a compression by three files; stops with the line of the first of them that has a fault."""
    try:
        roster = checker.read_roster(read_file(roster_file, MOST_BYTES))
        trades: list[list[tuple[Pair, int]]] = [[] for _ in roster.products]
        old: list[Network] = [{} for _ in roster.products]
        for product, pair, amount in checker.trades_of(read_file(trade_file, MOST_BYTES), roster):
            trades[product].append((pair, amount))
            old[product][pair] = old[product].get(pair, 0) + amount
        new = [part.network for part in checker.read_proposal(read_file(proposal_file, MOST_BYTES), roster)]
    except checker.Fault as fault:
        raise Stop(3, str(fault)) from None
    before = [Side(network, len(rows)) for network, rows in zip(old, trades)]
    after = [Side(network, trades_after(*rows, network)) for network, rows in zip(new, zip(trades, old))]
    return compared(roster, before, after, [], about_for(roster_file, roster, about_file))


def replays_compared(roster_file: str, before_file: str, after_file: str, about_file: str | None = None) -> Compression:
    """The figures of what changed between two texts of `replay`; stops with the line of the first file that has a fault."""
    try:
        roster = checker.read_roster(read_file(roster_file, MOST_BYTES))
        old = read_replay("before", read_file(before_file, MOST_REPLAY_BYTES), roster)
        new = read_replay("after", read_file(after_file, MOST_REPLAY_BYTES), roster)
    except checker.Fault as fault:
        raise Stop(3, str(fault)) from None
    executions = [execution for execution in new.executions if execution not in old.executions]
    return compared(roster, sides_of(old), sides_of(new), executions, about_for(roster_file, roster, about_file))


def sides_of(replay: Replay) -> list[Side]:
    return [Side(network, trades) for network, trades in zip(replay.networks, replay.trades)]


def about_for(roster_file: str, roster: Roster, about_file: str | None) -> About:
    return about_of(roster_file, about_file, {name.decode() for name in [*roster.members, *roster.products, *roster.operators]})
