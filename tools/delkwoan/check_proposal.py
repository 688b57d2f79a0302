"""The command compress-check-proposal: the answers, lines and statuses are those of `compress_cli check`."""

from typing import NoReturn

from . import checker
from .ending import Stop, read_file, run
from .words import Words, text


def words() -> Words:
    parser = Words(
        "compress-check-proposal",
        "Tells whether a proposal is right for the market of a trade file. It shares nothing with the program.",
    )
    parser.add_argument("roster", metavar="ROSTER", type=text, help="the members, the products and the operator")
    parser.add_argument("trades", metavar="TRADES", type=text, help="live trades")
    parser.add_argument("mode", metavar="MODE", choices=checker.MODES, help="conservative, hybrid or free")
    parser.add_argument("proposal", metavar="PROPOSAL", type=text, help="what `compress_cli solve` writes")
    return parser


def check(roster_file: str, trade_file: str, mode: str, proposal_file: str) -> str | None:
    """What is wrong with a proposal first, or none; stops with the line of the first file that has a fault."""
    most = checker.MOST_BYTES + 1
    try:
        roster = checker.read_roster(read_file(roster_file, most))
        networks = checker.read_trades(read_file(trade_file, most), roster)
        parts = checker.read_proposal(read_file(proposal_file, most), roster)
    except checker.Fault as fault:
        raise Stop(3, str(fault)) from None
    return checker.failure_of(roster, mode, networks, parts)


def main(line: list[str]) -> int:
    given = words().parse_args(line)
    failure = check(given.roster, given.trades, given.mode, given.proposal)
    print("yes" if failure is None else f"no {failure}")
    return 0 if failure is None else 1


def command() -> NoReturn:
    run(main)
