"""The command compress-public-roster: a roster with keys that nobody knows, for members to test with."""

from typing import NoReturn

from . import checker
from .ending import Stop, read_file, run
from .keys import public_roster
from .words import Words, text


def words() -> Words:
    parser = Words("compress-public-roster", "Writes a roster with a new random key for each name, which is kept nowhere.")
    parser.add_argument("roster", metavar="ROSTER", type=text, help="the members, the products and the operator")
    return parser


def main(line: list[str]) -> int:
    given = words().parse_args(line)
    try:
        print(public_roster(read_file(given.roster, checker.MOST_BYTES + 1)), end="")
    except checker.Fault as fault:
        raise Stop(3, str(fault)) from None
    return 0


def command() -> NoReturn:
    run(main)
