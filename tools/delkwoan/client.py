"""The command compress-client: a session with the program's `script` over a roster, or with a `serve` that listens somewhere.

It takes lines of docs/PROTOCOL.md and shows each reply in columns, or, by --raw, as its bytes. On a terminal it has a history,
and completes command words and the roster's names; else it takes the lines of its input, and ends with status 1 where one was
refused.
"""

import os
import shutil
import signal
import sys
from argparse import Namespace
from pathlib import Path
from typing import NoReturn

from . import replies
from .about import about_of
from .address import named_address
from .ending import Stop, read_file, run
from .names import Names
from .session import Session
from .shell import Prompt, Shell, printable
from .words import Once, Words, flag, plain

MOST_FILE = 67_108_864
MOST_SHOWN = 200
"""Characters of what is no reply, of which the rest is left out."""
PROGRAM = "compress_cli"


def found_program() -> str:
    """The program that COMPRESS_CLI names, the one beside this tool, the one of this clone, or the one on the path."""
    built = Path(__file__).resolve().parents[2] / "crates" / PROGRAM / "out" / PROGRAM
    beside = [Path(sys.argv[0]).resolve().parent / PROGRAM, built]
    named = [os.environ.get("COMPRESS_CLI", ""), *map(str, beside), shutil.which(PROGRAM) or ""]
    for name in named:
        if name and os.access(name, os.X_OK):
            return name
    raise Stop(11, "no program: build it, or name it by --program")


def words() -> Words:
    parser = Words(
        "compress-client",
        "A session with a script of its own, or with a service: lines in, replies in columns. "
        "`help` shows the lines, `quit` ends.",
        ["[--raw] [--about FILE] [--program FILE] ROSTER JOURNAL", "[--raw] [--about FILE] --connect HOST:PORT ROSTER"],
    )
    flag(parser, "--raw", "show each reply as its bytes")
    about = "what is told about the roster's names, as their LEIs; ROSTER.about.csv where it is absent"
    parser.add_argument("--about", metavar="FILE", action=Once, help=about)
    parser.add_argument("--program", metavar="FILE", action=Once, help="the program whose script is the other side")
    service = "where a service listens that is the other side"
    parser.add_argument("--connect", metavar="HOST:PORT", action=Once, type=named_address, help=service)
    parser.add_argument("roster", metavar="ROSTER", type=plain, help="the members, the products and the operator")
    journal = "the file of the script's journal; it is made where there is none"
    parser.add_argument("journal", metavar="JOURNAL", type=plain, nargs="?", help=journal)
    return parser


def read_words(line: list[str]) -> Namespace:
    parser = words()
    given = parser.parse_args(line)
    if (given.connect is None) == (given.journal is None) or (given.connect and given.program):
        parser.error("a journal, or else an address without a program")
    return given


def opened(given: Namespace) -> Session:
    """A session with the service, or else with a script of its own."""
    if given.connect:
        try:
            return Session.connect(*given.connect)
        except (OSError, ValueError):
            raise Stop(21, f"no connection to {given.connect.host} at {given.connect.port}") from None
    try:
        return Session.script(given.program or found_program(), given.roster, given.journal)
    except (OSError, ValueError):
        raise Stop(11, "the program could not be started") from None


def main(line: list[str]) -> int:
    given = read_words(line)
    roster = read_file(given.roster, MOST_FILE + 1)
    names = Names(roster, about_of(given.roster, given.about))
    prompt = Prompt(names)
    if prompt.is_terminal:
        signal.signal(signal.SIGINT, signal.default_int_handler)
    session = opened(given)
    try:
        return Shell(session, prompt, given.raw).run()
    except replies.BadReply as reply:
        raise Stop(20, f"no reply of a session: {printable(str(reply))[:MOST_SHOWN]}") from None


def command() -> NoReturn:
    run(main)
