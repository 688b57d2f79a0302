"""The command compress-follow: keeps a standby of a service, which has each change on a disk of its own.

    compress-follow --connect HOST:PORT ROSTER JOURNAL NAME KEY-FILE [--pause MILLISECONDS] [--behind FILE] [--seed FILE]
        [--patience SECONDS] [--compare] [--program FILE]

It stands between `compress_cli follow`, which keeps the journal, and the service, its primary: it asks the primary anew where that has
nothing more, and connects anew where the connection breaks. It ends where it is told to by SIGTERM or SIGINT, with 0 where the standby
has all that the primary has; or where the program ends, with its status.
"""

import os
import re
import selectors
from argparse import Namespace
from pathlib import Path
from typing import Callable, NoReturn

from .address import named_address
from .behind import Behind
from .client import found_program
from .ending import Stop, read_file, run
from .following import Following, Manner
from .placing import locked
from .primary import Primary
from .seed import begin_as, is_unwritten
from .seeding import Source, seed_of
from .standby import Standby
from .words import Once, Words, flag, text

MOST_PAUSE, MOST_PATIENCE = 60_000, 3_600
PAUSE, PATIENCE = 20, 5
NAME = re.compile("[A-Z0-9-]{1,16}")
KEY = re.compile(rb"([A-Z0-9-]{1,16})\r?\n?")


def number_to(most: int) -> Callable[[str], int]:
    """What reads a number from 1 to the most."""

    def read(word: str) -> int:
        if not (word.isascii() and word.isdigit() and len(word) <= len(str(most)) and 0 < int(word) <= most):
            raise ValueError(word)
        return int(word)

    return read


def name(word: str) -> str:
    """A name, as the program takes it."""
    if NAME.fullmatch(text(word)) is None:
        raise ValueError(word)
    return word


def words() -> Words:
    parser = Words(
        "compress-follow",
        "Keeps a standby of a service: each change is asked of the service, and has its place in a journal here as soon as it is there. "
        "The standby becomes a service by `compress_cli serve` over its journal.",
        ["[--pause MILLISECONDS] [--behind FILE] [--seed FILE] [--patience SECONDS] [--compare] [--program FILE] --connect HOST:PORT ROSTER JOURNAL NAME KEY-FILE"],
    )
    parser.add_argument("--connect", metavar="HOST:PORT", action=Once, type=named_address, help="where the service listens")
    pause = f"how long to wait before a service that has nothing more is asked again, from 1 to {MOST_PAUSE}; {PAUSE} where it is absent"
    parser.add_argument("--pause", metavar="MILLISECONDS", action=Once, type=number_to(MOST_PAUSE), help=pause)
    parser.add_argument("--behind", metavar="FILE", action=Once, type=text, help="tell in this file how far the standby is behind")
    seeded = "the service's journal; if the standby's is missing or empty, it begins as a copy of that, with what the service keeps"
    parser.add_argument("--seed", metavar="FILE", action=Once, type=text, help=seeded)
    patience = f"how long to wait for the service to keep all that the copy has, from 1 to {MOST_PATIENCE}; {PATIENCE} if it is absent"
    parser.add_argument("--patience", metavar="SECONDS", action=Once, type=number_to(MOST_PATIENCE), help=patience)
    flag(parser, "--compare", "ask for the last change again at the start and over each new connection, and end where it is another one")
    parser.add_argument("--program", metavar="FILE", action=Once, help="the program that keeps the journal")
    parser.add_argument("roster", metavar="ROSTER", type=text, help="the roster of the service")
    parser.add_argument("journal", metavar="JOURNAL", type=text, help="the standby's journal; it is made where there is none")
    parser.add_argument("name", metavar="NAME", type=name, help="the operator's name")
    parser.add_argument("key", metavar="KEY-FILE", type=text, help="a file whose one line is the operator's key")
    return parser


def read_words(line: list[str]) -> Namespace:
    parser = words()
    given = parser.parse_args(line)
    if given.connect is None:
        parser.error("no service")
    return given


def key_of(name: str) -> bytes:
    """The key that a file has."""
    found = KEY.fullmatch(read_file(name, 64))
    if found is None:
        raise Stop(3, "key row 1: bad-name")
    return found[1]


def standby_of(given: Namespace, program: str, selector: selectors.BaseSelector) -> Standby:
    """The program over the journal, which nobody else may have."""
    if os.path.isfile(given.journal):
        locked(given.journal).close()
    options = ["--compare"] if given.compare else []
    # (a key on a command line is seen by all who use the machine: the name stands for it, and the greeting goes out from here)
    return Standby([program, "follow", *options, "--", given.roster, given.journal, given.name, given.name], selector)


def main(line: list[str]) -> int:
    given = read_words(line)
    program = given.program or found_program()
    key = key_of(given.key)
    greeting = b"HELLO %s %s\n" % (given.name.encode(), key)
    behind = Behind(given.behind)
    journal = Path(given.journal)
    if given.seed is not None and is_unwritten(journal):
        source = Source(given.seed, given.connect, given.name, key.decode())
        begin_as(seed_of(source, given.patience or PATIENCE), journal)
    selector = selectors.DefaultSelector()
    standby = standby_of(given, program, selector)
    manner = Manner(greeting, (given.pause or PAUSE) / 1000, given.compare)
    Following(standby, Primary(given.connect, selector), behind, manner).run()
    return 0


def command() -> NoReturn:
    run(main)
