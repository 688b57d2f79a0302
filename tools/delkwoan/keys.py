"""The keys of a roster, and the command compress-keys, which writes a roster with new ones.

A key has 1 to 16 of the signs `A-Z`, `0-9` and `-`. Whoever reaches a service may try one key after another, so a key has to be long and
random: 16 letters and digits, drawn evenly, are one of 36^16, which is more than 2^82.
"""

import os
import secrets
import string
from pathlib import Path
from typing import Callable, NoReturn

from . import checker
from .ending import FILE_FAULT, Stop, read_file, run
from .placing import sync_folder
from .words import Words, text

LETTERS = string.ascii_uppercase + string.digits
LENGTH = 16
"""How long a key may be at most, and a new one is."""
HEADER = "name,role,key"


def new_key() -> str:
    return "".join(secrets.choice(LETTERS) for _ in range(LENGTH))


def rows_of(roster: bytes) -> list[list[str]]:
    """The rows of a roster, each a name, a role and a key, or of a product its maturity; raises a Fault if it is no roster."""
    checker.read_roster(roster)
    return [[field.decode() for field in fields] for _, fields in checker.rows_of("roster", roster, [b"name", b"role", b"key"])]


def with_keys(roster: bytes, key_of: Callable[[str, str], str]) -> str:
    """A roster whose names have other keys, by their names and the keys that they have."""
    rows = [[name, role, key if role == "product" else key_of(name, key)] for name, role, key in rows_of(roster)]
    return "".join(f"{line}\n" for line in (HEADER, *(",".join(row) for row in rows)))


def public_roster(roster: bytes) -> str:
    """A roster for everybody: each name has a new key that nobody knows. If it is served by mistake, nobody gets in."""
    return with_keys(roster, lambda *_: new_key())


def weak_keys(roster: bytes) -> list[str]:
    """The names whose keys can be guessed: they are shorter than the longest, or those of several names."""
    keys = {name: key for name, role, key in rows_of(roster) if role != "product"}
    shared = {key for key in keys.values() if list(keys.values()).count(key) > 1}
    return [name for name, key in keys.items() if len(key) < LENGTH or key in shared]


def words() -> Words:
    parser = Words("compress-keys", "Writes a roster with a new random key for each member and the operator, or for those that are named.")
    parser.add_argument("roster", metavar="ROSTER", type=text, help="the members, the products and the operator")
    parser.add_argument("new_roster", metavar="NEW-ROSTER", type=text, help="the file that is written, which only its owner may read")
    parser.add_argument("names", metavar="NAME", type=text, nargs="*", help="who gets a new key; everybody if none is named")
    return parser


def write(path: Path, content: str) -> None:
    """Writes a file that is not there yet, for its owner alone."""
    try:
        file = os.open(path, os.O_WRONLY | os.O_CREAT | os.O_EXCL, 0o600)
    except FileExistsError:
        raise Stop(11, f"{path} is there already") from None
    except OSError:
        raise FILE_FAULT from None
    try:
        with open(file, "w", encoding="utf-8") as opened:
            opened.write(content)
            opened.flush()
            os.fsync(file)
        sync_folder(path.parent)
    except OSError:
        path.unlink(missing_ok=True)
        raise FILE_FAULT from None


def main(line: list[str]) -> int:
    given = words().parse_args(line)
    try:
        roster = read_file(given.roster, checker.MOST_BYTES + 1)
        named = [name for name, role, _ in rows_of(roster) if role != "product"]
        absent = [name for name in given.names if name not in named]
        if absent:
            raise Stop(3, f"roster: no member or operator {absent[0]}")
        chosen = given.names or named
        write(Path(given.new_roster), with_keys(roster, lambda name, key: new_key() if name in chosen else key))
    except checker.Fault as fault:
        raise Stop(3, str(fault)) from None
    print(f"new keys: {len(chosen)} of {len(named)}")
    return 0


def command() -> NoReturn:
    run(main)
