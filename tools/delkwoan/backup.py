"""The command compress-backup: copies a journal beside its running service, with its roster, and checks the copy.

    compress-backup [--roster ROSTER] [--journal JOURNAL] [--keep N] [--program FILE] FOLDER

What is copied is on the service's disk: the tool syncs the journal after it has read it. The copy ends with its last whole change. It is
replayed by the tools and by the program before it gets its name. A tool that is killed leaves a whole backup or none.
"""

import os
import shutil
import time
from pathlib import Path
from typing import NoReturn

from . import checker
from .client import found_program
from .copies import Backup, about, backup_in, backups_in, bytes_of, position_of, replayed, write_backup
from .ending import Stop, run
from .restore import SETTINGS, STATE
from .seed import copy_of
from .words import Once, Words, text

MOST_KEPT = 100_000


def kept_of(word: str) -> int:
    if not (word.isascii() and word.isdigit() and not word.startswith("0") and int(word) <= MOST_KEPT):
        raise ValueError(word)
    return int(word)


def synced_copy(journal: str) -> bytes:
    """The bytes of a journal up to its last whole change, all of which are on its disk."""
    with about(journal), open(journal, "rb") as file:
        content = copy_of(journal).content
        os.fsync(file.fileno())
        return content


def thin_out(folder: Path, kept: int) -> int:
    """Removes all but the newest backups; how many were removed."""
    old = backups_in(folder)[:-kept]
    for path in old:
        with about(path):
            shutil.rmtree(path)
    return len(old)


def newest_position(folder: Path) -> int:
    """The position of the newest backup; 0 if there is none."""
    found = backups_in(folder) if folder.exists() else []
    return backup_in(found[-1]).position if found else 0


def words() -> Words:
    parser = Words(
        "compress-backup",
        "Copies a journal beside its running service, with its roster, position and SHA-256, once the tools and the program have read the "
        "same in the copy.",
    )
    roster = f"the journal's roster; if it is absent, {SETTINGS}/roster.csv"
    parser.add_argument("--roster", metavar="ROSTER", action=Once, type=text, default=f"{SETTINGS}/roster.csv", help=roster)
    journal = f"the journal; if it is absent, {STATE}/journal"
    parser.add_argument("--journal", metavar="JOURNAL", action=Once, type=text, default=f"{STATE}/journal", help=journal)
    kept = "remove all backups in FOLDER but the newest N; if it is absent, none is removed"
    parser.add_argument("--keep", metavar="N", action=Once, type=kept_of, help=kept)
    parser.add_argument("--program", metavar="FILE", action=Once, help="the program that replays the copy")
    parser.add_argument("folder", metavar="FOLDER", type=text, help="the folder of the backups, each in a folder named by its moment")
    return parser


def main(line: list[str]) -> int:
    given = words().parse_args(line)
    folder = Path(given.folder)
    roster = bytes_of(given.roster, checker.MOST_BYTES + 1)
    content = synced_copy(given.journal)
    with about(given.journal):
        position = position_of(replayed(roster, content))
    if position < (newest := newest_position(folder)):
        raise Stop(7, f"{given.journal}: its position is {position}, and that of the newest backup {newest}: it is an older or another market's")
    place = folder / time.strftime("%Y%m%dT%H%M%SZ", time.gmtime())
    write_backup(Backup(roster, content, position), place, given.program or found_program())
    removed = 0 if given.keep is None else thin_out(folder, given.keep)
    print(f"{place}: position {position}" + (f"; removed {removed}" if removed else ""))
    return 0


def command() -> NoReturn:
    run(main)
