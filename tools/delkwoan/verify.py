"""The command compress-verify: whether backups are as compress-backup wrote them.

    compress-verify [--program FILE] FOLDER

Each file has to have its SHA-256, the tools and the program have to replay the same up to the position that was written down, and no
backup may have a lower position than the one before it. All are looked at, and the first fault gives the status.
"""

from pathlib import Path
from typing import NoReturn

from .client import found_program
from .copies import backup_in, backups_in, check
from .ending import Stop, run
from .words import Once, Words, text


def words() -> Words:
    parser = Words("compress-verify", "Checks that backups have the bytes that were written, and are replayed up to their positions.")
    parser.add_argument("--program", metavar="FILE", action=Once, help="the program that replays the copies")
    parser.add_argument("folder", metavar="FOLDER", type=text, help="a backup, or a folder of backups")
    return parser


def position_after(folder: Path, program: str, before: int) -> int:
    """The position of a backup, which is at least that of the one before."""
    backup = backup_in(folder)
    check(backup, program, folder)
    if backup.position < before:
        raise Stop(7, f"{folder}: its position is {backup.position}, and that of the backup before it {before}")
    return backup.position


def main(line: list[str]) -> int:
    given = words().parse_args(line)
    folders = backups_in(Path(given.folder))
    if not folders:
        raise Stop(11, f"{given.folder}: no backup")
    faults: list[Stop] = []
    position = 0
    for folder in folders:
        try:
            position = position_after(folder, given.program or found_program(), position)
            print(f"{folder}: position {position}")
        except Stop as fault:
            faults.append(fault)
            print(fault.line)
    if faults:
        raise Stop(faults[0].status, f"{len(faults)} of {len(folders)} backups have a fault; the first: {faults[0].line}")
    return 0


def command() -> NoReturn:
    run(main)
