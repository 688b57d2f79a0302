"""The command compress-roll: begins a new journal over a new roster, with the open trades of an old one.

    compress-roll ROSTER JOURNAL NEW-ROSTER NEW-JOURNAL [--matured DAY] [--cancel] [--map FILE] [--program FILE]

The old journal is replayed as `compress-audit` does, and the new one made of what that finds: `compress_cli roll` has to write the same
bytes. They go into a file beside the new name, are synced, read again, and compared with the old journal: by names, and by what
`compress_cli replay` tells of both. Then the file gets its name, which no other may have. The old journal is only read, and nobody else
has it meanwhile. A tool that is killed leaves it as it was, and the new one whole or absent.
"""

import os
import subprocess
import tempfile
from argparse import Namespace
from pathlib import Path
from typing import NamedTuple, NoReturn

from . import checker
from .audit import Audit, names_of
from .bases import Base, base_of
from .book import Names
from .client import found_program
from .ending import FILE_FAULT, Stop, read_file, run
from .frames import MOST_BYTES, Damaged, lead_of
from .history import History, Moved
from .placing import give_name, locked, sync_folder
from .rolled import Differs, Told, check_base, numbers_of, told_of
from .rolling import Obstacle, Period, journal_of
from .words import Once, Words, flag, text

STATUSES = range(2, 20)
"""The program's own, which are told as they are."""


def day(word: str) -> str:
    """A day that the calendar has."""
    if not checker.is_day(word.encode()):
        raise ValueError(word)
    return word


def words() -> Words:
    parser = Words(
        "compress-roll",
        "Begins a new journal over a new roster, with the open trades of an old one, whose service has to be stopped. The old "
        "journal stays as it is.",
    )
    parser.add_argument("roster", metavar="ROSTER", type=text, help="the old journal's roster")
    parser.add_argument("journal", metavar="JOURNAL", type=text, help="the old journal")
    parser.add_argument("new_roster", metavar="NEW-ROSTER", type=text, help="the roster of the new journal")
    parser.add_argument("new_journal", metavar="NEW-JOURNAL", type=text, help="the new journal, which may not be there")
    matured = "leave out the trades of products that mature by this day in ROSTER"
    parser.add_argument("--matured", metavar="DAY", action=Once, type=day, help=matured)
    flag(parser, "--cancel", "cancel the open cycle first, also if the journal is full")
    parser.add_argument("--map", metavar="FILE", action=Once, type=text, help="write the old and the new number of each trade, as CSV")
    parser.add_argument("--program", metavar="FILE", action=Once, help="the program that rolls, and replays both")
    return parser


class Rolled(NamedTuple):
    """What was compared: the trades before and after, the numbers of those that went on, and the base of the new journal."""

    before: Told
    after: Told
    numbers: list[tuple[int, int]]
    base: Base

    def __str__(self) -> str:
        left = len(self.before.rows) - len(self.numbers)
        return f"position {self.base.position}: trades {len(self.numbers)}, settings {len(self.base.settings)}; trades left out {left}"


def written_by(program: str, *words: str) -> bytes:
    """What the program writes; stops with its status and line where it has one."""
    try:
        done = subprocess.run([program, *words], stdin=subprocess.DEVNULL, capture_output=True)
    except (OSError, ValueError):
        raise Stop(11, "the program could not be started") from None
    if done.returncode:
        told = done.stderr.decode(errors="replace").rstrip("\n")
        raise Stop(done.returncode if done.returncode in STATUSES else 20, told or f"the program ended with status {done.returncode}")
    return done.stdout


def rolled_by(program: str, given: Namespace) -> bytes:
    """The journal that the program rolls."""
    options = [] if given.matured is None else ["--matured", given.matured]
    if given.cancel:
        options.append("--cancel")
    return written_by(program, "roll", *options, "--", given.roster, given.journal, given.new_roster)


def replay_of(program: str, roster: str, journal: str) -> Told:
    """What the program replays."""
    try:
        return told_of(written_by(program, "replay", "--", roster, journal))
    except ValueError:
        raise Stop(20, "the program told no replay") from None


def new_names_of(name: str) -> Names:
    """The names of the new roster; stops with the line of its first fault."""
    try:
        return names_of(read_file(name, checker.MOST_BYTES + 1))
    except Stop as stop:
        raise (Stop(3, f"new-{stop}") if stop.status == 3 else stop) from None


def history_of(names: Names, journal: str) -> History:
    """The history of a journal, which has to stand for one."""
    try:
        audit = Audit(names, read_file(journal, MOST_BYTES))
        audit.run()
    except Damaged as damaged:
        raise Stop(7, f"damaged at {damaged}") from None
    except Moved as moved:
        raise Stop(1, str(moved)) from None
    return audit.history


def matured_by(names: Names, last: str | None) -> set[str]:
    """The products that mature on this day or earlier."""
    return {name for name, place in names.products.items() if last is not None and names.maturities[place] <= last}


def compared(given: Namespace, program: str, period: Period, new: str) -> Rolled:
    """Compares both journals; stops where the new one is not what it has to be. A CANCEL takes a position too."""
    base = base_of(lead_of(read_file(new, MOST_BYTES)).base)
    before, after = replay_of(program, given.roster, given.journal), replay_of(program, given.new_roster, new)
    try:
        check_base(period.history, period.new, base, period.matured)
        return Rolled(before, after, numbers_of(before, after, period.matured, 1 + period.cancels), base)
    except Differs as difference:
        raise Stop(20, f"the new journal has another {difference}") from None


def write_map(name: str, numbers: list[tuple[int, int]]) -> None:
    """Writes the numbers to the disk, never over a file that is there."""
    try:
        with open(name, "x", encoding="ascii") as file:
            file.write("before,after\n")
            file.writelines(f"{before},{after}\n" for before, after in numbers)
            file.flush()
            os.fsync(file.fileno())
        sync_folder(Path(name).parent)
    except FileExistsError:
        raise Stop(11, f"{name} is there already") from None
    except (OSError, ValueError):
        raise FILE_FAULT from None


def roll(given: Namespace, program: str, status: os.stat_result) -> Rolled:
    """Makes the new journal, with the old one's owner and rights."""
    new = Path(given.new_journal)
    names, new_names = names_of(read_file(given.roster, checker.MOST_BYTES + 1)), new_names_of(given.new_roster)
    period = Period(history_of(names, given.journal), new_names, matured_by(names, given.matured), given.cancel)
    try:
        content = journal_of(period.base())
    except Obstacle as obstacle:
        raise Stop(15, f"cannot roll: {obstacle}") from None
    if rolled_by(program, given) != content:
        raise Stop(20, "the program rolls another journal")
    try:
        place, part = tempfile.mkstemp(prefix=f"{new.name}.", suffix=".part", dir=new.parent)
    except OSError:
        raise FILE_FAULT from None
    try:
        with os.fdopen(place, "wb") as file:
            file.write(content)
            file.flush()
            os.fchown(file.fileno(), status.st_uid, status.st_gid)
            os.fchmod(file.fileno(), status.st_mode & 0o777)
            os.fsync(file.fileno())
        rolled = compared(given, program, period, part)
        if given.map is not None:
            write_map(given.map, rolled.numbers)
        give_name(part, new)
        return rolled
    except OSError:
        raise FILE_FAULT from None
    finally:
        os.unlink(part)


def main(line: list[str]) -> int:
    given = words().parse_args(line)
    program = given.program or found_program()
    if os.path.lexists(given.new_journal):
        raise Stop(11, f"{given.new_journal} is there already")
    with locked(given.journal) as journal:
        rolled = roll(given, program, os.fstat(journal.fileno()))
    print(rolled)
    return 0


def command() -> NoReturn:
    run(main)
