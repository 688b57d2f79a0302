"""The command compress-restore: puts a copy of a journal, and its roster, in a service's or a standby's place.

    compress-restore [--roster ROSTER] [--seed] [--state FOLDER] [--settings FOLDER] [--program FILE] COPY

The copy is checked first: it is read as `compress-audit` reads it, and `compress_cli replay` has to report the same of it. It gets the
owner of the folder that it goes into, so that the unit's user can open it. Nobody has the journal meanwhile, and what was in place is
kept beside it. A tool that is killed leaves the journal as it was or as the copy is, and in both cases the old one has a name.
"""

import os
import tempfile
import time
from argparse import Namespace
from contextlib import ExitStack
from pathlib import Path
from typing import NamedTuple, NoReturn

from . import checker
from .audit import names_of
from .client import found_program
from .copies import JOURNAL, ROSTER, SUMS, about, backup_in, bytes_of, position_of, replayed
from .ending import Stop, run
from .frames import MOST_BYTES, Damaged
from .history import Moved
from .placing import give_name, locked, sync_folder
from .roll import written_by
from .seed import Copy
from .words import Once, Words, flag, text

STATE, SETTINGS = "/var/lib/delkwoan", "/etc/delkwoan"
"""The folders of the units."""


class Placed(NamedTuple):
    """A file that gets a place: its bytes, its owner and its rights."""

    place: Path
    content: bytes
    user: int
    group: int
    rights: int


def report_of(roster: Path, journal: Path) -> str:
    """What a journal is that is in place: its position, or that its roster can't replay it."""
    try:
        return f"position {position_of(replayed(bytes_of(roster, checker.MOST_BYTES + 1), bytes_of(journal, MOST_BYTES)))}"
    except (Damaged, Moved, Stop):
        return "not replayed"


def written(file: Placed) -> str:
    """Writes a file beside its place, on the disk with its owner and its rights; its name."""
    with about(file.place):
        number, part = tempfile.mkstemp(prefix=f"{file.place.name}.", suffix=".part", dir=file.place.parent)
        with os.fdopen(number, "wb") as opened:
            opened.write(file.content)
            opened.flush()
            if (file.user, file.group) != (os.geteuid(), os.getegid()):
                os.fchown(number, file.user, file.group)
            os.fchmod(number, file.rights)
            os.fsync(number)
    return part


def kept_aside(place: Path, moment: str) -> Path:
    """Gives what is in place a second name, which no other file may have."""
    aside = place.with_name(f"{place.name}.before-{moment}")
    give_name(str(place), aside)
    return aside


def put(part: str, place: Path, moment: str) -> Path | None:
    """Puts a whole file in place; the name under which what was there is kept."""
    with about(place):
        if not place.exists():
            give_name(part, place)
            return None
        aside = kept_aside(place, moment)
        os.replace(part, place)
        sync_folder(place.parent)
        return aside


def make_folder(folder: Path, rights: int) -> None:
    """Makes a folder that is not there, and keeps its name on the disk."""
    if not folder.exists():
        make_folder(folder.parent, 0o777)
        folder.mkdir(mode=rights, exist_ok=True)
        sync_folder(folder.parent)


class Restore:
    """A copy that is put in place: what is given, and what was found."""

    def __init__(self, given: Namespace) -> None:
        self.given = given
        self.journal = Path(given.state) / "journal"
        self.place_of_copy = Path(given.state) / "seed" if given.seed else self.journal
        self.roster = Path(given.settings) / "roster.csv"
        self.moment = time.strftime("%Y%m%dT%H%M%SZ", time.gmtime())

    def journal_file(self, content: bytes) -> Placed:
        """The copy, which is its folder's owner's alone. If there is no folder yet, it is made, and the unit makes it its own."""
        folder = self.journal.parent
        with about(folder):
            make_folder(folder, 0o700)
            status = folder.stat()
        return Placed(self.place_of_copy, content, status.st_uid, status.st_gid, 0o600)

    def roster_file(self, content: bytes) -> Placed:
        """The roster, which is as that was in its place, or root's alone."""
        with about(self.roster.parent):
            make_folder(self.roster.parent, 0o755)
            status = self.roster.stat() if self.roster.exists() else None
        if status is None:
            return Placed(self.roster, content, os.geteuid(), os.getegid(), 0o600)
        return Placed(self.roster, content, status.st_uid, status.st_gid, status.st_mode & 0o777)

    def checked(self, part: str, roster: str, due: list[str]) -> None:
        """Stops if the program replays something else than the tools do."""
        with about(self.given.copy):
            if written_by(self.given.program or found_program(), "replay", "--", roster, part) != "".join(due).encode():
                raise Stop(20, "the program replays another history")

    def run(self) -> list[str]:
        """Puts both in place; the lines to print."""
        named = self.given.roster or self.roster
        roster, content = bytes_of(named, checker.MOST_BYTES + 1), bytes_of(self.given.copy, MOST_BYTES)
        with about(named):
            names_of(roster)
        with about(self.given.copy):
            content = Copy(content).content if self.given.seed else content
            due = replayed(roster, content)
        with ExitStack() as stack:
            if self.journal.exists():
                stack.enter_context(locked(str(self.journal)))
            lines = self.place(roster, content, due)
        return lines

    def moved_aside(self) -> Path | None:
        """Gives the journal in place, if there is one, another name, so that the standby begins with the seed."""
        with about(self.journal):
            if not self.journal.exists():
                return None
            aside = kept_aside(self.journal, self.moment)
            self.journal.unlink()
            sync_folder(self.journal.parent)
        return aside

    def place(self, roster: bytes, content: bytes, due: list[str]) -> list[str]:
        parts: list[str] = []
        try:
            parts.append(written(self.journal_file(content)))
            self.checked(parts[0], str(self.given.roster or self.roster), due)
            was = report_of(self.roster, self.journal) if self.journal.exists() else ""
            lines: list[str] = []
            if not self.roster.exists() or bytes_of(self.roster, checker.MOST_BYTES + 1) != roster:
                parts.append(written(self.roster_file(roster)))
                aside = put(parts[1], self.roster, self.moment)
                lines.append(f"{self.roster}: {self.given.roster}" + (f"; before: {aside}" if aside else ""))
            aside = put(parts[0], self.place_of_copy, self.moment)
            if self.given.seed:
                aside = self.moved_aside()
            lines.append(f"{self.place_of_copy}: position {position_of(due)}" + (f"; before: {aside}, {was}" if aside else ""))
            return lines
        finally:
            for part in parts:
                if os.path.exists(part):
                    os.unlink(part)


def words() -> Words:
    parser = Words(
        "compress-restore",
        "Puts a copy of a journal in the place of a service's or a standby's, which has to be stopped, once the tools and the program "
        "have read the same in it. What was in place is kept beside it.",
    )
    parser.add_argument("--roster", metavar="ROSTER", action=Once, type=text, help="the copy's roster, which is put in place too; if it is absent, the one in place")
    flag(parser, "--seed", "put the copy beside the journal's place, as seed, for a standby that begins with it; a journal in place gets another name")
    parser.add_argument("--state", metavar="FOLDER", action=Once, type=text, default=STATE, help=f"the folder of the journal; if it is absent, {STATE}")
    parser.add_argument("--settings", metavar="FOLDER", action=Once, type=text, default=SETTINGS, help=f"the folder of roster.csv; if it is absent, {SETTINGS}")
    parser.add_argument("--program", metavar="FILE", action=Once, help="the program that replays the copy")
    parser.add_argument("copy", metavar="COPY", type=text, help="the copy of a journal, or a backup with its roster")
    return parser


def without_backup(given: Namespace) -> Namespace:
    """The words with a backup's own files in its place, if a backup is given. Each has to have its SHA-256."""
    folder = Path(given.copy)
    if (folder / SUMS).exists():
        backup_in(folder)
        given.copy, given.roster = str(folder / JOURNAL), given.roster or str(folder / ROSTER)
    return given


def main(line: list[str]) -> int:
    for report in Restore(without_backup(words().parse_args(line))).run():
        print(report)
    return 0


def command() -> NoReturn:
    run(main)
