"""A backup: a folder with the copy of a journal, its roster, its position, and the SHA-256 of each.

SHA256SUMS has the form of the command of this name in lower case, which can check it too. A folder of backups has one for each moment.
"""

import hashlib
import os
import re
import shutil
import tempfile
from contextlib import contextmanager
from pathlib import Path
from typing import Iterator, NamedTuple

from .audit import Audit, names_of
from .ending import Stop
from .frames import MOST_BYTES, Damaged, Form, lead_of
from .history import Moved
from .placing import sync_folder
from .roll import written_by

JOURNAL, ROSTER, POSITION, SUMS = "journal", "roster.csv", "position", "SHA256SUMS"
FILES = (JOURNAL, ROSTER, POSITION)
NAME = re.compile(r"\d{8}T\d{6}Z")
"""A backup's folder is named by its moment, in UTC: so their names stand in the order of time."""


@contextmanager
def about(name: str | Path) -> Iterator[None]:
    """Has each fault say which file it is of, and why."""
    try:
        yield
    except Stop as stop:
        raise Stop(stop.status, f"{name}: {stop.line}") from None
    except Damaged as damaged:
        raise Stop(7, f"{name}: damaged at {damaged}") from None
    except Moved as moved:
        raise Stop(1, f"{name}: {moved}") from None
    except (OSError, ValueError) as fault:
        raise Stop(11, f"{name}: {getattr(fault, 'strerror', None) or fault}") from None


def bytes_of(name: str | Path, most: int) -> bytes:
    with about(name), open(name, "rb") as file:
        return file.read(most)


def replayed(roster: bytes, journal: bytes) -> list[str]:
    """What the tools replay of a journal, which has to encode a history of the roster."""
    if lead_of(journal).form in (Form.SHORT, Form.SHORT_SLOTTED):
        raise Stop(7, "no journal: it has no change")
    audit = Audit(names_of(roster), journal)
    audit.run()
    return [f"{line}\n" for line in audit.history.lines()]


def position_of(lines: list[str]) -> int:
    return int(lines[-1].removeprefix("end "))


class Backup(NamedTuple):
    """A copy with its roster, and the position that it is said to have."""

    roster: bytes
    journal: bytes
    position: int

    def files(self) -> dict[str, bytes]:
        found = {JOURNAL: self.journal, ROSTER: self.roster, POSITION: f"{self.position}\n".encode()}
        return {**found, SUMS: "".join(f"{digest_of(found[name])}  {name}\n" for name in FILES).encode()}


def digest_of(content: bytes) -> str:
    return hashlib.sha256(content).hexdigest()


def backup_in(folder: Path) -> Backup:
    """The backup in a folder, whose files are as they were written; stops with the first that is missing or is another one."""
    sums = bytes_of(folder / SUMS, 1 << 16).decode(errors="replace").splitlines()
    files = {name: bytes_of(folder / name, MOST_BYTES) for name in FILES}
    for name, content in files.items():
        if f"{digest_of(content)}  {name}" not in sums:
            raise Stop(7, f"{folder / name}: its SHA-256 is not the one in {SUMS}")
    with about(folder / POSITION):
        return Backup(files[ROSTER], files[JOURNAL], int(files[POSITION]))


def check(backup: Backup, program: str, folder: Path) -> None:
    """Stops if a backup, which stands in this folder, is not replayed alike by the tools and the program up to its position."""
    with about(folder / JOURNAL):
        lines = replayed(backup.roster, backup.journal)
        if written_by(program, "replay", "--", str(folder / ROSTER), str(folder / JOURNAL)) != "".join(lines).encode():
            raise Stop(20, "the program replays another history")
        if position_of(lines) != backup.position:
            raise Stop(7, f"its position is {position_of(lines)}, and not {backup.position}")


def backups_in(folder: Path) -> list[Path]:
    """The backups of a folder, from the oldest on; or the one that it is."""
    if (folder / SUMS).exists():
        return [folder]
    with about(folder):
        return sorted(path for path in folder.iterdir() if NAME.fullmatch(path.name) and path.is_dir())


def write_backup(backup: Backup, folder: Path, program: str) -> None:
    """Writes a backup, and gives it its name once it is on the disk, and was read again and replayed."""
    with about(folder):
        folder.parent.mkdir(mode=0o700, parents=True, exist_ok=True)
        part = Path(tempfile.mkdtemp(prefix=f"{folder.name}.", suffix=".part", dir=folder.parent))
    try:
        with about(folder):
            for name, content in backup.files().items():
                with open(os.open(part / name, os.O_WRONLY | os.O_CREAT | os.O_EXCL, 0o600), "wb") as file:
                    file.write(content)
                    file.flush()
                    os.fsync(file.fileno())
            sync_folder(part)
        check(backup_in(part), program, part)
        with about(folder):
            part.rename(folder)
            sync_folder(folder.parent)
    finally:
        shutil.rmtree(part, ignore_errors=True)
