"""How a standby's journal begins: as a copy of its primary's, where that may be read here.

A primary whose journal began again from a base gives no change before it, so nobody can follow it from nothing. Where the primary's
journal begins again while it is read, it is read again. Written from docs/FORMATS.md, "The journal's file".
"""

import os
import tempfile
import time
from pathlib import Path
from typing import Iterator

from .bases import base_of
from .ending import FILE_FAULT, Stop, read_file
from .frames import FIRST_BODY, MOST_BYTES, Damaged, Form, frames_of, lead_of
from .placing import give_name, locked, sync_folder
from .records import BadField, Kind, body_of

TRIES = 10
PAUSE = 0.2
NO_MOMENT = bytes(8)
"""How a NEXT begins a change that has no moment."""


class Copy:
    """A journal's bytes up to its closed gate, and the changes that they have: those from its base's position on, up to an end."""

    def __init__(self, content: bytes) -> None:
        self.content = content
        self.last: bytes | None = None
        """The last change, as a NEXT gives it."""
        try:
            self.lead = lead_of(content)
            self.base = self.end = base_of(self.lead.base).position if self.lead.base else 0
            closed = self.lead.gate
            for at, record, kind in self.body():
                closed = at + 5 + len(record)
                if kind is not Kind.TURN:
                    self.end += 1
                    self.last = record if kind is Kind.DATED else NO_MOMENT + record
        except Damaged as damaged:
            raise Stop(7, f"damaged at {damaged}") from None
        except BadField as fault:
            raise Stop(7, f"damaged at {self.lead.offset}: the base: {fault}") from None
        is_short = self.lead.form in (Form.SHORT, Form.SHORT_SLOTTED)
        self.content = b"" if is_short else content[:closed] + b"\0"

    def body(self) -> Iterator[tuple[int, bytes, Kind]]:
        return body_of(self.lead.base, frames_of(self.content, self.lead))

    def until(self, end: int) -> "Copy":
        """The copy without the changes from this position on."""
        position = self.base
        for at, _, kind in self.body():
            if kind is not Kind.TURN:
                if position == end:
                    return Copy(self.content[:at] + b"\0")
                position += 1
        return self


def copy_of(source: str) -> Copy:
    """The copy of a journal to which somebody may be writing."""
    for _ in range(TRIES):
        content = read_file(source, MOST_BYTES)
        if read_file(source, FIRST_BODY) == content[:FIRST_BODY]:
            return Copy(content)
        time.sleep(PAUSE)
    raise Stop(7, f"{source} begins again each time")


def is_unwritten(journal: Path) -> bool:
    """Whether a journal is not there, or empty."""
    try:
        return journal.stat().st_size == 0
    except FileNotFoundError:
        return True
    except (OSError, ValueError):
        raise FILE_FAULT from None


def own_like(place: int, journal: Path) -> None:
    """Gives a file the owner and the rights of the empty one in whose stead it comes, or those of a new file."""
    if journal.exists():
        status = journal.stat()
        os.fchown(place, status.st_uid, status.st_gid)
        os.fchmod(place, status.st_mode & 0o777)
    else:
        mask = os.umask(0)
        os.umask(mask)
        os.fchmod(place, 0o666 & ~mask)


def place_whole(part: str, journal: Path) -> None:
    """Gives a whole file the journal's name, which no file may have that has a byte, or is somebody else's."""
    if not journal.exists():
        give_name(part, journal)
        return
    with locked(str(journal)):
        if not is_unwritten(journal):
            raise Stop(11, f"{journal} is there already")
        os.replace(part, journal)
        sync_folder(journal.parent)


def begin_as(content: bytes, journal: Path) -> None:
    """Makes a journal that is not there or empty one with this content. It is whole, or as it was."""
    try:
        place, part = tempfile.mkstemp(prefix=f"{journal.name}.", suffix=".part", dir=journal.parent)
    except (OSError, ValueError):
        raise FILE_FAULT from None
    try:
        with os.fdopen(place, "wb") as file:
            file.write(content)
            file.flush()
            own_like(file.fileno(), journal)
            os.fsync(file.fileno())
        place_whole(part, journal)
    except OSError:
        raise FILE_FAULT from None
    finally:
        if os.path.exists(part):
            os.unlink(part)
