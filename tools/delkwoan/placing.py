"""Files that no two programs may have, and names that are given once."""

import errno
import fcntl
import os
from pathlib import Path
from typing import BinaryIO

from .ending import FILE_FAULT, Stop


def settle(file: BinaryIO) -> None:
    """Has reads give what the disk has: after a failed write the system goes on with its own copy of the page."""
    try:
        os.fsync(file.fileno())
    except OSError as fault:
        if fault.errno != errno.EINVAL:
            raise
        # (a file system that is only for reading knows no sync)
    os.posix_fadvise(file.fileno(), 0, 0, os.POSIX_FADV_DONTNEED)


def locked(name: str) -> BinaryIO:
    """A file that no other program has, as a service has its journal, until it is closed; what is read of it is on the disk."""
    try:
        file = open(name, "rb")
    except (OSError, ValueError):
        raise Stop(6, "disk fault") from None
    try:
        fcntl.flock(file, fcntl.LOCK_EX | fcntl.LOCK_NB)
        settle(file)
    except OSError as fault:
        file.close()
        raise Stop(6, f"{name} is in use" if isinstance(fault, BlockingIOError) else "disk fault") from None
    return file


def sync_folder(folder: Path) -> None:
    place = os.open(folder, os.O_RDONLY)
    try:
        os.fsync(place)
    finally:
        os.close(place)


def give_name(part: str, new: Path) -> None:
    """Gives a whole file its name, which no other file may have."""
    try:
        os.link(part, new)
        sync_folder(new.parent)
    except FileExistsError:
        raise Stop(11, f"{new} is there already") from None
    except OSError:
        raise FILE_FAULT from None
