"""A disk of which one chosen write fails or is held, and whose power can be cut, for the tests: an ext4 over `failing_device`."""

import contextlib
import fcntl
import functools
import json
import os
import shutil
import struct
import subprocess
import tempfile
import unittest
from pathlib import Path
from typing import Any, NamedTuple

from running import PATIENCE, TOOLS, run
from test_packaging import python_with

PAGE = 4096
BYTES = 32 << 20
MODULES = ("pyfuse3", "trio")
COMMANDS = ("fallocate", "mkfs.ext4", "mount", "umount", "unshare")
DEVICES = (Path("/dev/fuse"), Path("/dev/loop-control"))

FS_IOC_FIEMAP = 0xC020660B
MAP_HEAD, MAP_ROW = struct.Struct("=QQLLLL"), struct.Struct("=QQQ16xL12x")
"""Of the map of a file's extents: start, size, flags, how many are given, for how many there is room; and of each its places."""
AFTER_A_SYNC = 1
MOST_EXTENTS = 100
EXT4_IOC_SHUTDOWN = 0x8004587D
WITHOUT_A_FLUSH = struct.pack("=L", 2)


@functools.cache
def want_a_machine() -> str:
    """The Python that serves a device; if this machine can't have one, skips."""
    if os.geteuid() != 0:
        raise unittest.SkipTest("only root can mount a disk")
    for device in DEVICES:
        try:
            os.close(os.open(device, os.O_RDWR))
        except OSError as fault:
            raise unittest.SkipTest(f"no {device}: {fault.strerror}") from None
    for command in COMMANDS:
        if shutil.which(command) is None:
            raise unittest.SkipTest(f"no {command}")
    if run(["unshare", "--mount", "true"]).status != 0:
        raise unittest.SkipTest("no mounts of a program's own")
    return python_with(*MODULES)


@functools.cache
def empty_disk() -> bytes:
    """The bytes of an ext4 without files, with blocks of a page."""
    with tempfile.NamedTemporaryFile() as image:
        image.truncate(BYTES)
        subprocess.run(["mkfs.ext4", "-q", "-F", "-b", str(PAGE), "-E", "lazy_itable_init=0,lazy_journal_init=0", image.name], check=True)
        return Path(image.name).read_bytes()


class Extent(NamedTuple):
    """Pages of a file that lie together on its disk: the first page, its block, and how many there are."""

    page: int
    block: int
    pages: int

    def has(self, page: int) -> bool:
        return 0 <= page - self.page < self.pages


def extents_of(file: Path) -> list[Extent]:
    """Where the file lies on its disk."""
    place = os.open(file, os.O_RDONLY)
    try:
        asked = bytearray(MAP_HEAD.pack(0, (1 << 64) - 1, AFTER_A_SYNC, 0, MOST_EXTENTS, 0).ljust(MAP_HEAD.size + MOST_EXTENTS * MAP_ROW.size, b"\0"))
        fcntl.ioctl(place, FS_IOC_FIEMAP, asked)
    finally:
        os.close(place)
    count = MAP_HEAD.unpack_from(asked)[3]
    rows = [MAP_ROW.unpack_from(asked, MAP_HEAD.size + row * MAP_ROW.size) for row in range(count)]
    return [Extent(at // PAGE, block // PAGE, size // PAGE) for at, block, size, _ in rows]


class FailingDisk:
    """The disk, from its making to `close`. What stands in `folder` stands on it."""

    def __init__(self, folder: Path) -> None:
        python, image = want_a_machine(), folder / "image"
        image.write_bytes(empty_disk())
        # (all mounts are in a namespace of their own: they end with the device, and no other program keeps a disk that was shut down)
        words: list[str | Path] = ["unshare", "--mount", "--fork", python, TOOLS / "tests/failing_device.py", image, folder]
        self.server = subprocess.Popen(words, stdin=subprocess.PIPE, stdout=subprocess.PIPE, text=True)
        self.folder = Path(f"/proc/{self.server.pid}/root{folder}/disk")
        try:
            self.order("mount")
        except OSError as fault:
            self.close()
            raise unittest.SkipTest(f"no disk can be mounted: {fault}") from None

    def order(self, *words: Any) -> bool:
        """Has the device obey; whether the chosen write has come."""
        assert self.server.stdin is not None and self.server.stdout is not None
        with contextlib.suppress(BrokenPipeError):
            self.server.stdin.write(json.dumps(words) + "\n")
            self.server.stdin.flush()
        line = self.server.stdout.readline()
        if not line:
            raise RuntimeError("the device has ended")
        answer = json.loads(line)
        if isinstance(answer, dict):
            raise OSError(answer["fault"])
        return bool(answer)

    def choose(self, file: Path, page: int | None, number: int, is_held: bool) -> None:
        extents = extents_of(file)
        blocks = [(it.block, it.pages) for it in extents] if page is None else [(it.block + page - it.page, 1) for it in extents if it.has(page)]
        if not blocks:
            raise ValueError(f"{file} has no page {page}")
        self.order("choose", blocks, number, is_held)

    def fail(self, file: Path, page: int | None = None, number: int = 1) -> None:
        """Has a write fail: the one with this number, from now on, of those that touch the file, or this page of it."""
        self.choose(file, page, number, False)

    def hold(self, file: Path, page: int | None = None, number: int = 1) -> None:
        """Has a write be held until it is let go, or the plug is pulled."""
        self.choose(file, page, number, True)

    @property
    def has_come(self) -> bool:
        """Whether the chosen write has come."""
        return self.order("come")

    def let_go(self) -> None:
        self.order("let", False)

    def pull_plug(self) -> None:
        """A write that is held fails, and then nothing comes to the disk any more."""
        self.order("let", True)
        place = os.open(self.folder, os.O_RDONLY)
        try:
            fcntl.ioctl(place, EXT4_IOC_SHUTDOWN, WITHOUT_A_FLUSH)
        finally:
            os.close(place)

    def plug_in(self) -> None:
        """Begins with what a cut of the power left. Nobody may have a file of the disk open."""
        for order in ("unmount", "cut", "mount"):
            self.order(order)

    def cut_power(self) -> None:
        self.pull_plug()
        self.plug_in()

    def close(self) -> None:
        self.server.communicate(timeout=PATIENCE)
