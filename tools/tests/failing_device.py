"""A disk of which one chosen write fails or is held, and whose power can be cut: a program of its own, with orders on its input.

    failing_device.py IMAGE FOLDER

FOLDER/device/image is the one file of a file system of our own. It begins with IMAGE's bytes, and stands in memory. The ext4 in it is
mounted at FOLDER/disk, over a loop device. What is written stays in the device's cache until a flush; a cut of the power loses what is
there. An order is a list as JSON in a line, and is answered by a line. When the input ends, the disk is unmounted.
"""

import errno
import json
import os
import stat
import sys
from pathlib import Path
from typing import Any

import pyfuse3
import trio

BLOCK = 4096
NAME = b"image"
FILE = pyfuse3.ROOT_INODE + 1
AN_HOUR = 3600


class Image:
    """A device's bytes: as they are read, and as a cut of the power leaves them."""

    def __init__(self, content: bytes) -> None:
        self.read, self.kept = bytearray(content), bytearray(content)
        self.cached: set[int] = set()
        """The blocks that were written since the last flush."""

    def write(self, at: int, content: bytes) -> None:
        self.read[at : at + len(content)] = content
        self.cached.update(blocks_of(at, content))

    def settle(self, source: bytearray, target: bytearray) -> None:
        """Makes the cached blocks of the one state what they are in the other."""
        for block in self.cached:
            place = slice(block * BLOCK, (block + 1) * BLOCK)
            target[place] = source[place]
        self.cached.clear()

    def flush(self) -> None:
        self.settle(self.read, self.kept)

    def cut(self) -> None:
        self.settle(self.kept, self.read)


def blocks_of(at: int, content: bytes) -> range:
    return range(at // BLOCK, -(-(at + len(content)) // BLOCK))


class Choice:
    """Which write is chosen: the one with a number, of those that touch certain blocks, counted from the choice on."""

    def __init__(self) -> None:
        self.extents: list[range] = []
        self.left = 0
        """How many such writes there are up to the chosen one; 0 if it has come, or none is chosen."""
        self.has_come = False
        self.does_fail = True
        self.let_go = trio.Event()

    def choose(self, extents: list[list[int]], number: int, is_held: bool) -> None:
        """Has a write fail: at once, or when it is let go."""
        self.extents = [range(first, first + count) for first, count in extents]
        self.left, self.has_come, self.does_fail, self.let_go = number, False, True, trio.Event()
        if not is_held:
            self.let_go.set()

    def let(self, does_fail: bool) -> None:
        self.does_fail = does_fail
        self.let_go.set()

    async def fails(self, blocks: range) -> bool:
        """Counts a write to these blocks; whether it fails."""
        if self.left == 0 or not any(block in extent for extent in self.extents for block in blocks):
            return False
        self.left -= 1
        if self.left > 0:
            return False
        self.has_come = True
        await self.let_go.wait()
        return self.does_fail


class Served(pyfuse3.Operations):
    """The file system whose one file is the image. The kernel keeps no pages of it, so each block that is read or written comes here."""

    def __init__(self, image: Image, choice: Choice) -> None:
        super().__init__()
        self.image, self.choice = image, choice

    async def getattr(self, inode: int, _: Any = None) -> Any:
        found = pyfuse3.EntryAttributes()
        found.st_ino = inode
        found.st_mode = stat.S_IFREG | 0o600 if inode == FILE else stat.S_IFDIR | 0o700
        found.st_size = len(self.image.read) if inode == FILE else 0
        found.attr_timeout = found.entry_timeout = AN_HOUR
        return found

    async def lookup(self, _: int, name: bytes, context: Any = None) -> Any:
        if name != NAME:
            raise pyfuse3.FUSEError(errno.ENOENT)
        return await self.getattr(FILE, context)

    async def open(self, inode: int, *_: Any) -> Any:
        return pyfuse3.FileInfo(fh=inode, direct_io=True)

    async def read(self, _: int, at: int, size: int) -> bytes:
        return bytes(self.image.read[at : at + size])

    async def write(self, _: int, at: int, content: bytes) -> int:
        if await self.choice.fails(blocks_of(at, content)):
            raise pyfuse3.FUSEError(errno.EIO)
        self.image.write(at, content)
        return len(content)

    async def flush(self, _: int) -> None:
        pass

    async def fsync(self, *_: Any) -> None:
        self.image.flush()

    async def release(self, _: int) -> None:
        pass


class Orders:
    """What is ordered: `choose EXTENTS NUMBER IS-HELD`, `let DOES-FAIL`, `come`, `mount`, `unmount`, `cut`."""

    def __init__(self, image: Image, choice: Choice, folder: Path) -> None:
        self.image, self.choice = image, choice
        self.file, self.disk = folder / "device" / os.fsdecode(NAME), folder / "disk"

    async def obeyed(self, order: str, *words: Any) -> object:
        """Does what is ordered; whether the chosen write has come, or why it can't be done."""
        if order == "choose":
            self.choice.choose(*words)
        elif order == "let":
            self.choice.let(*words)
        elif order == "cut":
            self.image.cut()
        elif order != "come":
            call = ["umount", self.disk] if order == "unmount" else ["mount", "-t", "ext4", "-o", "loop", self.file, self.disk]
            done = await trio.run_process(call, check=False, capture_stderr=True)
            if done.returncode != 0:
                return {"fault": done.stderr.decode(errors="replace").strip()}
        return self.choice.has_come

    async def run(self) -> None:
        """Obeys until the input ends, or nobody reads the answers. Then the disk is unmounted while its file is still served."""
        rest = b""
        try:
            async for piece in trio.lowlevel.FdStream(os.dup(0)):
                *lines, rest = (rest + piece).split(b"\n")
                for line in lines:
                    print(json.dumps(await self.obeyed(*json.loads(line))), flush=True)
        finally:
            self.choice.let(does_fail=True)
            await trio.run_process(["umount", self.disk], check=False)
            os._exit(0)


async def serve(orders: Orders) -> None:
    async with trio.open_nursery() as nursery:
        nursery.start_soon(pyfuse3.main)
        nursery.start_soon(orders.run)


def main(name: str, folder: str) -> None:
    image, choice = Image(Path(name).read_bytes()), Choice()
    orders = Orders(image, choice, Path(folder))
    for place in (orders.file.parent, orders.disk):
        place.mkdir()
    pyfuse3.init(Served(image, choice), str(orders.file.parent), {*pyfuse3.default_options, "fsname=failing"})
    trio.run(serve, orders)


if __name__ == "__main__":
    main(*sys.argv[1:])
