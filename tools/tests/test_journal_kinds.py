"""Each form that reads a journal, given files that are none or no regular ones: it ends at once, and within one figure of memory."""

import os
import sys
import tempfile
import unittest
from pathlib import Path
from typing import Callable, NamedTuple

from running import EXAMPLES, TOOLS, Ran, program, run
from serving import free_port, has_serve

ROSTER = EXAMPLES / "roster.csv"
MEMORY_OF = TOOLS / "tests/memory_of.py"
EMPTY_JOURNAL = b"OTCJRNL1\0"
SLOTTED = bytes.fromhex("4f54434a524e4c43 00 1900000000000000 0000000000000000 00000000 00")
LONG_BASE = SLOTTED[:25] + b"\xff\xff\xff\xff"
FAR_BASE = SLOTTED[:9] + b"\xff" * 8 + SLOTTED[17:]
SPARSE_SIZE = 3_000_000_000
MOST_KILOBYTES = 300_000
"""A journal's limit of 268,435,456 bytes, and what the program takes besides."""


class Measured(NamedTuple):
    ran: Ran
    kilobytes: int


def measured(words: list[str | Path]) -> Measured:
    """Runs a program without input, and tells the most memory that it had."""
    with tempfile.NamedTemporaryFile("r") as memory:
        ran = run([sys.executable, MEMORY_OF, memory.name, *words])
        return Measured(ran, int(memory.read()))


def make_sparse(front: bytes) -> Callable[[Path], None]:
    def make(path: Path) -> None:
        path.write_bytes(front)
        os.truncate(path, SPARSE_SIZE)

    return make


def make_zero_link(path: Path) -> None:
    path.symlink_to("/dev/zero")


KINDS: dict[str, tuple[Callable[[Path], None], int, bytes]] = {
    "a sparse file that begins as a journal": (make_sparse(EMPTY_JOURNAL), 0, b""),
    "a sparse file that begins as a journal with slots": (make_sparse(SLOTTED), 0, b""),
    "a sparse file with a base of 4,294,967,295 bytes": (make_sparse(LONG_BASE), 7, b"damaged at 25\n"),
    "a sparse file with a base at the last offset": (make_sparse(FAR_BASE), 7, b"damaged at 18446744073709551615\n"),
    "a sparse file of zeros": (make_sparse(b""), 7, b"damaged at 0\n"),
    "a device that gives bytes without end": (make_zero_link, 6, b"disk fault\n"),
    "a pipe that nobody writes to": (os.mkfifo, 6, b"disk fault\n"),
    "a folder": (Path.mkdir, 6, b"disk fault\n"),
}
"""Each kind of file, how it is made, and the status and line of the forms that read it."""

TOLD: dict[str, bytes] = {"script": b"", "replay": b"member A 0\nmember B 0\nmember C 0\nend 0\n"}
"""What each form writes over a journal without a change and no input."""


class Kinds(unittest.TestCase):
    def setUp(self) -> None:
        folder = tempfile.TemporaryDirectory()
        self.addCleanup(folder.cleanup)
        self.journal = Path(folder.name) / "journal"
        self.program = program()

    def assert_told(self, form: str, status: int, errors: bytes, words: list[str | Path]) -> None:
        told = measured([self.program, form, ROSTER, self.journal, *words])
        output = TOLD.get(form, b"") if status == 0 else b""
        self.assertEqual(told.ran, Ran(status, output, errors))
        self.assertLess(told.kilobytes, MOST_KILOBYTES)

    def test_each_kind(self) -> None:
        for kind, (make, status, errors) in KINDS.items():
            make(self.journal)
            for form in TOLD:
                with self.subTest(kind=kind, form=form):
                    self.assert_told(form, status, errors, [])
            if status != 0 and has_serve(self.program):
                with self.subTest(kind=kind, form="serve"):
                    self.assert_told("serve", status, errors, [f"127.0.0.1:{free_port()}"])
            if self.journal.is_dir():
                self.journal.rmdir()
            else:
                self.journal.unlink()


if __name__ == "__main__":
    unittest.main()
