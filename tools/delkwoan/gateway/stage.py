"""Where a line of the operator is tried before it is said: the program's `script`, over a copy of the journal that nobody else sees."""

import shutil
import subprocess
import tempfile
from pathlib import Path
from typing import NamedTuple

LONGEST = 3600.0
"""The seconds that the program may take."""


class Unplayed(Exception):
    """The program, the roster or the journal can't be had, or they do not belong together."""


class Stage(NamedTuple):
    """The program, a roster with keys, and the service's journal."""

    program: str
    roster: str
    journal: str

    def play(self, speaker: tuple[str, str], line: str) -> str:
        """The reply to a speaker's line. The key goes through a pipe, and is written nowhere."""
        try:
            with tempfile.TemporaryDirectory() as folder:
                copy = Path(folder) / "journal"
                shutil.copyfile(self.journal, copy)
                words: list[str | Path] = ["nice", self.program, "script", "--workers", "1", self.roster, copy]
                lines = f"HELLO {' '.join(speaker)}\n{line}\n".encode()
                done = subprocess.run(words, input=lines, capture_output=True, timeout=LONGEST)
        except (OSError, subprocess.SubprocessError):
            raise Unplayed from None
        hello, _, reply = done.stdout.decode().partition("\n")
        if done.returncode or not hello.startswith("ok ") or not reply:
            raise Unplayed
        return reply.rstrip("\n")
