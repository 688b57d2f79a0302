"""A file that tells how far a standby is behind its primary: `standby N primary M at MOMENT`, as one line.

N is how many changes are on the standby's disk, M how many the primary has, and MOMENT when it told so, in seconds from the beginning
of 1970. The file is never in between: each text takes the place of the last one.
"""

import os
import time
from pathlib import Path

from .ending import FILE_FAULT, tell

PAUSE = 0.2
"""Seconds between two texts."""


class Behind:
    """What the file tells, and when it may be told anew. Without a name nothing is told."""

    def __init__(self, name: str | None) -> None:
        self.path = None if name is None else Path(name)
        self.text = ""
        self.due = 0.0
        self.has_failed = False
        if self.path is not None and (not self.path.name or not os.access(self.path.parent, os.W_OK | os.X_OK)):
            raise FILE_FAULT

    def tell(self, own: int, length: int, moment: int, is_last: bool = False) -> float | None:
        """Tells this, where it is new; when it is to be called again, if it is."""
        text = f"standby {own} primary {length} at {moment}\n"
        if self.path is None or text == self.text:
            return None
        now = time.monotonic()
        if now < self.due and not is_last:
            return self.due
        self.due = now + PAUSE
        self.text = text
        self.write(self.path)
        return None

    def write(self, path: Path) -> None:
        """Writes the file anew. A fault is told once: a standby does not end for it."""
        part = path.with_name(f"{path.name}.part")
        try:
            part.write_text(self.text, encoding="ascii")
            os.replace(part, path)
        except OSError:
            if not self.has_failed:
                self.has_failed = True
                tell(f"file fault: {path} is not told anew")
