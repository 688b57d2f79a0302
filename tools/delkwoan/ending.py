"""How a tool ends: with a status, and with one plain line on the errors where the status is not 0.

2 `bad words`, 5 `sink fault`, 9 `memory` and 11 `file fault` are as in `compress_cli`.
"""

import io
import os
import signal
import sys
from pathlib import Path
from typing import Callable, NoReturn


class Stop(Exception):
    """The tool ends with this status and line."""

    def __init__(self, status: int, line: str) -> None:
        super().__init__(line)
        self.status = status
        self.line = line


BAD_WORDS = Stop(2, "bad words")
FILE_FAULT = Stop(11, "file fault")


def read_file(name: str, most: int) -> bytes:
    """The first `most` bytes of a file."""
    try:
        with open(name, "rb") as file:
            return file.read(most)
    except (OSError, ValueError):
        raise FILE_FAULT from None


def write_file(path: Path, content: bytes) -> None:
    try:
        path.write_bytes(content)
    except (OSError, ValueError):
        raise FILE_FAULT from None


def tell(line: str) -> None:
    """One line on the errors; where nobody reads them, the status alone tells."""
    try:
        os.write(2, line.encode(errors="backslashreplace") + b"\n")
    except OSError:
        pass


def status_of(main: Callable[[list[str]], int]) -> int:
    """The status of a tool, also where it has shown its help or its version."""
    try:
        return main(sys.argv[1:])
    except SystemExit as end:
        return int(end.code or 0)


def run(main: Callable[[list[str]], int]) -> NoReturn:
    """Runs a tool by its words, and ends the process."""
    signal.signal(signal.SIGINT, signal.SIG_DFL)
    try:
        if sys.stdout is None:
            raise Stop(5, "sink fault")
        if isinstance(sys.stdout, io.TextIOWrapper):
            sys.stdout.reconfigure(encoding="utf-8", errors="backslashreplace")
        if isinstance(sys.stdin, io.TextIOWrapper):
            sys.stdin.reconfigure(encoding="utf-8", errors="surrogateescape")
        status = status_of(main)
        sys.stdout.flush()
    except Stop as stop:
        status = stop.status
        flush_rest()
        tell(stop.line)
    except OSError:
        status = 5
        tell("sink fault")
    except MemoryError:
        status = 9
        tell("memory")
    except KeyboardInterrupt:
        status = 130
    os._exit(status)


def flush_rest() -> None:
    """What was written so far goes out in front of the line on the errors."""
    try:
        if sys.stdout is not None:
            sys.stdout.flush()
    except OSError:
        pass
