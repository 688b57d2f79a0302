"""Running the tools and the program that was built, for the tests."""

import os
import subprocess
import unittest
from pathlib import Path
from typing import NamedTuple, Sequence

ROOT = Path(__file__).resolve().parents[2]
TOOLS = ROOT / "tools"
EXAMPLES = ROOT / "examples"
PATIENCE = 1200
"""Seconds behind which what is waited for counts as lost: more than anything takes, however busy the machine is."""


class Ran(NamedTuple):
    status: int
    output: bytes
    errors: bytes


def run(words: Sequence[str | bytes | Path], input: bytes = b"", folder: Path | None = None) -> Ran:
    done = subprocess.run(words, input=input, capture_output=True, cwd=folder, timeout=PATIENCE)
    return Ran(done.returncode, done.stdout, done.stderr)


def sessions() -> list[Path]:
    """The example sessions, each NAME.next.session, which goes on with NAME's journal, behind NAME.session."""
    return sorted(EXAMPLES.glob("*.session"), key=lambda path: (path.name.split(".")[0], len(path.name)))


def program() -> Path:
    """The program that was built in this clone, or the one that COMPRESS_CLI names; where it is not there, skips."""
    path = Path(os.environ.get("COMPRESS_CLI") or ROOT / "crates/compress_cli/out/compress_cli")
    if not os.access(path, os.X_OK):
        raise unittest.SkipTest(f"no program at {path}")
    return path
