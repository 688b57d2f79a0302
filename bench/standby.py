#!/usr/bin/env python3
"""How many changes a second come to a standby, on a tmpfs: through tools/follow, and into the program's form from a file of replies.

    standby.py PROGRAM COUNT [FOLDER]

FOLDER is /dev/shm where it is absent. The primary's journal has COUNT changes, each a TOL of 37 bytes, and a cycle open, so that it does
not begin again. Both journals of standbys have to be the primary's, byte for byte.
"""

import os
import re
import signal
import subprocess
import sys
import tempfile
import time
from pathlib import Path

ROOT = Path(__file__).resolve().parents[1]
sys.path[:0] = [str(ROOT / "tools"), str(ROOT / "tools/tests")]
sys.dont_write_bytecode = True

from serving import free_port
from standing import stored

ROSTER = ROOT / "examples/roster.csv"


def lines(count: int) -> bytes:
    """A session that makes so many changes."""
    settings = b"".join(b"TOL B P out 0 %d\n" % (1000 + at) for at in range(count - 1))
    return b"HELLO OPS KO\nFREEZE 2026-03-01\nHELLO A KA\n" + settings


def replies(journal: Path) -> bytes:
    """What a primary answers a standby that has nothing."""
    had = stored(journal)
    entries = (b"ok %d entry %d %d\n%b\n" % (had.end, at, len(it), it) for at, it in enumerate(had.records, 1))
    return b"".join([b"ok %d hello OPS\n" % had.end, *entries, b"ok %d none\n" % had.end])


def processor(process: int) -> float:
    """Seconds of a processor that a process has had."""
    fields = Path(f"/proc/{process}/stat").read_text().rpartition(")")[2].split()
    return (int(fields[11]) + int(fields[12])) / os.sysconf("SC_CLK_TCK")


def told(what: str, count: int, seconds: float, used: float) -> None:
    print(f"{what}: {count / seconds:,.0f} a second, {1e6 * used / count:.1f} us of a processor each", flush=True)


def followed(program: str, folder: Path, count: int) -> None:
    """Through the tool, from its start until the standby has told that all is on its disk."""
    address = f"127.0.0.1:{free_port()}"
    service = subprocess.Popen([program, "serve", ROSTER, folder / "primary", address])
    subprocess.run([ROOT / "tools/wait-ready", address, "60"], check=True)
    (folder / "key").write_text("KO\n")
    begun = time.monotonic()
    words: list[str | Path] = ["--program", program, "--connect", address, "--behind", folder / "behind", ROSTER, folder / "standby", "OPS", folder / "key"]
    tool = subprocess.Popen([sys.executable, ROOT / "tools/follow", *words])
    while not (folder / "behind").exists() or not re.match(rf"standby {count} ", (folder / "behind").read_text()):
        time.sleep(0.01)
        if tool.poll() is not None:
            sys.exit(tool.returncode)
    told("tools/follow", count, time.monotonic() - begun, processor(tool.pid))
    tool.send_signal(signal.SIGTERM)
    assert tool.wait() == 0
    service.kill()
    service.wait()


def alone(program: str, folder: Path, count: int) -> None:
    """Into the form, from a file."""
    (folder / "replies").write_bytes(replies(folder / "primary"))
    begun, before = time.monotonic(), os.times()
    with open(folder / "replies", "rb") as given, open(folder / "said", "wb") as said:
        subprocess.run([program, "follow", ROSTER, folder / "alone", "OPS", "KO"], stdin=given, stdout=said, check=True)
    behind = os.times()
    used = behind.children_user + behind.children_system - before.children_user - before.children_system
    told("follow, from a file", count, time.monotonic() - begun, used)


def main(program: str, count: int, room: str) -> None:
    with tempfile.TemporaryDirectory(dir=room) as name:
        folder = Path(name)
        subprocess.run([program, "script", ROSTER, folder / "primary"], input=lines(count), stdout=subprocess.DEVNULL, check=True)
        followed(program, folder, count)
        alone(program, folder, count)
        for standby in ("standby", "alone"):
            assert (folder / standby).read_bytes() == (folder / "primary").read_bytes(), standby


if __name__ == "__main__":
    main(sys.argv[1], int(sys.argv[2]), *(sys.argv[3:] or ["/dev/shm"]))
