#!/usr/bin/env python3
"""What a service holds in memory over a journal, at its most and then, in MB: memory.py PROGRAM ROSTER JOURNAL..

It is asked once it listens, and behind some lines. Each journal is copied, in its own folder, since an opening may append to it.
"""

import shutil
import socket
import subprocess
import sys
from pathlib import Path

ROOT = Path(__file__).resolve().parents[1]
sys.path[:0] = [str(ROOT / "tools"), str(ROOT / "tools/tests")]
sys.dont_write_bytecode = True

from serving import free_port

LINES = b"HELLO OPS KO\nNEXT 0\nNETS P\nHELLO A KA\nTRADE A B P 10 2026-03-02\nSTATEMENT\nBYE\n"


def held(process: int) -> str:
    """The most that a process ever held, and what it holds."""
    rows = dict(row.split(":", 1) for row in Path(f"/proc/{process}/status").read_text().splitlines())
    most, now = (int(rows[name].split()[0]) * 1024 / 1e6 for name in ("VmHWM", "VmRSS"))
    return f"{most:.1f} at its most, {now:.1f} then"


def measure(program: str, roster: str, journal: Path) -> None:
    copy = journal.with_name(f"{journal.name}.copy")
    shutil.copyfile(journal, copy)
    port = free_port()
    service = subprocess.Popen([program, "serve", roster, copy, f"127.0.0.1:{port}"])
    try:
        subprocess.run([ROOT / "tools/wait-ready", f"127.0.0.1:{port}", "600"], check=True)
        opened = held(service.pid)
        with socket.create_connection(("127.0.0.1", port)) as connection, connection.makefile("rb") as replies:
            connection.sendall(LINES)
            assert b" bye\n" in replies.read()
        print(f"{journal}: opened {opened}; behind lines {held(service.pid)}", flush=True)
    finally:
        service.kill()
        service.wait()
        copy.unlink()


if __name__ == "__main__":
    for name in sys.argv[3:]:
        measure(sys.argv[1], sys.argv[2], Path(name))
