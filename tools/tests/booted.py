"""A small Debian of its own, booted by systemd-nspawn, for the tests of the package: real units, a real dpkg.

The root is made once by mmdebstrap and kept in the user's cache. What a test changes lies in an overlay above it, and goes with the
test. If the machine can't make or boot it, the test is skipped with a line that says why.
"""

import fcntl
import functools
import hashlib
import os
import platform
import shutil
import subprocess
import time
import unittest
from pathlib import Path
from typing import Sequence

from running import PATIENCE, Ran, run

PACKAGES = ["ca-certificates", "dbus", "debconf", "procps", "python3", "python3-httptools", "python3-prometheus-client", "python3-starlette"]
PACKAGES += ["python3-uvicorn", "python3-uvloop", "python3-websockets", "systemd", "systemd-sysv"]
"""What the package wants, and what boots."""
PROGRAMS = ["mmdebstrap", "nsenter", "systemd-nspawn", "unshare"]
MAKING = ["mmdebstrap", "--quiet", "--variant=apt", '--aptopt=Acquire::http::Timeout "60"', "--dpkgopt=path-exclude=/usr/share/doc/*"]
MAKING += [f"--include={','.join(PACKAGES)}"]
GROUPS = Path("/sys/fs/cgroup")
TREES = [tree for tree in (GROUPS / "systemd", GROUPS / "unified") if (tree / "cgroup.procs").exists()] or [GROUPS]
"""The folders of the groups of processes: one tree, or two beside each other."""
SYSTEMD_RUNS = Path("/run/systemd/system")

BOOT = """
set -e
groups=$1 lower=$2 folder=$3; shift 3
for group in $groups; do echo $$ > "$group/cgroup.procs"; done
mount -t overlay overlay -o "lowerdir=$lower,upperdir=$folder/upper,workdir=$folder/work" "$folder/root"
exec systemd-nspawn --quiet --directory="$folder/root" --boot --register=no --keep-unit --console=pipe "$@"
"""


def suite() -> str:
    """The name of this machine's Debian, whose libraries the program was built with."""
    return platform.freedesktop_os_release().get("VERSION_CODENAME", "stable")


@functools.cache
def lack() -> str:
    """Why no root can be made here; nothing, if it is there."""
    missing = [name for name in PROGRAMS if shutil.which(name) is None]
    if missing:
        return f"no {missing[0]}"
    if os.geteuid() != 0:
        return "a small Debian is booted by root alone"
    root = kept_root()
    root.parent.mkdir(parents=True, exist_ok=True)
    with open(root.parent / "lock", "w") as lock:
        fcntl.flock(lock, fcntl.LOCK_EX)
        return "" if root.exists() else fault_of_making(root)


def kept_root() -> Path:
    name = hashlib.sha256(" ".join([*MAKING, suite()]).encode()).hexdigest()[:16]
    return Path(os.environ.get("XDG_CACHE_HOME") or Path.home() / ".cache") / "delkwoan-tests" / f"{suite()}-{name}"


def fault_of_making(root: Path) -> str:
    """Makes the root; why not, if it can't be made."""
    part = root.with_suffix(".part")
    shutil.rmtree(part, ignore_errors=True)
    made = run([*MAKING, suite(), part])
    if made.status != 0:
        shutil.rmtree(part, ignore_errors=True)
        return f"no small Debian: {(made.errors.decode(errors='replace').splitlines() or ['mmdebstrap failed'])[-1]}"
    part.rename(root)
    return ""


class Machine:
    """A booted Debian. Two of them may share a network, which nothing outside of them has."""

    def __init__(self, folder: Path, beside: "Machine | None" = None) -> None:
        if lack():
            raise unittest.SkipTest(lack())
        self.folder = folder
        self.shared = folder / "shared"
        """A folder of both, which the machine has as /mnt."""
        for name in ("upper", "work", "root", "shared"):
            (folder / name).mkdir(parents=True)
        self.groups = [] if SYSTEMD_RUNS.exists() else [tree / f"delkwoan-test-{os.getpid()}-{id(self):x}" for tree in TREES]
        network = "--private-network" if beside is None else f"--network-namespace-path=/proc/{beside.leader}/ns/net"
        own = [f"--bind={self.shared}:/mnt", f"--machine=test{os.getpid()}-{id(self):x}", network]
        self.boot(["unshare", "--mount", "sh", "-c", BOOT, "boot", " ".join(map(str, self.groups)), kept_root(), folder, *own])

    def boot(self, words: Sequence[str | Path]) -> None:
        """Begins it, and waits until all of its units are started."""
        scope = ["systemd-run", "--scope", "--quiet", "--property=Delegate=yes"] if SYSTEMD_RUNS.exists() else []
        self.log = self.folder / "log"
        try:
            for group in self.groups:
                group.mkdir()
        except OSError as fault:
            raise unittest.SkipTest(f"no group of processes can be made: {fault.strerror}") from None
        with open(self.log, "wb") as log:
            self.process = subprocess.Popen([*scope, *words], stdin=subprocess.DEVNULL, stdout=log, stderr=log)
        end = time.monotonic() + PATIENCE
        while not self.is_up():
            if self.process.poll() is not None or time.monotonic() > end:
                self.end()
                lines = self.log.read_text(errors="replace").splitlines() or ["systemd-nspawn ended"]
                raise unittest.SkipTest(f"no small Debian boots here: {lines[-1]}")
            time.sleep(0.1)

    @property
    def leader(self) -> int:
        """The machine's first process; 0 if there is none yet."""
        try:
            children = Path(f"/proc/{self.process.pid}/task/{self.process.pid}/children").read_text().split()
        except OSError:
            return 0
        return int(children[0]) if children else 0

    def is_up(self) -> bool:
        if not self.leader:
            return False
        state = self.run("systemctl", "is-system-running").output.strip()
        return state in (b"running", b"degraded")

    def run(self, *words: str | Path, input: bytes = b"") -> Ran:
        """A command on the machine, as root."""
        settings = ["/usr/bin/env", "-i", "PATH=/usr/sbin:/usr/bin:/sbin:/bin", "HOME=/root", "LC_ALL=C.UTF-8", "DEBIAN_FRONTEND=noninteractive"]
        return run(["nsenter", f"--target={self.leader}", "--all", "--wd=/", *settings, *words], input)

    def output_of(self, *words: str | Path, input: bytes = b"") -> str:
        """What a command that has to succeed writes."""
        ran = self.run(*words, input=input)
        if ran.status != 0:
            raise AssertionError(f"{' '.join(map(str, words))}: status {ran.status}\n{(ran.output + ran.errors).decode(errors='replace')}")
        return ran.output.decode().rstrip("\n")

    def shown(self, unit: str, name: str) -> str:
        """A property of a unit."""
        return self.output_of("systemctl", "show", "--value", f"--property={name}", unit)

    def states(self, units: Sequence[str]) -> dict[str, str]:
        return {unit: self.shown(unit, "ActiveState") for unit in units}

    def end(self) -> None:
        """Ends it at once: its first process is killed, and the others with it."""
        if self.leader:
            os.kill(self.leader, 9)
        else:
            self.process.kill()
        self.process.wait(PATIENCE)
        for group in self.groups:
            for folder, _, _ in os.walk(group, topdown=False):
                removed(Path(folder))


def removed(group: Path) -> None:
    """Removes a group, whose processes may be about to end."""
    end = time.monotonic() + 60
    while group.exists() and time.monotonic() < end:
        try:
            group.rmdir()
        except OSError:
            time.sleep(0.05)
