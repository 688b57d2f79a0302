"""The package on a small Debian that is booted: installed, upgraded, configured anew, removed, purged, with its units running."""

import re
import shutil
import tempfile
import time
import unittest
from pathlib import Path
from typing import Callable

from booted import Machine
from packaged import UNITS, changed, package
from running import EXAMPLES, PATIENCE, Ran
from serving import serving_program

RUNNING = ["delkwoan.service", "delkwoan-gateway.service", "delkwoan-restart.timer"]
SERVING = RUNNING[:2]
UNIT = "lib/systemd/system/delkwoan.service"
FIRST_DAY = (EXAMPLES / "first-trades.session").read_bytes()
REPLIES = (EXAMPLES / "first-trades.replies").read_bytes()
START = "120"
"""Seconds after which a start counts as hanging: less than the ten minutes that it waits for a connection."""
METRICS = "import urllib.request; print(urllib.request.urlopen('http://127.0.0.1:8080/metrics').read().decode())"
KEPT = ["/var/lib/delkwoan", "/var/lib/private/delkwoan", "/var/lib/delkwoan-gateway", "/var/lib/private/delkwoan-gateway", "/etc/delkwoan"]
"""What a purge names, of which the second and the fourth are what the first and the third lead to."""
ASKED = b"HELLO B KB\nNETS P\n"
ANSWERED = b"ok 2 hello B\nok 2 nets 0 10 -10\n"


class Installed(unittest.TestCase):
    """Tests on machines of their own, on which the package is installed."""

    def setUp(self) -> None:
        folder = tempfile.TemporaryDirectory()
        self.addCleanup(folder.cleanup)
        self.folder = Path(folder.name)
        self.package = package(serving_program())

    def machine(self, name: str = "one", beside: Machine | None = None) -> Machine:
        """A booted machine with the package, and the example's roster in its place."""
        made = Machine(self.folder / name, beside)
        self.addCleanup(made.end)
        shutil.copyfile(self.package, made.shared / "delkwoan.deb")
        made.output_of("dpkg", "--install", "/mnt/delkwoan.deb")
        shutil.copyfile(EXAMPLES / "roster.csv", made.shared / "roster.csv")
        made.output_of("install", "-D", "-m", "600", "/mnt/roster.csv", "/etc/delkwoan/roster.csv")
        return made

    def market(self) -> Machine:
        """A market with a gateway and a new start each night, and with trades in its journal."""
        machine = self.machine()
        machine.output_of("systemctl", "enable", "--now", *RUNNING)
        self.assertEqual(said(machine, FIRST_DAY), REPLIES)
        return machine

    def upgrade(self, machine: Machine) -> None:
        """Installs a later package, whose unit has another description."""
        later = changed(self.package, self.folder, "0.1+later", {UNIT: ("Description=", "Description=Later ")})
        shutil.copyfile(later, machine.shared / "later.deb")
        machine.output_of("dpkg", "--install", "/mnt/later.deb")


def said(machine: Machine, lines: bytes, port: int = 7000) -> bytes:
    """What a client of the machine's service is answered."""
    replies = machine.output_of("compress-client", "--raw", "--connect", f"127.0.0.1:{port}", "/mnt/roster.csv", input=lines)
    return replies.encode() + b"\n"


def wait_until(is_so: Callable[[], bool]) -> None:
    end = time.monotonic() + PATIENCE
    while not is_so():
        if time.monotonic() > end:
            raise AssertionError("it did not come to be so")
        time.sleep(0.2)


def processes(machine: Machine) -> dict[str, str]:
    return {unit: machine.shown(unit, "MainPID") for unit in SERVING}


FAULTS = {
    "a bad roster": ("echo x >> /etc/delkwoan/roster.csv", "3", "roster row 7: columns"),
    "too many seats": ("echo SEATS=200 > /etc/default/delkwoan", "2", "bad words"),
    "no journal": ("mkdir -p /var/lib/delkwoan/journal", "6", "disk fault"),
}
"""What is wrong with a start, the program's status, and its line."""


class Start(Installed):
    def test_one_that_fails(self) -> None:
        """It is over as soon as the program has ended. What a person has to mend is not tried again; what may mend itself is."""
        machine = self.machine()
        machine.output_of("cp", "/etc/delkwoan/roster.csv", "/mnt/kept.csv")
        for name, (fault, status, line) in FAULTS.items():
            with self.subTest(name):
                machine.output_of("sh", "-c", fault)
                start = machine.run("timeout", START, "systemctl", "start", "delkwoan")
                self.assertEqual(start.status, 1, start.errors)
                self.assertIn(line, machine.output_of("journalctl", "--unit=delkwoan", "--output=cat"))
                self.assertEqual(machine.shown("delkwoan", "ExecMainStatus"), status)
                self.assertEqual(machine.shown("delkwoan", "SubState"), "auto-restart" if status == "6" else "failed")
                machine.output_of("sh", "-c", "systemctl stop delkwoan; systemctl reset-failed delkwoan; rm -f /etc/default/delkwoan; cp /mnt/kept.csv /etc/delkwoan/roster.csv")

    def test_its_limit(self) -> None:
        """What may mend itself is tried again, and no more often than the unit says: here with less patience."""
        machine = self.machine()
        self.assertEqual((machine.shown("delkwoan", "StartLimitBurst"), machine.shown("delkwoan", "RestartUSec")), ("20", "5s"))
        limits = "[Unit]\nStartLimitBurst=3\nStartLimitIntervalSec=1d\n[Service]\nRestartSec=100ms\n"
        machine.output_of("mkdir", "-p", "/etc/systemd/system/delkwoan.service.d")
        machine.output_of("tee", "/etc/systemd/system/delkwoan.service.d/limits.conf", input=limits.encode())
        machine.output_of("systemctl", "daemon-reload")
        machine.output_of("sh", "-c", FAULTS["no journal"][0])
        self.assertEqual(machine.run("timeout", START, "systemctl", "start", "delkwoan").status, 1)
        wait_until(lambda: machine.shown("delkwoan", "SubState") == "failed")
        self.assertEqual((machine.shown("delkwoan", "NRestarts"), machine.shown("delkwoan", "ExecMainStatus")), ("3", "6"))

    def test_beside_a_gateway(self) -> None:
        """The gateway's seats count: each start is over once all are answered or the gateway's, and no line says that some lack."""
        machine = self.machine()
        machine.output_of("sh", "-c", "echo SEATS=8 > /etc/default/delkwoan; echo SEATS=4 > /etc/default/delkwoan-gateway")
        machine.output_of("systemctl", "start", *SERVING)
        for _ in range(3):
            wait_until(lambda: b"delkwoan_seats 4" in machine.run("python3", "-c", METRICS).output)
            machine.output_of("systemctl", "restart", "delkwoan")
        self.assertNotIn("answered", machine.output_of("journalctl", "--unit=delkwoan", "--output=cat"))


class Upgrade(Installed):
    def test_running_units_are_restarted(self) -> None:
        """By an upgrade, and by dpkg-reconfigure: each with its journal, its members, and the new unit."""
        machine = self.market()
        ways: dict[str, Callable[[Machine], object]] = {
            "upgrade": self.upgrade,
            "dpkg-reconfigure": lambda it: it.output_of("dpkg-reconfigure", "delkwoan"),
        }
        for name, way in ways.items():
            with self.subTest(name):
                before, replayed = processes(machine), replay(machine)
                way(machine)
                self.assertEqual(machine.states(UNITS), {unit: "active" if unit in RUNNING else "inactive" for unit in UNITS})
                self.assertEqual([unit for unit in SERVING if processes(machine)[unit] == before[unit]], [])
                self.assertEqual(replay(machine), replayed)
                self.assertEqual(said(machine, ASKED), ANSWERED)
                self.assertEqual(machine.shown("delkwoan", "Description"), "Later Compression of over-the-counter contracts")
                self.assertEqual(machine.shown("delkwoan", "NeedDaemonReload"), "no")

    def test_stopped_units_stay_so(self) -> None:
        """Those that are enabled, and those that are not."""
        machine = self.market()
        machine.output_of("systemctl", "stop", *RUNNING)
        self.upgrade(machine)
        machine.output_of("dpkg-reconfigure", "delkwoan")
        self.assertEqual(machine.states(UNITS), {unit: "inactive" for unit in UNITS})

    def test_the_standby_is_restarted(self) -> None:
        primary = self.market()
        standby = self.machine("two", primary)
        standby.output_of("sh", "-c", "umask 077; echo KO > /etc/delkwoan/standby.key")
        standby.output_of("systemctl", "enable", "--now", "delkwoan-standby")
        before = standby.shown("delkwoan-standby", "MainPID")
        self.upgrade(standby)
        self.assertEqual(standby.states(UNITS), {unit: "active" if unit == "delkwoan-standby.service" else "inactive" for unit in UNITS})
        self.assertNotEqual(standby.shown("delkwoan-standby", "MainPID"), before)


class Removal(Installed):
    def test_nothing_serves_on(self) -> None:
        """Each unit is stopped when the package goes, and what it wrote stays for when it comes back."""
        machine = self.market()
        replayed = replay(machine)
        machine.output_of("dpkg", "--remove", "delkwoan")
        self.assertEqual(machine.states(UNITS), {unit: "inactive" for unit in UNITS})
        self.assertEqual(machine.run("pgrep", "-a", "compress"), Ran(1, b"", b""))
        machine.output_of("dpkg", "--install", "/mnt/delkwoan.deb")
        self.assertEqual(machine.states(UNITS), {unit: "inactive" for unit in UNITS})
        self.assertEqual(replay(machine), replayed)

    def test_a_purge_keeps_the_market(self) -> None:
        """If nobody answers or somebody says no, it names what it kept; if somebody says yes, all goes."""
        for answer, frontend, stays in ((b"", "noninteractive", True), (b"no\n", "teletype", True), (b"yes\n", "teletype", False)):
            with self.subTest(answer=answer):
                machine = self.machine(f"purged{answer.decode().strip()}")
                machine.output_of("systemctl", "start", *SERVING)
                purge = machine.run("env", f"DEBIAN_FRONTEND={frontend}", "dpkg", "--purge", "delkwoan", input=answer)
                self.assertEqual(purge.status, 0)
                printed = (purge.output + purge.errors).decode()
                self.assertEqual("Remove the journal, the keys and the settings too?" in printed, frontend == "teletype", printed)
                self.assertEqual(re.findall(r"delkwoan: kept (\S+)", printed), KEPT if stays else [], printed)
                self.assertEqual(machine.output_of("find", "/var/lib", "/etc", "-name", "*delkwoan*", "-not", "-path", "*/systemd/*").split() == [], not stays)


class Restored(Installed):
    """A copy that root made, which the unit's user can't open, is put in place by one command."""

    def test_over_a_later_journal(self) -> None:
        """Never under a service that runs; then the copy's changes are there, and the later ones are kept beside them."""
        machine = self.market()
        copied = replay(machine)
        machine.output_of("sh", "-c", "umask 077; cp /var/lib/delkwoan/journal /root/copy")
        self.assertTrue(said(machine, b"HELLO A KA\nTRADE A B P 5 2026-03-02\n").endswith(b"ok 3 trade 2\n"))
        taken = machine.run("compress-restore", "/root/copy")
        self.assertEqual(taken, Ran(6, b"", b"/var/lib/delkwoan/journal is in use\n"))
        self.assertTrue(replay(machine).endswith("end 3"))
        machine.output_of("systemctl", "stop", "delkwoan")
        printed = machine.output_of("compress-restore", "/root/copy")
        self.assertRegex(printed, r"\A/var/lib/delkwoan/journal: position 2; before: /var/lib/delkwoan/journal\.before-\w+, position 3\Z")
        machine.output_of("systemctl", "start", "delkwoan")
        self.assertEqual((said(machine, ASKED), replay(machine)), (ANSWERED, copied))
        before = printed.split("before: ")[1].split(",")[0]
        self.assertTrue(machine.output_of("compress_cli", "replay", "/etc/delkwoan/roster.csv", before).endswith("end 3"))

    def test_a_backup(self) -> None:
        """It is made beside the service that runs, is good, and is put in place with its roster."""
        machine = self.market()
        before = replay(machine)
        made = machine.output_of("compress-backup", "/var/backups/delkwoan").removesuffix(": position 2")
        self.assertEqual(machine.output_of("compress-verify", "/var/backups/delkwoan"), f"{made}: position 2")
        self.assertTrue(said(machine, b"HELLO A KA\nTRADE A B P 5 2026-03-02\n").endswith(b"ok 3 trade 2\n"))
        machine.output_of("systemctl", "stop", "delkwoan")
        machine.output_of("rm", "/etc/delkwoan/roster.csv")
        machine.output_of("compress-restore", made)
        machine.output_of("systemctl", "start", "delkwoan")
        self.assertEqual((said(machine, ASKED), replay(machine)), (ANSWERED, before))

    def test_on_another_machine(self) -> None:
        """If nothing was started there yet: as the service, and then as a standby of the first."""
        first = self.market()
        first.output_of("cp", "/var/lib/delkwoan/journal", "/mnt/copy")
        other = self.machine("two", first)
        shutil.copyfile(first.shared / "copy", other.shared / "copy")
        (other.shared / "copy").chmod(0o600)
        other.output_of("rm", "-r", "/etc/delkwoan")
        other.output_of("compress-restore", "--roster", "/mnt/roster.csv", "/mnt/copy")
        other.output_of("sh", "-c", "echo ADDRESS=127.0.0.1:7001 > /etc/default/delkwoan")
        other.output_of("systemctl", "start", "delkwoan")
        self.assertEqual(said(other, ASKED, 7001), ANSWERED)
        other.output_of("systemctl", "stop", "delkwoan")
        printed = other.output_of("compress-restore", "--seed", "/mnt/copy")
        self.assertIn("/var/lib/delkwoan/seed: position 2; before: ", printed)
        other.output_of("sh", "-c", "umask 077; echo KO > /etc/delkwoan/standby.key")
        options = "--compare --seed /var/lib/delkwoan/seed"
        other.output_of("sh", "-c", f"echo 'OPTIONS=\"{options}\"' > /etc/default/delkwoan-standby")
        other.output_of("systemctl", "start", "delkwoan-standby")
        wait_until(lambda: other.run("cat", "/var/lib/delkwoan/behind").output.startswith(b"standby 2 primary 2 "))
        self.assertEqual(replay(other), replay(first))


def replay(machine: Machine) -> str:
    return machine.output_of("compress_cli", "replay", "/etc/delkwoan/roster.csv", "/var/lib/delkwoan/journal")


if __name__ == "__main__":
    unittest.main()
