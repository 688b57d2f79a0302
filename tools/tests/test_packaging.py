"""What others install: manual pages, completion and the unit, as they are made, and the packages of Debian and of Python, each in a fresh tree."""

import functools
import os
import re
import shutil
import socket
import subprocess
import sys
import tempfile
import unittest
from pathlib import Path

from packaged import UNITS, built_from, copied, need, need_builders
from running import EXAMPLES, PATIENCE, ROOT, TOOLS, Ran, program, run
from serving import InService, has_serve, started
from standing import WithStandby
from test_journal import ONE, WHOLE

sys.path.insert(0, str(TOOLS))

from delkwoan import __version__

PACKAGING = ROOT / "packaging"
HUB = [str(EXAMPLES / "hub-roster.csv"), str(EXAMPLES / "hub-trades.csv"), "hybrid", str(EXAMPLES / "hub-proposal.txt")]
TOOL_FILES = ["audit", "backup", "check_mine", "check_proposal", "client", "compress_many", "follow", "gateway", "journal", "keys", "public_roster", "report", "restore", "roll", "verify", "wait-ready"]
COMMANDS = ["compress-audit", "compress-backup", "compress-check-mine", "compress-check-proposal", "compress-client", "compress-follow", "compress-gateway"]
COMMANDS += ["compress-journal", "compress-keys", "compress-many", "compress-public-roster", "compress-report", "compress-restore", "compress-roll", "compress-verify", "compress-wait-ready", "compress_cli"]

TYPED: list[tuple[list[str], list[str]]] = [
    (["compress_cli", ""], ["check", "follow", "gen", "replay", "roll", "script", "serve", "solve"]),
    (["compress_cli", "gen", ""], []),
    (["compress_cli", "s"], ["script", "serve", "solve"]),
    (["compress_cli", "serve", "a", "hub-r"], ["hub-roster.csv"]),
    (["compress_cli", "serve", "a", "b", ""], []),
    (["compress_cli", "solve", "hub-r"], ["hub-roster.csv"]),
    (["compress_cli", "check", "a", "b", ""], ["conservative", "free", "hybrid"]),
    (["compress_cli", "check", "a", "b", "hybrid", "hub-p"], ["hub-proposal.txt"]),
    (["compress_cli", "check", "a", "b", "hybrid", "c", ""], []),
    (["compress_cli", "roll", "a", "b", "hub-r"], ["hub-roster.csv"]),
    (["compress_cli", "roll", "-"], ["--cancel", "--matured"]),
    (["compress_cli", "follow", "hub-r"], ["hub-roster.csv"]),
    (["compress_cli", "follow", "--c"], ["--compare"]),
    (["compress_cli", "follow", "a", "b", ""], []),
    (["compress_cli", "what", ""], []),
    (["compress_cli", "-"], []),
    (["compress_cli", "script", "--w"], ["--workers"]),
    (["compress_cli", "script", "--workers", ""], []),
    (["compress_cli", "script", "--workers", "2", "rost"], ["roster.csv"]),
    (["compress_cli", "serve", "a", "-"], ["--connections", "--idle", "--seats", "--workers"]),
    (["compress_cli", "serve", "a", "--seats", "2", "b", "--c"], ["--connections"]),
    (["compress-client", "-"], ["--about", "--connect", "--program", "--raw"]),
    (["compress-client", "--connect", ""], []),
    (["compress-client", "--connect", "127.0.0.1:7000", "rost"], ["roster.csv"]),
    (["compress-follow", "-"], ["--behind", "--compare", "--connect", "--patience", "--pause", "--program", "--seed"]),
    (["compress-follow", "--compare", "--seed", "x", "a", "b", "OPS", "hub-r"], ["hub-roster.csv"]),
    (["compress-gateway", "--c"], ["--certificate", "--clients"]),
    (["compress-gateway", "--key", "rost"], ["roster.csv"]),
    (["compress-wait-ready", ""], []),
    (["compress-wait-ready", "-"], ["--process", "--seats"]),
    (["compress-client", "--program", "hub-r"], ["hub-roster.csv"]),
    (["compress-client", "--program", "x", "--raw", "hub-r"], ["hub-roster.csv"]),
    (["compress-report", "--product", "P", "hub-r"], ["hub-roster.csv"]),
    (["compress-report", "--re"], ["--replay"]),
    (["compress-backup", "-"], ["--journal", "--keep", "--program", "--roster"]),
    (["compress-verify", "hub-r"], ["hub-roster.csv"]),
    (["compress-restore", "-"], ["--program", "--roster", "--seed", "--settings", "--state"]),
    (["compress-restore", "--seed", "hub-r"], ["hub-roster.csv"]),
    (["compress-roll", "a", "b", "hub-r"], ["hub-roster.csv"]),
    (["compress-roll", "-"], ["--cancel", "--map", "--matured", "--program"]),
    (["compress-many", "-"], ["--members", "--mode", "--program", "--scheduler", "--workers"]),
    (["compress-many", "--mode", "hybrid", "--members", "hub-r"], ["hub-roster.csv"]),
    (["compress-many", "--scheduler", "tcp://127.0.0.1:8786", "hub-t"], ["hub-trades.csv"]),
    (["compress-many", "--workers", ""], []),
    (["compress-report", "--replay", "--mode", ""], ["conservative", "free", "hybrid"]),
    (["compress-check-proposal", "a", "b", "h"], ["hybrid"]),
    (["/usr/bin/compress-journal", "rost"], ["roster.csv"]),
    (["compress-audit", "rost"], ["roster.csv"]),
    (["compress-audit", "a", "b", ""], []),
    (["compress-check-mine", "rost"], ["roster.csv"]),
    (["compress-check-mine", "a", "hub-r"], []),
    (["compress-check-mine", "a", "A", "hub-r"], ["hub-roster.csv"]),
    (["compress-check-mine", "-"], ["--salt", "--with"]),
    (["compress-public-roster", "hub-r"], ["hub-roster.csv"]),
    (["compress-keys", "hub-r"], ["hub-roster.csv"]),
]
"""The words of a command line up to the cursor, and what can stand there."""


@functools.cache
def python_with(*modules: str) -> str:
    """This Python, or else the system's, if it has these modules; where neither has, skips."""
    for python in (sys.executable, "/usr/bin/python3"):
        if os.access(python, os.X_OK) and run([python, "-c", f"import {', '.join(modules)}"]).status == 0:
            return python
    raise unittest.SkipTest(f"no python3 with {', '.join(modules)}")


class Made(unittest.TestCase):
    """Tests with a folder of their own, in which stands what is made of other sources."""

    def setUp(self) -> None:
        folder = tempfile.TemporaryDirectory()
        self.addCleanup(folder.cleanup)
        self.folder = Path(folder.name)
        self.made = self.folder / "made"
        self.assertEqual(run([PACKAGING / "generate", "--prefix", "/usr", self.made]), Ran(0, b"", b""))
        self.program = self.folder / "program"
        self.program.write_text("#!/bin/sh\necho stands in\n")
        self.program.chmod(0o755)

    @property
    def pages(self) -> list[Path]:
        return sorted([self.made / "compress-tools.1", *(PACKAGING / "man").glob("*.[15]")])

    def assert_works(self, commands: Path) -> None:
        """The tools in this folder do what those of the tree do."""
        self.assertEqual(run([commands / "compress-check-proposal", *HUB]), Ran(0, b"yes\n", b""))
        journal = self.folder / "journal"
        journal.write_bytes(ONE)
        self.assertEqual(run([commands / "compress-journal", journal]), WHOLE)
        audited = run([commands / "compress-audit", EXAMPLES / "roster.csv", journal])
        self.assertEqual((audited.status, audited.output.splitlines()[-1]), (0, b"end 1"))
        ran = run([commands / "compress-report", *HUB[:2], HUB[3], self.folder / "report"])
        self.assertEqual((ran.status, ran.errors), (0, b""))
        self.assertTrue((self.folder / "report.html").read_text().endswith("</html>\n"))
        self.assertEqual(run([commands / "compress-wait-ready"]), Ran(2, b"", b"bad words\n"))
        environ = {**os.environ, "COMPRESS_CLI": str(self.program)}
        words = [commands / "compress-client", EXAMPLES / "roster.csv", journal]
        done = subprocess.run(words, input=b"BYE\n", capture_output=True, env=environ)
        self.assertEqual((done.returncode, done.stderr), (20, b"no reply of a session: stands in\n"))
        for name in COMMANDS[:-1]:
            self.assertEqual(run([commands / name, "--version"]), Ran(0, f"{name} {__version__}\n".encode(), b""))


class Pages(Made):
    def test_mandoc_finds_nothing(self) -> None:
        need("mandoc")
        told = run(["mandoc", "-Tlint", *self.pages]).output.decode().splitlines()
        self.assertEqual([line for line in told if "referenced manual not found" not in line], [])

    def test_pages_that_are_named_are_there(self) -> None:
        names = {tuple(page.name.rsplit(".", 1)) for page in self.pages}
        for page in self.pages:
            text = page.read_text()
            self.assertNotIn("@", text)
            for name, section in re.findall(r"^\.Xr (\S+) (\S+)", text, re.MULTILINE):
                self.assertIn((name, section), names, page.name)
            wanted = [
                "EXAMPLES",
                "LIMITATIONS",
                "TROUBLESHOOTING",
                *(["EXIT STATUS", "FILES"] if page.suffix == ".1" else []),
            ]
            for section in wanted:
                self.assertIn(f".Sh {section}\n", text, page.name)

    def test_each_option_of_a_tool_is_told(self) -> None:
        """By its help, and in the manual page."""
        page = (self.made / "compress-tools.1").read_text()
        told = 0
        for name in TOOL_FILES:
            shown = run([TOOLS / name, "--help"])
            self.assertEqual((shown.status, shown.errors), (0, b""))
            for option in set(re.findall(r"^  --(\w+)", shown.output.decode(), re.MULTILINE)) - {"version"}:
                self.assertRegex(page, rf"(?m)^\.It Fl -{option}\b")
                told += 1
        self.assertGreaterEqual(told, 47)  # that the helps were read: more options may come

    def test_the_programs_forms_are_those_of_its_page(self) -> None:
        page = (PACKAGING / "man/compress_cli.1").read_text()
        synopsis = page.split(".Sh SYNOPSIS\n")[1].split(".Sh ")[0]
        forms = []
        for part in synopsis.split(".Nm\n")[1:]:
            (name,) = re.findall(r"^\.Cm (\w+)$", part, re.MULTILINE)
            options = re.findall(r"^\.Op Fl -(\w+)", part, re.MULTILINE)
            forms.append((name, options, len(re.findall(r"^\.Ar", part, re.MULTILINE))))
        lines = (PACKAGING / "forms").read_text().splitlines()[1:]
        completed = []
        for line in lines:
            plain = re.sub(r"\[.*?\] ", "", line).split(" ")
            completed.append((plain[1], re.findall(r"\[--(\w+)", line), len(plain) - 2))
        self.assertEqual(sorted(forms), sorted(completed))


class Version(unittest.TestCase):
    def test_the_change_logs_begin_with_it(self) -> None:
        """The package has the version; both change logs are of it."""
        self.assertTrue((ROOT / "debian/changelog").read_text().startswith(f"delkwoan ({__version__}) "))
        headings = re.findall(r"^## (\S+)", (ROOT / "CHANGELOG.md").read_text(), re.MULTILINE)
        self.assertEqual(headings[0], __version__)
        self.assertIn('dynamic = ["version"]', (ROOT / "pyproject.toml").read_text())


class DebianPackage(Made):
    def build(self, program: Path) -> Ran:
        copied(self.folder / "tree")
        return built_from(self.folder / "tree", program)

    def setUp(self) -> None:
        need_builders()
        super().setUp()

    def test_what_is_in_it(self) -> None:
        built = self.build(self.program)
        self.assertEqual(built.status, 0, built.output[-2000:] + built.errors[-2000:])
        (package,) = self.folder.glob(f"delkwoan_{__version__}_*.deb")
        root = self.folder / "root"
        self.assertEqual(run(["dpkg-deb", "-x", package, root]).status, 0)
        self.assertEqual(sorted(path.name for path in (root / "usr/bin").iterdir()), COMMANDS)
        self.assertEqual(run([root / "usr/bin/compress_cli"]).output, b"stands in\n")
        units = root / "lib/systemd/system"
        self.assertIn("\nExecStart=/usr/bin/compress_cli serve ", (units / "delkwoan.service").read_text())
        self.assertEqual(sorted(path.name for path in units.iterdir()), sorted(UNITS))
        for name in COMMANDS:
            self.assertTrue((root / f"usr/share/man/man1/{name}.1.gz").exists(), name)
            self.assertTrue((root / f"usr/share/bash-completion/completions/{name}").exists(), name)
        for name in ("copyright", "changelog.gz", "examples/roster.csv", "examples/haproxy.cfg", "GATEWAY.md", "OPERATIONS.md"):
            self.assertTrue((root / "usr/share/doc/delkwoan" / name).exists(), name)
        package_folder = root / "usr/lib/python3/dist-packages"
        self.assertTrue((package_folder / "delkwoan/py.typed").exists())
        done = run(["/usr/bin/python3", "-c", f"import sys; sys.path.insert(0, {str(package_folder)!r}); import delkwoan.client"])
        self.assertEqual(done, Ran(0, b"", b""))
        if shutil.which("lintian"):
            told = run(["lintian", "--allow-root", "--fail-on", "error,warning", package])
            self.assertEqual((told.status, told.output), (0, b""))

    def test_the_tree_stays_clean(self) -> None:
        """After each command that the pages name: what it leaves is ignored, and no folder has the name of a module."""
        need("git")
        python = python_with("build", "setuptools", "wheel")
        tree = self.folder / "tree"
        copied(tree)
        shutil.copy2(ROOT / ".gitignore", tree)
        own = ["git", "-c", "user.name=A", "-c", "user.email=a@example.org"]
        for words in (["init", "--quiet"], ["add", "--all"], ["commit", "--quiet", "--message=all"]):
            self.assertEqual(run([*own, *words], folder=tree).status, 0)
        for _ in range(2):
            self.assertEqual(run([python, "-m", "build", "--no-isolation"], folder=tree).status, 0)
            self.assertEqual(built_from(tree, self.program).status, 0)
            self.assertEqual(run(["git", "status", "--porcelain"], folder=tree), Ran(0, b"", b""))
            self.assertFalse((tree / "build").exists())

    def test_without_a_program(self) -> None:
        built = self.build(self.folder / "none")
        self.assertNotEqual(built.status, 0)
        self.assertIn(b"no program at", built.output + built.errors)
        self.assertEqual([*self.folder.glob("*.deb")], [])


class PythonPackage(Made):
    def test_in_a_fresh_environment(self) -> None:
        python = python_with("ensurepip", "setuptools", "wheel")
        tree, room = self.folder / "tree", self.folder / "venv"
        shutil.copytree(TOOLS, tree / "tools", ignore=shutil.ignore_patterns("__pycache__", "*.egg-info"))
        for name in ("README.md", "pyproject.toml"):
            shutil.copy2(ROOT / name, tree / name)
        made = run([python, "-m", "venv", "--system-site-packages", room])
        self.assertEqual(made.status, 0, made.errors)
        installed = run([room / "bin/pip", "install", "-q", "--no-index", "--no-build-isolation", tree])
        self.assertEqual(installed.status, 0, installed.errors)
        self.assert_works(room / "bin")
        typed = "import delkwoan, pathlib; print((pathlib.Path(delkwoan.__file__).parent / 'py.typed').exists(), delkwoan.__file__)"
        told = run([room / "bin/python", "-c", typed], folder=self.folder).output.decode()
        self.assertTrue(told.startswith(f"True {room}"), told)


class Types(unittest.TestCase):
    def test_mypy_finds_nothing(self) -> None:
        need("mypy")
        with tempfile.TemporaryDirectory() as cache:
            ran = run(["mypy", "--cache-dir", cache], folder=ROOT)
        self.assertEqual((ran.status, ran.errors), (0, b""), ran.output)


SERVICES = [name for name in UNITS if name.endswith(".service")]


def settings_of(unit: Path, name: str) -> list[str]:
    return [line.removeprefix(name + "=") for line in unit.read_text().splitlines() if line.startswith(name + "=")]


class Unit(Made):
    def setUp(self) -> None:
        super().setUp()
        self.unit = self.made / "delkwoan.service"

    def test_systemd_finds_nothing(self) -> None:
        """It looks for the commands, and some stand in for a while below another prefix."""
        need("systemd-analyze")
        prefix = self.folder / "prefix"
        (prefix / "bin").mkdir(parents=True)
        for name in ("compress_cli", "compress-follow", "compress-gateway", "compress-wait-ready"):
            shutil.copy2(self.program, prefix / "bin" / name)
        self.assertEqual(run([PACKAGING / "generate", "--prefix", prefix, self.made]), Ran(0, b"", b""))
        units = [self.made / name for name in UNITS]
        self.assertEqual(run(["systemd-analyze", "verify", "--man=no", *units]), Ran(0, b"", b""))

    def test_nothing_is_left_to_fill_in(self) -> None:
        self.assertIn("\nExecStart=/usr/bin/compress_cli serve ", self.unit.read_text())
        for name in UNITS:
            text = (self.made / name).read_text()
            self.assertNotIn("@", text.replace("@system-service", "").replace("@privileged @resources", ""), name)

    def test_each_takes_no_more_of_the_machine_than_it_says(self) -> None:
        """Its memory and its threads are bounded, it is said what is killed at the bound, and no core dump has keys."""
        for name in SERVICES:
            given = {setting: settings_of(self.made / name, setting) for setting in ("MemoryMax", "TasksMax", "OOMPolicy", "LimitCORE")}
            policy = "continue" if name == "delkwoan-gateway.service" else "kill"
            self.assertEqual((given.pop("OOMPolicy"), given.pop("LimitCORE")), ([policy], ["0"]), name)
            for setting, values in given.items():
                self.assertRegex(",".join(values), r"^[1-9]\d*[MG]?$", f"{name}: {setting}")

    def test_what_is_exposed(self) -> None:
        """By systemd's own count, of the units that listen or hold keys: 1.2 is what is left where the network has to be there."""
        need("systemd-analyze")
        for name in ("delkwoan.service", "delkwoan-gateway.service", "delkwoan-standby.service"):
            ran = run(["systemd-analyze", "security", "--no-pager", "--offline=true", "--threshold=12", self.made / name])
            self.assertEqual(ran.status, 0, f"{name}: {ran.output.decode()}")

    def test_each_night_it_is_started_anew_where_it_runs(self) -> None:
        """The timer's unit is the service of its name, which starts no service that was stopped."""
        timer, service = self.made / "delkwoan-restart.timer", self.made / "delkwoan-restart.service"
        self.assertEqual((settings_of(timer, "OnCalendar"), settings_of(timer, "Unit")), (["*-*-* 03:30:00"], []))
        self.assertEqual(settings_of(service, "ExecStart"), ["/bin/systemctl try-restart delkwoan.service"])

    def test_statuses_are_those_of_the_table(self) -> None:
        """No other start where a person is wanted: statuses of the operator's table, and that of a missing credential."""
        table = (ROOT / "docs/OPERATIONS.md").read_text()
        for unit in (self.unit, self.made / "delkwoan-standby.service"):
            (kept,) = settings_of(unit, "RestartPreventExitStatus")
            for status in kept.split():
                self.assertTrue(f"\n| {status} | `" in table or status == "243", status)


def commands_of(unit: Path, name: str, values: dict[str, object]) -> list[list[str]]:
    """The unit's commands of a kind, as systemd would make them of these values and the unit's own."""
    (defaults,) = settings_of(unit, "Environment")
    given: dict[str, object] = {**dict(setting.split("=", 1) for setting in defaults.split()), **values}
    lines = [line.removeprefix("-").split() for line in settings_of(unit, name)]
    return [[re.sub(r"\$\{?(\w+)\}?", lambda found: str(given[str(found[1])]), word) for word in line] for line in lines]


class UnitServes(InService):
    """The unit's commands, as systemd would make them, with the program that was built."""

    def test_its_commands(self) -> None:
        root, state, credentials, made = (self.folder / name for name in ("root", "state", "credentials", "made"))
        for folder in (state, credentials, root / "bin"):
            folder.mkdir(parents=True)
        shutil.copyfile(EXAMPLES / "roster.csv", credentials / "roster")
        (root / "bin/compress_cli").symlink_to(self.program)
        (root / "bin/compress-wait-ready").symlink_to(TOOLS / "wait-ready")
        self.assertEqual(run([PACKAGING / "generate", "--prefix", root, made]), Ran(0, b"", b""))
        unit = made / "delkwoan.service"
        values: dict[str, object] = {"CREDENTIALS_DIRECTORY": credentials, "STATE_DIRECTORY": state, "ADDRESS": self.address, "SEATS": 2, "IDLE": 3}
        (start,) = commands_of(unit, "ExecStart", values)
        self.service = subprocess.Popen(start, stdout=subprocess.PIPE, stderr=subprocess.PIPE)
        for command in commands_of(unit, "ExecStartPost", {**values, "MAINPID": self.service.pid}):
            self.assertEqual(run(command), Ran(0, b"", b""))
        self.assertEqual([path.name for path in state.iterdir()], ["journal"])
        with socket.create_connection(("127.0.0.1", self.port), PATIENCE) as silent:
            self.assertEqual(silent.recv(64), b"")
        self.service.terminate()
        self.assertEqual(self.service.communicate(timeout=PATIENCE), (b"", b""))


class StandbyUnit(WithStandby):
    """The command of the standby's unit, with the program that was built."""

    def test_its_command(self) -> None:
        root, state, credentials, made = (self.folder / name for name in ("root", "state", "credentials", "made"))
        for folder in (state, credentials, root / "bin"):
            folder.mkdir(parents=True)
        shutil.copyfile(EXAMPLES / "roster.csv", credentials / "roster")
        shutil.copyfile(self.key, credentials / "key")
        (root / "bin/compress-follow").symlink_to(TOOLS / "follow")
        self.assertEqual(run([PACKAGING / "generate", "--prefix", root, made]), Ran(0, b"", b""))
        values: dict[str, object] = {"CREDENTIALS_DIRECTORY": credentials, "STATE_DIRECTORY": state, "PRIMARY": self.address}
        (command,) = commands_of(made / "delkwoan-standby.service", "ExecStart", values)
        self.start()
        self.trade(10, 20)
        self.standby, self.behind = state / "journal", state / "behind"
        self.following = started(command, {**os.environ, "COMPRESS_CLI": str(self.program)})
        self.wait_for(2)
        self.assertEqual(self.stopped(), Ran(0, b"", b""))
        self.assertEqual(sorted(path.name for path in state.iterdir()), ["behind", "journal"])


class Completion(Made):
    def setUp(self) -> None:
        super().setUp()
        self.bash = self.made / "compress_cli.bash"
        self.zsh = self.made / "_compress_cli"

    def test_bash(self) -> None:
        need("bash")
        script = (
            'source "$1"; shift; COMP_WORDS=("$@"); COMP_CWORD=$(($# - 1)); _compress; printf "%s\\n" "${COMPREPLY[@]}"'
        )
        for typed, due in TYPED:
            with self.subTest(typed=typed):
                ran = run(["bash", "-c", script, "bash", self.bash, *typed], folder=EXAMPLES)
                self.assertEqual((ran.status, sorted(ran.output.decode().split())), (0, due))
        known = run(["bash", "-c", 'source "$1"; complete -p', "bash", self.bash]).output.decode().splitlines()
        self.assertEqual(sorted(line.split(" ")[-1] for line in known), COMMANDS)

    def test_zsh(self) -> None:
        need("zsh")
        self.assertEqual(run(["zsh", "-n", self.zsh]), Ran(0, b"", b""))
        stubs = 'compadd() { print -l -- ${@:#--}; }; _files() { print FILE; }; f() { source "$1"; }; '
        script = stubs + 'file=$1; shift; words=("$@"); CURRENT=$#; PREFIX=${@[-1]}; f $file'
        for typed, due in TYPED:
            with self.subTest(typed=typed):
                ran = run(["zsh", "-f", "-c", script, "zsh", self.zsh, *typed])
                told = sorted(
                    {word for word in ran.output.decode().split() if word == "FILE" or word.startswith(typed[-1])}
                )
                self.assertEqual((ran.status, ran.errors), (0, b""))
                self.assertEqual(told, ["FILE"] if any("." in word for word in due) else due)

    def test_the_forms_are_the_programs(self) -> None:
        """Each form of the table is read by the program, which then can't read its files, if it has any; with a word less it is
        bad."""
        built = program()
        is_serving = has_serve(built)
        for line in (PACKAGING / "forms").read_text().splitlines():
            name, *words = re.sub(r"\[.*\] ", "", line).split(" ")
            if name != "compress_cli" or (words[0] == "serve" and not is_serving):
                continue
            for mode in ("conservative", "hybrid", "free"):
                typed = [{"FILE": "none", "MODE": mode, "NUMBER": "1"}.get(word, word) for word in words]
                with self.subTest(typed=typed):
                    ran = run([built, *typed], folder=self.folder)
                    wanted = (11, b"file fault\n") if "FILE" in words else (0, b"")
                    self.assertEqual((ran.status, ran.errors), wanted)
                    self.assertEqual(run([built, *typed[:-1]], folder=self.folder), Ran(2, b"", b"bad words\n"))


if __name__ == "__main__":
    unittest.main()
