"""The Debian package, built from a copy of the tree, for the tests."""

import os
import re
import shutil
import subprocess
import tempfile
import unittest
from pathlib import Path

from running import PATIENCE, ROOT, Ran, run

UNITS = ["delkwoan.service", "delkwoan-gateway.service", "delkwoan-restart.service", "delkwoan-restart.timer", "delkwoan-standby.service"]


def need(*tools: str) -> None:
    """Skips if one of these is not there."""
    for tool in tools:
        if shutil.which(tool) is None:
            raise unittest.SkipTest(f"no {tool}")


def need_builders() -> None:
    """Skips if no package can be built."""
    need("dpkg-buildpackage", "dh", "pybuild")
    if (lacks := run(["dpkg-checkbuilddeps", str(ROOT / "debian/control")])).status != 0:
        raise unittest.SkipTest(lacks.errors.decode().strip())


def copied(tree: Path) -> None:
    """The files of the tree that a package is made from, as git or as the tree has them."""
    tree.mkdir()
    ignored = shutil.ignore_patterns("out", "__pycache__", ".mypy_cache", "*.egg-info", "made", ".debhelper", "*.service", "*.timer")
    for name in ("debian", "docs", "examples", "packaging", "tools"):
        shutil.copytree(ROOT / name, tree / name, ignore=ignored)
    for name in ("README.md", "CHANGELOG.md", "pyproject.toml"):
        shutil.copy2(ROOT / name, tree / name)


def built_from(tree: Path, built: Path) -> Ran:
    """Builds the package of a tree around a program; it lies beside the tree then."""
    environ = {**os.environ, "PROGRAM": str(built), "DPKG_DEB_COMPRESSOR_TYPE": "gzip", "DPKG_DEB_COMPRESSOR_LEVEL": "1"}
    done = subprocess.run(["dpkg-buildpackage", "-b", "-uc", "-us"], cwd=tree, env=environ, capture_output=True, timeout=PATIENCE)
    return Ran(done.returncode, done.stdout, done.stderr)


PACKAGES: dict[Path, Path] = {}
"""The packages that were built, by the program in them."""


def package(around: Path) -> Path:
    """The package around a program, or the one that DELKWOAN_PACKAGE names. It is built once, and lasts as long as the tests of a file."""
    if named := os.environ.get("DELKWOAN_PACKAGE"):
        return Path(named)
    if around not in PACKAGES:
        need_builders()
        folder = tempfile.TemporaryDirectory()
        unittest.addModuleCleanup(folder.cleanup)
        copied(Path(folder.name) / "tree")
        ran = built_from(Path(folder.name) / "tree", around)
        if ran.status != 0:
            raise AssertionError((ran.output[-2000:] + ran.errors[-2000:]).decode(errors="replace"))
        (PACKAGES[around],) = Path(folder.name).glob("delkwoan_*.deb")
        unittest.addModuleCleanup(PACKAGES.pop, around)
    return PACKAGES[around]


def changed(package: Path, folder: Path, version: str, edits: dict[str, tuple[str, str]]) -> Path:
    """A package like this one, of another version, in whose files texts are replaced."""
    root = folder / "changed"
    shutil.rmtree(root, ignore_errors=True)
    assert run(["dpkg-deb", "-R", package, root]).status == 0
    control = root / "DEBIAN/control"
    control.write_text(re.sub(r"(?m)^Version: .*$", f"Version: {version}", control.read_text()))
    for name, (old, new) in edits.items():
        text = (root / name).read_text()
        assert old in text, f"{name} has no {old}"
        (root / name).write_text(text.replace(old, new))
    built = folder / f"delkwoan_{version}.deb"
    assert run(["dpkg-deb", "--root-owner-group", "-b", root, built]).status == 0
    return built
