"""Testing the tools, over small files of tests: what fails once, what fails twice in a row, and how each is told."""

import re
import shutil
import tempfile
import unittest
from pathlib import Path

from running import TOOLS, run

FAILING = """
import unittest
from pathlib import Path


def fail(name: str) -> None:
    \"\"\"Fails as often as the file of this name has lines left.\"\"\"
    path = Path(__file__).with_name(name)
    lines = path.read_text().splitlines(keepends=True) if path.exists() else []
    path.write_text("".join(lines[1:]))
    assert not lines, name


class Cases(unittest.TestCase):
    def test_right(self) -> None:
        pass

    def test_alone(self) -> None:
        fail("alone")

    def test_in_a_table(self) -> None:
        for name in ("first", "second"):
            with self.subTest(name=name):
                fail(name)


class Begun(unittest.TestCase):
    @classmethod
    def setUpClass(cls) -> None:
        fail("class")

    def test_begun(self) -> None:
        pass


fail("file")
"""

ALONE, TABLE, CLASS = "test_it.Cases.test_alone", "test_it.Cases.test_in_a_table", "test_it.Begun"
CASES: list[tuple[dict[str, int], int, list[str], list[str], str]] = [
    ({}, 0, [], [], "4 passed, 0 failed"),
    ({"alone": 1}, 0, [ALONE], [], "4 passed, 0 failed"),
    ({"first": 1, "second": 1}, 0, [TABLE], [], "4 passed, 0 failed"),
    ({"class": 1}, 0, [CLASS], [], "4 passed, 0 failed"),
    ({"alone": 2, "class": 1}, 1, [ALONE, CLASS], [ALONE], "3 passed, 1 failed"),
    ({"first": 2}, 1, [TABLE], [TABLE], "3 passed, 1 failed"),
    ({"class": 2}, 1, [CLASS], [CLASS], "3 passed, 1 failed"),
    ({"file": 9}, 1, ["test_it"], ["test_it"], "0 passed, 1 failed"),
]
"""How often what fails, the status, what is told of the first run and of the second, and the last line."""


class Tests(unittest.TestCase):
    def setUp(self) -> None:
        folder = tempfile.TemporaryDirectory()
        self.addCleanup(folder.cleanup)
        self.tools = Path(folder.name) / "tools"
        shutil.copytree(TOOLS / "delkwoan", self.tools / "delkwoan")
        shutil.copy2(TOOLS / "test", self.tools / "test")
        (self.tools / "tests").mkdir()
        (self.tools / "tests/test_it.py").write_text(FAILING)

    def told(self, failing: dict[str, int], *words: str) -> tuple[int, list[str], list[str], str]:
        for name, times in failing.items():
            (self.tools / "tests" / name).write_text("x\n" * times)
        ran = run([self.tools / "test", *words])
        for name in failing:
            (self.tools / "tests" / name).unlink()
        text = ran.output.decode()
        self.assertEqual(ran.errors, b"")
        once, twice = (re.findall(rf"^{how} (\S+)$", text, re.MULTILINE) for how in ("failed once:", "FAILED"))
        return ran.status, once, twice, text.splitlines()[-1]

    def test_what_fails_once_and_twice(self) -> None:
        for failing, *due in CASES:
            with self.subTest(failing=failing):
                self.assertEqual([*self.told(failing, "--twice")], due)

    def test_without_the_option_once_is_enough(self) -> None:
        self.assertEqual(self.told({"alone": 1, "class": 1}), (1, [], [ALONE, CLASS], "2 passed, 2 failed"))


if __name__ == "__main__":
    unittest.main()
