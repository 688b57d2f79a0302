"""The edits of bodies that the prover has to refuse, as files: each can still be applied to its crate, and changes it."""

import tempfile
import unittest
from pathlib import Path

from running import ROOT

SOURCE = "src/lib.rt"
TEXT = "one two two\n"
FAULTS = {
    f"file: {SOURCE}\nold: one\nnew: three\n": None,
    f"file: {SOURCE}\nold: one\nnew: three\nold: three\nnew: four\n": None,
    f"file: {SOURCE}\nold: two\nnew: three\n": f"two: 2 times in {SOURCE}",
    f"file: {SOURCE}\nold: four\nnew: three\n": f"four: 0 times in {SOURCE}",
    f"file: {SOURCE}\nold: one\nnew: one\n": "it changes nothing",
    f"file: {SOURCE}\nold: one\n": "it changes nothing",
    "file: src/top.rt\nold: one\nnew: three\n": "no file src/top.rt",
}
"""Edits of a crate that has one file of this text, and why each can't be applied, if it can't."""


def fault_of(edit: str, crate: Path) -> str | None:
    """Why an edit of a crate can't be applied, if it can't: each of its old texts has to stand once where the ones before it left it."""
    path, old, texts = "", "", dict[str, str]()
    for line in edit.splitlines():
        word, _, given = line.partition(": ")
        if word == "file":
            path = given.strip()
            if not (crate / path).is_file():
                return f"no file {path}"
            texts.setdefault(path, (crate / path).read_text())
        elif word == "old":
            old = given
        elif word in ("new", "new:"):
            if (found := texts[path].count(old)) != 1:
                return f"{old}: {found} times in {path}"
            texts[path] = texts[path].replace(old, given)
    return None if any(text != (crate / path).read_text() for path, text in texts.items()) else "it changes nothing"


class Edits(unittest.TestCase):
    def test_what_cannot_be_applied_is_told(self) -> None:
        with tempfile.TemporaryDirectory() as folder:
            (Path(folder) / SOURCE).parent.mkdir()
            (Path(folder) / SOURCE).write_text(TEXT)
            self.assertEqual({edit: fault_of(edit, Path(folder)) for edit in FAULTS}, FAULTS)

    def test_each_can_be_applied(self) -> None:
        edits = [*ROOT.glob("crates/*/must-fail/*.edit"), *ROOT.glob("crates/*/wrong-bodies/*.edit")]
        self.assertGreater(len(edits), 0)
        faults = {str(edit.relative_to(ROOT)): fault_of(edit.read_text(), edit.parents[1]) for edit in sorted(edits)}
        self.assertEqual({edit: fault for edit, fault in faults.items() if fault}, {})


if __name__ == "__main__":
    unittest.main()
