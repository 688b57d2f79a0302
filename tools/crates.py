"""The crates of this tree, as crates.txt has them."""

from pathlib import Path


def crates_of(root: Path) -> dict[str, list[str]]:
    """What each crate stands on directly, by their names, lowest layers first."""
    text = (root / "crates.txt").read_text(encoding="utf-8")
    lines = [line.split("#")[0].split() for line in text.splitlines()]
    return {words[0].rstrip(":"): words[1:] for words in lines if words}


def below(crates: dict[str, list[str]], name: str) -> set[str]:
    """The crates of this tree that a crate stands on."""
    direct = {it for it in crates[name] if it in crates}
    return direct.union(*(below(crates, it) for it in direct))
