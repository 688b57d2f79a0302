"""The words of a tool's command line: what can be asked for by --help, and all that is out of form is `bad words`.

The manual page and the completion of each tool are made from its parser.
"""

import argparse
from typing import Any, NoReturn, Sequence

from . import __version__
from .ending import BAD_WORDS

WIDTH = 8
"""The indent of a usage's lines, `usage: ` and a space."""


class Words(argparse.ArgumentParser):
    """A parser with --help and --version, to which all that is out of form is bad words.

    `forms` are the forms that the words may have, where they are more than one.
    """

    def __init__(self, name: str, description: str, forms: Sequence[str] = ()) -> None:
        super().__init__(prog=name, description=description, allow_abbrev=False)
        self.forms = forms
        if forms:
            self.usage = ("\n" + " " * (WIDTH - 1)).join(f"{name} {form}" for form in forms)
        self.add_argument("--version", action="version", version=f"{name} {__version__}", help="show the version and exit")

    def own(self) -> list[argparse.Action]:
        """The options and the plain words, but the options that every tool has."""
        return [action for action in self._actions if action.dest not in ("help", "version")]

    def error(self, message: str) -> NoReturn:
        raise BAD_WORDS


class Once(argparse.Action):
    """An option that may come at most once: with a value, or, by `nargs=0` and a `const`, without one."""

    def __call__(self, parser: argparse.ArgumentParser, given: argparse.Namespace, value: Any, option: str | None = None) -> None:
        if getattr(given, self.dest) is not self.default:
            parser.error(f"{option} stands twice")
        setattr(given, self.dest, self.const if self.nargs == 0 else value)


def flag(parser: Words, name: str, help: str) -> None:
    """An option without a value, which may come at most once."""
    parser.add_argument(name, action=Once, nargs=0, const=True, default=False, help=help)


def plain(word: str) -> str:
    """A word that is no option."""
    if word.startswith("-") and word != "-":
        raise ValueError(word)
    return word


def text(word: str) -> str:
    """A word that is no option, and text."""
    word.encode()
    return plain(word)
