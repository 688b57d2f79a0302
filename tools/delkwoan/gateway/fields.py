"""A reply as fields: what docs/PROTOCOL.md calls the words of its head line and of its detail lines."""

from typing import Any, Callable, NamedTuple, get_type_hints

from .. import replies
from ..replies import BadReply

STEPS = ("end", "cut", "new")
PARTS = ("pot", "pair")
TOLD = {**dict.fromkeys(STEPS, "step"), **dict.fromkeys(PARTS, "row")}
"""The field that has a detail line's word, where one reply may have lines of several words."""


class Form(NamedTuple):
    """The names and the kinds of the words of a line."""

    names: list[str]
    kinds: list[Any]


def form_of(kind: Callable[..., Any]) -> Form:
    hints = {name: hint for name, hint in get_type_hints(kind).items() if name not in ("position", "rows")}
    return Form([*hints], [*hints.values()])


HEADS = {word: form_of(kind) for word, kind in replies.HEADS.items()}
ROWS = {word: form_of(kind) for word, kind in replies.DETAILS.items()}
WITH_ROWS = {"statement": ("trade",), "limits": ("limit",), "plan": STEPS, "proof": PARTS}
"""The replies that have detail lines, and the words of these."""


class Reply(NamedTuple):
    """A reply's text, without its last line feed, and its position."""

    text: str
    position: int


class Refusal(NamedTuple):
    number: int
    name: str
    value: str


def values_of(form: Form, words: list[str]) -> dict[str, Any]:
    if len(words) != len(form.names):
        raise BadReply(" ".join(words))
    return {name: replies.value_of(kind, word) for name, kind, word in zip(form.names, form.kinds, words)}


def row_of(line: str) -> dict[str, Any]:
    word, *words = line.split(" ")
    fields = values_of(ROWS[word], words)
    return {TOLD[word]: word, **fields} if word in TOLD else fields


def kind_of(text: str) -> str:
    """The word that tells what a reply is; for a refusal its name."""
    words = text.partition("\n")[0].split(" ")
    return words[3] if words[0] == "no" else words[2]


def refusal_of(text: str) -> Refusal | None:
    """The refusal that a reply is, if it is one."""
    if not text.startswith("no "):
        return None
    _, _, number, name, *value = text.split(" ")
    return Refusal(int(number), name, " ".join(value))


def fields_of(text: str) -> dict[str, Any]:
    """The fields of a reply that is no refusal."""
    head, *details = text.split("\n")
    _, _, word, *words = head.split(" ")
    if word not in WITH_ROWS:
        return values_of(HEADS[word], words)
    return {**values_of(HEADS[word], words[:-1]), "rows": [row_of(line) for line in details]}
