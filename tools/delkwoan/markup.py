"""Markup from Python: elements whose texts are escaped, once."""

from html import escape

VOID = ("meta", "br")


class Markup(str):
    """Text that is markup already."""


def tag(name: str, /, *content: str, **attributes: object) -> Markup:
    """An element. An attribute's `_` stands for a dash, and one at its end for nothing, as in `class_`."""
    told = "".join(f' {key.rstrip("_").replace("_", "-")}="{escape(str(value))}"' for key, value in attributes.items())
    return Markup(f"<{name}{told}>") if name in VOID else Markup(f"<{name}{told}>{joined(*content)}</{name}>")


def joined(*content: str) -> Markup:
    """Texts and markup, one behind another."""
    return Markup("".join(part if isinstance(part, Markup) else escape(part) for part in content))
