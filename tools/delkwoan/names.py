"""What can be typed in the client's shell: the words of each command, and the names of a roster."""

import csv
import io

from .about import NOTHING, About

COMMANDS: dict[str, str] = {
    "HELLO": "NAME KEY",
    "TRADE": "SELLER BUYER PRODUCT AMOUNT DAY",
    "AFFIRM": "TRADE",
    "END": "TRADE",
    "HOLD": "TRADE",
    "FREE": "TRADE",
    "TOL": "OTHER PRODUCT SIDE FLOOR CEILING",
    "NETS": "PRODUCT",
    "STATEMENT": "",
    "FREEZE": "DAY",
    "BEGIN": "CYCLE MODE",
    "LIMITS": "PRODUCT",
    "ROW": "PRODUCT SELLER BUYER AMOUNT",
    "POT": "PRODUCT MEMBER VALUE",
    "POST": "CYCLE VERSION",
    "PROPOSE": "CYCLE MODE",
    "PLAN": "CYCLE",
    "PROOF": "CYCLE",
    "ACCEPT": "CYCLE VERSION",
    "DECLINE": "CYCLE VERSION",
    "CANCEL": "CYCLE",
    "NEXT": "POSITION",
    "BYE": "",
}
"""The words of each command."""

OWN = {"help": "what can be typed", "names": "the roster's names, and what is told about them", "quit": "end the session"}
"""Words of the shell itself, which are not sent."""


class Names:
    """The names of a roster file, to complete words with, and what is told about them; of a file that is none there are fewer."""

    def __init__(self, roster: bytes, about: About = NOTHING) -> None:
        self.about = about
        self.roles: dict[str, str] = {}
        try:
            for fields in csv.reader(io.StringIO(roster.decode("latin-1"), newline="")):
                if len(fields) == 3 and fields[1] in ("dealer", "customer", "operator", "product"):
                    self.roles[fields[0]] = fields[1]
        except csv.Error:
            pass  # the program tells what is wrong with it
        self.members = self.of_roles("dealer", "customer")
        self.products = self.of_roles("product")
        self.speakers = [*self.of_roles("operator"), *self.members]

    def of_roles(self, *roles: str) -> list[str]:
        return [name for name, role in self.roles.items() if role in roles]

    def table(self) -> list[list[str]]:
        """Each name with its role, and with its LEI or currency where any is told."""
        told = [(head, values) for head, values in zip(("LEI", "CURRENCY"), self.about) if values]
        rows = [[name, role, *(values.get(name, "-") for _, values in told)] for name, role in self.roles.items()]
        return [["NAME", "ROLE", *(head for head, _ in told)], *rows]

    def of_word(self, word: str) -> list[str]:
        """What can stand for a word of a command."""
        choices = {"SIDE": ["out", "in"], "MODE": ["conservative", "hybrid", "free"], "CEILING": ["-"], "NAME": self.speakers}
        choices |= {"PRODUCT": self.products} | {word: self.members for word in ("SELLER", "BUYER", "OTHER", "MEMBER")}
        return choices.get(word, [])


def completions(names: Names, before: str, text: str) -> list[str]:
    """How a word that begins with this text can go on, behind what stands before it in the line."""
    words = before.split(" ")[:-1]
    if not words:
        choices = [*COMMANDS, *OWN]
        return [word + " " for word in choices if word.startswith(text) or (text and word.startswith(text.upper()))]
    forms = COMMANDS.get(words[0], "").split(" ")
    if words == ["help"]:
        return [word for word in COMMANDS if word.startswith(text)]
    choices = names.of_word(forms[len(words) - 1]) if len(words) <= len(forms) else []
    return [word + " " for word in choices if word.startswith(text)]
