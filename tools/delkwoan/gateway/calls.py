"""What can be called, and the line of docs/PROTOCOL.md that each call is.

A call's words are the names of its fields in the order of the line; those in its path are taken from there, the others from
the request's body.
"""

import re
from typing import Any, Mapping, NamedTuple

WORD = re.compile(r"[!-~]{1,64}")
"""What may go into a line as one word: no space, and no end of a line. All else about it the service says."""


class BadWord(Exception):
    """A field is missing, is not known, or can't be a word of a line."""

    def __init__(self, field: str) -> None:
        super().__init__(field)
        self.field = field


class Call(NamedTuple):
    """A call: the command of its line, its method and path, what it does, its fields, and the words that a reply to it begins with."""

    verb: str
    method: str
    path: str
    told: str
    words: tuple[str, ...]
    kinds: tuple[str, ...]

    @property
    def is_question(self) -> bool:
        """Whether it changes nothing, so that it may be asked again."""
        return self.method == "GET"

    @property
    def body(self) -> list[str]:
        """The fields that stand in a request's body."""
        return [word for word in self.words if f"{{{word}}}" not in self.path]

    def line(self, given: Mapping[str, Any]) -> str:
        """The line that these fields make."""
        for field in given:
            if field not in self.words:
                raise BadWord(field)
        return " ".join([self.verb, *(word_of(name, given) for name in self.words)])


def word_of(name: str, given: Mapping[str, Any]) -> str:
    """A field as a word; a ceiling may be none."""
    value = given.get(name)
    if value is None and name == "ceiling" and name in given:
        return "-"
    if not isinstance(value, str | int) or isinstance(value, bool) or WORD.fullmatch(str(value)) is None:
        raise BadWord(name)
    return str(value)


TERMS = ("seller", "buyer", "product", "amount", "day")
VERSION = "/api/cycles/{cycle}/versions/{version}"

CALLS = (
    Call("TRADE", "POST", "/api/trades", "Alleges a trade, in which the seller owes the buyer.", TERMS, ("trade",)),
    Call("AFFIRM", "POST", "/api/trades/{trade}/affirm", "Agrees to a trade that the other party alleged.", ("trade",), ("live",)),
    Call("END", "POST", "/api/trades/{trade}/end", "Ends an alleged trade, or asks to end a live one.", ("trade",), ("ending", "ended")),
    Call("HOLD", "POST", "/api/trades/{trade}/hold", "Keeps a live trade out of compression.", ("trade",), ("held",)),
    Call("FREE", "POST", "/api/trades/{trade}/free", "Lets a held trade be compressed again.", ("trade",), ("freed",)),
    Call(
        "TOL",
        "PUT",
        "/api/tolerances/{other}/{product}/{side}",
        "Sets what the member's amount towards another may fall to and grow to.",
        ("other", "product", "side", "floor", "ceiling"),
        ("tol",),
    ),
    Call("STATEMENT", "GET", "/api/statement", "All trades of the member.", (), ("statement",)),
    Call("NETS", "GET", "/api/nets/{product}", "The member's position in a product.", ("product",), ("nets",)),
    Call("NETS", "GET", "/api/market/{product}", "A product's figures, for the operator.", ("product",), ("market",)),
    Call("FREEZE", "POST", "/api/cycles", "Opens the next cycle, with what matures after the day.", ("day",), ("frozen",)),
    Call("BEGIN", "POST", "/api/cycles/{cycle}/versions", "Begins the cycle's next version.", ("cycle", "mode"), ("begun",)),
    Call("LIMITS", "GET", "/api/limits/{product}", "The limits of the version that was begun.", ("product",), ("limits",)),
    Call(
        "PROPOSE",
        "POST",
        "/api/cycles/{cycle}/proposal",
        "Begins the next version, solves it, and proposes what was found. It may take minutes.",
        ("cycle", "mode"),
        ("proposed", "nothing"),
    ),
    Call("PLAN", "GET", "/api/cycles/{cycle}/plan", "What the proposal changes, of what concerns the caller.", ("cycle",), ("plan",)),
    Call("PROOF", "GET", "/api/cycles/{cycle}/proof", "What a member needs to test its own part.", ("cycle",), ("proof",)),
    Call("ACCEPT", "POST", f"{VERSION}/accept", "Agrees to the proposal.", ("cycle", "version"), ("accepted", "executed")),
    Call("DECLINE", "POST", f"{VERSION}/decline", "Drops the proposal.", ("cycle", "version"), ("declined",)),
    Call("CANCEL", "POST", "/api/cycles/{cycle}/cancel", "Ends the cycle.", ("cycle",), ("cancelled",)),
)
"""The calls that are one line."""

ROW = Call("ROW", "POST", "", "", ("product", "seller", "buyer", "amount"), ("noted",))
POTENTIAL = Call("POT", "POST", "", "", ("product", "member", "value"), ("noted",))
POSTING = Call(
    "POST",
    "POST",
    f"{VERSION}/posting",
    "Proposes a network and potentials; what is not in the rows and potentials is 0.",
    ("cycle", "version"),
    ("proposed", "nothing"),
)
"""The call that is a draft's lines, and then one that posts the draft."""

SLOW = ("PROPOSE", "POST")
"""Commands that may take long: nothing goes behind them over their connection."""

AGAIN = {
    "TOL": "sets the same once more",
    "BEGIN": "begins the next version",
    "PROPOSE": "may begin the next version",
}
"""What comes of a line that is sent again, though its change was made; a line of any other command is refused then."""
