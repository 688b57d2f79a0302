"""Which refusals leave open whether a change was made.

Changes that share an append are put on the disk together. If the disk fails there, the service stops: after its next start all of them
are made, or none. Until then the first of them is answered 27. Each other one is answered by the history without them: 26 if it would be
accepted there, else as it is refused there. So `HOLD 1`, `FREE 1`, `TRADE` may be answered 27, 12 and 26, and all three be made. Any
connection may have the 27, also one that is not the gateway's.

- `27` leaves open any change.
- `26` and `28` leave open a change that may share an append, whoever was answered a 27. A PROPOSE at 26 may have begun its version.
- `11` and `12` leave it open if the command leans on a change of the same append, as the FREE on the HOLD. They are also everyday answers. So
  they count as in doubt if some connection to the service, which still stands, was answered 26 or 27; and where the question may come
  again, by an Idempotency-Key, as sure only once the same connection has shown a longer history. A service that has stopped shows none.
- Any other refusal is sure: no change of an append makes it, or the command shares none.
"""

from .fields import Refusal

UNKNOWN_TRADE, WRONG_STATE, STOPPED, DISK_FAULT, NO_MEMORY = 11, 12, 26, 27, 28
ON_TRADES = ("AFFIRM", "END", "HOLD", "FREE")
SHARING = ("TRADE", *ON_TRADES)
"""The commands whose changes may share an append."""
OPEN = {DISK_FAULT: None, STOPPED: (*SHARING, "PROPOSE"), NO_MEMORY: SHARING}
"""The refusals that leave a change open, each with the commands of which it does, or None for all."""
LEANING = {UNKNOWN_TRADE: ON_TRADES, WRONG_STATE: ("HOLD", "FREE")}
"""The refusals that do so only where the service has stopped."""


def is_open(verb: str, refusal: Refusal) -> bool:
    """Whether a refusal leaves open whether the change was made."""
    verbs = OPEN.get(refusal.number, ())
    return verbs is None or verb in verbs


def may_lean(verb: str, refusal: Refusal) -> bool:
    """Whether it does so if the service has stopped."""
    return verb in LEANING.get(refusal.number, ())


def shows_stop(reply: str) -> bool:
    """Whether a reply tells that the service has stopped."""
    return reply.startswith("no ") and reply.split(" ", 3)[2] in (str(STOPPED), str(DISK_FAULT))
