"""What the routes of the gateway work with."""

from typing import TYPE_CHECKING, NamedTuple

from .desk import Desk
from .guesses import Guesses
from .metrics import Figures
from .sessions import Sessions
from .stage import Stage
from .votes import Votes
from .watch import Watch

if TYPE_CHECKING:
    from .books import Books


class Parts(NamedTuple):
    """What the routes work with."""

    desk: Desk
    sessions: Sessions
    guesses: Guesses
    figures: Figures
    patience: float
    """The seconds that the body of a request may take."""
    watch: Watch
    votes: Votes
    roster: str | None
    """The roster's text without keys, where there is one."""
    stage: Stage | None
    """Where proposals are rehearsed, where there is a program, a roster and a journal for it."""
    books: "Books"
    """The statements that pages were answered last."""
    currencies: dict[str, str]
    """The products' currencies, if the roster's side file has them."""
