"""Between a standby and its primary: what is asked for, what is handed on, and how that ends.

The standby asks one question behind the other, and has what it asks past on its disk. The primary is asked ahead of it, for as many
changes as it has, so that replies go through in large pieces; each is handed on whole, in the order of the questions. So a connection
that breaks breaks no reply: over the next one the primary is greeted anew, and asked on from there. That there is no more is handed on
only where following is to end.
"""

import signal
import time
from enum import Enum
from typing import NamedTuple

from .behind import Behind
from .ending import Stop, tell
from .primary import Primary, Reply
from .signals import Signals
from .standby import Standby

WINDOW = 1024
"""How many changes the standby may be given before they are on its disk."""
MOST_WAITING = 1 << 20
"""Bytes of replies behind which no more is asked ahead until the standby has taken up some."""
PATIENCE = 5.0
"""Seconds for which a standby that is to end may still take what it lacks, and then as many until it is killed, which is safe."""
STATUSES = range(2, 20)
"""The program's own, which are told as they are."""
BROKEN = 13
"""The program's status where its input ended before a reply."""


class Step(Enum):
    """What the next reply is to."""

    GREETING = 1
    COMPARING = 2
    FOLLOWING = 3


class Manner(NamedTuple):
    """The line that greets, the pause before the primary is asked again, and whether a new connection is compared first."""

    greeting: bytes
    pause: float
    is_compared: bool


def next_line(position: int) -> bytes:
    return b"NEXT %d\n" % position


class Following:
    """A standby and its primary, from the standby's start to its end."""

    def __init__(self, standby: Standby, primary: Primary, behind: Behind, manner: Manner) -> None:
        self.standby, self.primary, self.behind, self.manner = standby, primary, behind, manner
        self.selector = primary.selector
        standby.said = self.say
        primary.made, primary.broke, primary.came = self.greet, self.lose, self.take
        self.step = Step.GREETING
        self.is_greeted = self.is_told = self.is_stopping = self.is_refused = False
        self.own: int | None = None
        """The position that the standby asked last: all changes before it are on its disk."""
        self.next = self.asked = self.length = self.moment = 0
        """The positions of the next reply to be handed on, and of the next to be asked; the primary's length, and when it was told."""
        self.ask_at = self.stop_at = 0.0
        self.last: Reply | None = None
        """The last entry that was handed on."""

    def say(self, lines: list[bytes]) -> None:
        """Takes lines of the standby: its greeting, then each question as it has what was before it, then its farewell."""
        if self.own is None and lines[0].startswith(b"HELLO "):
            self.primary.begin()
        asked = [line for line in (lines[:2] if self.own is None else []) + lines[-1:] if line.startswith(b"NEXT ")]
        if asked and self.own is None:
            self.next = self.asked = int(asked[0][5:])
        if asked:
            self.own = int(asked[-1][5:])
        if lines[-1] == b"BYE":
            self.primary.send(b"BYE\n")
            self.primary.close()

    def greet(self) -> None:
        """A connection stands."""
        self.step, self.asked, self.ask_at = Step.GREETING, self.next, 0.0
        self.primary.send(self.manner.greeting)

    def lose(self) -> None:
        """A connection broke, or can't be had: that is told once, until one is greeted."""
        if not self.is_told:
            self.is_told = True
            tell(f"{self.lost_text()}, position {self.own or 0}")
        if self.is_stopping:
            self.standby.close()

    def lost_text(self) -> str:
        return f"no connection to {self.primary.address.host} at {self.primary.address.port}"

    def take(self, found: list[Reply]) -> None:
        """Takes the replies that came, and hands on what the standby is to have."""
        self.moment = int(time.time())
        self.length = found[-1].length
        handed: list[bytes] = []
        for reply in found:
            if self.is_handed(reply):
                handed.append(reply.text)
        self.standby.hand(b"".join(handed))

    def is_handed(self, reply: Reply) -> bool:
        """Whether the standby is to have this reply, which is to the first question that has none."""
        if self.step is Step.GREETING:
            return self.is_greeting_handed(reply)
        if self.step is Step.COMPARING:
            self.step = Step.FOLLOWING
            assert self.last is not None
            is_same = reply.is_entry and reply.record == self.last.record
            # what differs is no reply to the standby's question, which it ends by
            return not is_same and reply.words[2:3] != [b"31"] and self.count(reply)
        is_tip = self.asked == self.next + 1
        if is_tip and reply.words == [b"ok", b"%d" % self.next, b"none"] and not self.is_stopping:
            self.asked = self.next
            self.ask_at = time.monotonic() + self.manner.pause
            return False
        return self.count(reply)

    def count(self, reply: Reply) -> bool:
        """Counts a reply that is handed on."""
        self.next += 1
        self.asked = max(self.asked, self.next)
        self.ask_at = 0.0
        self.is_refused = not reply.is_entry
        if reply.is_entry:
            self.last = reply
        return True

    def is_greeting_handed(self, reply: Reply) -> bool:
        """Whether the standby is to have the reply to a greeting: the first one, and a refusal."""
        self.step = Step.FOLLOWING
        is_hello = reply.words[0] == b"ok"
        if is_hello and self.is_told:
            self.is_told = False
            tell(f"connected to {self.primary.address.host} at {self.primary.address.port}, position {self.own or 0}")
        if is_hello and self.manner.is_compared and self.last is not None:
            self.step = Step.COMPARING
            self.primary.send(next_line(self.next - 1))
        if self.is_greeted:
            return not is_hello and self.count(reply)
        self.is_greeted = True
        return True

    def may_ask_more(self, own: int) -> bool:
        """Whether the primary may be asked for what it may not have yet. Behind a refusal the standby has to go on by itself first."""
        return own == self.next or (not self.is_refused and self.next < own + WINDOW)

    def ask(self) -> float | None:
        """Asks what may be asked now; when it may be asked again, if that is to be waited for."""
        if self.step is not Step.FOLLOWING or self.own is None or not self.primary.is_open:
            return None
        end = min(self.length, self.own + WINDOW) if len(self.standby.due) < MOST_WAITING else 0
        if self.asked < end and 2 * (end - self.asked) >= min(WINDOW, self.length - self.asked):
            self.primary.send(b"".join(map(next_line, range(self.asked, end))))
            self.asked = end
        elif self.asked == self.next >= self.length and self.may_ask_more(self.own):
            if time.monotonic() < self.ask_at:
                return self.ask_at
            self.asked += 1
            self.primary.send(next_line(self.asked - 1))
        return None

    def stop(self) -> None:
        """Has the standby end: as soon as it has all that its primary has; where that takes too long, or at the second call, as it is."""
        if self.is_stopping or not self.primary.is_open or self.own is None:
            self.standby.close()
        self.ask_at, self.stop_at = 0.0, time.monotonic() + (0.0 if self.is_stopping else PATIENCE)
        self.is_stopping = True

    def act(self) -> list[float]:
        """Does what is due; when something is due again."""
        now = time.monotonic()
        if self.primary.due is not None and now >= self.primary.due and not self.is_stopping:
            self.primary.begin()
        if self.is_stopping and now >= self.stop_at:
            self.standby.close()
            if now >= self.stop_at + PATIENCE:
                self.standby.process.kill()
        dues = [self.ask(), None if self.is_stopping else self.primary.due]
        if self.is_stopping and now < self.stop_at + PATIENCE:
            dues.append(self.stop_at if now < self.stop_at else self.stop_at + PATIENCE)
        if self.own is not None and self.moment:
            dues.append(self.behind.tell(self.own, self.length, self.moment, self.standby.is_ended))
        return [due for due in dues if due is not None]

    def run(self) -> None:
        """Goes on until the standby has ended; raises Stop where its status is not 0."""
        with Signals(self.selector, self.stop):
            while not self.standby.is_ended:
                dues = self.act()
                wait = max(min(dues) - time.monotonic(), 0.0) if dues else None
                for key, events in self.selector.select(wait):
                    key.data(events)
        self.act()
        is_cut, is_served = self.is_stopping and not self.standby.is_open, self.primary.is_open and self.own is not None
        self.primary.close()
        status, told = self.standby.ended()
        if is_cut and status in (BROKEN, -signal.SIGKILL):
            raise Stop(21, f"stopped at position {self.own}, the primary at {self.length}" if is_served else self.lost_text())
        if status:
            raise Stop(status if status in STATUSES else 20, told or f"the program ended with status {status}")
