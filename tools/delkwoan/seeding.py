"""What a standby may begin with: a copy of its primary's journal in which the primary keeps every change.

Who copies a journal while its service writes it may copy changes that are on no disk yet. A crash may take them from the primary, which
then goes on with others, and a standby that had them would be of another history. So the primary itself reports how many changes it
keeps: it answers with a position only when all changes before it are on its disk. The connection has to stand from before the copy
until that answer: a primary that was started anew may have lost what was copied.
"""

import signal
import time
from contextlib import contextmanager
from types import FrameType
from typing import Iterator, NamedTuple

from .address import Address
from .ending import Stop, read_file, tell
from .replies import BadReply, Entry, Refused, is_number
from .seed import Copy, copy_of
from .session import LinkClosed, Session, TcpLink

PAUSES = (0.05, 2.0)
"""Seconds before the second try of a connection, and the most before any."""
PAUSE = 0.2
"""Seconds before a primary that keeps fewer changes than the copy has is asked again."""
SILENCE = 60
"""Seconds for which a primary may leave a greeting without an answer. It may have no free seat, or wait for its disk."""
MOST_SHOWN = 60
"""How much is shown of what is no reply."""
GONE, AHEAD = 31, 32
"""The refusals of a position below the primary's base, and of one above its history's length."""


class Source(NamedTuple):
    """A primary's journal, its address, and whom it gives its changes to."""

    journal: str
    address: Address
    name: str
    key: str


def change_before(session: Session, position: int) -> bytes | None:
    """The change before a position; none if the primary's base has it, or if the primary does not have it yet."""
    try:
        answer = session.next(max(position - 1, 0))
    except Refused as refused:
        is_in_base = refused.number == GONE and is_number(refused.value) and int(refused.value) <= position
        if not is_in_base and refused.number != AHEAD:
            raise
        return None
    return answer.record if isinstance(answer, Entry) else None


def compared(copy: Copy, last: bytes | None) -> bytes:
    """The copy's bytes, if its last change is the primary's."""
    if last is not None and copy.last is not None and copy.last != last:
        raise Stop(13, f"change {copy.end} of the copy is not the service's")
    return copy.content


def kept_copy(journal: str, session: Session, link: TcpLink, patience: float) -> bytes:
    """A copy of which the primary keeps all. If it does not within the patience, the copy has what the primary kept before."""
    kept = session.position or 0
    last_kept = change_before(session, kept)
    copy = copy_of(journal)
    end = time.monotonic() + patience
    while (left := end - time.monotonic()) > 0:
        link.socket.settimeout(left)
        try:
            last = change_before(session, copy.end)
        except LinkClosed:
            if time.monotonic() < end:
                raise
            break
        if (session.position or 0) >= copy.end:
            return compared(copy, last)
        time.sleep(min(left, PAUSE))
    if kept < copy.base:
        raise Stop(13, f"the copy begins after change {copy.base}, and the service has {kept}")
    if kept > copy.end:
        raise TimeoutError
    return compared(copy.until(kept), last_kept)


@contextmanager
def stoppable() -> Iterator[None]:
    """Has SIGINT and SIGTERM end the tool."""

    def stop(_: int, __: FrameType | None) -> None:
        raise Stop(21, "stopped before the copy was made")

    before = {number: signal.signal(number, stop) for number in (signal.SIGINT, signal.SIGTERM)}
    try:
        yield
    finally:
        for number, handler in before.items():
            signal.signal(number, handler)


def connected_copy(source: Source, patience: float) -> bytes:
    """The copy over one connection."""
    link = TcpLink(*source.address, SILENCE)
    with Session(link) as session:
        session.hello(source.name, source.key)
        return kept_copy(source.journal, session, link, patience)


def seed_of(source: Source, patience: float) -> bytes:
    """The copy, over the first connection that lasts until it is there. A missing connection is reported once."""
    read_file(source.journal, 1)
    pause, is_reported = PAUSES[0], False
    with stoppable():
        while True:
            try:
                return connected_copy(source, patience)
            except (OSError, LinkClosed):
                if not is_reported:
                    tell(f"no connection to {source.address.host} at {source.address.port}, position 0")
                is_reported = True
            except Refused as refused:
                raise Stop(12, f"peer refused {refused.number}") from None
            except BadReply as bad:
                raise Stop(13, f"peer broken: {str(bad)[:MOST_SHOWN]!r}") from None
            time.sleep(pause)
            pause = min(2 * pause, PAUSES[1])
