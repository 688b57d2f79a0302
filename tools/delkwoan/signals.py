"""SIGINT and SIGTERM as something that a selector waits for, beside files and connections."""

import selectors
import signal
import socket
from types import FrameType
from typing import Callable


class Signals:
    """Has SIGINT and SIGTERM stop something, as long as it does: one that comes is told by a socket, and wakes who waits."""

    def __init__(self, selector: selectors.BaseSelector, stop: Callable[[], None]) -> None:
        self.selector, self.stop = selector, stop
        self.told, self.telling = socket.socketpair()

    def __enter__(self) -> None:
        self.told.setblocking(False)
        self.telling.setblocking(False)
        self.selector.register(self.told, selectors.EVENT_READ, self.take)
        signal.set_wakeup_fd(self.telling.fileno())
        for number in (signal.SIGINT, signal.SIGTERM):
            signal.signal(number, note)

    def __exit__(self, *_: object) -> None:
        self.selector.unregister(self.told)

    def take(self, _: int) -> None:
        for _ in self.told.recv(64):
            self.stop()


def note(number: int, _: FrameType | None) -> None:
    """The socket tells of the signal."""
