"""A `follow` of the program, on pipes: what is handed to it, and the lines that it says.

Nothing in here waits but `ended`: a selector tells when there is something to do.
"""

import os
import selectors
import subprocess
from typing import Callable

from .ending import Stop

PIECE = 1 << 16


class Standby:
    """A process that reads replies and says lines. What is told of it: the lines that it said."""

    def __init__(self, words: list[str], selector: selectors.BaseSelector) -> None:
        self.selector = selector
        self.said: Callable[[list[bytes]], None] = lambda _: None
        try:
            pipe = subprocess.PIPE
            # (a signal of the terminal is the tool's to hand on, so the process is in a group of its own)
            self.process = subprocess.Popen(words, stdin=pipe, stdout=pipe, stderr=pipe, process_group=0)
        except (OSError, ValueError):
            raise Stop(11, "the program could not be started") from None
        assert self.process.stdin is not None and self.process.stdout is not None
        self.input, self.output = self.process.stdin.fileno(), self.process.stdout.fileno()
        os.set_blocking(self.input, False)
        os.set_blocking(self.output, False)
        self.rest = b""
        self.due = bytearray()
        self.is_open = True
        """Whether it may still be handed something."""
        self.is_ended = False
        """Whether it says no more."""
        selector.register(self.output, selectors.EVENT_READ, self.read)

    def read(self, _: int) -> None:
        try:
            piece = os.read(self.output, PIECE)
        except BlockingIOError:
            return
        if not piece:
            self.selector.unregister(self.output)
            self.is_ended = True
            return
        *lines, self.rest = (self.rest + piece).split(b"\n")
        if lines:
            self.said(lines)

    def hand(self, replies: bytes) -> None:
        """Hands replies to it."""
        if self.is_open:
            self.due += replies
            self.write(0)

    def write(self, _: int) -> None:
        try:
            while self.due:
                del self.due[: os.write(self.input, self.due)]
        except BlockingIOError:
            pass
        except OSError:
            self.due.clear()  # it has ended, which its output tells
        is_waiting = self.input in self.selector.get_map()
        if self.due and not is_waiting:
            self.selector.register(self.input, selectors.EVENT_WRITE, self.write)
        elif is_waiting and not self.due:
            self.selector.unregister(self.input)

    def close(self) -> None:
        """Ends its input behind what it was handed so far and has taken up, as a connection that breaks."""
        if self.is_open:
            self.is_open = False
            if self.input in self.selector.get_map():
                self.selector.unregister(self.input)
            assert self.process.stdin is not None
            self.process.stdin.close()

    def ended(self) -> tuple[int, str]:
        """Ends its input, waits for it, and gives its status and what it wrote to its errors."""
        self.close()
        assert self.process.stdout is not None and self.process.stderr is not None
        self.process.stdout.close()
        errors = self.process.stderr.read()
        return self.process.wait(), errors.decode(errors="replace").strip()
