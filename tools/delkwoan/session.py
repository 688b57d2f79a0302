"""A session from Python: a method for each command, answers as values, refusals as exceptions.

    with Session.script("compress_cli", "roster.csv", "journal") as session:
        session.hello("A", "KA")
        trade = session.trade("A", "B", "P", 10, "2026-03-02").trade
        print(session.nets("P").net)

A session talks over a link, which sends lines and gives lines: a ScriptLink drives a `script` process, and a TcpLink is
a connection to a `serve`, by `Session.connect("127.0.0.1", 7000)`.
"""

import socket
import subprocess
from pathlib import Path
from typing import Protocol

from . import replies
from .replies import expected


LONGEST_LINE = 4096
"""Bytes of a line of a reply, with its line feed; the longest that a service writes has some 150."""
LONGEST_REPLY = 1 << 26
"""Bytes of a reply. A statement of 100,000 trades has 5,000,000."""


class LinkClosed(Exception):
    """The other side has ended: its status, what it wrote to its errors, and the last reply's position, if there was a reply."""

    def __init__(self, status: int, errors: str, position: int | None) -> None:
        super().__init__(f"the session has ended with status {status}: {errors}".rstrip(": "))
        self.status = status
        self.errors = errors
        self.position = position


class Link(Protocol):
    """What sends lines and gives lines, both with their line feed, or a number of bytes; fewer, or an empty line, mean the end. Of a line
    that is longer than LONGEST_LINE it gives the first bytes."""

    def send(self, line: bytes) -> None:
        ...

    def give(self, size: int | None = None) -> bytes:
        ...

    def close(self) -> tuple[int, str]:
        ...


class ScriptLink:
    """A link to a `script` process, which is started with it."""

    def __init__(self, program: str | Path, roster: str | Path, journal: str | Path) -> None:
        self.process = subprocess.Popen(
            [program, "script", roster, journal],
            stdin=subprocess.PIPE,
            stdout=subprocess.PIPE,
            stderr=subprocess.PIPE,
            process_group=0,
        )

    def send(self, line: bytes) -> None:
        assert self.process.stdin is not None
        try:
            self.process.stdin.write(line)
            self.process.stdin.flush()
        except OSError:
            pass  # the end is told where the reply is missing

    def give(self, size: int | None = None) -> bytes:
        assert self.process.stdout is not None
        return self.process.stdout.readline(LONGEST_LINE) if size is None else self.process.stdout.read(size)

    def close(self) -> tuple[int, str]:
        """Ends the input, and gives the process's status and what it wrote to its errors."""
        try:
            _, errors = self.process.communicate()
        except (OSError, ValueError):
            errors = b""
        return self.process.wait(), errors.decode(errors="replace").strip()


CONNECTION_LOST = (21, "connection lost")
"""The status and the line of a connection that ended while a reply was due."""


class TcpLink:
    """A connection to a `serve`. Where it can't be had in these seconds, that is an OSError; each reply may take as long."""

    def __init__(self, host: str, port: int, seconds: float | None = None) -> None:
        self.socket = socket.create_connection((host, port), seconds)
        self.socket.setsockopt(socket.IPPROTO_TCP, socket.TCP_NODELAY, 1)
        self.replies = self.socket.makefile("rb")
        self.is_lost = False

    def send(self, line: bytes) -> None:
        try:
            self.socket.sendall(line)
        except OSError:
            pass  # the end is told where the reply is missing

    def give(self, size: int | None = None) -> bytes:
        try:
            line = self.replies.readline(LONGEST_LINE) if size is None else self.replies.read(size)
        except OSError:
            line = b""
        self.is_lost = len(line) < (LONGEST_LINE if size is None else size) and not (size is None and line.endswith(b"\n"))
        return line

    def close(self) -> tuple[int, str]:
        """Ends the connection."""
        self.replies.close()
        self.socket.close()
        return CONNECTION_LOST if self.is_lost else (0, "")


class Session:
    """A session over a link. Commands raise Refused where they are refused, and LinkClosed where the link has ended."""

    def __init__(self, link: Link) -> None:
        self.link = link
        self.end_of_link: tuple[int, str] | None = None
        self.position: int | None = None
        """The position of the last reply that came."""

    @classmethod
    def script(cls, program: str | Path, roster: str | Path, journal: str | Path) -> "Session":
        """A session with a `script` process of its own."""
        return cls(ScriptLink(program, roster, journal))

    @classmethod
    def connect(cls, host: str, port: int, seconds: float | None = None) -> "Session":
        """A session with a `serve` that listens there. A wait of more than these seconds loses the connection."""
        return cls(TcpLink(host, port, seconds))

    def __enter__(self) -> "Session":
        return self

    def __exit__(self, *_: object) -> None:
        self.close()

    def close(self) -> tuple[int, str]:
        """Ends the session; the status of the other side, and what it wrote to its errors."""
        if self.end_of_link is None:
            self.end_of_link = self.link.close()
        return self.end_of_link

    def ask_raw(self, line: str) -> list[bytes]:
        """The lines of the reply to a line; of an entry the head, and its record with a line feed."""
        if "\n" in line:
            raise ValueError("a line has no line feed in it")
        if self.end_of_link is not None:
            raise LinkClosed(*self.end_of_link, self.position)
        self.link.send(line.encode(errors="surrogateescape") + b"\n")
        head = self.given()
        text = head.decode(errors="replace").rstrip("\n")
        size = replies.size_of(text)
        if size is not None and size > LONGEST_REPLY:
            raise replies.BadReply(f"a reply of more than {LONGEST_REPLY} bytes")
        details = self.rows(replies.count_of(text)) if size is None else [self.given(size + 1)]
        self.position = replies.position_of(text)
        return [head, *details]

    def rows(self, count: int) -> list[bytes]:
        """This number of detail lines."""
        rows, length = [], 0
        for _ in range(count):
            rows.append(self.given())
            length += len(rows[-1])
            if length > LONGEST_REPLY:
                raise replies.BadReply(f"a reply of more than {LONGEST_REPLY} bytes")
        return rows

    def given(self, size: int | None = None) -> bytes:
        """A line, or a number of bytes with a line feed as the last."""
        line = self.link.give(size)
        if len(line) < (LONGEST_LINE if size is None else size) and not (size is None and line.endswith(b"\n")):
            raise LinkClosed(*self.close(), self.position)
        if not line.endswith(b"\n"):
            raise replies.BadReply(f"a line of more than {LONGEST_LINE} bytes" if size is None else "no line feed after an entry")
        return line

    def ask(self, line: str) -> replies.Answer:
        """The answer to a line."""
        head, *details = self.ask_raw(line)
        text = head.decode(errors="replace")[:-1]
        if replies.size_of(text) is not None:
            return replies.entry_of(text, details[0][:-1])
        return replies.answer_of(text, [line.decode(errors="replace")[:-1] for line in details])

    def command(self, *words: object) -> replies.Answer:
        """The answer to a command of these words, none of which is empty or has a space or a line's end."""
        texts = [str(word) for word in words]
        if any(not text or any(letter in text for letter in " \r\n") for text in texts):
            raise ValueError("a word is empty, or has a space or a line's end")
        return self.ask(" ".join(texts))

    def hello(self, name: str, key: str) -> replies.Hello:
        return expected(self.command("HELLO", name, key), replies.Hello)

    def trade(self, seller: str, buyer: str, product: str, amount: int, day: object) -> replies.Traded:
        return expected(self.command("TRADE", seller, buyer, product, amount, day), replies.Traded)

    def affirm(self, trade: int) -> replies.Live:
        return expected(self.command("AFFIRM", trade), replies.Live)

    def end(self, trade: int) -> replies.Ending | replies.Ended:
        return expected(self.command("END", trade), replies.Ending, replies.Ended)

    def hold(self, trade: int) -> replies.Held:
        return expected(self.command("HOLD", trade), replies.Held)

    def free(self, trade: int) -> replies.Freed:
        return expected(self.command("FREE", trade), replies.Freed)

    def tol(self, other: str, product: str, side: str, floor: int, ceiling: int | None = None) -> replies.Tolerance:
        return expected(self.command("TOL", other, product, side, floor, "-" if ceiling is None else ceiling), replies.Tolerance)

    def nets(self, product: str) -> replies.Nets | replies.Market:
        """A member's own position, or, for the operator, the product's figures."""
        return expected(self.command("NETS", product), replies.Nets, replies.Market)

    def statement(self) -> replies.Statement:
        return expected(self.command("STATEMENT"), replies.Statement)

    def freeze(self, day: object) -> replies.Frozen:
        return expected(self.command("FREEZE", day), replies.Frozen)

    def begin(self, cycle: int, mode: str) -> replies.Begun:
        return expected(self.command("BEGIN", cycle, mode), replies.Begun)

    def limits(self, product: str) -> replies.Limits:
        return expected(self.command("LIMITS", product), replies.Limits)

    def row(self, product: str, seller: str, buyer: str, amount: int) -> replies.Noted:
        return expected(self.command("ROW", product, seller, buyer, amount), replies.Noted)

    def pot(self, product: str, member: str, value: int) -> replies.Noted:
        return expected(self.command("POT", product, member, value), replies.Noted)

    def post(self, cycle: int, version: int) -> replies.Proposed | replies.Nothing:
        return expected(self.command("POST", cycle, version), replies.Proposed, replies.Nothing)

    def propose(self, cycle: int, mode: str) -> replies.Proposed | replies.Nothing:
        return expected(self.command("PROPOSE", cycle, mode), replies.Proposed, replies.Nothing)

    def plan(self, cycle: int) -> replies.Plan:
        return expected(self.command("PLAN", cycle), replies.Plan)

    def proof(self, cycle: int) -> replies.Proof:
        return expected(self.command("PROOF", cycle), replies.Proof)

    def accept(self, cycle: int, version: int) -> replies.Accepted | replies.Executed:
        return expected(self.command("ACCEPT", cycle, version), replies.Accepted, replies.Executed)

    def decline(self, cycle: int, version: int) -> replies.Declined:
        return expected(self.command("DECLINE", cycle, version), replies.Declined)

    def cancel(self, cycle: int) -> replies.Cancelled:
        return expected(self.command("CANCEL", cycle), replies.Cancelled)

    def next(self, position: int) -> replies.Entry | replies.NoEntry:
        """The change behind a position."""
        return expected(self.command("NEXT", position), replies.Entry, replies.NoEntry)

    def bye(self) -> replies.Bye:
        return expected(self.command("BYE"), replies.Bye)
