"""Calls with an Idempotency-Key, in an SQLite file: what was sent, and the reply once it came.

A call is put down before its line is sent. So who finds one without a reply, also after a kill of the gateway, knows that it may have been
answered. Of a TRADE it is kept which largest trade number the member had then. What is written is on the disk before it counts;
writes that come together go together. The file has lines and replies, and no key of a member; one gateway has it at a time.
"""

import asyncio
import sqlite3
import time
from concurrent.futures import ThreadPoolExecutor
from typing import Any, NamedTuple

from .doubt import SHARING

DAYS = 30
"""How long a call is kept."""
COLUMNS = "line, largest, is_alone, reply, found, doubt"
TABLE = """
CREATE TABLE IF NOT EXISTS calls (
    member TEXT NOT NULL, key TEXT NOT NULL, line TEXT NOT NULL, at REAL NOT NULL,
    largest INTEGER, is_alone INTEGER NOT NULL, reply TEXT, found INTEGER, doubt TEXT,
    PRIMARY KEY (member, key)
) WITHOUT ROWID
"""
HAS_DOUBT = "SELECT 1 FROM pragma_table_info('calls') WHERE name = 'doubt'"
ADD_DOUBT = f"""
BEGIN IMMEDIATE;
ALTER TABLE calls ADD COLUMN doubt TEXT;
UPDATE calls SET doubt = reply, reply = NULL, is_alone = 0
WHERE (reply GLOB 'no * 26 stopped *' OR reply GLOB 'no * 28 memory') AND ({" OR ".join(f"line GLOB '{verb} *'" for verb in SHARING)});
COMMIT;
"""
"""The file of an earlier gateway has no doubts, and took such refusals for answers: whoever sent the same line afterwards left no mark."""


class Faulty(Exception):
    """The file could not be read or written."""


class Row(NamedTuple):
    """A call that was kept. `found` is the trade that was taken for it, in place of a reply that was lost or a refusal that left it open,
    which is its `doubt`."""

    line: str
    largest: int | None
    is_alone: bool
    """Whether a trade of the same terms can be no other's: no other session of the member was open, and nobody else sent the line."""
    reply: str | None
    found: int | None
    doubt: str | None = None


class Write(NamedTuple):
    """A statement that waits for its turn."""

    text: str
    values: tuple[Any, ...]
    done: "asyncio.Future[list[tuple[Any, ...]]]"


class Kept:
    """The calls that were kept. All but the opening is done in one thread of its own."""

    def __init__(self, path: str) -> None:
        try:
            self.database = sqlite3.connect(path, timeout=1, check_same_thread=False, isolation_level=None)
            for text in ("PRAGMA locking_mode=EXCLUSIVE", "PRAGMA journal_mode=WAL", "PRAGMA synchronous=FULL", TABLE):
                self.database.execute(text)
            if not self.database.execute(HAS_DOUBT).fetchall():
                self.database.executescript(ADD_DOUBT)
            rows = self.database.execute("SELECT member, key, line FROM calls WHERE reply IS NULL AND found IS NULL")
            self.open: dict[str, set[tuple[str, str]]] = {}
            for member, key, line in rows:
                self.open.setdefault(line, set()).add((member, key))
        except (sqlite3.Error, ValueError):
            raise Faulty from None
        self.thread = ThreadPoolExecutor(1)
        self.waiting: list[Write] = []
        self.is_writing = False

    def close(self) -> None:
        self.thread.shutdown()
        self.database.close()

    def write_all(self, writes: list[Write]) -> list[list[tuple[Any, ...]]]:
        """Runs statements as one change of the file, in the thread."""
        try:
            self.database.execute("BEGIN IMMEDIATE")
            rows = [self.database.execute(write.text, write.values).fetchall() for write in writes]
            self.database.execute("COMMIT")
        except sqlite3.Error:
            if self.database.in_transaction:
                self.database.execute("ROLLBACK")
            raise Faulty from None
        return rows

    async def write_waiting(self) -> None:
        """Runs what waits, and what comes meanwhile behind it."""
        loop = asyncio.get_running_loop()
        while self.waiting:
            writes, self.waiting = self.waiting, []
            try:
                rows = await loop.run_in_executor(self.thread, self.write_all, writes)
            except Faulty as fault:
                for write in writes:
                    if not write.done.done():
                        write.done.set_exception(fault)
                continue
            for write, told in zip(writes, rows):
                if not write.done.done():
                    write.done.set_result(told)
        self.is_writing = False

    async def run(self, text: str, *values: Any) -> list[tuple[Any, ...]]:
        """The rows of a statement, once it is on the disk."""
        write = Write(text, values, asyncio.get_running_loop().create_future())
        self.waiting.append(write)
        if not self.is_writing:
            self.is_writing = True
            self.writer = asyncio.create_task(self.write_waiting())
        return await write.done

    async def find(self, member: str, key: str) -> Row | None:
        rows = await self.run(f"SELECT {COLUMNS} FROM calls WHERE member = ? AND key = ?", member, key)
        return Row(rows[0][0], rows[0][1], bool(rows[0][2]), *rows[0][3:]) if rows else None

    async def begin(self, member: str, key: str, line: str, largest: int | None, is_alone: bool) -> None:
        """Puts down a call that is about to be sent. Who sends a line that another call has open, spoils both."""
        is_alone = is_alone and not await self.spoil(line)
        self.open.setdefault(line, set()).add((member, key))
        values = member, key, line, time.time(), largest, is_alone
        await self.run("INSERT INTO calls (member, key, line, at, largest, is_alone) VALUES (?, ?, ?, ?, ?, ?)", *values)

    async def end(self, member: str, key: str, line: str, reply: str | None, found: int | None = None) -> None:
        """The reply came, or the trade was found."""
        await self.run("UPDATE calls SET reply = ?, found = ? WHERE member = ? AND key = ?", reply, found, member, key)
        self.close_line(member, key, line)

    async def leave_open(self, member: str, key: str, doubt: str | None) -> None:
        """A refusal came that leaves it open whether the change was made; or the line is about to be sent again, and has no reply."""
        await self.run("UPDATE calls SET doubt = ? WHERE member = ? AND key = ?", doubt, member, key)

    async def forget(self, member: str, key: str, line: str) -> None:
        """Nothing was sent."""
        await self.run("DELETE FROM calls WHERE member = ? AND key = ?", member, key)
        self.close_line(member, key, line)

    def close_line(self, member: str, key: str, line: str) -> None:
        self.open.get(line, set()).discard((member, key))
        if not self.open.get(line):
            self.open.pop(line, None)

    async def spoil(self, line: str) -> bool:
        """Where calls with this line are open, a trade of its terms may be another's from now on; whether any was."""
        if line not in self.open:
            return False
        await self.run("UPDATE calls SET is_alone = 0 WHERE line = ? AND reply IS NULL AND found IS NULL", line)
        return True

    async def spoil_member(self, member: str) -> None:
        """Another session of the member was opened: so it is with all of its open calls."""
        if any(member == it for calls in self.open.values() for it, _ in calls):
            await self.run("UPDATE calls SET is_alone = 0 WHERE member = ? AND reply IS NULL AND found IS NULL", member)

    async def purge(self) -> None:
        """Drops what is older than it is kept."""
        for member, key, line in await self.run("DELETE FROM calls WHERE at < ? RETURNING member, key, line", time.time() - 86_400 * DAYS):
            self.close_line(member, key, line)
