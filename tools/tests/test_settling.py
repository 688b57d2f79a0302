"""What an opening of a journal does before it reads, what it does if that fails, and which folders are synced for what is made.

A preloaded library notes which calls are made to files.
"""

import contextlib
import errno
import os
import threading
import unittest
from pathlib import Path
from typing import Iterator, NamedTuple
from unittest.mock import patch

from gateways import InGateway
from running import TOOLS, Ran, run
from serving import ROSTER
from standing import WithStandby
from test_broken_journals import NOTHING, ONE, PLAIN, SLOTTED
from test_refusals import Refused

TRADE = b"HELLO A KA\nTRADE A B P 10 2026-03-02\n"
REPLIES = b"ok 0 hello A\nok 1 trade 1\n"
FAULT = Ran(6, b"", b"disk fault\n")
STARTS = 60
READERS = 3


class Settled(Refused):
    """A program, of whose calls those are noted that it makes to files in the test's folder."""

    def setUp(self) -> None:
        super().setUp()
        self.called = self.folder / "called"

    def noted(self, words: list[str | Path], input: bytes = b"", **settings: str) -> Ran:
        """Runs a program that notes its calls."""
        with self.noting(), patch.dict(os.environ, settings):
            return run(words, input)

    @contextlib.contextmanager
    def noting(self) -> Iterator[None]:
        """Programs that are started in this block note their calls."""
        self.called.unlink(missing_ok=True)
        with patch.dict(os.environ, {"LD_PRELOAD": str(self.library), "CALLED": str(self.called)}):
            yield

    def opened(self, form: str, content: bytes, **settings: str) -> Ran:
        """What a form does with a journal that holds this."""
        self.journal.write_bytes(content)
        words: dict[str, list[str | Path]] = {"follow": ["OPS", "KO"], "roll": [ROSTER]}
        return self.noted([self.program, form, ROSTER, self.journal, *words.get(form, [])], b"", **settings)

    def calls(self) -> list[str]:
        """The calls to the journal and to its folder, without those that are made twice in a row or keep what was written."""
        names = {str(self.journal): "journal", str(self.folder): "folder"}
        lines = [line.split(" ")[:2] for line in self.called.read_text().splitlines()]
        calls = [f"{call} {names[path]}" for call, path in lines if path in names and call != "datasync"]
        return [call for call, before in zip(calls, ["", *calls]) if call != before]

    def before_reading(self) -> list[str]:
        """The calls before the first read, from the lock or the first sync on."""
        calls = self.calls()
        begin = min(calls.index(call) for call in ("lock journal", "sync journal") if call in calls)
        return calls[begin : calls.index("read journal") if "read journal" in calls else None]

    def assert_kept(self, *paths: Path) -> None:
        """Each of these had its name when its folder was synced."""
        lines = [line.split(" ") for line in self.called.read_text().splitlines()]
        synced = {(path, name) for call, path, *names in lines if call in ("sync", "datasync") for name in names}
        for path in paths:
            self.assertIn((str(path.parent), path.name), synced)


class Opened(NamedTuple):
    """A form, what its journal holds, and the calls before the first read."""

    form: str
    content: bytes
    calls: list[str]


READ = ["sync journal", "drop journal", "look journal"]
WRITTEN = ["lock journal", *READ]
SHORT = [*WRITTEN, "sync folder", "look journal"]
OPENED = [
    Opened("script", SLOTTED, WRITTEN),
    Opened("script", PLAIN[:10], WRITTEN),
    Opened("script", PLAIN[:9], SHORT),
    Opened("script", b"", SHORT),
    Opened("follow", SLOTTED, WRITTEN),
    Opened("follow", PLAIN[:9], SHORT),
    Opened("replay", SLOTTED, READ),
    Opened("replay", b"", READ),
    Opened("roll", SLOTTED, READ),
]


class Failing(NamedTuple):
    """A form, the setting by which a call of its opening fails, and how it ends over a journal with one change."""

    form: str
    setting: str
    error: int
    ended: Ran


FAILING = [
    Failing("script", "REFUSE_SYNC", errno.EIO, FAULT),
    Failing("script", "REFUSE_SYNC", errno.EINVAL, FAULT),
    Failing("script", "REFUSE_DROP", errno.EIO, FAULT),
    Failing("script", "REFUSE_DROP", errno.EINVAL, FAULT),
    Failing("replay", "REFUSE_SYNC", errno.EIO, FAULT),
    Failing("replay", "REFUSE_SYNC", errno.EINVAL, ONE),
    Failing("replay", "REFUSE_DROP", errno.EIO, FAULT),
    Failing("roll", "REFUSE_DROP", errno.EIO, FAULT),
]


class Openings(Settled):
    def test_what_is_done_before_a_journal_is_read(self) -> None:
        for row in OPENED:
            with self.subTest(form=row.form, size=len(row.content)):
                self.opened(row.form, row.content)
                self.assertEqual(self.before_reading(), row.calls)

    def test_a_service_does_what_a_script_does(self) -> None:
        self.journal.write_bytes(SLOTTED)
        with self.noting():
            self.start()
        self.assertEqual(self.before_reading(), WRITTEN)

    def test_an_opening_that_fails_reads_nothing_and_leaves_the_journal(self) -> None:
        for row in FAILING:
            with self.subTest(form=row.form, setting=row.setting, error=errno.errorcode[row.error]):
                ran = self.opened(row.form, SLOTTED, **{row.setting: f"{row.error}:1"})
                self.assertEqual(ran, row.ended)
                self.assertEqual("read journal" in self.calls(), ran.status == 0)
                self.assertEqual(self.journal.read_bytes(), SLOTTED)

    def test_a_reader_beside_a_service_asks_for_no_sync(self) -> None:
        self.start()
        words: list[str | Path] = [self.program, "replay", ROSTER, self.journal]
        self.assertEqual(self.noted(words), NOTHING)
        with self.session("A") as session:
            session.trade("A", "B", "P", 10, "2026-03-02")
        for is_running, calls in ((True, ["look journal", "read journal"]), (False, ["look journal", *READ, "read journal"])):
            with self.subTest(is_running=is_running):
                self.assertEqual(self.noted(words).status, 0)
                self.assertEqual(self.calls(), calls)
            self.kill()

    def test_a_reader_keeps_nobody_from_starting(self) -> None:
        """Each start finds the journal free, while others read it without a pause."""
        self.journal.write_bytes(SLOTTED)
        is_over = threading.Event()
        replays: set[Ran] = set()

        def read() -> None:
            while not is_over.is_set():
                replays.add(run([self.program, "replay", ROSTER, self.journal]))

        threads = [threading.Thread(target=read) for _ in range(READERS)]
        for thread in threads:
            thread.start()
        try:
            starts = {run([self.program, "script", ROSTER, self.journal]) for _ in range(STARTS)}
        finally:
            is_over.set()
            for thread in threads:
                thread.join()
        self.assertEqual((starts, replays), ({Ran(0, b"", b"")}, {ONE}))


class Created(Settled, WithStandby):
    """What is made is in its folder when that is synced."""

    def test_a_script(self) -> None:
        self.assertEqual(self.noted([self.program, "script", ROSTER, self.journal], TRADE), Ran(0, REPLIES, b""))
        self.assert_kept(self.journal)

    def test_a_journal_by_a_link(self) -> None:
        """The folders of the link and of the file."""
        kept = self.folder / "far/kept"
        kept.parent.mkdir()
        self.journal.symlink_to(kept)
        self.assertEqual(self.noted([self.program, "script", ROSTER, self.journal], TRADE), Ran(0, REPLIES, b""))
        self.assert_kept(self.journal, kept)

    def test_a_service(self) -> None:
        with self.noting():
            self.start()
        self.trade(10)
        self.assert_kept(self.journal)

    def test_a_standby(self) -> None:
        self.start()
        self.trade(10)
        with self.noting():
            self.follow()
        self.wait_for(1)
        self.assert_kept(self.standby)

    def test_a_standby_from_a_copy(self) -> None:
        """Also in the place of an empty file."""
        self.start()
        self.trade(10, 20)
        for content in (None, b""):
            with self.subTest(content=content):
                self.standby.unlink(missing_ok=True)
                if content is not None:
                    self.standby.write_bytes(content)
                with self.noting():
                    self.follow("--seed", self.journal)
                self.wait_for(2)
                self.assert_kept(self.standby)
                self.drop()

    def test_a_roll(self) -> None:
        new, table = self.folder / "new", self.folder / "far/numbers.csv"
        table.parent.mkdir()
        self.journal.write_bytes(SLOTTED)
        ran = self.noted([TOOLS / "roll", "--program", self.program, "--map", table, ROSTER, self.journal, ROSTER, new])
        self.assertEqual((ran.status, ran.errors), (0, b""))
        self.assert_kept(new, table)
        self.assertIn(f"sync {table}", self.called.read_text().splitlines())

    def test_a_copy_that_is_restored(self) -> None:
        """With folders that are not there yet."""
        copy, state, settings = self.folder / "copy", self.folder / "far/state", self.folder / "settings"
        copy.write_bytes(SLOTTED)
        ran = self.noted([TOOLS / "restore", "--program", self.program, "--roster", ROSTER, "--state", state, "--settings", settings, copy])
        self.assertEqual((ran.status, ran.errors), (0, b""))
        self.assert_kept(state / "journal", settings / "roster.csv", state, state.parent, settings)

    def test_new_keys(self) -> None:
        new = self.folder / "new.csv"
        self.assertEqual(self.noted([TOOLS / "keys", ROSTER, new]).status, 0)
        self.assert_kept(new)


class CreatedByAGateway(Settled, InGateway):
    def test_the_file_of_calls(self) -> None:
        """With the first call that is put down in it."""
        self.start()
        with self.noting():
            self.open()
        self.assertEqual(self.caller("A").say("TRADE A B P 10 2026-03-02", "key").status, 200)
        self.assert_kept(self.folder / "calls")


if __name__ == "__main__":
    unittest.main()
