"""A standby: that it follows a service, and how it ends."""

import os
import signal
import socket
import time
import unittest
from pathlib import Path

from running import TOOLS, Ran, run
from serving import ROSTER, started
from standing import FOLLOW, WithStandby, children_of, outage, stored, told_by

from delkwoan import replies
from delkwoan.primary import Inbox


class Follows(WithStandby):
    def test_what_is_made_comes_and_it_ends_in_order(self) -> None:
        self.start()
        self.trade(10, 20)
        self.follow()
        self.wait_for(2)
        self.trade(30)
        self.wait_for(3)
        self.assertEqual(self.stopped(), Ran(0, b"", b""))
        self.assertEqual(stored(self.standby), stored(self.journal))
        self.assertEqual(self.replay(self.standby), self.replay(self.journal))
        told = run([TOOLS / "audit", ROSTER, self.standby])
        self.assertEqual((told.status, told.output.splitlines()[-1]), (0, b"end 3"))

    def test_it_goes_on_where_it_ended(self) -> None:
        self.start()
        for number in (signal.SIGTERM, signal.SIGINT, signal.SIGTERM):
            self.trade(number)
            self.follow("--pause", "1")
            self.wait_for(stored(self.journal).end)
            self.assertEqual(self.stopped(number), Ran(0, b"", b""))
        self.assertEqual(stored(self.standby), stored(self.journal))
        self.assertEqual(stored(self.standby).end, 3)

    def test_all_kinds_of_changes(self) -> None:
        """A whole cycle, with a posting whose record is long."""
        self.start()
        self.follow()
        lines = (TOOLS.parent / "examples/ring-cycle.session").read_bytes()
        self.client("--raw", "--connect", self.address, ROSTER, input=lines)
        self.wait_for(stored(self.journal).end)
        self.assertEqual(self.stopped(), Ran(0, b"", b""))
        self.assertEqual(self.replay(self.standby), self.replay(self.journal))

    def test_it_is_promoted(self) -> None:
        self.start()
        self.trade(10, 20)
        self.follow()
        self.wait_for(2)
        self.kill()
        self.assertEqual(self.stopped().status, 21)
        self.journal = self.standby
        self.start()
        session = self.session("A")
        self.assertEqual(session.position, 2)
        self.assertEqual([row.amount for row in session.statement().rows], [10, 20])
        self.assertEqual(session.trade("A", "B", "P", 30, "2026-03-02").position, 3)

    def test_all_is_there_where_it_is_told_to_end_at_once(self) -> None:
        """What the service has when the standby is told to end is in its journal, though it was not yet asked for."""
        self.start()
        self.follow("--pause", "60000")
        self.wait_for(0)
        self.trade(*range(1, 41))
        self.assertEqual(self.stopped(), Ran(0, b"", b""))
        self.assertEqual(stored(self.standby).end, 40)

    def test_a_change_from_python_and_in_the_client(self) -> None:
        self.start()
        self.trade(10)
        session = self.session("OPS")
        (record,) = stored(self.journal).records
        self.assertEqual([session.next(0), session.next(1)], [replies.Entry(1, 1, record), replies.NoEntry(1)])
        ran = self.client("--connect", self.address, ROSTER, input=b"HELLO OPS KO\nNEXT 0\nNEXT 1\n")
        told = rb"\[1\]  hello  NAME OPS\n\[1\]  entry  PLACE 1\n[-0-9]+ [:0-9]+ UTC, seat \d, A: TRADE A B P 10 2026-03-02\n\[1\]  noentry\n"
        self.assertRegex(ran.output, rb"\A" + told + rb"\Z")
        self.assertEqual((ran.status, ran.errors), (0, b""))
        raw = self.client("--raw", "--connect", self.address, ROSTER, input=b"HELLO OPS KO\nNEXT 0\nBYE\n")
        self.assertEqual(raw.output, b"ok 1 hello OPS\nok 1 entry 1 %d\n%b\nok 1 bye\n" % (len(record), record))

    def test_how_far_it_is_behind(self) -> None:
        """The standby's program is held, and takes nothing; the file tells what is on its disk, and what the primary has."""
        begun = int(time.time())
        self.start()
        self.trade(10)
        self.follow()
        self.wait_for(1)
        assert self.following is not None
        (program,) = children_of(self.following.pid)
        os.kill(program, signal.SIGSTOP)
        self.trade(20, 30)
        self.wait(lambda: (told := told_by(self.behind)) is not None and told.primary == 3)
        told = told_by(self.behind)
        assert told is not None
        self.assertIn(told.own, (1, 2))
        self.assertTrue(begun <= told.moment <= time.time())
        os.kill(program, signal.SIGCONT)
        self.wait_for(3)
        self.assertEqual(self.stopped(), Ran(0, b"", b""))
        last = told_by(self.behind)
        assert last is not None
        self.assertEqual(last[:2], (3, 3))
        self.assertEqual([path.name for path in self.folder.glob("behind*")], ["behind"])


STRANGE: list[tuple[bytes, int]] = [
    (b"x\n", 0),
    (b"x" * 5000, 0),
    (b"ok 1 hello OPS\nok 1 entry 1 268435457\n", 15),
    (b"ok 1 hello OPS\nok 1 entry 2 3\nabc\n", 15),
    (b"ok 1 hello OPS\nok 1 entry 1 3\nabc\n", 15),
]
"""What is sent that no service sends, and the place of the first reply that is none."""


class Ends(WithStandby):
    def test_a_primary_that_refuses(self) -> None:
        self.start()
        self.trade(10)
        self.key.write_text("KX\n")
        self.follow()
        self.assertEqual(self.ended(), Ran(12, b"", b"peer refused 2\n"))
        self.key.write_text("KA\r\n")
        self.following = started(self.follow_words(name="A"))
        self.assertEqual(self.ended(), Ran(12, b"", b"peer refused 14\n"))
        self.assertEqual(stored(self.standby).end, 0)

    def test_a_primary_that_is_no_service(self) -> None:
        """What it sends is handed on, and ends the program."""
        for text, at in STRANGE:
            with self.subTest(text=text[:40]), socket.create_server(("127.0.0.1", self.port), reuse_port=True) as listener:
                self.follow()
                near, _ = listener.accept()
                near.sendall(text)
                self.assertEqual(self.ended(), Ran(13, b"", f"peer broken at {at}\n".encode()))
                near.close()

    def test_a_key_that_changed_while_it_was_away(self) -> None:
        self.start()
        self.trade(10)
        self.follow()
        self.wait_for(1)
        self.kill()
        roster = self.folder / "roster.csv"
        roster.write_bytes(ROSTER.read_bytes().replace(b",KO", b",KX"))
        self.service = started([self.program, "serve", roster, self.journal, self.address])
        self.assertEqual(self.ended(), Ran(12, b"", outage(self.port, 1)[0] + b"peer refused 2\n"))

    def test_a_journal_that_somebody_has(self) -> None:
        self.start()
        self.trade(10)
        self.follow()
        self.wait_for(1)
        self.assertEqual(run(self.follow_words()), Ran(6, b"", f"{self.standby} is in use\n".encode()))
        self.assertEqual(self.stopped(), Ran(0, b"", b""))

    def test_a_damaged_journal(self) -> None:
        self.standby.write_bytes(b"no journal at all")
        self.assertEqual(run(self.follow_words()), Ran(7, b"", b"damaged at 0\n"))
        self.assertEqual(self.standby.read_bytes(), b"no journal at all")

    def test_files_that_lack(self) -> None:
        fault = Ran(11, b"", b"file fault\n")
        lacking: list[str | Path] = [self.folder / "none.csv" if word == ROSTER else word for word in self.follow_words()]
        self.assertEqual(run(lacking), fault)
        self.assertEqual(run(self.follow_words("--seed", self.folder / "none")), fault)
        self.behind = self.folder / "none/behind"
        self.assertEqual(run(self.follow_words()), fault)
        self.behind = self.folder / "behind"
        self.assertEqual(run(self.follow_words(program=self.folder / "none")), Ran(11, b"", b"the program could not be started\n"))
        for key in (b"", b"\n", b"ko\n", b"KO\nKO\n", b"K" * 17):
            self.key.write_bytes(key)
            self.assertEqual(run(self.follow_words()), Ran(3, b"", b"key row 1: bad-name\n"))
        self.key.unlink()
        self.assertEqual(run(self.follow_words()), fault)
        self.assertFalse(self.standby.exists())

    def test_a_program_that_is_killed(self) -> None:
        self.start()
        self.follow()
        self.wait_for(0)
        assert self.following is not None
        (program,) = children_of(self.following.pid)
        os.kill(program, signal.SIGKILL)
        self.assertEqual(self.ended(), Ran(20, b"", b"the program ended with status -9\n"))


BAD_WORDS: list[list[str]] = [
    [],
    ["a", "b", "OPS", "c"],
    ["--connect", "127.0.0.1:7000", "a", "b", "OPS"],
    ["--connect", "127.0.0.1", "a", "b", "OPS", "c"],
    ["--connect", "127.0.0.1:7000", "a", "b", "OPS", "c", "d"],
    ["--connect", "127.0.0.1:7000", "--pause", "0", "a", "b", "OPS", "c"],
    ["--connect", "127.0.0.1:7000", "--pause", "60001", "a", "b", "OPS", "c"],
    ["--connect", "127.0.0.1:7000", "--pause", "1.5", "a", "b", "OPS", "c"],
    ["--connect", "127.0.0.1:7000", "--patience", "0", "a", "b", "OPS", "c"],
    ["--connect", "127.0.0.1:7000", "--patience", "3601", "a", "b", "OPS", "c"],
    ["--connect", "127.0.0.1:7000", "a", "b", "no name", "c"],
    ["--connect", "127.0.0.1:7000", "--compare", "--compare", "a", "b", "OPS", "c"],
    ["--connect", "127.0.0.1:7000", "--compare=yes", "a", "b", "OPS", "c"],
    ["--connect", "127.0.0.1:7000", "--what", "a", "b", "OPS", "c"],
]


class Parts(unittest.TestCase):
    def test_bad_words(self) -> None:
        for words in BAD_WORDS:
            with self.subTest(words=words):
                self.assertEqual(run([FOLLOW, *words]), Ran(2, b"", b"bad words\n"))

    def test_replies_in_any_pieces(self) -> None:
        """A text of replies, whose records have line feeds and heads in them, gives the same replies in all pieces of one size."""
        due = [b"ok 3 hello OPS\n", b"ok 3 entry 1 6\n\nok 1\n\n", b"ok 3 entry 2 0\n\n", b"no 3 31 gone 2\n", b"ok 3 entry 3 1\n\n\n", b"ok 3 none\n", b"x\n"]
        text = b"".join(due)
        for size in range(1, len(text) + 1):
            inbox = Inbox()
            found = [reply for at in range(0, len(text), size) for reply in inbox.take(text[at : at + size])]
            self.assertEqual([reply.text for reply in found], due)
            self.assertEqual([reply.length for reply in found], [3] * 6 + [0])
        inbox = Inbox()
        self.assertEqual(inbox.take(b"ok 3 none"), [])
        self.assertEqual([reply.text for reply in inbox.take(b"x" * 5000)], [b"ok 3 none" + b"x" * 5000])


if __name__ == "__main__":
    unittest.main()
