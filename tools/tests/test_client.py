"""The client: replies as values, a cycle through a session, and the shell, with a stand-in and with the program."""

import os
import pty
import select
import subprocess
import sys
import tempfile
import unittest
from pathlib import Path
from typing import Any

from running import EXAMPLES, PATIENCE, TOOLS, Ran, program, sessions

sys.path.insert(0, str(TOOLS))

from delkwoan import replies
from delkwoan.names import COMMANDS, Names, completions
from delkwoan.replies import BadReply, Refused, answer_of, count_of, entry_of, size_of
from delkwoan.session import LinkClosed, Session

CLIENT = TOOLS / "client"
FAKE = TOOLS / "tests/fake_program.py"
MEMORY_OF = TOOLS / "tests/memory_of.py"
MOST_KILOBYTES = 400_000
"""What a client takes at most, whatever it is told; a reply of the greatest length takes some 220,000."""
ROSTER = EXAMPLES / "roster.csv"

LEI = "5493001KJTIIGC8Y1R12"
"""An identifier whose check digits are right."""

ANSWERS: list[tuple[str, list[str], Any]] = [
    ("ok 0 hello A", [], replies.Hello(0, "A")),
    ("ok 1 trade 1", [], replies.Traded(1, 1)),
    ("ok 2 live 1", [], replies.Live(2, 1)),
    ("ok 3 ending 1", [], replies.Ending(3, 1)),
    ("ok 4 ended 1", [], replies.Ended(4, 1)),
    ("ok 4 held 2", [], replies.Held(4, 2)),
    ("ok 4 freed 2", [], replies.Freed(4, 2)),
    ("ok 4 tol", [], replies.Tolerance(4)),
    ("ok 4 nets 1 5 -4", [], replies.Nets(4, 1, 5, -4)),
    ("ok 4 market 20 10 10 20", [], replies.Market(4, 20, 10, 10, 20)),
    (
        "ok 4 statement 2",
        ["trade 1 A B P 10 2026-03-02 live held", "trade 2 B C P 1000000000000000 2026-03-02 ended -"],
        replies.Statement(
            4,
            [
                replies.TradeRow(1, "A", "B", "P", 10, "2026-03-02", "live", True),
                replies.TradeRow(2, "B", "C", "P", 10**15, "2026-03-02", "ended", False),
            ],
        ),
    ),
    ("ok 4 statement 0", [], replies.Statement(4, [])),
    ("ok 4 frozen 1 3", [], replies.Frozen(4, 1, 3)),
    ("ok 4 begun 1 2", [], replies.Begun(4, 1, 2)),
    (
        "ok 4 limits 2",
        ["limit A B 0 10 -", "limit B A 2 7 7"],
        replies.Limits(4, [replies.LimitRow("A", "B", 0, 10, None), replies.LimitRow("B", "A", 2, 7, 7)]),
    ),
    ("ok 4 noted 6", [], replies.Noted(4, 6)),
    ("ok 4 proposed 1 2 17 12", [], replies.Proposed(4, 1, 2, 17, 12)),
    ("ok 4 nothing 1 2", [], replies.Nothing(4, 1, 2)),
    (
        "ok 4 plan 1 2 3",
        ["cut 1 10 5", "new A C P 5", "end 2"],
        replies.Plan(4, 1, 2, [replies.CutStep(1, 10, 5), replies.NewStep("A", "C", "P", 5), replies.EndStep(2)]),
    ),
    (
        "ok 4 proof 1 2 2026-03-31 free 3 2",
        ["pot P A -1", "pair P A B 3 hold 10 4 - none"],
        replies.Proof(
            4, 1, 2, "2026-03-31", "free", 3, [replies.PotRow("P", "A", -1), replies.PairRow("P", "A", "B", 3, "hold", 10, 4, None, "none")]
        ),
    ),
    ("ok 4 none", [], replies.NoEntry(4)),
    ("ok 4 accepted 1 2 1", [], replies.Accepted(4, 1, 2, 1)),
    ("ok 4 executed 1 2 3 0 1", [], replies.Executed(4, 1, 2, 3, 0, 1)),
    ("ok 4 declined 1 2", [], replies.Declined(4, 1, 2)),
    ("ok 4 cancelled 1", [], replies.Cancelled(4, 1)),
    ("ok 4 bye", [], replies.Bye(4)),
]

REFUSALS: list[tuple[str, tuple[int, int, str, str]]] = [
    ("no 0 1 not-greeted", (0, 1, "not-greeted", "")),
    ("no 7 3 bad-line 4", (7, 3, "bad-line", "4")),
    ("no 7 22 matured 2031-06-30", (7, 22, "matured", "2031-06-30")),
    ("no 7 24 bad-certificate P open A B", (7, 24, "bad-certificate", "P open A B")),
]

NO_REPLIES = [
    "",
    "ok",
    "ok x hello A",
    "ok 1 hello",
    "ok 1 hello A B",
    "ok 1 nets 1 2",
    "ok 1 what",
    "no 1",
    "no 1 x y",
]
NO_REPLIES += ["yes 1 hello A", "ok 1 nets 1 2 x", "ok 1 frozen 1", "ok 1 bye 1", "ok 1 statement 1 1"]


NO_ENTRIES = ["ok 4 entry 1", "ok 4 entry 1 x", "ok 4 entry 1 -1", "ok 4 entry 1 2 3", "ok 4 entry 1 268435457", "ok 4 entry 1 " + "0" * 10]


class Values(unittest.TestCase):
    def test_entries(self) -> None:
        """How many bytes come behind a head, and the answer that both tell."""
        for head, size in (("ok 4 entry 1 33", 33), ("ok 4 entry 1 268435456", 268_435_456), ("ok 4 none", None), ("no 4 31 gone 3", None), ("", None)):
            self.assertEqual(size_of(head), size)
        self.assertEqual(entry_of("ok 4 entry 1 3", b"\n\0 "), replies.Entry(4, 1, b"\n\0 "))
        for head in NO_ENTRIES:
            with self.subTest(head=head), self.assertRaises(BadReply):
                size_of(head)
        with self.assertRaises(BadReply):
            entry_of("ok x entry 1 3", b"abc")

    def test_answers(self) -> None:
        for head, details, answer in ANSWERS:
            with self.subTest(head=head):
                self.assertEqual(count_of(head), len(details))
                given = answer_of(head, details)
                self.assertEqual((type(given), given), (type(answer), answer))

    def test_refusals(self) -> None:
        for head, fields in REFUSALS:
            with self.subTest(head=head), self.assertRaises(Refused) as caught:
                answer_of(head, [])
            refusal = caught.exception
            self.assertEqual((refusal.position, refusal.number, refusal.name, refusal.value), fields)

    def test_what_is_no_reply(self) -> None:
        for head in NO_REPLIES:
            with self.subTest(head=head), self.assertRaises(BadReply):
                answer_of(head, [])
        for detail in ("trade 1", "what 1", "limit A B 0 1 x", "end 1 2", ""):
            with self.subTest(detail=detail), self.assertRaises(BadReply):
                answer_of("ok 1 statement 1", [detail])
        with self.assertRaises(BadReply):
            count_of("ok 1 statement x")

    def test_completions(self) -> None:
        names = Names(ROSTER.read_bytes())
        cases = [
            ("", "ST", ["STATEMENT "]),
            ("", "prop", ["PROPOSE "]),
            ("", "pro", ["PROPOSE ", "PROOF "]),
            ("", "he", ["HELLO ", "help "]),
            ("TRADE ", "", ["A ", "B ", "C "]),
            ("TRADE A B ", "", ["P "]),
            ("TRADE A B P ", "", []),
            ("TOL B P ", "", ["out ", "in "]),
            ("PROPOSE 1 ", "h", ["hybrid "]),
            ("BEGIN 1 ", "f", ["free "]),
            ("HELLO ", "O", ["OPS "]),
            ("HELLO OPS ", "", []),
            ("BYE ", "", []),
            ("WHAT ", "A", []),
        ]
        for before, text, due in cases:
            with self.subTest(before=before, text=text):
                self.assertEqual(completions(names, before, text), due)
        self.assertEqual(completions(names, "", ""), [f"{word} " for word in [*COMMANDS, "help", "names", "quit"]])


def whole_cycle(case: unittest.TestCase, session: Session) -> None:
    """The session ring-cycle of the examples, by the methods; what they answer is worked out by hand there."""
    trades = [("A", "B"), ("B", "C"), ("C", "A")]
    for number, (seller, buyer) in enumerate(trades, 1):
        if number == 1:
            case.assertEqual(session.hello(seller, f"K{seller}"), replies.Hello(0, "A"))
        case.assertEqual(session.trade(seller, buyer, "P", 10, "2026-03-02").trade, number)
        session.hello(buyer, f"K{buyer}")
        case.assertEqual(session.affirm(number), replies.Live(2 * number, number))
    case.assertEqual(session.nets("P"), replies.Nets(6, 10, 10, 0))
    session.hello("OPS", "KO")
    case.assertEqual(session.nets("P"), replies.Market(6, 30, 0, 30, 30))
    case.assertEqual(session.freeze("2026-03-31"), replies.Frozen(7, 1, 3))
    case.assertEqual(session.propose(1, "conservative"), replies.Proposed(9, 1, 1, 30, 0))
    case.assertEqual(session.plan(1).rows, [replies.EndStep(1), replies.EndStep(2), replies.EndStep(3)])
    for left, name in enumerate("ABC"):
        session.hello(name, f"K{name}")
        case.assertEqual(len(session.plan(1).rows), 2)
        answer = session.accept(1, 1)
        due = replies.Accepted(10 + left, 1, 1, 2 - left) if left < 2 else replies.Executed(12, 1, 1, 3, 0, 0)
        case.assertEqual(answer, due)
    case.assertEqual(session.nets("P"), replies.Nets(12, 0, 0, 0))
    case.assertEqual([row.state for row in session.statement().rows], ["ended", "ended"])
    session.hello("A", "KA")
    case.assertEqual(session.nets("P").position, 12)
    case.assertEqual(len(session.statement().rows), 2)
    session.hello("OPS", "KO")
    case.assertEqual(session.nets("P"), replies.Market(12, 0, 0, 0, 0))
    case.assertEqual(session.bye(), replies.Bye(12))


def environment(example: str, **more: str) -> dict[str, str]:
    return {**os.environ, "EXAMPLE": str(EXAMPLES / f"{example}.session"), "COMPRESS_CLI": str(FAKE), **more}


def read_to(terminal: int, end: bytes) -> bytes:
    """What comes from a terminal up to these bytes, as a prompt, or, where they are none, to its end."""
    text = b""
    while not (end and text.endswith(end)):
        if not select.select([terminal], [], [], PATIENCE)[0]:
            raise AssertionError(f"nothing comes behind {text!r}")
        try:
            piece = os.read(terminal, 4096)
        except OSError:
            piece = b""
        if not piece:
            break
        text += piece
    return text


class InFolder(unittest.TestCase):
    def setUp(self) -> None:
        folder = tempfile.TemporaryDirectory()
        self.addCleanup(folder.cleanup)
        self.folder = Path(folder.name)
        self.journal = self.folder / "journal"

    def client(self, *words: str | Path, input: bytes = b"", example: str = "ring-cycle", **more: str) -> Ran:
        environ = environment(example, **more)
        done = subprocess.run([CLIENT, *words], input=input, capture_output=True, env=environ, timeout=PATIENCE)
        return Ran(done.returncode, done.stdout, done.stderr)


class Sessions(InFolder):
    def setUp(self) -> None:
        super().setUp()
        before = dict(os.environ)
        os.environ.update(environment("ring-cycle"))
        self.addCleanup(os.environ.update, before)
        self.addCleanup(os.environ.clear)

    def test_a_whole_cycle_with_the_stand_in(self) -> None:
        with Session.script(FAKE, ROSTER, self.journal) as session:
            whole_cycle(self, session)
            self.assertEqual(session.close(), (0, ""))

    def test_an_end_of_the_other_side(self) -> None:
        with Session.script(FAKE, ROSTER, self.journal) as session:
            with self.assertRaises(LinkClosed) as caught:
                session.hello("B", "KB")
            self.assertEqual((caught.exception.status, caught.exception.errors), (70, "not as the session"))
            with self.assertRaises(LinkClosed):
                session.nets("P")

    def test_words_that_are_none(self) -> None:
        with Session.script(FAKE, ROSTER, self.journal) as session:
            for name in ("", "A KA", "A\nBYE", "A\r"):
                with self.subTest(name=name), self.assertRaises(ValueError):
                    session.hello(name, "KA")
            self.assertEqual(session.hello("A", "KA"), replies.Hello(0, "A"))


class OfTheProgram(InFolder):
    def test_a_whole_cycle(self) -> None:
        with Session.script(program(), ROSTER, self.journal) as session:
            whole_cycle(self, session)
            self.assertEqual(session.close(), (0, ""))

    def test_refusals(self) -> None:
        with Session.script(program(), ROSTER, self.journal) as session:
            for line, due in (
                ("NETS P", (0, 1, "not-greeted", "")),
                ("WHAT", (0, 3, "bad-line", "0")),
                ("HELLO A KB", (0, 2, "bad-key", "")),
            ):
                with self.subTest(line=line), self.assertRaises(Refused) as caught:
                    session.ask(line)
                refusal = caught.exception
                self.assertEqual((refusal.position, refusal.number, refusal.name, refusal.value), due)

    def test_raw_is_the_programs_own(self) -> None:
        built = str(program())
        for session in sessions():
            with self.subTest(session=session.name):
                journal = self.folder / session.name.split(".")[0]
                ran = self.client("--raw", ROSTER, journal, input=session.read_bytes(), COMPRESS_CLI=built)
                self.assertEqual(ran.output, session.with_suffix(".replies").read_bytes())
                self.assertEqual((ran.status, ran.errors), (int(b"\nno " in ran.output), b""))

    def test_a_faulty_roster(self) -> None:
        roster = self.folder / "roster"
        roster.write_bytes(b"name,role,key\nA,dealer\n")
        ran = self.client(roster, self.journal, input=b"BYE\n", COMPRESS_CLI=str(program()))
        self.assertEqual(ran, Ran(3, b"", b"roster row 2: columns\n"))


class Shells(InFolder):
    def test_columns(self) -> None:
        session = (EXAMPLES / "chain-cycle.session").read_bytes()
        ran = self.client(ROSTER, self.journal, input=session, example="chain-cycle")
        self.assertEqual((ran.status, ran.errors), (1, b""))
        self.assertIn(b"[7]  proposed  CYCLE 1  VERSION 1  BEFORE 17  AFTER 10\n", ran.output)
        limits = b"SELLER  BUYER  LOWER  NOW  UPPER\nA       B          0   10      -\n"
        self.assertIn(b"[7]  limits  6 rows\n" + limits, ran.output)
        plan = (
            b"STEP  TRADE  SELLER  BUYER  PRODUCT  BEFORE  AFTER\ncut       1  -       -      -            10      3\n"
        )
        self.assertIn(b"[7]  plan  CYCLE 1  VERSION 1  3 rows\n" + plan, ran.output)
        self.assertIn(b"new       -  A       C      P             -      7\n", ran.output)
        self.assertIn(b"[12]  refused: wrong-version 2 (18)\n", ran.output)
        self.assertIn(b"[15]  bye\n", ran.output)
        self.assertNotIn(b"\x1b", ran.output)

    def test_raw(self) -> None:
        for session in sessions():
            with self.subTest(session=session.name):
                ran = self.client("--raw", ROSTER, self.journal, input=session.read_bytes(), example=session.stem)
                self.assertEqual(ran.output, session.with_suffix(".replies").read_bytes())

    def test_own_words(self) -> None:
        ran = self.client(ROSTER, self.journal, input=b"help TRADE\nquit\nHELLO X\n")
        self.assertEqual(ran.output, b"TRADE SELLER BUYER PRODUCT AMOUNT DAY\n")
        self.assertEqual(ran.status, 70)

    def test_names_and_what_is_told_about_them(self) -> None:
        roster, about = self.folder / "roster.csv", self.folder / "roster.about.csv"
        roster.write_bytes(ROSTER.read_bytes())
        plain = b"NAME  ROLE\nA     dealer\nB     dealer\nC     dealer\nOPS   operator\nP     product\n"
        self.assertEqual(self.client(roster, self.journal, input=b"names\nquit\n").output, plain)
        about.write_text(f"name,lei,currency\nA,{LEI},\nP,,EUR\n")
        ran = self.client(roster, self.journal, input=b"names\nquit\n")
        lines = ran.output.decode().splitlines()
        self.assertEqual(lines[0].split(), ["NAME", "ROLE", "LEI", "CURRENCY"])
        self.assertEqual([line.split() for line in lines[1:]][::4], [["A", "dealer", LEI, "-"], ["P", "product", "-", "EUR"]])
        self.assertEqual(self.client("--about", "/dev/null", roster, self.journal).errors, b"about row 1: columns\n")
        self.assertEqual(self.client("--about", "/none", roster, self.journal), Ran(11, b"", b"file fault\n"))

    def test_words_and_files(self) -> None:
        cases: list[list[str | Path]] = [
            [],
            [ROSTER],
            [ROSTER, "j", "k"],
            ["--what", ROSTER, "j"],
            [ROSTER, "-j"],
            ["--program"],
            ["--connect"],
            ["--connect", "127.0.0.1:1"],
            ["--connect", "127.0.0.1:1", ROSTER, "j"],
            ["--connect", "127.0.0.1", ROSTER],
            ["--connect", "127.0.0.1:1", "--program", "p", ROSTER],
            ["--connect", "127.0.0.1:1", "--connect", "127.0.0.1:1", ROSTER],
            ["--raw", "--raw", ROSTER, "j"],
        ]
        for words in cases:
            with self.subTest(words=words):
                self.assertEqual(self.client(*words), Ran(2, b"", b"bad words\n"))
        self.assertEqual(self.client("none", "j"), Ran(11, b"", b"file fault\n"))
        ran = self.client("--program", "/none", ROSTER, "j")
        self.assertEqual(ran, Ran(11, b"", b"the program could not be started\n"))

    def test_what_is_no_reply(self) -> None:
        other = self.folder / "other"
        other.write_text("#!/bin/sh\necho what\n")
        other.chmod(0o755)
        ran = self.client(ROSTER, self.journal, input=b"BYE\n", COMPRESS_CLI=str(other))
        self.assertEqual(ran, Ran(20, b"", b"no reply of a session: what\n"))

    def test_input_that_is_no_text_and_output_that_fails(self) -> None:
        ran = self.client(ROSTER, self.journal, input=b"\xff\n")
        self.assertEqual(ran, Ran(70, b"", b"not as the session\n"))
        words = f'exec "{CLIENT}" "{ROSTER}" j < "{EXAMPLES}/ring-cycle.session"'
        for output in ("> /dev/full", ">&-"):
            with self.subTest(output=output):
                done = subprocess.run(
                    ["sh", "-c", f"{words} {output}"], capture_output=True, env=environment("ring-cycle")
                )
                self.assertEqual((done.returncode, done.stderr), (5, b"sink fault\n"))

    def typed(self, lines: list[bytes], *options: str, **more: str) -> tuple[int, bytes]:
        """The status of a client at a terminal, and all that was on it, after these lines were typed, each at a prompt."""
        environ = environment("ring-cycle", XDG_STATE_HOME=str(self.folder), NO_COLOR="1", **{"TERM": "xterm", **more})
        words = [str(CLIENT), *options, str(ROSTER), str(self.journal)]
        child, terminal = pty.fork()
        if child == 0:
            os.execve(words[0], words, environ)
        text = b""
        for line in lines:
            text += read_to(terminal, b"> ")
            os.write(terminal, line)
        text += read_to(terminal, b"")
        _, status = os.waitpid(child, 0)
        os.close(terminal)
        return status, text

    def test_a_terminal(self) -> None:
        """Completion of a command and of names, the prompt, and a history without keys."""
        status, text = self.typed([b"HEL\tA KA\r", b"TRA\tA B P 10 2026-03-02\r", b"\x04"])
        self.assertIn(b"HELLO A KA", text)
        self.assertIn(b"[0]  hello  NAME A", text)
        self.assertIn(b"A> ", text)
        self.assertIn(b"TRADE A B P 10 2026-03-02", text)
        self.assertIn(b"[1]  traded  TRADE 1", text)
        self.assertEqual(os.waitstatus_to_exitcode(status), 70)
        history = (self.folder / "delkwoan_history").read_text()
        self.assertEqual(history, "TRADE A B P 10 2026-03-02\n")

    def test_the_history_has_no_line_with_a_key(self) -> None:
        """Nor one that was mistyped, nor one that an older client has left there; and nobody else may read it."""
        history = self.folder / "delkwoan_history"
        history.write_text("HELO A KA\nNETS P\n")
        typed = [b"HELO A KA", b" HELLO A KA", b"hello A KA", b"HELLO, A KA", b"A HELLO A KA", b"TRADE HELLO A KA", b"STATEMENT"]
        liar = self.says(f"for line in {' '.join('x' for _ in typed)}; do echo no 0 3 bad-line 0; done")
        self.typed([line + b"\r" for line in typed] + [b"\x04"], COMPRESS_CLI=liar)
        self.assertEqual(history.read_text(), "NETS P\nSTATEMENT\n")
        self.assertEqual(history.stat().st_mode & 0o777, 0o600)

    def test_a_service_can_t_steer_a_terminal(self) -> None:
        """What is no letter, sign or space comes as its escape, in a reply, in a refusal, in the prompt and by --raw."""
        steering = "\\033]0;x\\007"
        liar = self.says(f"printf 'ok 0 hello A{steering}\\n'; printf 'no 0 2 bad{steering}-key\\n'; printf 'ok 0 bye\\n'")
        for is_raw in (False, True):
            with self.subTest(is_raw=is_raw):
                options = ["--raw"] if is_raw else []
                _, text = self.typed([b"NETS P\r", b"NETS P\r", b"BYE\r"], *options, COMPRESS_CLI=liar, TERM="dumb")
                self.assertNotIn(b"\x1b]", text)
                self.assertEqual(text.count(b"\\x1b]0;x\\x07"), 2 if is_raw else 4)

    def test_replies_without_end(self) -> None:
        """They cost a bound of memory, and are told. Of what is no reply its beginning is shown."""
        for lines, told in (
            ("tr '\\0' A < /dev/zero", "a line of more than 4096 bytes"),
            ("echo ok 1 statement 999999999999999999; yes 'trade 1 A B P 10 2026-03-02 live -'", "a reply of more than 67108864 bytes"),
            ("echo ok 1 entry 1 268435456; cat /dev/zero", "a reply of more than 67108864 bytes"),
            (f"echo ok {'1' * 4000} bye", f"ok {'1' * 197}"),
            (f"echo ok 1 statement {'1' * 4000}", f"ok 1 statement {'1' * 185}"),
            (f"echo ok 1 nets 1 {'1' * 4000} 1", f"ok 1 nets 1 {'1' * 188}"),
            ("printf 'ok 1 \\033]0;x\\007\\n'", "ok 1 \\x1b]0;x\\x07"),
        ):
            with self.subTest(lines=lines[:40]):
                most = self.folder / "most"
                words: list[str | Path] = [sys.executable, MEMORY_OF, most, CLIENT, ROSTER, self.journal]
                environ = environment("ring-cycle", COMPRESS_CLI=self.says(lines))
                done = subprocess.run(words, input=b"STATEMENT\n", capture_output=True, env=environ, timeout=PATIENCE)
                self.assertEqual((done.returncode, done.stderr), (20, f"no reply of a session: {told}\n".encode()))
                self.assertLess(int(most.read_text()), MOST_KILOBYTES)

    def says(self, lines: str) -> str:
        """A program in place of the client's, which says what these lines of the shell write, whatever it is asked."""
        liar = self.folder / "liar"
        liar.write_text(f"#!/bin/sh\n{lines}\ncat > /dev/null\n")
        liar.chmod(0o755)
        return str(liar)


if __name__ == "__main__":
    unittest.main()
