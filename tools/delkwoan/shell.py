"""The interactive shell of tools/client: lines in, replies in columns."""

import os
import sys
from pathlib import Path
from typing import Iterable

from . import replies
from .changes import rows_of
from .ending import Stop
from .journal import asked_text
from .names import COMMANDS, OWN, Names, completions
from .records import BadField, Kind, record_of
from .session import CONNECTION_LOST, LinkClosed, Session


def printable(text: str) -> str:
    """A text as a terminal may get it: what is no letter, sign or space is written as its escape, so that a service can't steer it."""
    return "".join(it if it.isprintable() or it == "\n" else it.encode("unicode_escape").decode() for it in text)


def columns(rows: list[list[str]]) -> Iterable[str]:
    """The rows as lines, whose words stand under one another; words that are all numbers stand to the right."""
    widths = [max(map(len, column)) for column in zip(*rows)]
    is_right = [all(word.lstrip("-").isdigit() or word == "-" for word in column[1:]) for column in zip(*rows)]
    for row in rows:
        cells = (word.rjust(width) if right else word.ljust(width) for word, width, right in zip(row, widths, is_right))
        yield "  ".join(cells).rstrip()


def cell(value: object) -> str:
    if isinstance(value, bool):
        return "held" if value else "-"
    return "-" if value is None else str(value)


def table(row: replies.Row) -> list[list[str]]:
    """The names and the values of a row's fields."""
    return [[name.upper().removeprefix("IS_") for name in row._fields], [cell(value) for value in row]]


def step_row(step: replies.EndStep | replies.CutStep | replies.NewStep) -> list[str]:
    """A step of a plan as a row: what happens, the trade, the pair and product, and the amounts before and after."""
    if isinstance(step, replies.EndStep):
        return ["end", str(step.trade), "-", "-", "-", "-", "-"]
    if isinstance(step, replies.CutStep):
        return ["cut", str(step.trade), "-", "-", "-", str(step.before), str(step.after)]
    return ["new", "-", step.seller, step.buyer, step.product, "-", str(step.amount)]


PLAN_HEAD = ["STEP", "TRADE", "SELLER", "BUYER", "PRODUCT", "BEFORE", "AFTER"]


WITH_ROWS = (replies.Statement, replies.Limits, replies.Plan, replies.Proof)


def tables_of(answer: replies.Statement | replies.Limits | replies.Plan | replies.Proof) -> Iterable[list[list[str]]]:
    """The rows of an answer below their names, those of each kind together."""
    if isinstance(answer, replies.Plan):
        if answer.rows:
            yield [PLAN_HEAD, *map(step_row, answer.rows)]
        return
    kinds: dict[type, list[list[str]]] = {}
    for row in answer.rows:
        head, values = table(row)
        kinds.setdefault(type(row), [head]).append(values)
    yield from kinds.values()


def entry_lines(record: bytes) -> Iterable[str]:
    """The change of an entry in words."""
    try:
        told = record_of(record, Kind.DATED)
    except BadField as bad:
        raise replies.BadReply(f"an entry that spells no change at {bad}") from None
    yield asked_text(told, Kind.DATED)
    yield from rows_of(told.change)


def shown(answer: replies.Answer) -> Iterable[str]:
    """An answer in columns: its name with its fields, and its rows."""
    fields = [(name, value) for name, value in zip(answer._fields, answer) if name not in ("position", "rows", "record")]
    words = [f"{name.upper()} {cell(value)}" for name, value in fields]
    if isinstance(answer, WITH_ROWS):
        words.append(f"{len(answer.rows)} rows")
    yield "  ".join([f"[{answer.position}]", type(answer).__name__.lower(), *words])
    if isinstance(answer, replies.Entry):
        yield from entry_lines(answer.record)
    if isinstance(answer, WITH_ROWS):
        for rows in tables_of(answer):
            yield from columns(rows)


def help_lines(words: list[str]) -> Iterable[str]:
    chosen = [word for word in words if word in COMMANDS] or [*COMMANDS]
    yield from (f"{word} {COMMANDS[word]}".rstrip() for word in chosen)
    if len(chosen) > 1:
        yield from (f"{word}: {meaning}" for word, meaning in OWN.items())


def is_kept(line: str) -> bool:
    """Whether the history keeps a line: one that begins with a command, and not with HELLO. A line that is mistyped may be a HELLO, with
    its key."""
    word = line.split(" ")[0]
    return word in {*COMMANDS, *OWN} - {"HELLO"} and "HELLO" not in line.upper().split(" ")


class Prompt:
    """Lines from a terminal, with history and completion, or from any other input."""

    def __init__(self, names: Names) -> None:
        self.is_terminal = sys.stdin is not None and sys.stdin.isatty() and sys.stdout.isatty()
        self.names = names
        self.speaker = ""
        self.history: Path | None = None
        if self.is_terminal:
            self.prepare()

    def prepare(self) -> None:
        try:
            import readline
        except ImportError:
            return
        readline.set_completer_delims(" ")
        readline.parse_and_bind("tab: complete")

        def complete(text: str, state: int) -> str | None:
            found = completions(self.names, readline.get_line_buffer()[: readline.get_begidx()], text)
            return found[state] if state < len(found) else None

        readline.set_completer(complete)
        readline.set_auto_history(False)
        folder = os.environ.get("XDG_STATE_HOME") or os.path.expanduser("~/.local/state")
        self.history = Path(folder) / "delkwoan_history"
        try:
            lines = self.history.read_text(errors="replace").splitlines()
        except OSError:
            return
        for line in filter(is_kept, lines):
            readline.add_history(line)

    def remember(self, line: str) -> None:
        """Puts a line into the history, for its owner alone to read."""
        if self.history is None or not is_kept(line):
            return
        import readline

        readline.add_history(line)
        try:
            self.history.parent.mkdir(parents=True, exist_ok=True)
            self.history.touch(0o600)
            self.history.chmod(0o600)
            readline.write_history_file(self.history)
        except OSError:
            pass

    def lines(self) -> Iterable[str]:
        """The lines that are typed, to the end of the input."""
        while True:
            try:
                if self.is_terminal:
                    line = input(f"{self.speaker}> ")
                    self.remember(line)
                else:
                    line = sys.stdin.readline() if sys.stdin is not None else ""
                    if not line:
                        return
            except EOFError:
                print()
                return
            except KeyboardInterrupt:
                print()
                continue
            yield line.rstrip("\r\n")


class Shell:
    """A session with a person or a script: prints the reply to each line."""

    def __init__(self, session: Session, prompt: Prompt, is_raw: bool) -> None:
        self.session = session
        self.prompt = prompt
        self.is_raw = is_raw
        self.refused = 0
        self.has_colour = (
            prompt.is_terminal and "NO_COLOR" not in os.environ and os.environ.get("TERM", "dumb") != "dumb"
        )

    def run(self) -> int:
        """Takes lines to the input's end, to `quit` or to an accepted BYE; the status for the shell's end."""
        for line in self.prompt.lines():
            word, *words = line.split(" ")
            if word == "quit":
                break
            if word == "help":
                print("\n".join(help_lines(words)))
            elif word == "names":
                print("\n".join(columns(self.prompt.names.table())))
            elif not self.take(line):
                break
            sys.stdout.flush()
        status, errors = self.session.close()
        if (status, errors) == CONNECTION_LOST and self.session.position is not None:
            errors += f" behind position {self.session.position}"
        if status != 0:
            raise Stop(status, printable(errors) or f"the program ended with status {status}")
        return 1 if self.refused and not self.prompt.is_terminal else 0

    def take(self, line: str) -> bool:
        """Sends a line and prints its reply; whether the session goes on."""
        try:
            if self.is_raw:
                return self.take_raw(line)
            answer = self.session.ask(line)
        except replies.Refused as refusal:
            self.refused += 1
            text = printable(f"[{refusal.position}]  refused: {refusal.name} {refusal.value}".rstrip() + f" ({refusal.number})")
            print(f"\033[31m{text}\033[0m" if self.has_colour else text)
            return True
        except LinkClosed:
            return False
        print(printable("\n".join(shown(answer))))
        if isinstance(answer, replies.Hello):
            self.prompt.speaker = printable(answer.name)
        return not isinstance(answer, replies.Bye)

    def take_raw(self, line: str) -> bool:
        reply = self.session.ask_raw(line)
        self.refused += reply[0].startswith(b"no ")
        text = b"".join(reply)
        sys.stdout.flush()
        if sys.stdout.isatty():
            text = printable(text.decode(errors="backslashreplace")).encode()
        sys.stdout.buffer.write(text)
        return reply[0].split(b" ")[2:] != [b"bye\n"]
