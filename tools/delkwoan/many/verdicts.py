"""What two checks say of a proposal that somebody sent: the second checker, and `check` of the program on this machine."""

import subprocess
import tempfile
from pathlib import Path
from typing import NamedTuple

from .. import checker

FILES = ("roster.csv", "trades.csv", "proposal.txt")
"""The files of a market and its proposal."""


class Question(NamedTuple):
    """A market's two files, the mode, and the proposal that is due for them."""

    roster: bytes
    trades: bytes
    mode: str
    proposal: bytes


def second_checker(asked: Question) -> str:
    """The second checker's answer, as a line that the program writes."""
    try:
        roster = checker.read_roster(asked.roster)
        networks = checker.read_trades(asked.trades, roster)
        failure = checker.failure_of(roster, asked.mode, networks, checker.read_proposal(asked.proposal, roster))
    except checker.Fault as fault:
        return str(fault)
    return "yes" if failure is None else f"no {failure}"


def program_check(program: str, asked: Question) -> str:
    """The answer of the program's `check`."""
    with tempfile.TemporaryDirectory() as room:
        names = [Path(room) / name for name in FILES]
        for name, text in zip(names, (asked.roster, asked.trades, asked.proposal)):
            name.write_bytes(text)
        words = [program, "check", *map(str, names[:2]), asked.mode, str(names[2])]
        done = subprocess.run(words, stdin=subprocess.DEVNULL, capture_output=True)
    return (done.stdout + done.stderr).decode(errors="replace").strip()


def refusal(program: str, asked: Question) -> str | None:
    """What one of the checks says against a proposal, or none where both say yes."""
    answers = {"the second checker": second_checker(asked), "the program": program_check(program, asked)}
    refused = [f"{who} says {answer!r}" for who, answer in answers.items() if answer != "yes"]
    return ", ".join(refused) or None
