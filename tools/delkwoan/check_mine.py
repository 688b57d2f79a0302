"""The command compress-check-mine: whether a proposal is right for what one member knows of it."""

from typing import NoReturn

from . import checker, own_part
from .ending import BAD_WORDS, Stop, read_file, run
from .words import Words, text


def words() -> Words:
    parser = Words(
        "compress-check-mine",
        "Tells whether a proposal is right for a member's own part, by its notes and the reply to its PROOF.",
    )
    parser.add_argument("roster", metavar="ROSTER", type=text, help="the roster, with or without keys")
    parser.add_argument("member", metavar="MEMBER", type=text, help="the member's name")
    parser.add_argument("notes", metavar="NOTES", type=text, help="its TOL lines with their positions, and its trades")
    parser.add_argument("proof", metavar="PROOF", type=text, help="the reply to its PROOF")
    parser.add_argument("plan", metavar="PLAN", type=text, nargs="?", help="the reply to its PLAN")
    parser.add_argument("--with", metavar="OTHER", type=text, dest="other", help="print a hash to compare with OTHER")
    parser.add_argument("--salt", metavar="SALT", type=text, help="a word that both agreed on")
    return parser


def part_of(roster_file: str, member: str, notes_file: str, proof_file: str, plan_file: str | None) -> own_part.Part:
    """What the files tell; stops with the line of the first file that has a fault."""
    most = checker.MOST_BYTES + 1
    try:
        roster = own_part.read_roster(read_file(roster_file, most))
        notes = own_part.read_notes(read_file(notes_file, most), roster)
        proof = own_part.read_proof(read_file(proof_file, most))
        plan = None if plan_file is None else own_part.read_plan(read_file(plan_file, most))
    except checker.Fault as fault:
        raise Stop(3, str(fault)) from None
    if member not in roster.members:
        raise BAD_WORDS
    return own_part.Part(roster, member, notes, proof, plan)


def main(line: list[str]) -> int:
    given = words().parse_args(line)
    if (given.other is None) != (given.salt is None):
        raise BAD_WORDS
    part = part_of(given.roster, given.member, given.notes, given.proof, given.plan)
    if given.other is not None and (given.other == given.member or given.other not in part.roster.members):
        raise BAD_WORDS
    clash = own_part.clash_of(part)
    if clash is not None:
        print(f"no {clash.words}")
        if clash.line is not None:
            print(clash.line)
        return 1
    print("yes")
    print(f"all {own_part.hash_of_all(part)}")
    if given.other is not None:
        print(f"with {given.other} {own_part.hash_with(part, given.other, given.salt)}")
    return 0


def command() -> NoReturn:
    run(main)
