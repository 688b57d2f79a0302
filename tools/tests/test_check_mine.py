"""A member's own test of a proposal, by replies that were worked out by hand (transcripts of PROOF), and changed ones."""

import itertools
import random
import re
import sys
import tempfile
import unittest
from pathlib import Path
from typing import Iterator

from running import ROOT, TOOLS, Ran, run

sys.path.insert(0, str(TOOLS))

import proven
from delkwoan import checker, keys, own_part
from delkwoan.book import Tolerance
from delkwoan.certificate import first_clash
from proven import Case

CASES = 500
"""How many random proposals are tested, and spoilt."""
TRANSCRIPTS = ROOT / "crates/transcripts/data"
KEEPS = "proof-names-who-keeps-an-amount"
CLOSES = "proof-names-who-closes-a-pair"
CHAIN = "proof-of-members"

AB = "trade 1 A B P 10 2026-03-02 live -"
CA = "trade 4 C A P 10 2026-03-02 live -"
BC = "trade 2 B C P 7 2026-03-02 live -"
NOTES = {
    (KEEPS, "A"): ["2 TOL B P out 3 -", "3 TOL C P in 2 -", "14 TOL B P out 7 -", AB, CA],
    (KEEPS, "B"): [AB, "trade 2 B C P 4 2026-03-02 live held", "trade 3 B C P 6 2026-03-02 live -"],
    (CLOSES, "A"): ["2 TOL B P in 0 0", "3 TOL C P in 0 0", AB],
    (CHAIN, "A"): [AB],
    (CHAIN, "B"): [AB, BC],
    (CHAIN, "C"): [BC],
}
"""What each member knows, by transcript: what it set, and its trades."""

CHANGES = [
    (KEEPS, "pot P B 0", "pot P B 1", "slack"),
    (KEEPS, "3 seller 10 4", "3 seller 10 2", "next out of bounds"),
    (KEEPS, "3 seller 10 4", "3 seller 10 5", "net P 1"),
    (KEEPS, "3 seller 10", "3 seller 11", "now"),
    (KEEPS, "3 seller", "2 seller", "lower below your own"),
    (KEEPS, "3 seller", "4 seller", "lower is not of seller"),
    (KEEPS, "3 seller", "3 buyer", "lower is not of buyer"),
    (KEEPS, "3 seller", "3 none", "lower is not of none"),
    (KEEPS, "3 seller", "3 now", "lower is not of now"),
    (KEEPS, "3 seller", "3 hold", "lower is not of hold"),
    (KEEPS, "2 buyer", "3 buyer", "lower is not of buyer"),
    (KEEPS, "10 now", "- none", "upper is not of none"),
    (KEEPS, "10 now", "11 now", "upper is not now"),
    (KEEPS, "10 now", "10 buyer", "upper is not of buyer"),
    (KEEPS, "conservative 13", "conservative 15", "lower below your own"),
    (KEEPS, "conservative", "free", "missing P A C"),
    (CLOSES, "2 2 buyer", "2 2 seller", "upper is not of seller"),
    (CLOSES, "0 seller", "- none", "upper above your own"),
    (CLOSES, "0 2 2 buyer", "0 2 3 buyer", "open"),
    (CLOSES, "pair P C A 0 none 0 0 0 buyer\n", "", "missing P C A"),
    (CLOSES, "pot P C 0\n", "", "potential missing"),
    (CLOSES, "pot P C 0", "pot P D 0", "strange"),
    (CLOSES, "0 none 10 8", "11 buyer 10 11", "lower above now"),
    (CLOSES, "pair P A C", "pair P C B", "missing P A C"),
    (CHAIN, "pair P A C 0 none 0 7 - none\n", "", "missing P A C"),
    (CHAIN, "2026-03-31 hybrid", "2031-06-30 hybrid", "now"),
]
"""A word of A's reply changed, and what A then finds first; where a line goes, the count does too."""


PLAN = "ok 15 plan 1 1 2\ncut 1 10 4\ncut 4 10 4\n"
"""What A is shown of KEEPS."""
PLANS = [
    ("plan 1 1", "plan 1 2", "plan of another version"),
    ("cut 1 10 4", "cut 1 10 5", "plan leads elsewhere"),
    ("cut 1 10 4", "cut 9 10 4", "plan leads elsewhere"),
    ("2\ncut 1 10 4", "1", "plan leads elsewhere"),
    ("1 1 2", "1 1 0", "plan leads elsewhere"),
    ("2\ncut", "3\ncut", "plan has a step more"),
]
"""A's PLAN changed, and what it then finds; a step more is one of a pair that its PROOF does not tell."""


def reply_of(name: str, member: str) -> str:
    """The reply to a member's first PROOF in a transcript that is answered with lines."""
    text = (TRANSCRIPTS / f"{name}.transcript").read_text()
    session = text.split(" proposed ")[1].split(f"> HELLO {member} ")[1]
    found = re.search(r"^(ok \d+ proof .*\n)((?:(?:pot|pair) .*\n)+)", session, re.M)
    assert found
    return found[1] + found[2]


def changed(reply: str, old: str, new: str) -> str:
    """The reply with a word changed, and with the count of its lines."""
    assert old in reply
    head, *lines = reply.replace(old, new, 1).splitlines()
    words = [*head.split(" ")[:-1], str(len(lines))]
    return "".join(f"{line}\n" for line in [" ".join(words), *lines])


class CheckMine(unittest.TestCase):
    def setUp(self) -> None:
        folder = tempfile.TemporaryDirectory()
        self.addCleanup(folder.cleanup)
        self.folder = Path(folder.name)

    def check(self, name: str, member: str, reply: str, *words: str) -> Ran:
        roster = TRANSCRIPTS / ("customer-roster.csv" if name == CLOSES else "roster.csv")
        (self.folder / "roster").write_bytes(run([TOOLS / "public_roster", roster]).output)
        (self.folder / "notes").write_text("".join(f"{line}\n" for line in NOTES[name, member]))
        (self.folder / "proof").write_text(reply)
        return run([TOOLS / "check_mine", "roster", member, "notes", "proof", *words], folder=self.folder)

    def test_each_member_says_yes(self) -> None:
        for name, member in NOTES:
            with self.subTest(name=name, member=member):
                ran = self.check(name, member, reply_of(name, member))
                self.assertEqual((ran.status, ran.output[:8], ran.errors), (0, b"yes\nall ", b""))

    def test_what_is_changed_is_found(self) -> None:
        for name, old, new, words in CHANGES:
            with self.subTest(name=name, old=old, new=new):
                ran = self.check(name, "A", changed(reply_of(name, "A"), old, new))
                self.assertEqual((ran.status, ran.output.decode().splitlines()[0]), (1, f"no {words}"))

    def test_a_plan_that_is_another_is_found(self) -> None:
        for old, new, words in [("plan", "plan", ""), *PLANS]:
            with self.subTest(new=new):
                plan = PLAN.replace(old, new, 1)
                plan = plan.splitlines()[0] + "\n" if new == "1 1 0" else plan + "new A C P 3\n" * (new[0] == "3")
                (self.folder / "plan").write_text(plan)
                ran = self.check(KEEPS, "A", reply_of(KEEPS, "A"), "plan")
                self.assertEqual((ran.status, ran.output.decode().splitlines()[0]), (1, f"no {words}") if words else (0, "yes"))

    def test_two_members_compare_what_they_were_told(self) -> None:
        mine, yours = reply_of(KEEPS, "A"), reply_of(KEEPS, "B")
        told = self.check(KEEPS, "A", mine, "--with", "B", "--salt", "S1").output
        same = self.check(KEEPS, "B", yours, "--with", "A", "--salt", "S1").output.replace(b"with A", b"with B")
        other = self.check(KEEPS, "A", mine.replace("10 4 10", "10 5 10"), "--with", "B", "--salt", "S1").output
        self.assertEqual(told, same)
        self.assertEqual(other[:8], b"yes\nall ")
        self.assertNotEqual(told, other)

    def test_what_is_out_of_form_is_a_fault(self) -> None:
        reply = reply_of(KEEPS, "A")
        for text, row in (("", 1), (reply + reply, 7), (reply.replace("pair", "pare", 1), 5)):
            with self.subTest(text=text):
                self.assertEqual(self.check(KEEPS, "A", text), Ran(3, b"", b"proof row %d: bad-line\n" % row))
        for words in (["--salt", "S1"], ["--with", "B"], ["--with", "A", "--salt", "S1"], ["--with", "Z", "--salt", "S1"]):
            self.assertEqual(self.check(KEEPS, "A", reply, *words), Ran(2, b"", b"bad words\n"))
        for plan, row in (("", 1), (PLAN.replace("plan", "proof"), 4), (PLAN + "end 1\n", 4), ("ok 15 plan 1 1 1\n", 2)):
            with self.subTest(plan=plan):
                (self.folder / "plan").write_text(plan)
                self.assertEqual(self.check(KEEPS, "A", reply, "plan"), Ran(3, b"", b"plan row %d: bad-line\n" % row))

    def test_what_a_session_wrote_is_taken_as_it_is(self) -> None:
        """Each row is what a session of A wrote: greetings, refusals and replies to other lines stand around what is looked for."""
        proof = reply_of(KEEPS, "A")
        asked = f"no 14 16 wrong-cycle 1\n{proof}{PLAN}ok 15 bye\n"
        limits = "ok 15 limits 1\nlimit A B 0 10 10\n"
        for before, after in (("", "ok 15 bye\n"), ("ok 14 hello A\n", ""), (limits, limits), ("", asked.removeprefix("no 14 16 wrong-cycle 1\n" + proof))):
            with self.subTest(before=before, after=after):
                self.assertEqual(self.check(KEEPS, "A", before + proof + after).output[:4], b"yes\n")
        (self.folder / "plan").write_text("ok 14 hello A\n" + asked)
        self.assertEqual(self.check(KEEPS, "A", "ok 14 hello A\n" + asked, "plan").output[:4], b"yes\n")
        (self.folder / "plan").write_text("ok 14 hello A\n" + asked.replace("cut 4 10 4", "cut 4 10 5"))
        self.assertEqual(self.check(KEEPS, "A", "ok 14 hello A\n" + asked, "plan").output[:24], b"no plan leads elsewhere\n")

    def test_a_session_without_the_reply_is_a_fault(self) -> None:
        proof = reply_of(KEEPS, "A")
        for text, fault in (
            ("no 0 2 bad-key\nno 0 1 not-greeted\n", "row 1: refused"),
            ("ok 14 hello A\nno 14 17 wrong-phase frozen\nok 14 bye\n", "row 2: refused"),
            ("ok 14 hello A\n", "row 2: bad-line"),
            ("ok 14 hello A\n" + PLAN, "row 5: bad-line"),
            ("ok 14 hello A\n" + proof + "ok 14 hello A\n" + proof, "row 9: bad-line"),
            ("ok 14 hello A\n" + "".join(proof.splitlines(True)[:-1]), "row 7: bad-line"),
            ("ok 14 hello A\nok\n" + proof, "row 2: bad-line"),
            ("HELLO A KA\n" + proof, "row 1: bad-line"),
            ("ok 14 hello A\nok 14 proof 1 1 2026-03-31 conservative 13 x\n", "row 2: bad-line"),
        ):
            with self.subTest(text=text):
                self.assertEqual(self.check(KEEPS, "A", text), Ran(3, b"", f"proof {fault}\n".encode()))

    def test_notes_are_what_was_set_and_what_a_session_wrote(self) -> None:
        """The last STATEMENT of the notes counts; what is not of it or of a TOL is passed over."""
        settings, trades = NOTES[KEEPS, "A"][:3], NOTES[KEEPS, "A"][3:]
        statement = ["ok 4 statement 2", *trades]
        older = ["ok 1 statement 1", AB.replace("P 10", "P 9")]
        plain = own_part.read_notes("".join(f"{line}\n" for line in [*settings, *trades]).encode(), self.roster())
        for lines in (
            [*settings, "ok 4 hello A", *statement],
            [*older, "ok 2 tol", *settings[:1], *statement, "no 4 16 wrong-cycle 0", *settings[1:], "ok 4 bye"],
            [*statement, *settings, "ok 5 plan 1 1 1", "cut 1 10 4", "ok 5 nets 0 10 -10"],
            [*trades[:1], *statement, *settings],
        ):
            with self.subTest(lines=lines):
                self.assertEqual(own_part.read_notes("".join(f"{line}\n" for line in lines).encode(), self.roster()), plain)

    def roster(self) -> own_part.Roster:
        return own_part.read_roster((TRANSCRIPTS / "roster.csv").read_bytes())

    def test_notes_that_are_out_of_form_are_a_fault(self) -> None:
        roster = own_part.read_roster((TRANSCRIPTS / "roster.csv").read_bytes())
        for line, fault in (
            ("2 TOL Z P out 3 -", "unknown-name"),
            ("2 TOL B Z out 3 -", "unknown-name"),
            ("trade 9 A Z P 10 2026-03-02 live -", "unknown-name"),
            ("2 TOL B P up 3 -", "bad-line"),
            ("TOL B P out 3 -", "bad-line"),
            ("trade 9 A B P 10 2026-03-02 lively -", "bad-line"),
            (AB, "bad-line"),
            ("", "bad-line"),
        ):
            with self.subTest(line=line), self.assertRaisesRegex(checker.Fault, f"^notes row 2: {fault}$"):
                own_part.read_notes(f"{AB}\n{line}\n".encode(), roster)
        for text, row in (("ok 4 statement 2\n" + AB, 3), ("ok 4 statement 1\nok 4 hello A\n", 2), (f"ok 4 statement x\n{AB}\n", 1), (f"ok 4 statement 2\n{AB}\n{AB}\n", 3)):
            with self.subTest(text=text), self.assertRaisesRegex(checker.Fault, f"^notes row {row}: bad-line$"):
                own_part.read_notes(text.encode(), roster)
        with self.assertRaisesRegex(checker.Fault, "^roster row 3: twice$"):
            keys.public_roster(b"name,role,key\nA,dealer,KA\nA,dealer,KB\n")


def part_of(case: Case, place: int) -> own_part.Part:
    """What a member tests with."""
    roster = own_part.read_roster(proven.roster_of(case).encode())
    notes = own_part.read_notes(proven.notes_of(case, place).encode(), roster)
    proof = own_part.read_proof(proven.reply_to(case, place).encode())
    return own_part.Part(roster, proven.name(place), notes, proof, own_part.read_plan(proven.plan_for(case, place).encode()))


def clashes_of(case: Case) -> list[own_part.Clash]:
    """What the members find, each first."""
    found = [own_part.clash_of(part_of(case, place)) for place in range(len(case.dealers))]
    return [clash for clash in found if clash is not None]


def lacking(chance: random.Random, part: own_part.Part) -> own_part.Notes:
    """A member's notes with some settings and trades gone, some of another value, and some too many."""
    notes, me = part.notes, part.member
    settings = {key: [it._replace(floor=chance.randrange(9)) if chance.random() < 0.3 else it for it in own] for key, own in notes.settings.items()}
    live = {key: [it for it in own if chance.random() < 0.7] for key, own in notes.live.items()}
    for product, other in itertools.product(part.roster.products, part.roster.members):
        if other != me and chance.random() < 0.2:
            key = (product, *chance.choice(((me, other), (other, me))))
            live.setdefault(key, []).append(own_part.Trade(9_000 + chance.randrange(999), 1 + chance.randrange(9), chance.random() < 0.5))
            settings[product, other, chance.choice(own_part.SIDES)] = [own_part.Setting(0, chance.randrange(9), chance.choice((None, 9, 20)))]
    return notes._replace(settings={key: own for key, own in settings.items() if chance.random() < 0.7}, live=live)


def certain_of(part: own_part.Part) -> Iterator[own_part.Clash]:
    """The first clash that no notes can explain, if there is one."""
    return itertools.islice((clash for clash in own_part.clashes(part) if not clash.is_by_notes), 1)


class RandomProposals(unittest.TestCase):
    def test_all_members_say_yes_exactly_where_a_proposal_is_certified(self) -> None:
        chance = random.Random(47)
        counts = {True: 0, False: 0}
        for number in range(CASES):
            solved = proven.case_of(chance)
            for case in (solved, proven.spoilt(chance, solved)):
                is_right = first_clash(case.problem, case.new, case.prices) is None
                found = clashes_of(case)
                with self.subTest(number=number, case=case):
                    self.assertEqual(not found, is_right)
                    self.assertNotEqual(len(found), 1)  # no clash is found by one member alone
                counts[is_right] += 1
        self.assertGreater(min(counts.values()), CASES // 3)

    def test_no_lack_of_the_notes_makes_a_right_proposal_wrong(self) -> None:
        """Whatever tolerances and trades a member's notes lack or have too much, all that clashes with a right proposal does so by them."""
        chance = random.Random(50)
        doubts = 0
        for number in range(CASES):
            case = proven.case_of(chance)
            if first_clash(case.problem, case.new, case.prices) is not None:
                continue
            for place in range(len(case.dealers)):
                part = part_of(case, place)
                with self.subTest(number=number, place=place):
                    found = list(own_part.clashes(part._replace(notes=lacking(chance, part))))
                    self.assertEqual([it for it in found if not it.is_by_notes], [])
                doubts += bool(found)
        self.assertGreater(doubts, CASES // 4)

    def test_what_is_wrong_by_itself_is_found_without_notes(self) -> None:
        """A spoilt proposal is found by most without their notes."""
        chance = random.Random(51)
        found = wrong = 0
        for _ in range(CASES):
            case = proven.spoilt(chance, proven.case_of(chance))
            if first_clash(case.problem, case.new, case.prices) is None:
                continue
            parts = [part_of(case, place)._replace(notes=own_part.Notes({}, set(), {})) for place in range(len(case.dealers))]
            found += any(True for part in parts for _ in certain_of(part))
            wrong += 1
        self.assertGreater(wrong, CASES // 3)
        self.assertGreater(found, wrong // 2)

    def test_two_hashes_are_equal_exactly_where_two_members_are_told_alike(self) -> None:
        """Also of two members that are not near, of whom neither is told the other's potential."""
        chance = random.Random(49)
        counts = {True: 0, False: 0}
        for _ in range(CASES // 4):
            case = proven.case_of(chance)
            parts = [part_of(case, place) for place in range(len(case.dealers))]
            moved = case._replace(prices=[it + 1 for it in case.prices])
            for i, j in itertools.combinations(range(len(parts)), 2):
                is_near = any(case.problem.upper(pair) != 0 for pair in ((i, j), (j, i)))
                hashes = [own_part.hash_with(part, proven.name(j), "S") for part in (parts[i], part_of(moved, i))]
                self.assertEqual(own_part.hash_with(parts[j], proven.name(i), "S"), hashes[0])
                self.assertEqual(hashes[0] != hashes[1], is_near)
                counts[is_near] += 1
        self.assertGreater(min(counts.values()), 50)

    def test_a_floor_forged_in_a_members_name_is_found_by_that_member_alone(self) -> None:
        """The proposal is solved and certified under the forged floor, so that all others find nothing."""
        chance = random.Random(50)
        found = 0
        for _ in range(CASES):
            case = proven.case_of(chance)
            pair = (0, 1)
            now, low = case.problem.now.get(pair, 0), case.problem.least.get(pair, 0)
            if now <= low:
                continue
            settings = {**case.settings, (pair, 0): Tolerance(low + 1, None)}
            problem = case.problem._replace(least={**case.problem.least, pair: low + 1})
            told = case._replace(settings=settings, problem=problem)
            new, prices = proven.least(problem, len(case.dealers))
            told = told._replace(new=new, prices=prices)
            if proven.upper_owner(told, pair) != proven.upper_owner(case, pair):
                continue
            parts = [part_of(told, place)._replace(notes=part_of(case, place).notes) for place in range(len(case.dealers))]
            clashes = [own_part.clash_of(part) for part in parts]
            with self.subTest(case=case):
                self.assertEqual(clashes[0] and clashes[0].words, "lower is not of seller")
                self.assertEqual(clashes[1:], [None] * (len(case.dealers) - 1))
            found += 1
        self.assertGreater(found, 100)

    def test_a_bound_that_nobody_set_is_found_by_whom_it_names(self) -> None:
        chance = random.Random(48)
        found = 0
        for _ in range(CASES):
            case = proven.case_of(chance)
            pair = (0, 1)
            now, low = case.problem.now.get(pair, 0), case.problem.least.get(pair, 0)
            if now <= low:
                continue
            owner = chance.choice((0, 1))
            others = {key: it for key, it in case.settings.items() if key != (pair, owner)}
            told = case._replace(
                settings={**others, (pair, owner): Tolerance(low + 1, None)},
                problem=case.problem._replace(least={**case.problem.least, pair: low + 1}),
            )
            if proven.lower_owner(told, pair) != ("seller", "buyer")[owner]:
                continue
            proof = own_part.read_proof(proven.reply_to(told, pair[owner]).encode())
            self.assertIsNotNone(own_part.clash_of(part_of(case, pair[owner])._replace(proof=proof, plan=None)))
            found += 1
        self.assertGreater(found, 100)


if __name__ == "__main__":
    unittest.main()
