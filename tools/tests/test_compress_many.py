"""Many markets over Dask: bad input, what is written, how networks are cut, and workers that are lost, lie or are interrupted."""

import bz2
import gzip
import itertools
import lzma
import os
import pty
import random
import re
import select
import signal
import subprocess
import tempfile
import time
import unittest
import urllib.request
from pathlib import Path
from typing import Callable

from many import HEAD, TABLES, Many, Trade, ring, rows_of, text_of
from running import PATIENCE, TOOLS, Ran, run
from serving import free_port

ROW = "2026-01-01,P,A,B,5\n"
FAULTS: list[tuple[str, str]] = [
    ("", "1: columns"),
    ("day,product,seller,buyer\n", "1: columns"),
    ("day,product,seller,buyer,amount,venue\n", "1: columns"),
    ("day,product,seller,buyer,venue\n", "1: columns"),
    ("day,product,seller,seller,amount\n", "1: columns"),
    (HEAD + ROW + "2026-01-01,P,A,B\n", "3: columns"),
    (HEAD + ROW + "2026-01-01,P,A,B,5,6\n", "3: columns"),
    (HEAD + ROW + "\n2026-13-01,P,A,B,5\n", "3: bad-day"),
    (HEAD + ",P,A,B,5\n", "2: bad-day"),
    (HEAD + "2026-01-01,,A,B,5\n", "2: bad-name"),
    (HEAD + "2026-01-01,P,,B,5\n", "2: bad-name"),
    (HEAD + "2026-01-01,P,A,,5\n", "2: bad-name"),
    (HEAD + "2026-01-01,P,A,A,5\n", "2: same-party"),
    *((HEAD + ROW + f"2026-01-01,P,A,B,{word}\n", "3: bad-amount") for word in ("-5", "0", "05", "", "5.0", "1e3", "+5", " 5", "٥", "x")),
    (HEAD + ROW + "2026-01-01,P,A,B,1000000000000001\n", "3: bad-amount"),
    (HEAD + ROW + 1000 * "2026-01-01,P,A,B,1000000000000000\n" + ROW, "1002: gross-limit"),
]
"""Files of trades, and the record and the fault that is told."""

MEMBER_FAULTS: list[tuple[str, str]] = [
    ("name\n", "members.csv row 1: columns"),
    ("name,role,key\n", "members.csv row 1: columns"),
    ("name,role\nA,dealer\nB\n", "members.csv row 3: columns"),
    ("name,role\nA,dealer\nB,broker\n", "members.csv row 3: bad-role"),
    ("name,role\n,dealer\n", "members.csv row 2: bad-name"),
    ("name,role\nA,dealer\nA,customer\n", "members.csv row 3: twice"),
    ("role,name\ndealer,A\n", "trades.csv row 2: unknown-name"),
]


class BadInput(Many):
    def assert_told(self, status: int, line: str, *words: str | Path) -> None:
        """One line, and nothing written."""
        self.assertEqual(self.compress(*words), Ran(status, b"", line.encode() + b"\n"))
        self.assertFalse(self.out.exists())

    def test_faults_of_trades(self) -> None:
        for text, told in FAULTS:
            with self.subTest(text=text[-60:]):
                self.trades.write_text(text)
                self.assert_told(3, f"trades.csv row {told}")

    def test_faults_of_members(self) -> None:
        self.trades.write_text(HEAD + ROW)
        for text, told in MEMBER_FAULTS:
            with self.subTest(text=text):
                (self.folder / "members.csv").write_text(text)
                self.assert_told(3, told, "--members", self.folder / "members.csv")

    def test_the_file_of_a_folder_is_named(self) -> None:
        self.trades = self.folder / "trades"
        self.trades.mkdir()
        self.assert_told(11, "file fault")
        (self.trades / "1.csv").write_text(HEAD + ROW)
        (self.trades / "2.csv.gz").write_bytes(gzip.compress((HEAD + ROW + "2026-01-01,P,A,B,-1\n").encode()))
        self.assert_told(3, "2.csv.gz row 3: bad-amount")
        whole = gzip.compress((HEAD + 100 * ROW).encode())
        for damaged in (whole[:-4], whole[:-8] + 8 * b"?"):
            (self.trades / "2.csv.gz").write_bytes(damaged)
            self.assert_told(3, "2.csv.gz: damaged")

    def test_files_that_are_not_there(self) -> None:
        self.assert_told(11, "file fault")
        self.trades.write_text(HEAD + ROW)
        self.assert_told(11, "file fault", "--members", self.folder / "none")

    def test_words_that_are_bad(self) -> None:
        self.trades.write_text(HEAD + ROW)
        bad: list[list[str]] = [["--mode", "loose"], ["--workers", "2"], ["--what"], ["x"], ["--mode"], ["--scheduler"]]
        for words in bad:
            with self.subTest(words=words):
                self.assert_told(2, "bad words", *words)
        for count in ("0", "65", "-1", "x"):
            self.assertEqual(run(self.tool("--workers", count)), Ran(2, b"", b"bad words\n"))

    def test_packages_that_are_not_there(self) -> None:
        """-S leaves out all packages but Python's own."""
        self.trades.write_text(HEAD + ROW)
        words = self.tool()
        self.assertEqual(run([words[0], "-S", *words[1:]]), Ran(11, b"", b"no scipy: install python3-scipy\n"))
        self.assertFalse(self.out.exists())

    def test_a_program_that_is_not_there(self) -> None:
        self.trades.write_text(HEAD + ROW)
        none = self.folder / "none"
        self.assertEqual(self.compress(program=none), Ran(11, b"", f"no program at {none}\n".encode()))

    def test_a_scheduler_that_is_not_there(self) -> None:
        self.trades.write_text(HEAD + ROW)
        address = f"tcp://127.0.0.1:{free_port()}"
        words = self.tool("--scheduler", address)
        environ = {**os.environ, "DASK_DISTRIBUTED__COMM__TIMEOUTS__CONNECT": "1s", "COMPRESS_CLI": str(self.program)}
        done = subprocess.run(words, capture_output=True, env=environ, timeout=PATIENCE)
        self.assertEqual((done.returncode, done.stdout, done.stderr), (21, b"", f"no scheduler at {address}\n".encode()))


WAITING = (
    'for slot in "$STATE"/slot*; do if rmdir "$slot" 2> /dev/null; then exec "$SELF" "$@"; fi; done\n'
    'while [ -d "$STATE" ] && [ ! -e "$STATE/go" ]; do [ ! -e "$STATE/stop" ] || exit 1; sleep 0.1; done'
)
"""A stand-in that solves as many markets as there are slots, and then waits until it goes on, or has to fail."""

BY_HAND = """\
2026-01-01,Rates,Bank A,Bank B,10
2026-01-01,Rates,Bank B,Bank C,10
2026-01-01,Rates,Bank C,Bank A,7
2026-01-01,Rates,Bank C,"Fund ""X"", London",7
2026-01-01,Credit,Bank A,Bank B,10
2026-01-01,Credit,Bank B,Bank A,4
2026-01-02,Credit,Bank B,Bank A,4
2026-01-02,Credit,Bank B,Größte Bank der Welt mit einem langen Namen,1000000000000000
2026-01-02,Credit,Bank B,Größte Bank der Welt mit einem langen Namen,1000000000000000
2026-01-02,Credit,Bank B,Größte Bank der Welt mit einem langen Namen,3
"""
GREAT = 2 * 10**15 + 3
FIGURES = {
    # the roles are those of who both sells and buys, so A, B and C may owe each other anything: 3 from A to C are left, and the fund's 7
    ("2026-01-01", "Rates"): ["4", "1", "34", "10", "7", "34", "yes", "0", "0", "0"],
    ("2026-01-01", "Credit"): ["2", "1", "14", "6", "6", "6", "yes", "0", "0", "0"],
    ("2026-01-02", "Credit"): ["3", "1", *[str(GREAT + 4)] * 4, "yes", "0", "0", "0"],
}
"""Figures of these trades, worked out by hand."""


class Written(Many):
    def test_by_hand_and_in_every_form(self) -> None:
        text = (HEAD + BY_HAND).encode()
        self.trades.write_bytes(text)
        figures = self.assert_done(ran := self.compress())
        self.assertEqual(ran.output.decode(), f"products 3, markets 1: gross {GREAT + 52} before, {GREAT + 20} after\n")
        self.assertEqual({(row["day"], row["product"]): [*row.values()][2:] for row in figures}, FIGURES)
        first = [(self.out / name).read_bytes() for name in TABLES if name != "markets"]
        turned = "".join(",".join(line.rsplit(",", 1)[::-1]) + "\r\n" for line in text.decode().splitlines())
        forms = [gzip.compress(text), bz2.compress(text), lzma.compress(text), b"\xef\xbb\xbf" + text, turned.encode()]
        for form in forms:
            self.trades.write_bytes(form)
            self.assertEqual(self.compress(), ran)
            self.assertEqual([(self.out / name).read_bytes() for name in TABLES if name != "markets"], first)

    def test_what_is_left_is_least(self) -> None:
        """It is compressed again, in the same roles, and nothing more goes; in a free mode M is left."""
        draw = random.Random(1)
        names = [f"M{place}" for place in range(12)]
        pairs = [draw.sample(names, 2) for _ in range(600)]
        trades = [Trade("2026-01-01", f"P{place % 20}", a, b, draw.randrange(1, 1000)) for place, (a, b) in enumerate(pairs)]
        members = self.folder / "members.csv"
        members.write_text("name,role\n" + "".join(f"{name},{'dealer' if name < 'M4' else 'customer'}\n" for name in names))
        self.trades.write_text(text_of(trades))
        figures = self.assert_done(self.compress("--members", members))
        self.assertEqual(len(figures), 20)
        self.assertTrue(all(int(row["floor"]) <= int(row["after"]) <= int(row["bilateral"]) for row in figures))
        self.trades.write_bytes((self.out / "trades.csv").read_bytes())
        again = self.assert_done(self.compress("--members", members))
        self.assertEqual([(row["gross"], row["after"]) for row in again], [(row["after"], row["after"]) for row in figures])
        free = self.assert_done(self.compress("--members", members, "--mode", "free"), "free")
        self.assertEqual([row["after"] for row in free], [row["floor"] for row in figures])

    def test_no_trades(self) -> None:
        self.trades.write_text(HEAD)
        self.assertEqual(self.assert_done(ran := self.compress()), [])
        self.assertEqual(ran.output, b"products 0, markets 0: gross 0 before, 0 after\n")

    def test_a_folder_is_of_one_run_at_a_time(self) -> None:
        self.trades.write_text(HEAD + ROW)
        slow = self.stand_in(WAITING)
        first = subprocess.Popen(self.tool("--workers", "2", "--program", slow), stdout=subprocess.PIPE, stderr=subprocess.PIPE)
        while not (self.folder / "state/solved").exists():
            self.assertIsNone(first.poll(), "ended early")
            time.sleep(0.05)
        self.assertEqual(self.compress(), Ran(11, b"", f"{self.out} is in use\n".encode()))
        (self.folder / "state/go").touch()
        output, errors = first.communicate(timeout=PATIENCE)
        self.assert_done(Ran(first.returncode, output, errors))


BEGUN = [".compress-many", "markets"]
"""What a folder has before the tables are there."""
WHETHER_LEAST = ("members", "pieces", "after", "least", "lost", "left_out")


class OtherFiles(Many):
    """A run writes to a folder that is new, empty, or its own, and nothing else in it is deleted or replaced."""

    def files(self) -> dict[str, bytes]:
        return {str(path.relative_to(self.folder)): path.read_bytes() for path in sorted(self.folder.rglob("*")) if path.is_file()}

    def assert_refused(self, why: str) -> None:
        before = self.files()
        self.assertEqual(self.compress(), Ran(11, b"", f"{why}\n".encode()))
        self.assertEqual(self.files(), before)

    def test_a_folder_that_has_other_files(self) -> None:
        self.trades.write_text(HEAD + ROW)
        for name in ("notes.txt", "trades.csv", "markets/000001/mine.csv", ".hidden", ".compress-many"):
            with self.subTest(name=name), tempfile.TemporaryDirectory(dir=self.folder) as place:
                self.out = Path(place)
                (self.out / name).parent.mkdir(parents=True, exist_ok=True)
                (self.out / name).write_text("mine\n")
                self.assert_refused(f"{self.out} has other files: name a folder that is new, empty, or of an earlier run")

    def test_input_in_the_folder(self) -> None:
        """Also in one with the mark, by its own name, through a link in either direction, and as the folder itself."""
        self.trades.write_text(HEAD + ROW)
        self.assert_done(self.compress())
        inside, link = self.out / "input.csv", self.folder / "link.csv"
        inside.write_text(HEAD + ROW)
        link.symlink_to(inside)
        (self.out / "linked.csv").symlink_to(self.trades)
        for place in (inside, link, self.out / "linked.csv", self.out, self.out / "markets"):
            with self.subTest(place=place):
                self.trades = place
                self.assert_refused(f"{place} lies in {self.out}: name another folder to write to")

    def test_members_in_the_folder(self) -> None:
        self.trades.write_text(HEAD + ROW)
        self.assert_done(self.compress())
        members = self.out / "names.csv"
        ran = self.compress("--members", members)
        self.assertEqual(ran, Ran(11, b"", f"{members} lies in {self.out}: name another folder to write to\n".encode()))

    def test_what_others_put_into_the_folder_stays(self) -> None:
        self.trades.write_text(HEAD + ROW)
        self.out.mkdir()
        self.assert_done(self.compress())
        mine = [self.out / name for name in ("notes.txt", "markets/mine/a.csv", "markets/12/b.csv", "markets/.keep/c.csv")]
        for path in mine:
            path.parent.mkdir(exist_ok=True)
            path.write_text("mine\n")
        (self.out / "markets/000007").mkdir()
        self.assertEqual(self.compress().status, 0)
        self.assertTrue(all(path.read_text() == "mine\n" for path in mine))
        self.assertFalse((self.out / "markets/000007").exists())


class Cut(Many):
    def test_parts_that_are_many_or_large(self) -> None:
        """Three rings of 100 are three pieces, since each has its 64 dealers. A ring of 300 is compressed by 256 of its members, so that
        none of it can go; but what lies between two of these can."""
        rings = [trade._replace(product="Small") for place in range(3) for trade in ring(f"S{place}", 100)]
        large = ring("Large", 300)
        opposite = Trade("2026-01-01", "Large", "Large 1", "Large 0", 5)
        self.trades.write_text(text_of([*rings, *large, opposite]))
        ran = self.compress("--mode", "conservative")
        rows = {row["product"]: row for row in self.assert_done(ran, "conservative")}
        self.assertIn(b"; 1 not least, by 1490 at most: members left out 44, dealers taken as customers 192\n", ran.output)
        self.assertEqual([rows["Small"][name] for name in WHETHER_LEAST], ["300", "3", "0", "yes", "0", "0"])
        self.assertEqual([rows["Large"][name] for name in WHETHER_LEAST], ["300", "1", "1495", "no", "1490", "44"])
        self.assertEqual([row["demoted"] for row in rows.values()], [str(256 - 64), str(3 * 36)])

    def test_least_is_said_of_the_roles_that_were_given(self) -> None:
        """A chain of 100 dealers. Hybrid with all of them leaves what the first owes the last; but a market takes 64, so that each pair
        of the others stays. In the other modes nobody's role bounds a pair."""
        members = self.folder / "members.csv"
        chain = ring("D", 100)[:-1]
        self.trades.write_text(text_of(chain))
        members.write_text("name,role\n" + "".join(f"D {place},dealer\n" for place in range(100)))
        for mode, told in (("hybrid", ["185", "no", "180"]), ("conservative", ["495", "yes", "0"]), ("free", ["5", "yes", "0"])):
            row = self.assert_done(self.compress("--mode", mode, "--members", members), mode)[0]
            self.assertEqual([row[name] for name in ("after", "least", "lost", "left_out", "demoted")], [*told, "0", "36"], mode)

    def test_what_is_left_out_is_netted_pair_by_pair(self) -> None:
        """300 members sell 5 to a hub; 255 of them get 4 back, and 45 who have less excess 3. These 45 are left out, and 2 is left of
        each pair. No network has less than what the members owe on balance, so that this is least all the same."""
        sold = [Trade("2026-01-01", "P", f"M{place:03}", "Hub", 5) for place in range(300)]
        back = [Trade("2026-01-01", "P", "Hub", f"M{place:03}", 4 if place < 255 else 3) for place in range(300)]
        self.trades.write_text(text_of([*sold, *back]))
        row = self.assert_done(self.compress("--mode", "conservative"), "conservative")[0]
        self.assertEqual([row[name] for name in WHETHER_LEAST], ["301", "1", str(255 * 1 + 45 * 2), "yes", "0", "45"])

    def test_a_large_market(self) -> None:
        """64 products in which each of 32 members owes each other one: files of more than a megabyte, and nothing is told of it."""
        names = [f"M{place}" for place in range(32)]
        pairs = list(itertools.permutations(names, 2))
        trades = [Trade("2026-01-01", f"P{place}", a, b, 10**8 + place) for place in range(64) for a, b in pairs]
        self.trades.write_text(text_of(trades))
        gross = sum(trade.amount for trade in trades)
        ran = self.compress()
        self.assertEqual(ran.output.decode(), f"products 64, markets 1: gross {gross} before, 0 after\n")
        self.assert_done(ran)

    def test_products_share_markets(self) -> None:
        """70 products of the same members are two markets, and three of other members each are three."""
        same = [trade._replace(product=f"P{place}", seller=trade.seller[2:], buyer=trade.buyer[2:]) for place in range(70) for trade in ring("P", 3)]
        self.trades.write_text(text_of(same))
        self.assertIn(b"products 70, markets 2: gross 1050 before, 0 after\n", self.compress().output)
        self.trades.write_text(text_of([trade for place in range(3) for trade in ring(f"P{place}", 60)]))
        self.assertIn(b"products 3, markets 3: gross 900 before, 0 after\n", self.compress().output)


INTRUDER = """
import asyncio
from distributed.core import rpc
from distributed.security import Security

async def ask():
    for address in ("{address}", "{address}".replace("tls:", "tcp:")):
        key = {key}
        try:
            async with rpc(address, connection_args=key and key.get_connection_args("client"), timeout=10) as there:
                print("let in:", await asyncio.wait_for(there.identity(), 10))
                return
        except Exception as fault:
            pass
    print("kept out")

asyncio.run(ask())
"""
"""Who is not of the run, and asks a port of Dask's who is there, over TLS and without."""


def shown(terminal: int, last: bytes) -> bytes:
    """What comes on a terminal up to these bytes."""
    text = b""
    while last not in text:
        if not select.select([terminal], [], [], PATIENCE)[0]:
            raise AssertionError(f"nothing comes behind {text!r}")
        text += os.read(terminal, 4096)
    return text


def group_of(stat: Path) -> int:
    """The group of a process that /proc tells of, or 0 where it has ended meanwhile."""
    try:
        return int(stat.read_text().rpartition(")")[2].split()[2])
    except OSError:
        return 0


def count_of(group: int) -> int:
    """How many processes a group has."""
    return sum(group_of(stat) == group for stat in Path("/proc").glob("[0-9]*/stat"))


class Workers(Many):
    """Each market has 60 members of its own, all of them dealers, so that no two have room in one."""

    def setUp(self) -> None:
        super().setUp()
        self.trades.write_text(text_of([trade for place in range(6) for trade in ring(f"P{place}", 60)]))

    def test_workers_that_are_killed_lose_nothing(self) -> None:
        """The first market that is solved, and one more, kill the worker that solves them."""
        killing = 'for n in 1 2; do if mkdir "$STATE/$n" 2> /dev/null; then kill -9 $PPID; exit 1; fi; done'
        figures = self.assert_done(self.compress(program=self.stand_in(killing)))
        self.assertEqual(len(figures), 6)
        self.assertGreaterEqual(self.solved(), 8)

    def test_a_terminal_shows_how_far_a_run_is(self) -> None:
        """And where Dask's own pages are, which are served meanwhile."""
        slow = self.stand_in(WAITING)
        self.let_solve(1)
        terminal, end = pty.openpty()
        ran = subprocess.Popen(self.tool("--workers", "2", "--program", slow), stdout=subprocess.PIPE, stderr=end)
        os.close(end)
        text = shown(terminal, b"about")
        bar = rb"dashboard: (http://127.0.0.1:\d+/\S+)\r\n\r\x1b\[K\[###                 \] 1 of 6 markets, 0 solved again, about"
        self.assertRegex(text, bar)
        link = re.findall(bar, text)[0].decode()
        with urllib.request.urlopen(link, timeout=PATIENCE) as page:
            self.assertIn(b"Workers", page.read())
        (self.folder / "state/go").touch()
        self.assertTrue(shown(terminal, b"left\r\n").endswith(b"[####################] 6 of 6 markets, 0 solved again, about 0 s left\r\n"))
        self.assertEqual((ran.communicate(timeout=PATIENCE)[0][:21], ran.returncode), (b"products 6, markets 6", 0))
        os.close(terminal)

    def test_nobody_else_gets_to_the_processes_of_a_run(self) -> None:
        """Each port at which they listen for Dask's messages wants the run's own key: neither a client without one nor one with a key of
        its own gets in, and it is the same for all users of the machine."""
        slow = self.stand_in(WAITING)
        self.let_solve(1)
        terminal, end = pty.openpty()
        ran = subprocess.Popen(self.tool("--workers", "2", "--program", slow), stdout=subprocess.PIPE, stderr=end)
        os.close(end)
        link = re.findall(rb"dashboard: (http://127.0.0.1:\d+/\S+)", shown(terminal, b"about"))[0].decode()
        with urllib.request.urlopen(link, timeout=PATIENCE) as page:
            addresses = {*re.findall(r"(?:tcp|tls)://127\.0\.0\.1:\d+", page.read().decode())}
        self.assertGreaterEqual(len(addresses), 2)
        for address in addresses:
            for key in ("None", "Security.temporary()"):
                asked = run([self.python, "-c", INTRUDER.format(address=address, key=key)])
                self.assertEqual((asked.status, asked.output), (0, b"kept out\n"), (address, key, asked.errors))
        (self.folder / "state/go").touch()
        shown(terminal, b"left\r\n")
        self.assertEqual((ran.communicate(timeout=PATIENCE)[0][:21], ran.returncode), (b"products 6, markets 6", 0))
        os.close(terminal)

    def test_answers_that_are_wrong_are_not_taken(self) -> None:
        """One has another potential, one is empty, and one is that of an earlier market."""
        wrong = (
            'if mkdir "$STATE/1" 2> /dev/null; then "$SELF" "$@" | sed "s/^pot M1 .*/pot M1 9/"; exit 0; fi\n'
            'if mkdir "$STATE/2" 2> /dev/null; then exit 0; fi\n'
            'if mkdir "$STATE/3" 2> /dev/null; then exit 9; fi'
        )
        ran = self.compress(program=self.stand_in(wrong))
        self.assert_done(ran)
        self.assertTrue(ran.output.endswith(b"; 3 answers were not taken\n"), ran.output)
        self.assertEqual(self.solved(), 9)

    def test_a_program_that_is_always_wrong(self) -> None:
        ran = self.compress(program=self.stand_in('"$SELF" "$@" | sed "s/^bound .*/bound 7/"; exit 0'))
        self.assertEqual((ran.status, ran.output), (20, b""))
        self.assertRegex(ran.errors, rb"^market \d: no right answer in 5 tries: the second checker says 'no P0 figures', the program says 'no P0 figures'\n$")
        self.assertEqual([sorted(os.listdir(self.out)), os.listdir(self.out / "markets")], [BEGUN, []])

    def test_an_interrupt_and_what_goes_on(self) -> None:
        """What was put away is not solved again, but checked again: one market that was changed since is solved anew."""
        slow = self.stand_in(WAITING)
        state = self.folder / "state"
        kept: list[str] = []
        for number, least, most in ((signal.SIGINT, 1, 2), (signal.SIGTERM, 3, 4)):
            self.let_solve(most - len(kept))
            words = self.tool("--workers", "2", "--program", slow)
            first = subprocess.Popen(words, stdout=subprocess.PIPE, stderr=subprocess.PIPE, start_new_session=True)
            while len(kept := self.kept()) < least:
                self.assertIsNone(first.poll(), "ended early")
                time.sleep(0.02)
            os.killpg(first.pid, number)
            (state / "stop").touch()
            self.assertEqual((first.communicate(timeout=PATIENCE), first.returncode), ((b"", b""), 128 + number))
            (state / "stop").unlink()
            self.assertEqual(sorted(os.listdir(self.out)), BEGUN)
            kept = self.kept()
            self.assertIn(len(kept), range(least, most + 1))
        changed = self.out / "markets" / kept[0] / "proposal.txt"
        changed.write_text(changed.read_text().replace("bound 0", "bound 1"))
        (state / "solved").write_text("")
        (state / "go").touch()
        self.assert_done(self.compress(program=slow))
        self.assertEqual(self.solved(), 6 - len(kept) + 1)

    def test_interrupts_again_and_again(self) -> None:
        """All processes get them, from when the run has begun a second one, or has sent markets to its workers, until it has ended. It is
        as if there had been one."""
        slow = self.stand_in(WAITING)
        solved = self.folder / "state/solved"
        begun: list[Callable[[int], bool]] = [lambda group: count_of(group) > 1, lambda _: solved.exists()]
        for number, is_begun in itertools.product((signal.SIGINT, signal.SIGTERM), begun):
            words = self.tool("--workers", "2", "--program", slow)
            ran = subprocess.Popen(words, stdout=subprocess.PIPE, stderr=subprocess.PIPE, start_new_session=True)
            while not is_begun(ran.pid):
                self.assertIsNone(ran.poll(), "ended early")
                time.sleep(0.02)
            while ran.poll() is None:
                os.killpg(ran.pid, number)
                time.sleep(0.1)
            self.assertEqual((ran.communicate(timeout=PATIENCE), ran.returncode), ((b"", b""), 128 + number))
            self.assertEqual((sorted(os.listdir(self.out)), self.kept()), (BEGUN, []))
            solved.unlink(missing_ok=True)


class Scheduler(Many):
    """A scheduler and two workers, which solve three markets and then wait, and the tool with nothing of its own but the checks."""

    def setUp(self) -> None:
        super().setUp()
        self.trades.write_text(text_of([trade for place in range(8) for trade in ring(f"P{place}", 60)]))
        self.slow = self.stand_in(WAITING)
        self.let_solve(3)
        self.address = f"tcp://127.0.0.1:{free_port()}"
        place = ["--host", "127.0.0.1", "--port", self.address.rpartition(":")[2]]
        self.scheduler = self.start("dask_scheduler", *place, "--no-dashboard", "--no-show")
        options = [self.address, "--nthreads", "1", "--no-nanny", "--no-dashboard", "--local-directory", str(self.folder)]
        self.workers = [self.start("dask_worker", *options) for _ in range(2)]

    def start(self, module: str, *words: str) -> subprocess.Popen[bytes]:
        environ = {**os.environ, "PYTHONPATH": str(TOOLS), "COMPRESS_CLI": str(self.slow)}
        line = [self.python, "-m", f"distributed.cli.{module}", *words]
        started = subprocess.Popen(line, env=environ, cwd=self.folder, stdout=subprocess.DEVNULL, stderr=subprocess.DEVNULL)
        self.addCleanup(started.wait)
        self.addCleanup(started.kill)
        return started

    def ran(self, losing: subprocess.Popen[bytes]) -> Ran:
        """What a run comes to that loses this process once it has put two markets away."""
        environ = {**os.environ, "COMPRESS_CLI": str(self.program)}
        words = self.tool("--scheduler", self.address, "--workers", "2")
        ran = subprocess.Popen(words, env=environ, stdout=subprocess.PIPE, stderr=subprocess.PIPE)
        while not (self.out / "markets").exists() or len(os.listdir(self.out / "markets")) < 2:
            self.assertIsNone(ran.poll(), "ended early")
            time.sleep(0.02)
        losing.kill()
        losing.wait()
        (self.folder / "state/go").touch()
        output, errors = ran.communicate(timeout=PATIENCE)
        return Ran(ran.returncode, output, errors)

    def test_a_worker_that_is_killed(self) -> None:
        self.assertEqual(len(self.assert_done(self.ran(self.workers[0]))), 8)

    def test_a_scheduler_that_is_killed(self) -> None:
        """The run ends, and goes on with workers of this machine."""
        self.assertEqual(self.ran(self.scheduler), Ran(21, b"", b"connection lost to the scheduler\n"))
        self.assertEqual(sorted(os.listdir(self.out)), BEGUN)
        self.assertEqual(len(self.assert_done(self.compress())), 8)


if __name__ == "__main__":
    unittest.main()
