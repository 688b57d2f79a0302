"""Keys: rosters that get new ones, those that are for everybody, and which keys can be guessed."""

import re
import stat
import tempfile
import unittest
from pathlib import Path

from running import EXAMPLES, TOOLS, Ran, run
from serving import InService

from delkwoan.keys import rows_of, weak_keys
from delkwoan.replies import Refused

ROSTER = EXAMPLES / "roster.csv"
NEW_KEY = re.compile("[A-Z0-9]{16}")


def keys_in(roster: bytes) -> dict[str, str]:
    return {name: key for name, role, key in rows_of(roster) if role != "product"}


def names_in(roster: bytes) -> list[list[str]]:
    """All of a roster but the keys."""
    return [row if row[1] == "product" else row[:2] for row in rows_of(roster)]


class Keys(unittest.TestCase):
    def setUp(self) -> None:
        folder = tempfile.TemporaryDirectory()
        self.addCleanup(folder.cleanup)
        self.new = Path(folder.name) / "new.csv"

    def write(self, *names: str, roster: Path = ROSTER) -> Ran:
        return run([TOOLS / "keys", roster, self.new, *names])

    def test_everybody_gets_a_new_key(self) -> None:
        self.assertEqual(self.write(), Ran(0, b"new keys: 4 of 4\n", b""))
        old, new = ROSTER.read_bytes(), self.new.read_bytes()
        keys = keys_in(new)
        self.assertEqual(names_in(new), names_in(old))
        self.assertTrue(all(NEW_KEY.fullmatch(key) for key in keys.values()))
        self.assertEqual(len({*keys.values()}), 4)
        self.assertEqual(stat.S_IMODE(self.new.stat().st_mode), 0o600)
        self.assertEqual((weak_keys(old), weak_keys(new)), (["A", "B", "C", "OPS"], []))

    def test_those_who_are_named_get_one(self) -> None:
        self.assertEqual(self.write("B", "OPS"), Ran(0, b"new keys: 2 of 4\n", b""))
        old, new = keys_in(ROSTER.read_bytes()), keys_in(self.new.read_bytes())
        self.assertEqual([name for name in old if old[name] != new[name]], ["B", "OPS"])

    def test_what_is_refused(self) -> None:
        bad, there = self.new.with_name("bad.csv"), self.new.with_name("there.csv")
        bad.write_text("name,role,key\nA,dealer,KA\nA,dealer,KB\n")
        there.write_text("mine")
        cases: list[tuple[list[str | Path], Ran]] = [
            ([ROSTER, self.new, "D"], Ran(3, b"", b"roster: no member or operator D\n")),
            ([ROSTER, self.new, "P"], Ran(3, b"", b"roster: no member or operator P\n")),
            ([bad, self.new], Ran(3, b"", b"roster row 3: twice\n")),
            ([self.new, self.new], Ran(11, b"", b"file fault\n")),
            ([ROSTER, there], Ran(11, b"", f"{there} is there already\n".encode())),
            ([ROSTER, self.new / "none"], Ran(11, b"", b"file fault\n")),
            ([ROSTER], Ran(2, b"", b"bad words\n")),
        ]
        for words, told in cases:
            with self.subTest(words=words):
                self.assertEqual(run([TOOLS / "keys", *words]), told)
                self.assertEqual((self.new.exists(), there.read_text()), (False, "mine"))

    def test_keys_that_several_have_can_be_guessed(self) -> None:
        long = "ABCDEFGHIJKLMNOP"
        roster = f"name,role,key\nA,dealer,{long}\nB,dealer,{long}\nC,dealer,{long[1:]}Q\nD,dealer,{long[1:]}\n"
        self.assertEqual(weak_keys(roster.encode()), ["A", "B", "D"])


class PublicRoster(InService):
    def test_nobody_gets_in_if_it_is_served(self) -> None:
        """Neither by a key of the roster that it was made from, nor by that of another one, nor by the sign that stood for a key."""
        first, second = (run([TOOLS / "public_roster", ROSTER]) for _ in range(2))
        self.assertEqual(names_in(first.output), names_in(ROSTER.read_bytes()))
        public = self.folder / "public.csv"
        public.write_bytes(first.output)
        self.served = public
        self.start()
        session = self.session()
        for name, key in [("OPS", "KO"), ("A", "KA"), ("OPS", "-"), ("A", "-"), *keys_in(second.output).items()]:
            with self.subTest(name=name, key=key), self.assertRaisesRegex(Refused, "bad-key"):
                session.hello(name, key)

    def words(self, journal: Path | None = None) -> list[str | Path]:
        program, form, _, *rest = super().words(journal)
        return [program, form, self.served, *rest]


if __name__ == "__main__":
    unittest.main()
