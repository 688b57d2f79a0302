"""Words that are out of form, given to the program: each form with a word too few or too many, each option with each bad value."""

import itertools
import unittest
from typing import Iterator

from running import Ran, program, run

OUT_OF_FORM = Ran(2, b"", b"bad words\n")

FORMS: dict[str, list[str]] = {
    "script": ["T", "j"],
    "serve": ["T", "j", "a"],
    "check": ["T", "t", "hybrid", "p"],
    "solve": ["T", "t", "hybrid"],
    "gen": ["1"],
    "replay": ["T", "j"],
    "roll": ["T", "j", "N"],
    "follow": ["T", "j", "OPS", "KO"],
}
OPTIONS: dict[str, dict[str, int]] = {
    "script": {"workers": 64},
    "serve": {"workers": 64, "seats": 64, "connections": 1_000_000, "idle": 86_400},
    "check": {},
    "solve": {"workers": 64},
    "gen": {"workers": 64},
    "replay": {},
    "roll": {},
    "follow": {},
}
"""The options of each form, and the most that each may be."""


def bad_options(name: str, most: int) -> Iterator[list[str]]:
    """The option without a value, with each value that it may not have, and twice."""
    yield [f"--{name}"]
    for value in ["", "0", str(most + 1), "01", "-1", "+1", "-", "--", "1x", " 1", "18446744073709551617"]:
        yield [f"--{name}", value]
        yield [f"--{name}={value}"]
    for one, other in itertools.product([[f"--{name}", "1"], [f"--{name}=1"]], repeat=2):
        yield [*one, *other]


class Words(unittest.TestCase):
    def setUp(self) -> None:
        self.program = program()

    def assert_out_of_form(self, *words: str | bytes) -> None:
        with self.subTest(words=words):
            self.assertEqual(run([self.program, *words]), OUT_OF_FORM)

    def test_a_word_too_few_or_too_many(self) -> None:
        self.assert_out_of_form()
        for form, words in FORMS.items():
            self.assert_out_of_form(form, *words[:-1])
            self.assert_out_of_form(form, *words, "more")
            self.assert_out_of_form(f"{form}s", *words)

    def test_values_of_options(self) -> None:
        for form, words in FORMS.items():
            for name, most in OPTIONS[form].items():
                for bad in bad_options(name, most):
                    self.assert_out_of_form(form, *words, *bad)

    def test_options_that_a_form_has_not(self) -> None:
        for form, words in FORMS.items():
            for name in {"workers", "seats", "connections", "idle", "worker", ""} - OPTIONS[form].keys():
                self.assert_out_of_form(form, *words, f"--{name}", "1")
                self.assert_out_of_form(form, f"--{name}=1", *words)
            if form != "roll":
                self.assert_out_of_form(form, *words, "--matured", "2027-03-01")
                self.assert_out_of_form(form, *words, "--cancel")
            if form != "follow":
                self.assert_out_of_form(form, *words, "--compare")

    def test_options_of_a_roll(self) -> None:
        words = ["roll", *FORMS["roll"]]
        self.assert_out_of_form(*words, "--matured")
        for day in ["", "1", "2027-02-29", "2027-3-1", "20270301", "2027-13-01", "10000-01-01", " 2027-03-01", "--"]:
            self.assert_out_of_form(*words, "--matured", day)
            self.assert_out_of_form(*words, f"--matured={day}")
        self.assert_out_of_form(*words, "--matured", "2027-03-01", "--matured=2027-03-01")
        for options in (["--cancel", "--cancel"], ["--cancel=yes"], ["--cancel="], ["--cancel", "yes"], ["--cancel", "--compare"]):
            self.assert_out_of_form(*words, *options)

    def test_names_of_a_standby(self) -> None:
        for bad in ["", "ops", "A" * 17, "A B", "Ä", "A_B"]:
            self.assert_out_of_form("follow", "T", "j", bad, "KO")
            self.assert_out_of_form("follow", "T", "j", "OPS", bad)
        for options in (["--compare", "--compare"], ["--compare=yes"], ["--compare="], ["--compare", "yes"]):
            self.assert_out_of_form("follow", *FORMS["follow"], *options)

    def test_a_word_that_is_no_text(self) -> None:
        for form, words in FORMS.items():
            line: list[str | bytes] = [form, *words]
            for place in range(len(line)):
                self.assert_out_of_form(*line[:place], b"\xff", *line[place + 1 :])


if __name__ == "__main__":
    unittest.main()
