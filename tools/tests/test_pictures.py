"""The picture of the README is what its script draws over the program of today."""

import os
import subprocess
import sys
import unittest

from running import PATIENCE, ROOT, program


class Pictures(unittest.TestCase):
    def test_the_network_is_drawn_as_it_stands(self) -> None:
        environ = {**os.environ, "COMPRESS_CLI": str(program())}
        done = subprocess.run([sys.executable, ROOT / "docs/network.py"], capture_output=True, env=environ, timeout=PATIENCE)
        self.assertEqual((done.returncode, done.stderr), (0, b""))
        self.assertEqual(done.stdout.decode(), (ROOT / "docs/pictures/network.svg").read_text())

    def test_the_words_of_the_readme_have_the_pictures_figures(self) -> None:
        drawn, readme = ((ROOT / name).read_text() for name in ("docs/pictures/network.svg", "README.md"))
        for place, words in (("Before", "353 pairs, gross 208.5 million"), ("After", "99 pairs, gross 48.4 million")):
            with self.subTest(place=place):
                self.assertIn(f"{place}: {words}", readme)
                pairs, gross = words.split(", ")
                self.assertRegex(drawn, rf">{pairs}, \d+ trades, {gross}<")


if __name__ == "__main__":
    unittest.main()
