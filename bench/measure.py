#!/usr/bin/env python3
"""Counts instructions by callgrind: of a whole process, and of it in one function with all that it calls.

    measure.py PROGRAM FUNCTION FOLDER [WORD..]

PROGRAM is run as `PROGRAM [WORD..] ROSTER TRADES MODE` over each market that markets.py wrote into FOLDER, in each mode;
FUNCTION is a part of the name by which callgrind shows the function.  Millions of instructions, a line for each.
"""

import pathlib
import re
import subprocess
import sys
import tempfile

MARKETS = ["gen1", "uniform64", "core64", "lattice64", "groups64", "uniform1", "core1", "lattice1", "slow1"]


def count(program, function, roster, trades, mode, words):
    """Instructions of the process, and of the function."""
    with tempfile.TemporaryDirectory() as place:
        out = pathlib.Path(place) / "callgrind.out"
        run = [program, *words, roster, trades, mode]
        valgrind = ["valgrind", "--tool=callgrind", f"--callgrind-out-file={out}"]
        subprocess.run([*valgrind, *run], check=True, stdout=subprocess.DEVNULL, stderr=subprocess.DEVNULL)
        annotate = ["callgrind_annotate", "--inclusive=yes", "--threshold=100", "--auto=no", str(out)]
        lines = subprocess.run(annotate, check=True, capture_output=True, text=True).stdout.splitlines()
    counts = [(int(found[1].replace(",", "")), found[2]) for line in lines if (found := re.match(r"\s*([\d,]+)\s(.*)", line))]
    whole = next(n for n, name in counts if "PROGRAM TOTALS" in name)
    return whole, max((n for n, name in counts if function in name), default=0)


def main():
    program, function, folder, *words = sys.argv[1:]
    for market in MARKETS:
        for mode in ["hybrid", "conservative", "free"]:
            files = [str(pathlib.Path(folder) / f"{market}-{kind}.csv") for kind in ["roster", "trades"]]
            whole, part = count(program, function, *files, mode, words)
            print(f"{market} {mode} {part / 1e6:.2f} {whole / 1e6:.2f}", flush=True)


main()
