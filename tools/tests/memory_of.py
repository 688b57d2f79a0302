"""memory_of.py FILE WORD..

Runs a program, and writes into the file the most memory that it had, in kilobytes. It ends with the program's status, or with 1 behind
ten minutes, when the program is killed. The system counts for a process also what the one had that began it, so the tests, which may
have more than what they measure, begin it by this small one.
"""

import subprocess
import sys
from pathlib import Path
from resource import RUSAGE_CHILDREN, getrusage

MOST_SECONDS = 600


def main(file: str, *words: str) -> int:
    status = subprocess.run(words, timeout=MOST_SECONDS).returncode
    Path(file).write_text(str(getrusage(RUSAGE_CHILDREN).ru_maxrss))
    return status


if __name__ == "__main__":
    sys.exit(main(*sys.argv[1:]))
