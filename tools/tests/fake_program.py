#!/usr/bin/env python3
"""Stands in for `compress_cli script` in tests of the client: answers the lines of an example session with its replies.

EXAMPLE names the session; a line other than the next one of the session ends it with status 70.
"""

import os
import sys
from pathlib import Path


def main() -> int:
    session = Path(os.environ["EXAMPLE"])
    replies = session.with_suffix(".replies").read_bytes().splitlines(keepends=True)
    heads = [at for at, line in enumerate(replies) if line.startswith((b"ok ", b"no "))] + [len(replies)]
    for place, line in enumerate(session.read_bytes().splitlines(keepends=True)):
        if sys.stdin.buffer.readline() != line:
            sys.stderr.write("not as the session\n")
            return 70
        sys.stdout.buffer.write(b"".join(replies[heads[place] : heads[place + 1]]))
        sys.stdout.buffer.flush()
    return 0


if __name__ == "__main__":
    sys.exit(main())
