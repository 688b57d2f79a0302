"""What the log gets of what the libraries and the gateway's own faults say: a line of what a peer did wrong, and the traceback of a fault
once, both few in a minute. The gateway's own lines pass as they are."""

import logging
import time
from dataclasses import dataclass
from typing import Any

PERIOD = 60.0
"""The seconds for which lines of a kind are counted."""
MOST_LINES = 10
"""The lines of a kind in that time."""
MOST_KINDS = 256
"""The kinds that are kept apart; of further ones each logger has one."""
OWN = "delkwoan."


@dataclass(slots=True)
class Kind:
    """Since when lines of a kind are counted, how many passed, and how many did not."""

    since: float
    passed: int = 0
    left_out: int = 0


def place_of(record: logging.LogRecord) -> tuple[str, str, int]:
    """The exception that a record is about: its class, and the file and line that raised it."""
    fault, trace = (record.exc_info or (None, None, None))[1:]
    while trace is not None and trace.tb_next is not None:
        trace = trace.tb_next
    return type(fault).__name__, "" if trace is None else trace.tb_frame.f_code.co_filename, 0 if trace is None else trace.tb_lineno


class Sparing(logging.Filter):
    """Lets few lines of a kind pass, and the traceback of an error with the first of them."""

    def __init__(self) -> None:
        super().__init__()
        self.kinds: dict[Any, Kind] = {}

    def filter(self, record: logging.LogRecord) -> bool:
        if record.name.startswith(OWN) and not record.exc_info:
            return True
        place = place_of(record)
        key: Any = (record.name, str(record.msg), place)
        is_new = key not in self.kinds
        if is_new and len(self.kinds) >= MOST_KINDS:
            key, is_new = record.name, False
        kind = self.kinds.setdefault(key, Kind(time.monotonic()))
        before = 0
        if time.monotonic() - kind.since >= PERIOD:
            before, self.kinds[key] = kind.left_out, (kind := Kind(time.monotonic()))
        if kind.passed >= MOST_LINES:
            kind.left_out += 1
            return False
        kind.passed += 1
        text = " ".join(record.getMessage().split())
        text += f" ({place[0]})" if record.exc_info else ""
        record.msg, record.args = text + (f"; {before} more like it before" if before else ""), ()
        if record.exc_info and not (is_new and record.levelno >= logging.ERROR):
            record.exc_info = record.exc_text = None
        return True
