"""Moments: seconds from the beginning of 1970 in UTC."""

import datetime

MOST_MOMENT = 253_402_300_799
"""The last second of the year 9999."""


def moment_text(moment: int) -> str:
    """A moment as a date in UTC."""
    date = datetime.datetime(1970, 1, 1) + datetime.timedelta(seconds=moment)
    return f"{date:%Y-%m-%d %H:%M:%S} UTC"
