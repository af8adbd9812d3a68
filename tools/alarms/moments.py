"""Moments of a plant's clock: seconds, which most plants count from 1970."""
import argparse
import datetime
from typing import Optional

# Moments from here on are taken for seconds since 1970, up to where a calendar ends.
DATES = range(10**9, 253_370_764_800)
# No moment of a plant's clock is above this.
LAST = 2**40 - 1


def moment_of(text: str) -> int:
    """A moment in an argument: a date with or without a time, in the machine's zone, or a number of seconds."""
    try:
        moment = int(text) if text.isdecimal() else int(datetime.datetime.fromisoformat(text).timestamp())
    except (ValueError, OverflowError):
        moment = -1
    if moment not in range(LAST + 1):
        raise argparse.ArgumentTypeError(
            f"{text} is no moment: give a date as 2026-01-31 or 2026-01-31T06:00, or seconds"
        )
    return moment


def date(moment: Optional[int]) -> str:
    """A moment as date and time, where the plant counts from 1970."""
    if moment is None:
        return "-"
    return datetime.datetime.fromtimestamp(moment).strftime("%Y-%m-%d %H:%M:%S") if moment in DATES else str(moment)
