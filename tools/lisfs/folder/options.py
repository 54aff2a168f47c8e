"""Numbers and dates on the command line of `tools/sync` and `tools/import`."""
from __future__ import annotations

import argparse
import datetime
import re
import time
from fractions import Fraction


def day(text: str) -> float:
    """The beginning of a day, a month or a year in the time zone of this machine, in seconds since 1970."""
    parts = re.fullmatch(r"([0-9]{4})(?:-([0-9]{2})(?:-([0-9]{2}))?)?", text)
    try:
        if not parts:
            raise ValueError
        begin = datetime.datetime(int(parts[1]), int(parts[2] or 1), int(parts[3] or 1)).timestamp()
    except (ValueError, OverflowError, OSError):
        raise argparse.ArgumentTypeError(f"{text!r} is no date such as 2024-06-03, 2024-06 or 2024") from None
    if begin > time.time():
        raise argparse.ArgumentTypeError(f"{text} is in the future")
    return begin


def at_least_one(text: str) -> int:
    if not re.fullmatch(r"0*[1-9][0-9]{0,8}", text):
        raise argparse.ArgumentTypeError(f"{text!r} is no number from 1 on")
    return int(text)


def part_or_number(text: str) -> Fraction:
    """A number from 0 on, or a fraction less than 1."""
    number = Fraction(text) if re.fullmatch(r"[0-9]{1,9}|0?\.[0-9]{1,9}|[0-9]{1,9}/0*[1-9][0-9]{0,8}", text) else None
    if number is None or "/" in text and number >= 1:
        raise argparse.ArgumentTypeError(f"{text!r} is neither a number nor a part such as 1/10 or 0.1")
    return number
