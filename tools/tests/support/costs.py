"""How much processor time a call takes at most, on any machine. Only for tests.

A bound is in seconds of one machine. A yardstick is measured along with each call. If it shows that this machine is slower, the bound is longer by
the same factor: so no result depends on how fast a machine is, or on its other work.
"""
import os
import re
import time
from collections.abc import Callable
from typing import NamedTuple, TypeVar

from support.waiting import fields_of

T = TypeVar("T")
# How many seconds of processor time the yardstick takes on that machine.
YARD = 0.0100
WORD = re.compile(r"[a-z]+([0-9]*)")


def yardstick() -> int:
    """Some work on texts and tables."""
    found: dict[str, str] = {}
    for number in range(1_000):
        text = f"From: p{number} <word{number}@example.org>".lower()
        for word in text.split():
            found[word.strip("<>:")] = WORD.sub(r"\1", word) + word[::-1]
    return len(found)


def taken_by(*processes: int) -> float:
    """How many seconds of processor time these processes have taken so far."""
    return sum(int(ticks) for process in processes for ticks in fields_of(process)[11:13]) / os.sysconf("SC_CLK_TCK")


def spent_by(call: Callable[[], T], clock: Callable[[], float] = time.process_time) -> tuple[T, float]:
    """The result of a call, and how many seconds of processor time it took."""
    begun = clock()
    given = call()
    return given, clock() - begun


class Try(NamedTuple):
    """The seconds that a call took, and how much slower this machine is."""

    seconds: float
    slower: float


def bounded(call: Callable[[], T], most: float, clock: Callable[[], float] = time.process_time, tries: int = 3) -> tuple[T, bool, list[Try]]:
    """The result of a call, whether it took at most this many seconds, and each try. Other work may slow one try, but not all of them."""
    told: list[Try] = []
    for _ in range(tries):
        before = spent_by(yardstick)[1]
        given, spent = spent_by(call, clock)
        slower = max(1.0, before / YARD, spent_by(yardstick)[1] / YARD)
        told.append(Try(spent, slower))
        if spent <= most * slower:
            return given, True, told
    return given, False, told
