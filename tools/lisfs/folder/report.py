"""What a tool prints: lines, and counts by cause. The line of progress on a terminal is removed before each."""
from __future__ import annotations

import collections
import errno
import os
from collections.abc import Callable
from typing import TextIO

from lisfs.progress import Line
from lisfs.showing import harmless, write_line


class Telling:
    """The lines of a tool, on `stream`. Those about one file are written if `is_verbose`. `not_taken` counts files by cause."""

    def __init__(self, tool: str, stream: TextIO, is_verbose: bool) -> None:
        self.tool, self.stream, self.is_verbose = tool, stream, is_verbose
        self.not_taken: collections.Counter[str] = collections.Counter()
        self.line = Line(tool)

    def tell(self, line: str) -> None:
        self.line.clear()
        write_line(self.stream, f"{self.tool}: {line}")

    def tell_file(self, line: str) -> None:
        if self.is_verbose:
            self.tell(line)

    def leave(self, path: str, why: str) -> None:
        """Counts a file that is not taken."""
        self.not_taken[cause_of(why)] += 1
        self.tell_file(f"not taken: {harmless(path)}: {why}")

    def causes(self) -> str:
        return ", ".join(f"{count} {cause}" for cause, count in sorted(self.not_taken.items()))


def cause_of(why: str) -> str:
    """A cause without the part about one file."""
    if "; a file has" in why:
        return "too large"
    if why == os.strerror(errno.ENOENT):
        return "gone while the folder was read"
    return "the name is taken" if why.startswith("the name ") else why


def left_out(tell: Callable[[str], None], words: int, files: int, why: str) -> None:
    """Says how many words of how many files were left out, if any."""
    if words:
        tell(f"{counted(words, 'word')} of {counted(files, 'file')} left out: {why}")


def counted(count: int, word: str) -> str:
    return f"{count} {word}" if count == 1 else f"{count} {word}s"
