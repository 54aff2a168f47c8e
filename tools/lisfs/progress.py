"""How far long work is: one line of a terminal, which is rewritten in place.

    line = Line("enlarge")
    with Progress(line, "copying", files=4_096, size=80_000_000) as work:
        for file in files:
            copy(file)
            work.add(1, file.size)

shows `enlarge: copying: 1,024 of 4,096 files, 20.0 MB of 80.0 MB, 2.5 MB/s, 0:24 left`. The line goes to standard error, at most ten times a second, and
only if that is a terminal: otherwise no byte of it is written. It is cut to the terminal's width. The end of the block removes it, also after an
error or a signal that raises one. A message during the work comes after `line.clear()`.
"""
from __future__ import annotations

import collections
import os
import sys
import threading
import time
from collections.abc import Callable
from typing import TextIO, TypeAlias

from lisfs.showing import cut_to

# How often the line is written, in seconds.
PAUSE = 0.1
# From how many seconds rate and time left are taken: the last ones, and at least this many.
LAST, LEAST = 10.0, 1.0
# Removes a line from a terminal. What follows the text of a shorter line is removed by its second part.
BEGIN, REST = "\r", "\033[K"
CLEAR = BEGIN + REST
# The width of a terminal that does not say one.
COLUMNS = 80
# How many bytes take as long as what is done once for each file, about.
PER_FILE = 4_096
UNITS = ("bytes", "kB", "MB", "GB", "TB")

# The time in seconds since some moment.
Clock: TypeAlias = Callable[[], float]
# Called with how many files, and how many bytes of them, were done.
Look: TypeAlias = Callable[[int, int], None]
# The time, and how many files and bytes were done then. It is a plain tuple, since a record would be made ten times a second.
Mark: TypeAlias = tuple[float, int, int]


def no_look(_files: int, _size: int) -> None:
    pass


class Line:
    """The line of a tool on a terminal. It is first written `after` this many seconds."""

    def __init__(self, tool: str, after: float = 0.0, stream: TextIO | None = None, clock: Clock = time.monotonic) -> None:
        self._tool, self._stream, self.clock = tool, stream or sys.stderr, clock
        # A tool whose standard error is closed has no stream. A terminal without escape sequences would show them.
        self.is_terminal = bool(self._stream) and self._stream.isatty() and os.environ.get("TERM") != "dumb"
        # An image opens in one thread, while another one waits to say so.
        self._next, self._is_written, self._lock = clock() + after, False, threading.Lock()

    def is_due(self) -> bool:
        """Whether the line must be written now."""
        return self.is_terminal and self.clock() >= self._next

    def write(self, text: str) -> None:
        """Writes the line, whether it is due or not, unless there is no terminal."""
        with self._lock:
            if self.is_terminal:
                self._next, self._is_written = self.clock() + PAUSE, True
                self._put(BEGIN + cut_to(f"{self._tool}: {text}", self._columns() - 1) + REST)

    def clear(self) -> None:
        """Removes the line until it is written again."""
        with self._lock:
            if self._is_written:
                self._is_written = False
                self._put(CLEAR)

    def end(self) -> None:
        """Removes the line for good."""
        self.is_terminal = False
        self.clear()

    def _columns(self) -> int:
        try:
            return os.get_terminal_size(self._stream.fileno()).columns or COLUMNS
        except (OSError, ValueError):
            return COLUMNS

    def _put(self, text: str) -> None:
        try:
            encoding = self._stream.encoding or "utf-8"
            self._stream.write(text.encode(encoding, "backslashreplace").decode(encoding))
            self._stream.flush()
        except (OSError, ValueError):
            # The terminal is gone.
            self.is_terminal = False


class Progress:
    """What is done of some work, and how much there is in all, if that is known."""

    def __init__(self, line: Line, what: str, files: int | None = None, size: int | None = None) -> None:
        self._line, self._what, self._of_files, self._of_size = line, what, files, size
        self._files = self._size = 0
        self._marks: collections.deque[Mark] = collections.deque([(line.clock(), 0, 0)])

    def __enter__(self) -> Progress:
        return self

    def __exit__(self, *_: object) -> None:
        self._line.clear()

    def add(self, files: int, size: int = 0) -> None:
        """Counts what was done since the last call."""
        self._files += files
        self._size += size
        if self._line.is_due():
            self.show()

    def show(self) -> None:
        """Writes the line now."""
        self._line.write(self.text())

    def text(self) -> str:
        """What the line says."""
        if not self._files and self._of_files is None:
            return f"{self._what} ..."
        whole = self._files if self._of_files is None else self._of_files
        parts = [("" if self._of_files is None else f"{self._files:,} of ") + f"{whole:,} {'file' if whole == 1 else 'files'}"]
        if self._size or self._of_size:
            parts.append(sized(self._size) + (f" of {sized(self._of_size)}" if self._of_size else ""))
        return f"{self._what}: {', '.join(parts + self._speed())}"

    def _speed(self) -> list[str]:
        """The rate of the last seconds, and the time left by it."""
        now, marks = self._line.clock(), self._marks
        marks.append((now, self._files, self._size))
        while len(marks) > 2 and marks[1][0] <= now - LAST:
            marks.popleft()
        begun, files, size = marks[0]
        if (seconds := now - begun) < LEAST:
            return []
        found = [f"{sized(round((self._size - size) / seconds))}/s"] if self._size > size else []
        done = self._weight(self._files - files, self._size - size)
        if self._of_files is not None and done > 0:
            left = self._weight(max(0, self._of_files - self._files), max(0, (self._of_size or 0) - self._size))
            found.append(f"{clocked(left * seconds / done)} left")
        return found

    def _weight(self, files: int, size: int) -> int:
        """How much work some files are, in bytes. If it is not known how many bytes there are in all, files count alone."""
        return files * PER_FILE + (size if self._of_size else 0)


def sized(size: int) -> str:
    """A number of bytes as a person reads it."""
    if size < 1_000:
        return f"{size} bytes"
    amount, unit = float(size), 0
    while amount >= 999.95 and unit < len(UNITS) - 1:
        amount, unit = amount / 1_000, unit + 1
    return f"{amount:.1f} {UNITS[unit]}"


def clocked(seconds: float) -> str:
    """A time as minutes and seconds, with hours if there are some."""
    minutes, rest = divmod(round(seconds), 60)
    hours, minutes = divmod(minutes, 60)
    return f"{hours}:{minutes:02}:{rest:02}" if hours else f"{minutes}:{rest:02}"
