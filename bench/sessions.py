"""Sessions as bytes: where their commands end, how each is replied to, and how a program is fed with them.

A session is three files of a folder: NAME.in is the input, NAME.args one line with the arguments of `make` after the image (FILES PROPS BLOCKS, and
v2 for version 2), and NAME.out the bytes that it shows from an empty image.
"""
import bisect
import itertools
import os
import re
import select
import signal
import subprocess
import tempfile
import typing

import runs
from runs import content

LINE = 1_024
COUNT = re.compile(rb"[0-9]{1,12}")
WORD = re.compile(rb"[^ \t]+")


class Session(typing.NamedTuple):
    name: str
    limits: list
    data: bytes
    shows: bytes


def in_folder(folder):
    """The sessions of a folder, in the order of their names."""
    names = sorted(name[:-3] for name in os.listdir(folder) if name.endswith(".in"))
    paths = [(name, os.path.join(folder, name)) for name in names]
    return [Session(f"{os.path.basename(os.path.abspath(folder))}/{name}", content(f"{path}.args").decode().split(), content(f"{path}.in"), content(f"{path}.out"))
            for name, path in paths]


def ends_of(data, longest=LINE):
    """Where each command of an input ends, after its last line feed, if a line has at most this many bytes. A command that only the end of the input
    ends is not counted."""
    ends, at = [], 0
    while (feed := data.find(b"\n", at)) >= 0:
        line, at = data[at:feed], feed + 1
        is_long = len(line) > longest
        parts = [] if is_long else WORD.findall(line[:-1] if line.endswith(b"\r") else line)
        if len(parts) > 2 and parts[0] in (b"add", b"write") and COUNT.fullmatch(parts[2]):
            # The bytes after a payload up to a line feed belong to it.
            feed = data.find(b"\n", at + int(parts[2]))
            if feed < 0:
                break
            at = feed + 1
        if is_long or parts:
            ends.append(at)
    return ends


def replies_of(shown):
    """The complete replies at the start of what was shown."""
    replies, at, start = [], 0, 0
    while (feed := shown.find(b"\n", at)) >= 0:
        line, at = shown[at:feed], feed + 1
        if line.startswith(b"b "):
            at += int(line[2:]) + 1
        elif line == b"ok" or line.startswith(b"no "):
            replies.append(bytes(shown[start:at]))
            start = at
    return replies


class Feed:
    """A program that is fed piece by piece, through a pipe or at a terminal."""

    def __init__(self, program, line, terminal=False):
        theirs, self._ours = reversed(os.openpty()) if terminal else os.pipe()
        self._terminal, self._said = terminal, tempfile.TemporaryFile()
        self._child = subprocess.Popen([program, *line], stdin=theirs, stdout=subprocess.PIPE, stderr=self._said, start_new_session=True)
        os.close(theirs)
        os.set_blocking(self._ours, False)
        self.out, self._ended = bytearray(), None

    def give(self, data, is_enough):
        """Sends all of it, and waits until what was shown is enough, or until the program has ended."""
        left, waited = memoryview(data), None
        while self._ended is None and (left or not is_enough(self.out)):
            reads, writes, _ = select.select([self._child.stdout], [self._ours] if left else [], [], runs.LOOK)
            if writes:
                try:
                    left = left[os.write(self._ours, left[:65_536]):]
                except BlockingIOError:
                    pass
                except BrokenPipeError:
                    left = left[:0]
            if reads:
                self._take()
            if not reads and not writes:
                earlier, waited = waited, runs.waits(self._child.pid)
                if waited is not None and waited == earlier:
                    os.killpg(self._child.pid, signal.SIGKILL)
                    self._ended = "it waits, and has not shown enough"

    def _take(self):
        piece = os.read(self._child.stdout.fileno(), 1 << 20)
        self.out += piece
        if not piece:
            self._ended = ""

    def end(self):
        """Ends the input, and returns how the program ended."""
        if self._terminal:
            self.give(b"\4", lambda _: True)
        else:
            os.close(self._ours)
        self.give(b"", lambda _: False)
        code = self._child.wait()
        self._child.stdout.close()
        if self._terminal:
            os.close(self._ours)
        self._said.seek(0)
        with self._said:
            return runs.Ran(self._ended or code, bytes(self.out), self._said.read().decode(errors="replace"))


def fed(program, line, pieces, dues):
    """Feeds a program with pieces, each only when as many bytes were shown as are due after the one before."""
    feed = Feed(program, line)
    for piece, due in zip(pieces, dues):
        feed.give(piece, lambda out, due=due: len(out) >= due)
    return feed.end()


def cut(data, places):
    """The input in pieces, cut at these offsets."""
    return [data[start:end] for start, end in itertools.pairwise([0, *places, len(data)]) if start < end]


def whole_in(ends, pieces):
    """How many commands are complete in the input up to the end of each piece."""
    return [bisect.bisect_right(ends, place) for place in itertools.accumulate(map(len, pieces))]
