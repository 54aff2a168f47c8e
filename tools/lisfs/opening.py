"""Opens an image for a tool: as a client of its server, if it is served, or alone. On a terminal a line says that an image opens, if that takes
more than a second.
"""
from __future__ import annotations

import contextlib
import functools
import os
import sys
import threading
from collections.abc import Iterator
from typing import TYPE_CHECKING

from lisfs import dumps
from lisfs.client import PROGRAM, Program, socket_of
from lisfs.dumps import Dump
from lisfs.progress import Line, Progress
from lisfs.showing import harmless, write_line

if TYPE_CHECKING:
    from lisfs.served import Session

# After how many seconds the line is shown.
LONG = 1.0


@contextlib.contextmanager
def waiting(tool: str, image: str) -> Iterator[Progress]:
    """While the block runs, a line on a terminal says after a second that the image opens, and how much of it was read."""
    line = Line(tool, after=LONG)
    work = Progress(line, f"opening {harmless(image)}")
    if not line.is_terminal:
        yield work
        return
    # While a journal is replayed, nothing is read.
    timer = threading.Timer(LONG, work.show)
    timer.daemon = True
    timer.start()
    try:
        yield work
    finally:
        timer.cancel()
        line.end()


@functools.cache
def say_served(tool: str, image: str) -> None:
    """Says once that a tool is a client."""
    write_line(sys.stderr, f"{tool}: {image} is served: a client of {socket_of(image)}")
    sys.stderr.flush()


def joined_quietly(image: str) -> Session | None:
    """A client of the server of an image, or None if there is none. Raises `NotJoined`."""
    if not os.path.exists(socket_of(image)):
        return None
    # Most images are not served, and then no sockets are needed.
    from lisfs import served
    return served.joined(image)


def joined(tool: str, image: str) -> Session | None:
    """The same, and a line says so."""
    if session := joined_quietly(image):
        say_served(tool, image)
    return session


def opened(tool: str, image: str, word: str = "run", with_digests: bool = False) -> tuple[Program, Dump]:
    """A session over an image, by this word of the program if nobody serves it, and what the image holds."""
    with waiting(tool, image) as work:
        session = joined(tool, image)
        return session or dumps.opened(image, word=word, with_digests=with_digests, look=work.add)


@contextlib.contextmanager
def looked(tool: str, image: str) -> Iterator[Dump]:
    """What an image holds, with digests, for the block."""
    with waiting(tool, image) as work:
        session = joined(tool, image)
        dump = session.dump if session else dumps.dumped(image, with_digests=True, look=work.add)
    with contextlib.ExitStack() as stack:
        if session:
            stack.enter_context(session.program)
        yield dump


def tried(tool: str, image: str) -> None:
    """Opens an image and closes it again, so that an error is reported before anything takes long."""
    with waiting(tool, image):
        session = joined_quietly(image)
        (session.program if session else Program([PROGRAM, "run", image])).close()
