"""How tools end: with one line for an error, and silently if nobody reads what a tool shows."""
import contextlib
import functools
import os
import signal
import sys
from collections.abc import Callable
from typing import NoReturn

from lisfs.client import Ended, Locked
from lisfs.showing import harmless, write_line


class Stopped(BaseException):
    """A signal came that ends this tool."""


class NotJoined(Ended):
    """There is a server, and this is no client of it, for a cause that one line states."""

    def __init__(self, cause: str) -> None:
        super().__init__(1, cause + "\n")
        self.cause = cause

    def __str__(self) -> str:
        return self.cause


def cause_of(error: BaseException, image: str) -> str:
    """The line that says which error has ended a tool."""
    if isinstance(error, Locked):
        return f"{image}: in use by another lisfs"
    if isinstance(error, NotJoined):
        return error.cause
    if isinstance(error, Ended):
        return ": ".join(error.text.splitlines()) or str(error)
    if isinstance(error, OSError):
        return f"{error.filename or image}: {error.strerror}"
    return "stopped before it began" if isinstance(error, KeyboardInterrupt) else str(error)


def quiet(main: Callable[[], int]) -> Callable[[], int]:
    """Runs a tool so that it ends as others do when nobody reads its output any more (`tool | head -1`): by SIGPIPE, silently. A `BrokenPipeError`
    that `main` raises is about standard output or standard error: other pipes have their own errors."""
    @functools.wraps(main)
    def run() -> int:
        try:
            try:
                return main()
            finally:
                # Not at interpreter exit, when Python would complain.
                if sys.stdout:
                    sys.stdout.flush()
        except BrokenPipeError:
            end_by_pipe()

    return run


def stop_at_signals() -> None:
    """From now on a signal that would end this tool raises `Stopped`, so that it can say what was done."""
    for number in (signal.SIGTERM, signal.SIGHUP):
        # A signal that is ignored, as by `nohup`, stays ignored.
        if signal.getsignal(number) == signal.SIG_DFL:
            signal.signal(number, stop)


def stop(*_: object) -> NoReturn:
    raise Stopped


def end_by_pipe() -> NoReturn:
    signal.signal(signal.SIGPIPE, signal.SIG_DFL)
    signal.pthread_sigmask(signal.SIG_UNBLOCK, [signal.SIGPIPE])
    os.kill(os.getpid(), signal.SIGPIPE)
    os._exit(128 + signal.SIGPIPE)


def say(line: str, kept: str = "") -> None:
    """Prints a line on the standard error of a tool that goes on, even if nobody reads it."""
    with contextlib.suppress(BrokenPipeError):
        write_line(sys.stderr, line, kept)
        sys.stderr.flush()


def say_fault() -> None:
    """Reports an internal error of a tool that goes on, in an `except` block: what it is, and where it was raised."""
    # It is slow to load, and internal errors are rare.
    import traceback
    say(traceback.format_exc().rstrip("\n"), "\n")


def folder_fault(folder: str) -> str | None:
    """What is wrong with a folder that a tool must read, or None."""
    shown = harmless(folder)
    try:
        with os.scandir(folder):
            return None
    except NotADirectoryError:
        return f"{shown}: not a folder"
    except OSError as error:
        return f"{shown}: {error.strerror}"
