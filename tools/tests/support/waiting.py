"""How tests wait: until a condition holds, and never for a fixed time. Only for tests.

So no result depends on how fast a machine is, or on its other work. LONG measures nothing: what has not come by then is assumed never to come, and
the test that waits for it fails instead of hanging.
"""
import contextlib
import fcntl
import os
import select
import signal
import socket
import sys
import termios
import time
from collections.abc import Callable, Iterator
from typing import NamedTuple, TypeVar

T = TypeVar("T")
LONG = 900
# How long a group of checks may take, in seconds.
LONGEST = 4 * LONG


class TooLong(BaseException):
    """A group of checks did not end. It is no `Exception`, since a test may catch system errors as results."""


def until(is_so: Callable[[], T]) -> T:
    """The value of a condition as soon as it is true, or else its last value."""
    limit = time.monotonic() + LONG
    while not (found := is_so()) and time.monotonic() < limit:
        time.sleep(0.005)
    return found


@contextlib.contextmanager
def with_an_end() -> Iterator[None]:
    """Raises `TooLong` if the block does not end."""
    def too_long(*_: object) -> None:
        raise TooLong

    before = signal.signal(signal.SIGALRM, too_long)
    signal.alarm(LONGEST)
    try:
        yield
    finally:
        signal.alarm(0)
        signal.signal(signal.SIGALRM, before)


def hear(*numbers: signal.Signals) -> None:
    """From now on started processes receive these signals, even if this one was started with them ignored, as by `nohup` or a shell's `&`."""
    for number in numbers:
        if signal.getsignal(number) == signal.SIG_IGN:
            signal.signal(number, signal.SIG_DFL)
    signal.pthread_sigmask(signal.SIG_UNBLOCK, numbers)


# Processes.

class State(NamedTuple):
    """The letter of a process's state, and the number of its parent."""

    letter: str
    parent: int


def fields_of(process: int) -> list[str]:
    """The fields of proc_pid_stat(5) for a process from the third one on, its state."""
    with open(f"/proc/{process}/stat", encoding="ascii", errors="replace") as told:
        return told.read().rpartition(")")[2].split()


def state_of(process: int) -> State | None:
    """The state of a process, or None if there is no such process."""
    try:
        letter, parent = fields_of(process)[:2]
    except OSError:
        return None
    return State(letter, int(parent))


def threads_of(process: int) -> int:
    """How many threads it has."""
    return int(fields_of(process)[17])


def children(process: int) -> list[int]:
    """The processes that this one has started."""
    states = {number: state_of(number) for number in map(int, filter(str.isdigit, os.listdir("/proc")))}
    return sorted(number for number, state in states.items() if state and state.parent == process)


def is_running(process: int) -> bool:
    state = state_of(process)
    return state is not None and state.letter not in "ZX"


def waits_of(process: int) -> int | None:
    """How often a process has waited so far, if it waits now, neither for a processor nor for a disk, and has handled all signals; else None."""
    try:
        with open(f"/proc/{process}/status", encoding="ascii", errors="replace") as told:
            rows = dict(row.split(":", 1) for row in told)
    except OSError:
        return None
    to_be_found = int(rows["ShdPnd"], 16) & ~int(rows["SigBlk"], 16)
    return int(rows["voluntary_ctxt_switches"]) if rows["State"].split()[0] == "S" and not to_be_found else None


def rest(*processes: int) -> bool:
    """Waits until none of these processes does anything before something comes from elsewhere. Returns whether they all do so: one that has ended
    never will."""
    looks: list[list[int | None]] = [[None]]

    def is_so() -> bool:
        looks.append([waits_of(process) for process in processes])
        return None not in looks[-1] and looks[-1] == looks[-2]

    def are_there() -> bool:
        return all(map(is_running, processes))

    return until(lambda: is_so() or not are_there()) and are_there()


def stop(process: int) -> bool:
    """Stops a process until it is killed or continues. It reads nothing from now on."""
    os.kill(process, signal.SIGSTOP)
    return until(lambda: (state_of(process) or "T")[0] == "T")


# Pipes and sockets.

def unread(descriptor: int | socket.socket) -> int:
    """How many bytes can be read there now."""
    return int.from_bytes(fcntl.ioctl(descriptor, termios.FIONREAD, bytes(4)), sys.byteorder)


@contextlib.contextmanager
def input_of(process: int, flags: int) -> Iterator[int]:
    """The pipe that is a process's standard input."""
    pipe = os.open(f"/proc/{process}/fd/0", flags | os.O_NONBLOCK)
    try:
        yield pipe
    finally:
        os.close(pipe)


def not_taken(process: int) -> int:
    """How many bytes of its input a process has not read; none if it has no such pipe yet, or no longer."""
    with contextlib.suppress(OSError), input_of(process, os.O_RDONLY) as pipe:
        return unread(pipe)
    return 0


def is_full(process: int) -> bool:
    """Whether the pipe that is a process's standard input is full."""
    poll = select.poll()
    with contextlib.suppress(OSError), input_of(process, os.O_WRONLY) as pipe:
        poll.register(pipe, select.POLLOUT)
        return not poll.poll(0)
    return False
