"""Makes a file at a path whole or not at all: under another name beside it, from which it comes to its path in one step."""
import contextlib
import errno
import fcntl
import glob
import os
import signal
import stat
from collections.abc import Iterator
from typing import NamedTuple

from lisfs.client import PROGRAM, Program
from lisfs.limits import Limits
from lisfs.own import sync_folder

# What follows the path in the name of a file that is not whole yet. Eight digits of a random number follow.
ASIDE, DIGITS = ".new-", 8
# What follows the path in the name of an image that was enlarged, before a number if there are several.
KEPT = ".before-enlarging"
# What a file system says that has no hard links.
NO_LINKS = (errno.EPERM, errno.EOPNOTSUPP, errno.EMLINK, errno.ENOSYS)


class Aside(NamedTuple):
    """A file beside a path, and its descriptor, which is open as long as the file is worked on."""

    name: str
    descriptor: int


@contextlib.contextmanager
def aside(path: str, mode: int) -> Iterator[Aside]:
    """A new empty file beside a path, which is removed at the end if it still has its name. What killed runs left there is removed first."""
    # A lease, by which others are looked for, is broken by a signal.
    signal.signal(signal.SIGIO, signal.SIG_IGN)
    for left in glob.glob(glob.escape(path + ASIDE) + "[0-9a-f]" * DIGITS):
        remove_left(left)
    name = path + ASIDE + os.urandom(DIGITS // 2).hex()
    descriptor = os.open(name, os.O_RDWR | os.O_CREAT | os.O_EXCL | os.O_NOFOLLOW | os.O_CLOEXEC, mode)
    try:
        yield Aside(name, descriptor)
    finally:
        with contextlib.suppress(FileNotFoundError):
            os.unlink(name)
        os.close(descriptor)


def remove_left(path: str) -> None:
    """Removes what a killed run has left, unless another run works on it now."""
    with contextlib.suppress(OSError):
        descriptor = os.open(path, os.O_RDWR | os.O_NOFOLLOW | os.O_NONBLOCK | os.O_CLOEXEC)
        try:
            if stat.S_ISREG(os.fstat(descriptor).st_mode) and not is_open_elsewhere(descriptor):
                os.unlink(path)
        finally:
            os.close(descriptor)


def is_open_elsewhere(descriptor: int) -> bool:
    """Whether another descriptor of the file is open, as far as its file system says: it gives a write lease only for a file without another one."""
    try:
        fcntl.fcntl(descriptor, fcntl.F_SETLEASE, fcntl.F_WRLCK)
        fcntl.fcntl(descriptor, fcntl.F_SETLEASE, fcntl.F_UNLCK)
    except BlockingIOError:
        return True
    except OSError:
        # A file system without leases, or a file of somebody else.
        return False
    return False


def name_again(path: str, other: str) -> bool:
    """Gives a file another name, which nothing has. Returns whether it keeps the old one too, as it does if its file system has hard links."""
    try:
        os.link(path, other)
    except OSError as error:
        if error.errno not in NO_LINKS:
            raise
        if os.path.lexists(other):
            raise FileExistsError(errno.EEXIST, os.strerror(errno.EEXIST), other) from None
        os.rename(path, other)
        return False
    return True


def make(path: str, limits: Limits) -> None:
    """Makes an empty image at a path where nothing is, whole and on the medium. Raises `FileExistsError` if something is there by then."""
    with aside(path, 0o666) as new:
        Program([PROGRAM, "make", new.name, *limits.make()]).close()
        name_again(new.name, path)
    sync_folder(os.path.dirname(path))


def kept_names(path: str) -> list[str]:
    """The names under which images from before `tools/enlarge` are kept beside an image."""
    return sorted(glob.glob(glob.escape(path + KEPT) + "*"))
