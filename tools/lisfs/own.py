"""The files that the tools keep for the person who runs them, below that person's folders for caches and states."""
from __future__ import annotations

import os
import stat

# The most bytes that are read.
LARGEST = 1 << 28


def folder_of(variable: str, usual: str) -> str:
    """The folder of this program's own files, named by an environment variable, or else at the usual path."""
    top = os.environ.get(variable, "")
    return os.path.join(top if os.path.isabs(top) else os.path.expanduser(usual), "lisfs")


def state_folder() -> str:
    """The folder of what is kept from one run to the next."""
    return folder_of("XDG_STATE_HOME", "~/.local/state")


def read_own(path: str) -> bytes:
    """The bytes of one of this program's own files. There are none if somebody else could have written it. Raises `OSError`."""
    descriptor = os.open(path, os.O_RDONLY | os.O_NOFOLLOW | os.O_NONBLOCK | os.O_CLOEXEC)
    with open(descriptor, "rb") as file:
        kind = os.fstat(descriptor)
        is_own = stat.S_ISREG(kind.st_mode) and kind.st_uid == os.geteuid() and not kind.st_mode & 0o022 and kind.st_size <= LARGEST
        return file.read() if is_own else b""


def write_whole(path: str, data: bytes, is_kept: bool = False) -> None:
    """Writes a file whole or not at all, for its owner alone; if it must be kept, it is on the medium before this returns."""
    import tempfile
    os.makedirs(os.path.dirname(path), 0o700, exist_ok=True)
    handle, temporary = tempfile.mkstemp(dir=os.path.dirname(path), prefix=".new-")
    try:
        with open(handle, "wb") as file:
            file.write(data)
            file.flush()
            if is_kept:
                os.fsync(file.fileno())
        os.replace(temporary, path)
    except BaseException:
        os.unlink(temporary)
        raise
    if is_kept:
        sync_folder(os.path.dirname(path))


def sync_folder(path: str) -> None:
    """Makes the names in a folder durable."""
    folder = os.open(path or ".", os.O_RDONLY | os.O_DIRECTORY | os.O_CLOEXEC)
    try:
        os.fsync(folder)
    finally:
        os.close(folder)
