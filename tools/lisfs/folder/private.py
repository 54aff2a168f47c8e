"""A private copy of an image, on which a dry run works. Opening an image may replay its journal, so the program never opens the image itself."""
from __future__ import annotations

import contextlib
import errno
import io
import os
import stat
from collections.abc import Iterator

from lisfs.client import held
from lisfs.dumps import NotADump
from lisfs.limits import BEGIN, HEAD, limits_in
from lisfs.opening import joined

# How often the copy of a served image is made again, if another client has changed the image meanwhile.
TRIES = 8
# How many bytes are copied at a time. Pieces of zeros are left out, so that the copy takes no more room than the image.
PIECE = 65_536


@contextlib.contextmanager
def private_copy(image: str) -> Iterator[str]:
    """The path of a copy of an image, which is removed at the end. Raises `OSError`, and `Locked` if another program has the image."""
    import tempfile
    with tempfile.TemporaryDirectory(prefix="lisfs-") as folder:
        path = os.path.join(folder, "image")
        try:
            copy_image(image, path)
        except OSError as error:
            if error.errno != errno.ENOSPC:
                raise
            raise OSError(errno.ENOSPC, "no space for a copy of the image: TMPDIR says where it is made", tempfile.gettempdir()) from None
        yield path


def copy_image(image: str, path: str) -> None:
    """Copies an image while nobody else can change it. Of a longer device it copies the bytes of the image alone."""
    kind = os.stat(image).st_mode
    if not (stat.S_ISREG(kind) or stat.S_ISBLK(kind) or stat.S_ISDIR(kind)):
        # Opening a pipe would block. For a folder the system says what is wrong.
        raise OSError(errno.EINVAL, "not a file or a block device", image)
    session = joined("sync", image)
    if session is None:
        with held(image):
            copy_bytes(image, path)
        return
    with session.program:
        for _ in range(TRIES):
            before = session.program.changes()
            copy_bytes(image, path)
            if session.program.changes() == before:
                return
    raise NotADump(f"{image} changes all the time")


def copy_bytes(image: str, path: str) -> None:
    with open(image, "rb", buffering=0) as source, open(path, "wb") as copy:
        size = length_of(source)
        copy.truncate(size)
        at = data_from(source, 0)
        while at is not None and at < size:
            piece = os.pread(source.fileno(), min(PIECE, size - at), at)
            if piece.count(0) < len(piece):
                copy.seek(at)
                copy.write(piece)
            at = data_from(source, at + PIECE)


def length_of(source: io.FileIO) -> int:
    """How many bytes of a file or a device an image has, if one begins there; otherwise all."""
    size, head = source.seek(0, os.SEEK_END), os.pread(source.fileno(), HEAD, 0)
    return min(size, limits_in(head, "").image_bytes) if head.startswith(BEGIN) and len(head) == HEAD else size


def data_from(source: io.FileIO, at: int) -> int | None:
    """Where the first data from a byte on is, before which an image has zeros that take no room; None if there is none. A system that does not say so
    has data everywhere."""
    try:
        return os.lseek(source.fileno(), at, os.SEEK_DATA)
    except OSError as error:
        return None if error.errno == errno.ENXIO else at
