"""What an earlier run read from mails and pieces of music, so that those that have not changed since need not be read again.

A file counts as unchanged if its path, its size, its inode number and its times of modification and of change are the same, and if these times were
old enough then that each later change gets other times. All of it is only a cache: a record that is missing, damaged, of another folder or of another
version of the readers is ignored, and made again. The cache is in `$XDG_CACHE_HOME/lisfs`, or else in `~/.cache/lisfs`, may be removed at any time,
and only its owner may read it.
"""
import contextlib
import functools
import hashlib
import json
import os
import sys
import time
import unicodedata
from collections.abc import Callable, Sequence
from typing import NamedTuple, Protocol, TypeAlias, TypeVar

from lisfs import constants, derived, words
from lisfs.dumps import STEP, WHOLE
from lisfs.folder import addresses, forms, mails, music, walk
from lisfs.own import folder_of, read_own, write_whole

FORM = 2

# What distinguishes a file from a changed one.
Times: TypeAlias = list[int]
# What was read from a file: parts that `json` can write.
Record: TypeAlias = Sequence[object]
R = TypeVar("R")


class Kept(NamedTuple):
    """The record of a file that had these times, and the rules by which it was made."""

    times: Times
    rules: str
    record: Record


class Cache(Protocol):
    """What the results of earlier runs are looked up in: `Remembered`, or `Nothing`."""

    def record(self, found: walk.Found, rules: str, kind: Callable[..., R]) -> R | None: ...

    def keep(self, found: walk.Found, times: Times | None, rules: str, record: Record) -> None: ...

    def save(self) -> None: ...


class Remembered:
    """What was read from the files below a folder. A record is what `json` can write, and `rules` identifies the code that made it."""

    def __init__(self, folder: str) -> None:
        self.folder = os.path.realpath(folder)
        name = hashlib.sha256(os.fsencode(self.folder)).hexdigest()[:32]
        self.path = os.path.join(cache_folder(), f"sync-{name}.json")
        self._was = self._read()
        self._now: dict[str, Kept] = {}
        self._is_other = False

    def record(self, found: walk.Found, rules: str, kind: Callable[..., R]) -> R | None:
        """What was read from a file, as a record of this kind, or None if that is not known."""
        had = self._was.get(os.path.join(*found.parts))
        if not had or found.kind is None or (had.times, had.rules) != (times_of(found.kind), rules):
            return None
        self._now[os.path.join(*found.parts)] = had
        return kind(*had.record)

    def keep(self, found: walk.Found, times: Times | None, rules: str, record: Record) -> None:
        """Keeps what was read from a file that had these times. None means times that don't distinguish it from a later version."""
        if times:
            self._now[os.path.join(*found.parts)] = Kept(times, rules, record)
            self._is_other = True

    def save(self) -> None:
        """Writes all that is known now, whole or not at all. If it can't be written, the next run reads the files."""
        if not self._is_other and len(self._now) == len(self._was):
            return
        body = json.dumps({"form": FORM, "version": version(), "folder": self.folder, "files": self._now}).encode()
        with contextlib.suppress(OSError):
            write_whole(self.path, hashlib.sha256(body).hexdigest().encode() + b"\n" + body)

    def _read(self) -> dict[str, Kept]:
        try:
            digest, _, body = read_own(self.path).partition(b"\n")
            if digest.decode() != hashlib.sha256(body).hexdigest():
                return {}
            given = json.loads(body)
            is_ours = (given["form"], given["version"], given["folder"]) == (FORM, version(), self.folder)
            return {path: Kept(*kept) for path, kept in dict(given["files"]).items()} if is_ours else {}
        except (OSError, ValueError, LookupError, TypeError, RecursionError):
            return {}


class Nothing:
    """Remembers nothing."""

    def record(self, found: walk.Found, rules: str, kind: Callable[..., R]) -> R | None:
        return None

    def keep(self, found: walk.Found, times: Times | None, rules: str, record: Record) -> None:
        pass

    def save(self) -> None:
        pass


def cache_folder() -> str:
    return folder_of("XDG_CACHE_HOME", "~/.cache")


@functools.cache
def version() -> str:
    """Differs whenever a file may give another record: it covers the sources that read files, and Python."""
    digest = hashlib.sha256(f"{sys.version} {unicodedata.unidata_version}".encode())
    for module in (addresses, constants, derived, forms, mails, music, words):
        with open(str(module.__file__), "rb") as file:
            digest.update(file.read())
    return digest.hexdigest()


def times_of(kind: os.stat_result) -> Times:
    return [kind.st_size, kind.st_ino, kind.st_mtime_ns, kind.st_ctime_ns]


def settled(before: os.stat_result, after: os.stat_result, now: int) -> Times | None:
    """The times of a file that was looked at before and after it was read, the reading having begun now; or None if a later change of it may have the
    same times."""
    newest = max(before.st_mtime_ns, before.st_ctime_ns)
    is_old = newest + (STEP if newest % 10**9 else WHOLE) < now
    return times_of(before) if is_old and times_of(before) == times_of(after) else None


def read(found: walk.Found, most: int) -> tuple[bytes, Times | None]:
    """The bytes of a file, as `walk.content` returns them, and its times, or None instead of these."""
    with walk.opened(found) as file:
        before, now = os.fstat(file.fileno()), time.time_ns()
        content = file.read(most + 1)
        return content, settled(before, os.fstat(file.fileno()), now)
