"""The files of a folder or a maildir.

A folder with `cur` and `new` in it is a maildir, and so is one below with these and `tmp`. Its mails are those in these two folders, and those in its
folders `.NAME.NAME`, whose names are decoded as mail programs write them.

No symbolic link below the folder is followed: each part of a path is opened in the folder before it, so that this holds even if somebody replaces a
folder by a link meanwhile.
"""
import base64
import contextlib
import dataclasses
import errno
import fnmatch
import os
import re
import stat
from collections.abc import Callable, Generator, Iterator, Sequence
from typing import BinaryIO, NamedTuple, TypeAlias

MARK = re.compile(r"&([A-Za-z0-9+,]*)-")
NO_FILE, NO_PART = "no plain file", "no part of the maildir"
# The subfolders of a maildir.
BOX = ("cur", "new", "tmp")
# Opens a folder on the way, which is only traversed. If the system has no `O_PATH`, the folder must be readable.
THROUGH = getattr(os, "O_PATH", os.O_RDONLY) | os.O_DIRECTORY | os.O_CLOEXEC
READ = os.O_RDONLY | os.O_NOFOLLOW | os.O_CLOEXEC


# The names that lead from a folder to a file.
Parts: TypeAlias = tuple[str, ...]
# What a name is, or why that can't be found out; and the names in a folder, each with what it is.
Kind: TypeAlias = os.stat_result | OSError
Kinds: TypeAlias = dict[str, Kind]
# Called with the path of what is not taken, and why.
Leave: TypeAlias = Callable[[str, str], None]


@dataclasses.dataclass(slots=True, eq=False)
class Found:
    """A file. `parts` are the names that lead to it from the folder `top`, `folders` are the names of the folders below that contain it, and `key`
    identifies it at every run: its path below the top, and for a mail without what changes when it is read. For a mail in a maildir `base` is its
    name without flags, and else None. `kind` is its stat result, if it is a file that can be taken, and `size` its size now, or None if `problem`
    says why it can't be taken."""

    top: str
    parts: Parts
    folders: Parts
    key: str
    base: str | None = None
    kind: os.stat_result | None = None
    size: int | None = None
    problem: str | None = None

    @property
    def path(self) -> str:
        return os.path.join(self.top, *self.parts)


class Waiting(NamedTuple):
    """A folder that is still to be walked, and what is in it, if that is known."""

    parts: Parts
    folders: Parts
    kinds: Kinds | None


class Walk:
    """Walks a folder. For what can't be taken it calls `leave(path, why)`. Names that match `without`, shell patterns, are skipped, and so are the
    files that `passed` describes. `is_blind` says whether there may be files that were not seen."""

    def __init__(self, top: str, leave: Leave, without: Sequence[str] = (), passed: Sequence[os.stat_result] = ()) -> None:
        self.top, self.leave, self.without, self.passed, self.is_blind = top, leave, without, passed, False

    def files(self) -> Iterator[Found]:
        """Each `Found`, in an order that depends only on the names."""
        left = [Waiting((), (), None)]
        while left:
            parts, folders, known = left.pop()
            kinds = self._kinds(parts) if known is None else known
            if is_maildir(kinds, ("cur", "new", "tmp") if parts else ("cur", "new")):
                others = yield from self._maildir(parts, folders, kinds)
            else:
                others = [Waiting((*parts, name), (*folders, name), None) for name, kind in self._wanted(kinds) if is_folder(kind)]
                for name, kind in self._wanted(kinds):
                    if not is_folder(kind):
                        yield from self._file(Found(self.top, (*parts, name), folders, os.path.join(*parts, name)), kind)
            left += reversed(others)

    def _kinds(self, parts: Parts) -> Kinds:
        """The names in a folder, each with what it is. If the folder can't be read, that is reported, and there are none."""
        try:
            return names_in(self.top, parts)
        except OSError as error:
            self.is_blind = True
            self.leave(os.path.join(self.top, *parts), NO_FILE if is_no_folder(error) else error.strerror)
            return Unread()

    def _wanted(self, kinds: Kinds) -> list[tuple[str, Kind]]:
        """The names that are not skipped, in order, each with what it is."""
        return [(name, kinds[name]) for name in sorted(kinds) if not any(fnmatch.fnmatchcase(name, pattern) for pattern in self.without)]

    def _file(self, found: Found, kind: Kind) -> Iterator[Found]:
        """The file, if it is one."""
        if isinstance(kind, OSError):
            # It may be a folder.
            found.problem, self.is_blind = kind.strerror, True
        elif any(os.path.samestat(kind, passed) for passed in self.passed):
            return
        elif not stat.S_ISREG(kind.st_mode):
            self.leave(found.path, NO_FILE)
            return
        else:
            found.kind, found.size = kind, kind.st_size
        yield found

    def _maildir(self, parts: Parts, folders: Parts, kinds: Kinds) -> Generator[Found, None, list[Waiting]]:
        """The mails of a maildir: its own, and those of its folders `.NAME.NAME`. Returns the maildirs in it."""
        yield from self._box(parts, folders, kinds)
        beside = [(name, kind) for name, kind in self._wanted(kinds) if name not in BOX]
        inner = {name: self._kinds((*parts, name)) for name, kind in beside if is_folder(kind)}
        boxes = {name for name, of in inner.items() if name.startswith(".") and is_maildir(of, ("cur",))}
        for name in sorted(boxes):
            yield from self._box((*parts, name), (*folders, *map(decoded, name[1:].split("."))), inner[name])
        others: list[Waiting] = []
        for name, kind in beside:
            if name in boxes or isinstance(inner.get(name), Unread):
                continue
            if is_maildir(inner.get(name, {})):
                others.append(Waiting((*parts, name), (*folders, decoded(name)), inner[name]))
            else:
                self.leave(os.path.join(self.top, *parts, name), NO_FILE if is_link(kind) else NO_PART)
        return others

    def _box(self, box: Parts, folders: Parts, kinds: Kinds) -> Iterator[Found]:
        for part in BOX:
            at = *box, part
            if is_link(kinds.get(part)):
                self.leave(os.path.join(self.top, *at), NO_FILE)
            for name, kind in self._wanted(self._kinds(at)) if is_folder(kinds.get(part)) else ():
                base = name.split(":2,")[0]
                if part == "tmp":
                    self.leave(os.path.join(self.top, *at, name), "a mail that is not delivered yet")
                else:
                    yield from self._file(Found(self.top, (*at, name), folders, os.path.join(*box, base), base), kind)


class Unread(dict[str, Kind]):
    """What is in a folder that can't be read, as far as is known: nothing."""


def names_in(top: str, parts: Parts) -> Kinds:
    """The names in the folder that these names lead to from another one, each with what it is, or the error if that can't be found out."""
    with below(top, parts) as at:
        inner = os.open(".", READ | os.O_DIRECTORY, dir_fd=at)
        try:
            return {name: kind_in(inner, name) for name in os.listdir(inner)}
        finally:
            os.close(inner)


@contextlib.contextmanager
def below(top: str, parts: Parts) -> Iterator[int]:
    """The folder that these names lead to from another one, as a descriptor. If one of them is a link, it raises an error that `is_no_folder`
    recognizes."""
    at = os.open(top, THROUGH)
    try:
        for part in parts:
            # In this order, a signal that raises an error closes nothing twice.
            at, outer = os.open(part, THROUGH | os.O_NOFOLLOW, dir_fd=at), at
            os.close(outer)
        yield at
    finally:
        os.close(at)


def is_no_folder(error: OSError) -> bool:
    """Whether a link, or another file, is where a folder should be, or a link where a file should be."""
    return error.errno in (errno.ENOTDIR, errno.ELOOP)


def kind_in(at: int, name: str) -> Kind:
    try:
        return os.lstat(name, dir_fd=at)
    except OSError as error:
        return error


def is_folder(kind: Kind | None) -> bool:
    return isinstance(kind, os.stat_result) and stat.S_ISDIR(kind.st_mode)


def is_link(kind: Kind | None) -> bool:
    return isinstance(kind, os.stat_result) and stat.S_ISLNK(kind.st_mode)


def is_maildir(kinds: Kinds, parts: Sequence[str] = BOX) -> bool:
    """Whether what is in a folder makes it a maildir. A maildir some of whose parts are links still is one, so that its other mails stay mails."""
    found = [kinds.get(part) for part in parts]
    return all(is_folder(kind) or is_link(kind) for kind in found) and (any(map(is_folder, found)) or len(parts) == 1)


def decoded(name: str) -> str:
    """The decoded name of a mail folder, in which letters that are not ASCII may be written as `&..-` (RFC 3501, section 5.1.3)."""
    def one(mark: re.Match[str]) -> str:
        if not mark[1]:
            return "&"
        code = mark[1].replace(",", "/")
        return base64.b64decode(code + "=" * (-len(code) % 4)).decode("utf-16-be")

    try:
        return MARK.sub(one, name)
    except ValueError:
        return name


def again(found: Found) -> Parts | None:
    """The parts of the path of a mail whose flags, and so whose name, have changed since it was found; else None."""
    if found.base is None:
        return None
    for part in ("cur", "new"):
        at = *found.parts[:-2], part
        with contextlib.suppress(OSError):
            for name in names_in(found.top, at):
                if name.split(":2,")[0] == found.base:
                    return *at, name
    return None


def opened(found: Found) -> BinaryIO:
    """A file, opened for reading, whose `name` is its path. Raises `OSError`."""
    try:
        return _opened(found)
    except FileNotFoundError:
        parts = again(found)
        if parts is None:
            raise
        found.parts = parts
        return _opened(found)


def _opened(found: Found) -> BinaryIO:
    try:
        with below(found.top, found.parts[:-1]) as at:
            # If it has become a pipe or a link in the meantime, this neither blocks nor follows it.
            descriptor = os.open(found.parts[-1], READ | os.O_NONBLOCK, dir_fd=at)
    except OSError as error:
        if is_no_folder(error):
            raise OSError(0, NO_FILE, found.path) from None
        raise
    file = open(found.path, "rb", opener=lambda *_: descriptor)
    if not stat.S_ISREG(os.fstat(descriptor).st_mode):
        file.close()
        raise OSError(0, NO_FILE, found.path)
    return file


def content(found: Found, most: int) -> bytes:
    """The bytes of a file, at most one more than the given limit. Raises `OSError`."""
    with opened(found) as file:
        return file.read(most + 1)
