"""What a mount keeps apart from an image: the attributes of each file and what was written to it, and the folders and files that the kernel knows."""
from __future__ import annotations

import enum
import hashlib
from collections.abc import Iterable
from typing import TypeAlias

from lisfs import index
from lisfs.client import Refused
from lisfs.formulas import Place
from lisfs.mount.kernel import Changes

SPREAD, INODES = 0x9E3779B97F4A7C15, (1 << 63) - 1
# An entry of an open folder: its inode, what it is, and its name. It is a plain tuple, since there are thousands of them.
Listed: TypeAlias = tuple[int, int, bytes]


class Looks:
    """The attributes of a file or a folder that an image doesn't keep: they last for one mount."""

    def __init__(self, mode: int, user: int, group: int, now: int) -> None:
        self.mode, self.user, self.group = mode, user, group
        self.accessed = self.modified = self.changed = now

    def take(self, changes: Changes, now: int) -> None:
        """Applies the given changes."""
        self.mode = self.mode if changes.mode is None else changes.mode
        self.user = self.user if changes.user is None else changes.user
        self.group = self.group if changes.group is None else changes.group
        self.accessed = self.accessed if changes.accessed is None else changes.accessed
        self.modified = self.modified if changes.modified is None else changes.modified
        self.changed = now


# The attributes of a file until they are set.
UNKNOWN = Looks(0, 0, 0, 0)


class Draft:
    """What was written to a file and is not yet in the image."""

    def __init__(self) -> None:
        # The bytes, once something was written. Whether they differ from those of the image; whether an open with truncation was the only change; and
        # whether they were refused since the last change.
        self.content: bytearray | None = None
        self.is_dirty = self.is_emptied = self.is_refused = False
        # How many have the file open for writing, and when it was last written.
        self.writers = 0
        self.modified: int | None = None

    def is_written(self, now: int) -> None:
        self.is_dirty, self.is_emptied, self.is_refused, self.modified = True, False, False, now


class File(index.File):
    """A file of the image. `given` are the words that it was certainly given. No other file ever has its `number`. `refusal` is why a file that
    waited was not made, and None for all others."""

    def __init__(self, name: bytes, size: int, given: Iterable[bytes], bit: int) -> None:
        super().__init__(name, size, given, bit)
        self.number, self.is_gone = 0, False
        self.refusal: Refused | None = None
        # Whether another client of a served image removed it.
        self.is_lost = False
        # The attributes, which the tree sets; how often it is open; and the nodes by which the kernel knows it.
        self.looks, self.handles = UNKNOWN, 0
        self.draft: Draft | None = None
        self.nodes: set[Leaf] = set()
        # Its bytes, if it was removed while it was open; and a count of its changes.
        self.kept, self.version = b"", 0


class Shows(enum.Enum):
    """What a folder shows: words that files were given, these and derived ones, or no words and every file."""

    GIVEN = enum.auto()
    DERIVED = enum.auto()
    FILES = enum.auto()


class Folder:
    """A place under one path. `:by/music` and `music/:by` are two folders, since a folder has one parent. `begin` is how many names of the place lead
    to the mounted folder or to the last `:by` of the path."""

    def __init__(self, number: int, path: bytes, place: Place, shows: Shows, begin: int = 0) -> None:
        self.number, self.key, self.place, self.shows, self.begin, self.lookups = number, path, place, shows, begin, 0
        # Each lookup needs this, and an attribute is faster than a comparison with an enum member.
        self.shows_all = shows is Shows.FILES
        self.inode = inode_of(path)


class Leaf:
    """A file as an entry of one folder."""

    def __init__(self, number: int, folder: Folder, file: File) -> None:
        self.number, self.key, self.file, self.lookups = number, (folder.key, file), file, 0
        self.inode = leaf_inode(folder, file)
        # How many have it open for writing here, and which version of the bytes the kernel may have cached.
        self.writers, self.version = 0, -1


Node: TypeAlias = Folder | Leaf


class Handle:
    """A file that somebody has open, and whether for writing."""

    def __init__(self, node: Leaf, writes: bool) -> None:
        self.node, self.file, self.writes = node, node.file, writes


class Shelf:
    """An open folder: its entries when it was last read from the beginning."""

    def __init__(self, folder: Folder) -> None:
        self.folder = folder
        self.entries: list[Listed] = []


def inode_of(path: bytes) -> int:
    """The inode of a path: the same each time, without a table of all paths that were ever looked up."""
    return int.from_bytes(hashlib.blake2b(path, digest_size=8).digest(), "little") & INODES


def leaf_inode(folder: Folder, file: File) -> int:
    return (folder.inode + file.number * SPREAD) & INODES
