"""The other side, for tests and measurements: sends a tree the requests that a kernel makes from the calls of a program.

`Direct` calls the handlers themselves, `Asker` writes each call as a message, with a separate implementation of linux/fuse.h, and `Real` makes system
calls below a folder.
"""
from __future__ import annotations

import contextlib
import errno
import os
import socket
import stat
import struct
from collections.abc import Callable
from typing import Any

from lisfs.mount.kernel import Attributes, Caller, Changes, Created, Entry, Opened, Space
from lisfs.mount.tree import Tree

# An entry of a folder: its inode, its kind and its name.
Listed = tuple[int, int, bytes]
# The caller if nobody is named.
NOBODY = Caller(0, 0, 0)


def told_by(call: Callable[..., Any], *given: Any) -> Any:
    """The result of a call, or the name of the system error."""
    try:
        return call(*given)
    except OSError as error:
        return errno.errorcode.get(error.errno, error.errno)


class NotAMessage(Exception):
    """What came is not a message of the expected kind."""


def must(is_so: bool, told: object) -> None:
    if not is_so:
        raise NotAMessage(told)


def one(form: str, data: bytes) -> int:
    """The single number in some bytes of this layout."""
    number, = struct.unpack(form, data)
    return int(number)


class Direct:
    """The requests that a kernel makes from the calls of a program."""

    def __init__(self, tree: Tree | Asker) -> None:
        self.tree, self.caller = tree, Caller(os.getuid(), os.getgid(), os.getpid())

    def walk(self, path: str) -> int:
        node = 1
        for part in path.split("/") if path else []:
            node = self.tree.lookup(node, part.encode()).node
        return node

    def above(self, path: str) -> tuple[int, bytes]:
        folder, _, name = path.rpartition("/")
        return self.walk(folder), name.encode()

    def stat(self, path: str) -> Attributes:
        return self.tree.getattr(self.walk(path)).attributes

    def size(self, path: str) -> int:
        return self.stat(path).size

    def ls(self, path: str) -> list[str]:
        handle = self.tree.opendir(self.walk(path))
        shown: list[str] = []
        entries: list[Listed] = []
        while new := self.tree.readdir(handle, len(entries))[len(entries):]:
            entries += new
        self.tree.releasedir(handle)
        for _, kind, name in entries[2:]:
            shown.append(name.decode() + ("/" if kind == 4 else ""))
        return shown

    def exists(self, path: str) -> bool:
        with contextlib.suppress(FileNotFoundError):
            return bool(self.walk(path))
        return False

    def mkdir(self, path: str) -> None:
        if self.exists(path):
            raise FileExistsError(errno.EEXIST, path)
        self.tree.mkdir(*self.above(path), 0o755, self.caller)

    def mknod(self, path: str) -> None:
        self.tree.mknod(*self.above(path), stat.S_IFREG | 0o644, self.caller)

    def rmdir(self, path: str) -> None:
        self.walk(path)
        self.tree.rmdir(*self.above(path))

    def unlink(self, path: str) -> None:
        self.walk(path)
        self.tree.unlink(*self.above(path))

    def rename(self, old: str, new: str) -> None:
        nodes = self.walk(old), told_by(self.walk, new)
        if nodes[0] != nodes[1]:
            self.tree.rename(*self.above(old), *self.above(new), 0)

    def link(self, old: str, new: str) -> None:
        if self.exists(new):
            raise FileExistsError(errno.EEXIST, new)
        folder, name = self.above(new)
        self.tree.link(self.walk(old), folder, name)

    def open(self, path: str, flags: int) -> int:
        if flags & os.O_CREAT and not self.exists(path):
            return self.tree.create(*self.above(path), flags, 0o644, self.caller)[1]
        if flags & os.O_EXCL:
            raise FileExistsError(errno.EEXIST, path)
        node = self.walk(path)
        if stat.S_ISDIR(self.tree.getattr(node).attributes.mode):
            raise IsADirectoryError(errno.EISDIR, path)
        return self.tree.open(node, flags)[0]

    def read(self, handle: int, size: int, offset: int) -> bytes:
        return bytes(self.tree.read(handle, offset, size))

    def write(self, handle: int, data: bytes, offset: int, flags: int = 0) -> int:
        return self.tree.write(handle, offset, data, flags)

    def sync(self, handle: int) -> None:
        self.tree.fsync(handle)

    def sync_folder(self, path: str) -> None:
        handle = self.tree.opendir(self.walk(path))
        try:
            self.tree.fsyncdir()
        finally:
            self.tree.releasedir(handle)

    def close(self, handle: int) -> None:
        try:
            # A process that is none of ours.
            self.tree.flush(handle, 0)
        finally:
            self.tree.release(handle)

    def change(self, path: str, handle: int | None = None, **what: int) -> None:
        self.tree.setattr(self.walk(path), Changes(**{name: what.get(name) for name in Changes._fields}), handle)

    def space(self) -> Space:
        return self.tree.statfs()

    def put(self, path: str, data: bytes) -> None:
        """Writes a file from the start."""
        handle = self.open(path, os.O_WRONLY | os.O_CREAT | os.O_TRUNC)
        try:
            if data:
                self.write(handle, data, 0)
        finally:
            self.close(handle)

    def get(self, path: str) -> bytes:
        handle = self.open(path, os.O_RDONLY)
        try:
            return self.read(handle, 2_000_000, 0)
        finally:
            self.close(handle)


class Real(Direct):
    """System calls below a folder."""

    def __init__(self, folder: str) -> None:
        self.folder = folder

    def at(self, path: str) -> str:
        return os.path.join(self.folder, path)

    def stat(self, path: str) -> Attributes:
        found = os.stat(self.at(path))
        return Attributes(found.st_ino, found.st_size, found.st_blocks, found.st_atime_ns, found.st_mtime_ns, found.st_ctime_ns, found.st_mode,
                          found.st_nlink, found.st_uid, found.st_gid)

    def ls(self, path: str) -> list[str]:
        # In the order of the entries.
        return [entry.name + ("/" if entry.is_dir() else "") for entry in os.scandir(self.at(path))]

    def exists(self, path: str) -> bool:
        return os.path.exists(self.at(path))

    def mkdir(self, path: str) -> None:
        os.mkdir(self.at(path))

    def rmdir(self, path: str) -> None:
        os.rmdir(self.at(path))

    def unlink(self, path: str) -> None:
        os.unlink(self.at(path))

    def rename(self, old: str, new: str) -> None:
        os.rename(self.at(old), self.at(new))

    def link(self, old: str, new: str) -> None:
        os.link(self.at(old), self.at(new))

    def open(self, path: str, flags: int) -> int:
        return os.open(self.at(path), flags, 0o644)

    def read(self, handle: int, size: int, offset: int) -> bytes:
        return os.pread(handle, size, offset)

    def write(self, handle: int, data: bytes, offset: int, flags: int = 0) -> int:
        return os.pwrite(handle, data, offset)

    def sync(self, handle: int) -> None:
        os.fsync(handle)

    def sync_folder(self, path: str) -> None:
        handle = os.open(self.at(path), os.O_RDONLY | os.O_DIRECTORY)
        try:
            os.fsync(handle)
        finally:
            os.close(handle)

    def close(self, handle: int) -> None:
        os.close(handle)

    def change(self, path: str, handle: int | None = None, **what: int) -> None:
        if "mode" in what:
            os.chmod(self.at(path), what["mode"])
        if "size" in what:
            os.truncate(self.at(path) if handle is None else handle, what["size"])
        if "modified" in what:
            os.utime(self.at(path), ns=(what.get("accessed", 0), what["modified"]))
        if "user" in what:
            os.chown(self.at(path), what["user"], what["group"])

    def space(self) -> Space:
        found = os.statvfs(self.folder)
        return Space(found.f_blocks, found.f_bfree, found.f_files, found.f_ffree, found.f_bsize, found.f_namemax)


class Asker:
    """The calls of a tree as messages of linux/fuse.h, which is implemented here separately."""

    def __init__(self, end: socket.socket) -> None:
        self.end, self.unique = end, 1
        self.told: list[int] = []

    def ask(self, code: int, node: int, body: bytes = b"", caller: Caller = NOBODY) -> bytes:
        self.unique += 2
        self.end.send(struct.pack("=IIQQIIIHH", 40 + len(body), code, self.unique, node, *caller, 0, 0) + body)
        while True:
            reply = self.end.recv(2_000_000)
            length, failure, unique = struct.unpack_from("=IiQ", reply)
            must(length == len(reply), reply[:40])
            if unique == self.unique:
                break
            must((unique, failure, length) == (0, 2, 40), reply)
            self.told.append(struct.unpack_from("=Q", reply, 16)[0])
        if failure:
            raise OSError(-failure, os.strerror(-failure))
        return reply[16:]

    def attributes(self, data: bytes) -> Attributes:
        inode, size, blocks, *times, mode, links, user, group, _, block, _ = struct.unpack("=6Q10I", data)
        must(block == 4096, block)
        accessed, modified, changed = (whole * 10**9 + part for whole, part in zip(times[:3], times[3:]))
        return Attributes(inode, size, blocks, accessed, modified, changed, mode, links, user, group)

    def entry(self, data: bytes) -> Entry:
        node, generation, _, seconds = struct.unpack_from("=4Q", data)
        return Entry(node, self.attributes(data[40:128]), seconds)

    def lookup(self, node: int, name: bytes) -> Entry:
        return self.entry(self.ask(1, node, name + b"\0"))

    def forget(self, node: int, count: int) -> None:
        self.end.send(struct.pack("=IIQQIIIHHQ", 48, 2, 0, node, 0, 0, 0, 0, 0, count))

    def getattr(self, node: int) -> Entry:
        return Entry(node, self.attributes(self.ask(3, node, bytes(16))[16:]), 0)

    def setattr(self, node: int, changes: Changes, handle: int | None) -> Entry:
        bits = sum(1 << bit for bit, value in enumerate((*changes, handle)) if value is not None)
        mode, user, group, size, accessed, modified = (value or 0 for value in changes)
        body = struct.pack("=IIQQQQQQIIIIIIII", bits, 0, handle or 0, size, 0, accessed // 10**9, modified // 10**9, 0,
                           accessed % 10**9, modified % 10**9, 0, mode, 0, user, group, 0)
        return Entry(node, self.attributes(self.ask(4, node, body)[16:]), 0)

    def mkdir(self, node: int, name: bytes, mode: int, caller: Caller) -> Entry:
        return self.entry(self.ask(9, node, struct.pack("=II", mode, 0o22) + name + b"\0", caller))

    def unlink(self, node: int, name: bytes) -> None:
        self.ask(10, node, name + b"\0")

    def rmdir(self, node: int, name: bytes) -> None:
        self.ask(11, node, name + b"\0")

    def rename(self, node: int, old: bytes, folder: int, new: bytes, flags: int) -> None:
        if flags:
            self.ask(45, node, struct.pack("=QII", folder, flags, 0) + old + b"\0" + new + b"\0")
        else:
            self.ask(12, node, struct.pack("=Q", folder) + old + b"\0" + new + b"\0")

    def link(self, node: int, folder: int, name: bytes) -> Entry:
        return self.entry(self.ask(13, folder, struct.pack("=Q", node) + name + b"\0"))

    def open(self, node: int, flags: int) -> Opened:
        return Opened(*struct.unpack("=QII", self.ask(14, node, struct.pack("=II", flags, 0)))[:2])

    def create(self, node: int, name: bytes, flags: int, mode: int, caller: Caller) -> Created:
        reply = self.ask(35, node, struct.pack("=IIII", flags, mode | stat.S_IFREG, 0o22, 0) + name + b"\0", caller)
        return Created(self.entry(reply), one("=Q", reply[128:136]))

    def mknod(self, node: int, name: bytes, mode: int, caller: Caller) -> Entry:
        return self.entry(self.ask(8, node, struct.pack("=IIII", mode, 0, 0o22, 0) + name + b"\0", caller))

    def read(self, handle: int, offset: int, size: int) -> bytes:
        return self.ask(15, 0, struct.pack("=QQIIQII", handle, offset, size, 0, 0, 0, 0))

    def write(self, handle: int, offset: int, data: bytes, flags: int) -> int:
        return one("=I4x", self.ask(16, 0, struct.pack("=QQIIQII", handle, offset, len(data), 0, 0, flags, 0) + bytes(data)))

    def flush(self, handle: int, process: int) -> None:
        self.ask(25, 0, struct.pack("=QIIQ", handle, 0, 0, 0), Caller(0, 0, process))

    def fsync(self, handle: int) -> None:
        self.ask(20, 0, struct.pack("=QII", handle, 0, 0))

    def fsyncdir(self) -> None:
        self.ask(30, 0, bytes(16))

    def release(self, handle: int) -> None:
        self.ask(18, 0, struct.pack("=QIIQ", handle, 0, 0, 0))

    def opendir(self, node: int) -> int:
        return one("=Q8x", self.ask(27, node, bytes(8)))

    def releasedir(self, handle: int) -> None:
        self.ask(29, 0, struct.pack("=QIIQ", handle, 0, 0, 0))

    def readdir(self, handle: int, offset: int) -> list[Listed]:
        """In small pieces, so that a listing takes many. The entries before the offset are others."""
        data, at = self.ask(28, 0, struct.pack("=QQIIQII", handle, offset, 200, 0, 0, 0, 0)), 0
        entries: list[Listed] = [(0, 0, b"")] * offset
        while at < len(data):
            inode, following, length, kind = struct.unpack_from("=QQII", data, at)
            entries.append((inode, kind, data[at + 24:at + 24 + length]))
            must(following == len(entries), following)
            at += 24 + -(-length // 8) * 8
        return entries

    def statfs(self) -> Space:
        blocks, free, _, files, free_files, size, length, _ = struct.unpack_from("=QQQQQIII", self.ask(17, 1))
        return Space(blocks, free, files, free_files, size, length)
