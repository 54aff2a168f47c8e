"""The messages of /dev/fuse: each is parsed, one of the handlers answers, and the reply is built.

It knows nothing about images. The handlers have the methods of `Handlers` (`tree.Tree` is one); an `OSError` that they raise is the answer. The
device is any descriptor with one message per read and per write, so tests use a pair of sockets. The layouts are those of linux/fuse.h, protocol 7,
as of minor 23: later minors add to them and change none.
"""
import enum
import errno
import os
import struct
import sys
import time
from collections.abc import Callable
from typing import NamedTuple, Protocol, TypeAlias

from lisfs.endings import say_fault

# The version of the protocol: the major number, our minor number and the oldest supported one.
MAJOR, MINOR, OLDEST_MINOR = 7, 38, 23
# The most data of a message, and the most bytes of a message besides.
LARGEST, BESIDE = 1_048_576, 8_192
PAGE = 4_096
# Values in the reply to INIT: how many background requests the kernel may have under way, from how many on it counts as congested, and the time
# granularity in nanoseconds.
MAX_BACKGROUND, CONGESTED, TIME_STEP = 12, 9, 1
SECOND = 1_000_000_000
# The bits of a mode that may be set.
PERMISSIONS = 0o7777
# The alignment of a folder's entries.
ALIGNMENT = 8
# The names of notifications, and the one that is sent. The offset -1 means no bytes: only the attributes are stale.
UNASKED, INVALID_INODE, NO_BYTES = 0, 2, -1


class Opcode(enum.IntEnum):
    """What a message requests (`enum fuse_opcode`)."""

    LOOKUP = 1
    FORGET = 2
    GETATTR = 3
    SETATTR = 4
    SYMLINK = 6
    MKNOD = 8
    MKDIR = 9
    UNLINK = 10
    RMDIR = 11
    RENAME = 12
    LINK = 13
    OPEN = 14
    READ = 15
    WRITE = 16
    STATFS = 17
    RELEASE = 18
    FSYNC = 20
    FLUSH = 25
    INIT = 26
    OPENDIR = 27
    READDIR = 28
    RELEASEDIR = 29
    FSYNCDIR = 30
    CREATE = 35
    DESTROY = 38
    BATCH_FORGET = 42
    RENAME2 = 45


class Wanted(enum.IntFlag):
    """The flags that the reply to INIT may choose. With the first, an open says that it truncates."""

    ATOMIC_O_TRUNC = 1 << 3
    BIG_WRITES = 1 << 5
    AUTO_INVAL_DATA = 1 << 12
    MAX_PAGES = 1 << 22


# How the kernel treats an open file (FOPEN_KEEP_CACHE, FOPEN_NOFLUSH).
KEEP_CACHE, NO_FLUSH = 1 << 1, 1 << 5
# What a SETATTR changes: the bits of its first field.
MODE, OWNER, GROUP, SIZE, ACCESSED, MODIFIED, HANDLE, ACCESSED_NOW, MODIFIED_NOW = (1 << bit for bit in range(9))

# The layouts, by their names in linux/fuse.h. A message may be longer than what is read of it, and a name follows if it has one.
IN_HEADER = struct.Struct("=IIQQIII4x")  # length, opcode, unique, node, user, group, process
OUT_HEADER = struct.Struct("=IiQ")  # length, error, unique
ATTR = struct.Struct("=6Q10I")
ENTRY_OUT = struct.Struct("=QQQQII")  # node, generation, seconds of the name and of the attributes, their nanoseconds
ATTR_OUT = struct.Struct("=QII")  # seconds and nanoseconds of the attributes
OPEN_OUT = struct.Struct("=QII")  # handle, flags
WRITE_OUT = struct.Struct("=II")  # size
DIRENT = struct.Struct("=QQII")  # inode, offset of the next entry, length of the name, kind
INIT_IN = struct.Struct("=IIII")  # major, minor, bytes read ahead, flags
INIT_OUT = struct.Struct("=IIIIHHIIHHI28x")
STATFS_OUT = struct.Struct("=QQQQQIII28x")
SETATTR_IN = struct.Struct("=IIQQQQQQIIIIIIII")
FORGET_IN = struct.Struct("=Q")  # count
BATCH_FORGET_IN = struct.Struct("=II")  # how many pairs follow
FORGET_ONE = struct.Struct("=QQ")  # node, count
MKNOD_IN = struct.Struct("=IIII")  # mode, device, mask
MKDIR_IN = struct.Struct("=II")  # mode, mask
RENAME_IN = struct.Struct("=Q")  # the other folder
RENAME2_IN = struct.Struct("=QII")  # the other folder, flags
LINK_IN = struct.Struct("=Q")  # the file
OPEN_IN = struct.Struct("=II")  # flags
CREATE_IN = struct.Struct("=IIII")  # flags, mode, mask
TRANSFER_IN = struct.Struct("=QQIIQII")  # `fuse_read_in` and `fuse_write_in`: handle, offset, size, flags
HANDLE_IN = struct.Struct("=Q")  # the beginning of all layouts that have only a handle
INVAL_INODE_OUT = struct.Struct("=Qqq")  # node, the offset of the stale bytes, and how many

# The bytes of an answer.
Reply: TypeAlias = bytes | bytearray | memoryview


class Caller(NamedTuple):
    """Who asks. `process` is the number of the thread that asks, or 0 if it is not visible from here."""

    user: int
    group: int
    process: int


class Attributes(NamedTuple):
    """The times are in nanoseconds since 1970."""

    inode: int
    size: int
    blocks: int
    accessed: int
    modified: int
    changed: int
    mode: int
    links: int
    user: int
    group: int


class Entry(NamedTuple):
    """The result of a lookup: the number, the attributes, and for how many seconds the kernel may keep these."""

    node: int
    attributes: Attributes
    seconds: int


class Changes(NamedTuple):
    """The changes of a file; a field that is None stays."""

    mode: int | None
    user: int | None
    group: int | None
    size: int | None
    accessed: int | None
    modified: int | None


class Space(NamedTuple):
    """What an image has room for."""

    blocks: int
    free_blocks: int
    files: int
    free_files: int
    block_size: int
    name_length: int


class Opened(NamedTuple):
    """The number of an open file, and how the kernel treats it."""

    handle: int
    flags: int


class Created(NamedTuple):
    """A file that was made, and its number while it is open."""

    entry: Entry
    handle: int


class Unmounted(Exception):
    """There will be no more requests."""


def packed(found: Attributes) -> bytes:
    return ATTR.pack(
        found.inode, found.size, found.blocks, found.accessed // SECOND, found.modified // SECOND, found.changed // SECOND,
        found.accessed % SECOND, found.modified % SECOND, found.changed % SECOND, found.mode, found.links, found.user, found.group,
        0, PAGE, 0)


def entry_bytes(entry: Entry) -> bytes:
    # A name is looked up again each time: what it leads to changes with the words of a file.
    return ENTRY_OUT.pack(entry.node, 0, 0, entry.seconds, 0, 0) + packed(entry.attributes)


def names(body: memoryview) -> list[bytes]:
    return bytes(body).split(b"\0")


class Changed(Protocol):
    """Called with the number of each file whose attributes have changed."""

    def __call__(self, number: int, /) -> None: ...


class Handlers(Protocol):
    """The object that answers. Files and folders are identified by their numbers, and open ones by their handles."""

    # The thread that asks.
    asker: int
    changed: Changed

    def lookup(self, number: int, name: bytes) -> Entry: ...
    def forget(self, number: int, count: int) -> None: ...
    def getattr(self, number: int) -> Entry: ...
    def setattr(self, number: int, changes: Changes, handle: int | None) -> Entry: ...
    def mknod(self, number: int, name: bytes, mode: int, caller: Caller) -> Entry: ...
    def mkdir(self, number: int, name: bytes, mode: int, caller: Caller) -> Entry: ...
    def unlink(self, number: int, name: bytes) -> None: ...
    def rmdir(self, number: int, name: bytes) -> None: ...
    def rename(self, number: int, old: bytes, target_number: int, new: bytes, flags: int) -> None: ...
    def link(self, number: int, target_number: int, name: bytes) -> Entry: ...
    def open(self, number: int, flags: int) -> Opened: ...
    def create(self, number: int, name: bytes, flags: int, mode: int, caller: Caller) -> Created: ...
    def read(self, handle: int, offset: int, size: int) -> bytes | bytearray: ...
    def write(self, handle: int, offset: int, data: memoryview, flags: int) -> int: ...
    def flush(self, handle: int, process: int) -> None: ...
    def fsync(self, handle: int) -> None: ...
    def release(self, handle: int) -> None: ...
    def opendir(self, number: int) -> int: ...
    def readdir(self, handle: int, offset: int) -> list[tuple[int, int, bytes]]: ...
    def releasedir(self, handle: int) -> None: ...
    def fsyncdir(self) -> None: ...
    def statfs(self) -> Space: ...


class Connection:
    """One mount, whose messages `handlers` answer."""

    def __init__(self, device: int, handlers: Handlers) -> None:
        self.device, self.handlers = device, handlers
        self.buffer = bytearray(LARGEST + BESIDE)
        self.view = memoryview(self.buffer)
        self.calls: dict[int, Callable[[int, memoryview, Caller], Reply]] = {
            Opcode.LOOKUP: self.lookup, Opcode.FORGET: self.forget, Opcode.GETATTR: self.getattr, Opcode.SETATTR: self.setattr,
            Opcode.SYMLINK: self.symlink, Opcode.MKNOD: self.mknod, Opcode.MKDIR: self.mkdir, Opcode.UNLINK: self.unlink,
            Opcode.RMDIR: self.rmdir, Opcode.RENAME: self.rename, Opcode.LINK: self.link, Opcode.OPEN: self.open, Opcode.READ: self.read,
            Opcode.WRITE: self.write, Opcode.STATFS: self.statfs, Opcode.RELEASE: self.release, Opcode.FSYNC: self.fsync,
            Opcode.FLUSH: self.flush, Opcode.INIT: self.init, Opcode.OPENDIR: self.opendir, Opcode.READDIR: self.readdir,
            Opcode.RELEASEDIR: self.releasedir, Opcode.FSYNCDIR: self.fsyncdir, Opcode.CREATE: self.create, Opcode.DESTROY: self.nothing,
            Opcode.BATCH_FORGET: self.forget_all, Opcode.RENAME2: self.rename_with_flags,
        }
        # These have no reply.
        self.silent = {Opcode.FORGET, Opcode.BATCH_FORGET}
        handlers.changed = self.changed

    def serve(self) -> None:
        """Waits for one message, and answers it. Raises `Unmounted` if there will be none."""
        try:
            count = os.readv(self.device, [self.buffer])
        except OSError as error:
            if error.errno == errno.ENODEV:
                raise Unmounted from None
            # A message that was withdrawn while it was read.
            if error.errno in (errno.ENOENT, errno.EINTR, errno.EAGAIN):
                return
            raise
        if not count:
            raise Unmounted
        _, code, unique, node, user, group, process = IN_HEADER.unpack_from(self.buffer)
        self.handlers.asker = process
        answer: Reply
        try:
            # The kernel does not repeat an unknown request: it does without.
            call = self.calls.get(code)
            if call is None:
                raise OSError(errno.ENOSYS, "not known")
            answer = call(node, self.view[IN_HEADER.size:count], Caller(user, group, process))
            failed = 0
        except OSError as error:
            answer, failed = b"", error.errno or errno.EIO
        except Exception:  # An internal error is reported, and the asker gets an error; nothing was acknowledged.
            say_fault()
            answer, failed = b"", errno.EIO
        if code not in self.silent:
            self.send(OUT_HEADER.pack(OUT_HEADER.size + len(answer), -failed, unique), answer)

    def send(self, head: bytes, body: Reply = b"") -> None:
        try:
            os.writev(self.device, [head, body])
        except OSError as error:
            # The asker was killed meanwhile, or the kernel does not keep what changed.
            if error.errno not in (errno.ENOENT, errno.ENODEV, errno.ENOTCONN):
                raise

    def changed(self, node: int) -> None:
        """Notifies the kernel that the attributes that it keeps for a file are stale. It then checks the file's bytes by the new ones."""
        self.send(OUT_HEADER.pack(OUT_HEADER.size + INVAL_INODE_OUT.size, INVALID_INODE, UNASKED), INVAL_INODE_OUT.pack(node, NO_BYTES, 0))

    def init(self, _: int, body: memoryview, caller: Caller) -> bytes:
        major, minor, ahead, flags = INIT_IN.unpack_from(body)
        if major != MAJOR or minor < OLDEST_MINOR:
            print(f"mount: this kernel speaks {major}.{minor}, and {MAJOR}.{OLDEST_MINOR} is needed", file=sys.stderr)
            raise OSError(errno.EPROTO, "too old")
        wanted = (Wanted.ATOMIC_O_TRUNC | Wanted.BIG_WRITES | Wanted.AUTO_INVAL_DATA | Wanted.MAX_PAGES) & flags
        return INIT_OUT.pack(MAJOR, min(minor, MINOR), ahead, wanted, MAX_BACKGROUND, CONGESTED, LARGEST, TIME_STEP, LARGEST // PAGE, 0, 0)

    def nothing(self, node: int, body: memoryview, caller: Caller) -> bytes:
        return b""

    def symlink(self, node: int, body: memoryview, caller: Caller) -> Reply:
        raise OSError(errno.EPERM, "no links of this kind")

    def lookup(self, node: int, body: memoryview, caller: Caller) -> bytes:
        return entry_bytes(self.handlers.lookup(node, names(body)[0]))

    def forget(self, node: int, body: memoryview, caller: Caller) -> bytes:
        self.handlers.forget(node, FORGET_IN.unpack_from(body)[0])
        return b""

    def forget_all(self, _: int, body: memoryview, caller: Caller) -> bytes:
        begin = BATCH_FORGET_IN.size
        for node, count in FORGET_ONE.iter_unpack(body[begin:begin + FORGET_ONE.size * BATCH_FORGET_IN.unpack_from(body)[0]]):
            self.handlers.forget(node, count)
        return b""

    def attributes(self, found: Entry) -> bytes:
        return ATTR_OUT.pack(found.seconds, 0, 0) + packed(found.attributes)

    def getattr(self, node: int, body: memoryview, caller: Caller) -> bytes:
        return self.attributes(self.handlers.getattr(node))

    def setattr(self, node: int, body: memoryview, caller: Caller) -> bytes:
        (valid, _, handle, size, _, accessed, modified, _, accessed_part, modified_part, _, mode, _, user, group,
         _) = SETATTR_IN.unpack_from(body)
        now = time.time_ns()
        changes = Changes(
            mode & PERMISSIONS if valid & MODE else None, user if valid & OWNER else None, group if valid & GROUP else None,
            size if valid & SIZE else None,
            now if valid & ACCESSED_NOW else accessed * SECOND + accessed_part if valid & ACCESSED else None,
            now if valid & MODIFIED_NOW else modified * SECOND + modified_part if valid & MODIFIED else None)
        return self.attributes(self.handlers.setattr(node, changes, handle if valid & HANDLE else None))

    def mknod(self, node: int, body: memoryview, caller: Caller) -> bytes:
        mode = MKNOD_IN.unpack_from(body)[0]
        return entry_bytes(self.handlers.mknod(node, names(body[MKNOD_IN.size:])[0], mode, caller))

    def mkdir(self, node: int, body: memoryview, caller: Caller) -> bytes:
        mode = MKDIR_IN.unpack_from(body)[0]
        return entry_bytes(self.handlers.mkdir(node, names(body[MKDIR_IN.size:])[0], mode, caller))

    def unlink(self, node: int, body: memoryview, caller: Caller) -> bytes:
        self.handlers.unlink(node, names(body)[0])
        return b""

    def rmdir(self, node: int, body: memoryview, caller: Caller) -> bytes:
        self.handlers.rmdir(node, names(body)[0])
        return b""

    def rename(self, node: int, body: memoryview, caller: Caller) -> bytes:
        old, new = names(body[RENAME_IN.size:])[:2]
        self.handlers.rename(node, old, RENAME_IN.unpack_from(body)[0], new, 0)
        return b""

    def rename_with_flags(self, node: int, body: memoryview, caller: Caller) -> bytes:
        folder, flags, _ = RENAME2_IN.unpack_from(body)
        old, new = names(body[RENAME2_IN.size:])[:2]
        self.handlers.rename(node, old, folder, new, flags)
        return b""

    def link(self, node: int, body: memoryview, caller: Caller) -> bytes:
        return entry_bytes(self.handlers.link(LINK_IN.unpack_from(body)[0], node, names(body[LINK_IN.size:])[0]))

    def open(self, node: int, body: memoryview, caller: Caller) -> bytes:
        handle, flags = self.handlers.open(node, OPEN_IN.unpack_from(body)[0])
        return OPEN_OUT.pack(handle, flags, 0)

    def create(self, node: int, body: memoryview, caller: Caller) -> bytes:
        flags, mode, _, _ = CREATE_IN.unpack_from(body)
        entry, handle = self.handlers.create(node, names(body[CREATE_IN.size:])[0], flags, mode, caller)
        return entry_bytes(entry) + OPEN_OUT.pack(handle, 0, 0)

    def read(self, node: int, body: memoryview, caller: Caller) -> Reply:
        handle, offset, size, _, _, _, _ = TRANSFER_IN.unpack_from(body)
        return self.handlers.read(handle, offset, size)

    def write(self, node: int, body: memoryview, caller: Caller) -> bytes:
        handle, offset, size, _, _, flags, _ = TRANSFER_IN.unpack_from(body)
        return WRITE_OUT.pack(self.handlers.write(handle, offset, body[TRANSFER_IN.size:TRANSFER_IN.size + size], flags), 0)

    def flush(self, node: int, body: memoryview, caller: Caller) -> bytes:
        self.handlers.flush(HANDLE_IN.unpack_from(body)[0], caller.process)
        return b""

    def fsync(self, node: int, body: memoryview, caller: Caller) -> bytes:
        self.handlers.fsync(HANDLE_IN.unpack_from(body)[0])
        return b""

    def release(self, node: int, body: memoryview, caller: Caller) -> bytes:
        self.handlers.release(HANDLE_IN.unpack_from(body)[0])
        return b""

    def opendir(self, node: int, body: memoryview, caller: Caller) -> bytes:
        return OPEN_OUT.pack(self.handlers.opendir(node), 0, 0)

    def readdir(self, node: int, body: memoryview, caller: Caller) -> Reply:
        handle, offset, size, _, _, _, _ = TRANSFER_IN.unpack_from(body)
        entries, out = self.handlers.readdir(handle, offset), bytearray()
        for index in range(offset, len(entries)):
            inode, kind, name = entries[index]
            record = DIRENT.pack(inode, index + 1, len(name), kind) + name
            record += bytes(-len(record) % ALIGNMENT)
            if len(out) + len(record) > size:
                break
            out += record
        return out

    def releasedir(self, node: int, body: memoryview, caller: Caller) -> bytes:
        self.handlers.releasedir(HANDLE_IN.unpack_from(body)[0])
        return b""

    def fsyncdir(self, node: int, body: memoryview, caller: Caller) -> bytes:
        self.handlers.fsyncdir()
        return b""

    def statfs(self, node: int, body: memoryview, caller: Caller) -> bytes:
        space = self.handlers.statfs()
        return STATFS_OUT.pack(space.blocks, space.free_blocks, space.free_blocks, space.files, space.free_files, space.block_size,
                               space.name_length, space.block_size)
