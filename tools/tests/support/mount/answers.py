"""The answers of a mount: tables, and mounts that are asked in any of the ways of `asking`. Only for tests."""
from __future__ import annotations

import contextlib
import os
import signal
import socket
import struct
import subprocess
import sys
import tempfile
import threading
from collections.abc import Callable, Iterator
from typing import Any, TypeAlias

from lisfs.client import Ended, End
from lisfs.dumps import NotADump, opened
from lisfs.formulas import NotAFormula, TooLarge
from lisfs.limits import limits_of
from lisfs.mount import attach, kernel
from lisfs.mount.image import Image
from lisfs.mount.kernel import Connection
from lisfs.mount.tree import Tree
from support import images, tool
from support.mount import asking
from support.mount.asking import Asker, Direct, Real
from support.waiting import LONG

MOUNT = tool("mount")


def told_by(call: Callable[..., Any], *given: Any) -> Any:
    """The result of a call, the name of a system error, or another error."""
    try:
        return asking.told_by(call, *given)
    except (NotAFormula, TooLarge, NotADump, Ended) as error:
        return type(error)


def make(image: str, *limits: str) -> None:
    images.make(image, limits)


def has_inodes() -> bool:
    """Whether this system shows the inodes of open files."""
    with open("/proc/self/stat", encoding="ascii") as file, open(f"/proc/self/fdinfo/{file.fileno()}", encoding="ascii") as info:
        return "ino:" in info.read()


@contextlib.contextmanager
def directly(image: str, with_derived: bool = False) -> Iterator[Direct]:
    program, dump = opened(image)
    with program:
        yield Direct(Tree(Image(program, dump, limits_of(image)), with_derived))


@contextlib.contextmanager
def by_messages(image: str, with_derived: bool = False) -> Iterator[Direct]:
    program, dump = opened(image)
    ours, theirs = socket.socketpair(socket.AF_UNIX, socket.SOCK_SEQPACKET)
    connection = Connection(theirs.fileno(), Tree(Image(program, dump, limits_of(image)), with_derived))

    def serve() -> None:
        with contextlib.suppress(kernel.Unmounted):
            while True:
                connection.serve()

    thread = threading.Thread(target=serve)
    thread.start()
    with program, theirs:
        with ours:
            asker = Asker(ours)
            reply = struct.unpack_from("=IIIIHHIIHHI", asker.ask(26, 0, struct.pack("=IIIII44x", 7, 45, 131_072, 0xffffffff, 0)))
            assert (reply[:2], reply[3] & 1 << 3, reply[6], reply[8]) == ((7, 38), 8, 1_048_576, 256), ("the first message", reply)
            yield Direct(asker)
        thread.join()


@contextlib.contextmanager
def really(image: str, with_derived: bool = False) -> Iterator[Real]:
    folder = tempfile.mkdtemp(dir=".")
    mount = Mount(image, folder, *(["--derived"] if with_derived else []))
    try:
        yield Real(folder)
    finally:
        mount.stop()
        os.rmdir(folder)


class Mount:
    """A run of `tools/mount`. It waits until the folder can be used."""

    def __init__(self, image: str, folder: str, *more: str) -> None:
        self.folder = os.path.abspath(folder)
        self.child = subprocess.Popen([sys.executable, MOUNT, *more, image, folder], stdin=subprocess.DEVNULL, stdout=subprocess.DEVNULL,
                                      stderr=subprocess.PIPE)
        assert self.child.stderr
        line = self.child.stderr.readline()
        assert line == f"mount: {image} is at {folder}\n".encode(), "what a mount says"

    def stop(self, number: int = signal.SIGTERM) -> End:
        self.child.send_signal(number)
        return self.ended()

    def ended(self) -> End:
        """The status, and what else was said."""
        try:
            said = self.child.communicate(timeout=LONG)[1].decode()
        except subprocess.TimeoutExpired:
            self.child.kill()
            said = "no end"
        if os.path.ismount(self.folder) or told_by(os.stat, self.folder) == "ENOTCONN":
            attach.detach(self.folder)
            said += "still mounted"
        others = [line for line in said.splitlines() if not line.startswith("mount: the image is full: ")]
        assert not others or self.child.returncode, ("what a mount says at its end", said)
        return End(self.child.returncode, said)


# What a program finds and gets, each row in turn over one image: the answer, the call, and its arguments.
Rows: TypeAlias = tuple[tuple[object, ...], ...]
FOLDERS: Rows = (
    ([], "ls", ""),
    (None, "mkdir", "music"),
    (["music/"], "ls", ""),
    ("EEXIST", "mkdir", "music"),
    ("EINVAL", "mkdir", "a b"), ("EINVAL", "mkdir", "x~"), ("EINVAL", "mkdir", ".music"), ("ENAMETOOLONG", "mkdir", "w" * 61),
    ("EPERM", "mkdir", "size:"), ("EPERM", "mkdir", "year:2003"), ("ENOENT", "mkdir", "nosuch/live"),
    (None, "put", "music/gig", b"gig"),
    # All files have it, so that it narrows nothing.
    (["gig"], "ls", ""),
    (["gig"], "ls", "music"),
    (None, "put", "todo", b"todo"),
    (["music/", "todo"], "ls", ""),
    (None, "mkdir", "music/jazz"),
    (["jazz/", "gig"], "ls", "music"),
    (["music/", "todo"], "ls", ""),
    (None, "mkdir", "live"),
    (["live/", "music/", "todo"], "ls", ""),
    ([], "ls", "music/live"),
    ("ENOENT", "ls", "year:2003"),
    (None, "mkdir", "year:"),
    ([], "ls", "year:2003"),
    (None, "put", "music/year:2003/album", b"album"),
    (["jazz/", "year:/", "gig"], "ls", "music"),
    (["album"], "ls", "music/year:"),
    (["album"], "ls", "year:2003"),
    ("ENOENT", "ls", "year:1999|todo"),
    (["todo"], "ls", "!music"),
    (["album"], "ls", "music|live/year:"),
    (["album", "gig", "todo"], "ls", ":all"),
    (["album", "gig"], "ls", "music/:all"),
    ("ENOENT", "ls", ":all/music"), ("ENOENT", "stat", ":all/:all"),
    ("EPERM", "mkdir", ":all/x"), ("EEXIST", "mkdir", ":all"), ("EEXIST", "mkdir", ":by"), ("EPERM", "mkdir", "!music/x"),
    ("EPERM", "mkdir", "year:2003/x"),
    ("EPERM", "rmdir", ":all"), ("EPERM", "rmdir", ":by"),
    (b"album", "get", "album"), (b"album", "get", "year:/album"), (b"album", "get", "music/:all/album"),
    (b"album", "get", "size>=5/size<6/album"),
    ("ENOENT", "get", "live/album"), ("ENOENT", "get", "nosuch"), ("ENOENT", "get", "x~"), ("ENAMETOOLONG", "get", "n" * 61),
    ("ENOTDIR", "ls", "gig"), ("ENOTDIR", "get", "gig/x"), ("EISDIR", "put", "music", b""), ("EISDIR", "put", "!live", b""),
    ("ENAMETOOLONG", "ls", "/".join(["music"] * 33)),
)
TAKING_BACK: Rows = (
    (None, "mkdir", "music"), (None, "mkdir", "live"), (None, "mkdir", "music/jazz"), (None, "mkdir", "music/jazz/bop"),
    (None, "put", "music/live/gig", b""), (None, "put", "todo", b""),
    ("ENOTEMPTY", "rmdir", "music"), ("ENOTEMPTY", "rmdir", "music/jazz"), ("ENOTEMPTY", "rmdir", "live"), ("ENOENT", "rmdir", "nosuch"),
    ("ENOTDIR", "rmdir", "todo"),
    ("ENOTEMPTY", "rmdir", "!music"),
    (None, "rmdir", "music/jazz/bop"),
    (None, "rmdir", "music/jazz"),
    ("ENOENT", "ls", "jazz"),
    (None, "unlink", "music/gig"),
    ("ENOENT", "ls", "music/gig"),
    # It belongs to the root, and stays.
    (None, "rmdir", "music/live"),
    (["live/", "music/", "todo"], "ls", ""),
    (None, "rmdir", "live"), (None, "rmdir", "music"),
    (["todo"], "ls", ""),
    ("ENOENT", "rmdir", "music"),
    # A word that all files of a folder have is not shown, and goes with the folder.
    (None, "mkdir", "a"), (None, "mkdir", "a/b"), (None, "mkdir", "a/b/c"), (None, "put", "a/b/c/x", b""), (["x"], "ls", "a"),
    (None, "unlink", "a/x"), (None, "rmdir", "a"),
    ("ENOENT", "ls", "b"), ("ENOENT", "ls", "c"),
    # But not if it was shown since.
    (None, "mkdir", "a"), (None, "mkdir", "a/b"), (None, "put", "a/b/x", b""), (None, "unlink", "a/x"), (["b/"], "ls", "a"),
    ("ENOTEMPTY", "rmdir", "a"), (None, "rmdir", "a/b"), (None, "rmdir", "a"),
    # A word of two folders belongs to each whose word it doesn't entail by another one.
    (None, "mkdir", "a"), (None, "mkdir", "b"), (None, "mkdir", "a/b/c"), (["a/", "b/", "todo"], "ls", ""), (["c/"], "ls", "a"),
    (["c/"], "ls", "b"), (["c/"], "ls", "b/a"),
    (None, "put", "a/x", b""), (None, "put", "a/b/y", b""), (["b/", "x"], "ls", "a"), (["c/", "y"], "ls", "a/b"),
    (None, "unlink", "x"), (None, "unlink", "y"), (None, "rmdir", "a/b/c"), (None, "rmdir", "a"), (None, "rmdir", "b"),
    (None, "mkdir", "music"), (None, "put", "music/x", b"again"), (["music/", "todo"], "ls", ""),
    (None, "mkdir", "year:"), (None, "put", "year:1/y", b""), (None, "unlink", "y"), (None, "rmdir", "year:1"), (None, "rmdir", "year:"),
    ("ENOENT", "ls", "year:1"),
    # A test opens without being declared, so that it can't be declared.
    ("EEXIST", "mkdir", "size>=5"), (["x"], "ls", "size>=5"), ("ENOTEMPTY", "rmdir", "size>=5"), (None, "unlink", "x"),
    (None, "rmdir", "size>=5"), (["music/", "todo"], "ls", ""),
)
DERIVED: Rows = (
    (None, "mkdir", "music"), (None, "put", "music/a.c", b"#include <stdio.h>\n"), (None, "put", "b.txt", b""),
    (None, "put", "c.eml", b"From: a@b\n\nhi\n"),
    (["music/", "b.txt", "c.eml"], "ls", ""), (None, "put", "plain", b""), (["b.txt", "plain"], "ls", "size<1"),
    (["ext:c/", "ext:eml/", "ext:txt/"], "ls", ":by/ext:"),
    (["ext:/", "from:/", "includes:/", "music/", "size:empty/", "size:small/"], "ls", ":by"),
    (["ext:c/", "ext:eml/", "from:/", "includes:/", "music/"], "ls", ":by/size:small"),
    (["a.c"], "ls", "ext:c"), (["c.eml"], "ls", "from:a@b"), (["a.c"], "ls", ":by/includes:/includes:stdio.h/:all"),
    ([], "ls", "!ext:c/music"),
    ("ENOENT", "ls", "ext:h"), ("ENOENT", "ls", "defines:"), ("ENOENT", "ls", "subject:"),
    # Words that come from the file itself follow its bytes and its name.
    (None, "put", "c.eml", b"From: c@d\n\nhi\n"), ("ENOENT", "ls", "from:a@b"), (["c.eml"], "ls", "from:c@d"),
    (None, "rename", "b.txt", "b.h"), ("ENOENT", "ls", "ext:txt"), (["b.h"], "ls", "ext:h"),
    (None, "put", "ext:c/d.c", b""), ("EPERM", "put", "ext:c/d.h", b""), ("ENOENT", "stat", "d.h"), ("EPERM", "rename", "b.h", "ext:c/b.h"),
    ("EPERM", "put", "size<1/x", b""),
)
NAMES: Rows = (
    (None, "mkdir", "music"), (None, "mkdir", "live"), (None, "mkdir", "year:"), (None, "put", "music/gig", b"gig"),
    (None, "put", "todo", b"todo"),
    # Names are global.
    ("EEXIST", "put", "live/gig", b""), ("EEXIST", "put", "year:2003/todo", b""), ("EEXIST", "mkdir", "todo"), ("EEXIST", "mkdir", "live/gig"),
    ("EINVAL", "put", "a b", b""), ("EINVAL", "put", "x~", b""), ("EINVAL", "put", "\xe4", b""), ("ENAMETOOLONG", "put", "n" * 61, b""),
    (None, "put", "n" * 60, b""),
    (None, "put", ".hidden", b""), ("EINVAL", "put", "a:b", b""), ("EPERM", "put", "!live/x", b""), ("EPERM", "put", "year:/x", b""),
    ("EPERM", "put", "music|live/x", b""),
    (None, "unlink", "n" * 60), (None, "unlink", ".hidden"),
    # `mv` takes the words of one folder and gives those of the other.
    (None, "rename", "music/gig", "live/gig"), ([], "ls", "music"), (["gig"], "ls", "live"), (b"gig", "get", "live/gig"),
    (None, "rename", "live/gig", "live/concert"), ("ENOENT", "stat", "live/gig"), (b"gig", "get", "live/concert"),
    (None, "rename", "live/concert", "music/year:2003/gig"), (["gig"], "ls", "year:2003"), ([], "ls", "live"), (["gig"], "ls", "music"),
    ("EEXIST", "rename", "todo", "live/gig"), (["gig"], "ls", "music"), (b"todo", "get", "todo"),
    ("EPERM", "rename", "music/gig", "!live/gig"), ("EPERM", "rename", "size>=3/gig", "live/gig"),
    ("EPERM", "rename", "size>=3/gig", "!live/gig"), ("EPERM", "rename", "size>=3/gig", "music|live/concert"), (b"gig", "get", "size>=3/gig"),
    ("EPERM", "rename", "music/gig", "year:/concert"), (b"gig", "get", "gig"),
    ("EINVAL", "rename", "todo", "x~"), ("ENAMETOOLONG", "rename", "todo", "n" * 61), ("ENOENT", "rename", "nosuch", "x"),
    ("EPERM", "rename", "music", "sound"),
    # Onto itself in a folder above: it loses the words of the lower one.
    (None, "rename", "music/gig", "year:2003/gig"), ([], "ls", "music"), (None, "rename", "year:2003/gig", "gig"),
    (["live/", "music/", "year:/", "gig", "todo"], "ls", ""),
    (None, "rename", ":all/gig", "gig"), (None, "rename", "gig", ":all/gig"),
    # A link is more words.
    (None, "link", "gig", "music/gig"), (None, "link", "music/gig", "live/gig"), ("EEXIST", "link", "gig", "live/gig"),
    ("EPERM", "link", "gig", "concert"), ("EPERM", "link", "gig", "year:/gig"),
    (["gig"], "ls", "music/live"), (None, "link", "gig", "year:1/gig"), (["gig"], "ls", "live/music/year:1"),
    # Onto another file it is its bytes; that one keeps its words, and the old name goes.
    (None, "put", "todo", b"other"), (None, "rename", "todo", "gig"), (b"other", "get", "music/live/gig"), ("ENOENT", "stat", "todo"),
    (["gig"], "ls", ":all"),
    (None, "put", "live/x", b"x"), (None, "rename", "live/x", "music/gig"), (b"x", "get", "gig"), (["gig"], "ls", ":all"),
    (None, "rename", "gig", "gig"), ("EEXIST", "put", ":all/live", b""), ("EISDIR", "put", "live", b""),
    (None, "unlink", "live/gig"), ("ENOENT", "unlink", "music/gig"), ([], "ls", ":all"),
)


RD, WR, RW, NEW = os.O_RDONLY, os.O_WRONLY, os.O_RDWR, os.O_CREAT | os.O_TRUNC
