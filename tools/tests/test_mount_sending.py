"""Which commands a mount sends to the program for a request, and when: a new file waits for its bytes, and is never lost silently."""
import contextlib
import errno
import io
import os

import pytest

from lisfs.client import Ended, Refused
from lisfs.mount import tree
from lisfs.mount.kernel import Changes
from lisfs.refusals import error_of
from support import images
from support.mount.answers import NEW, RD, RW, WR, directly, has_inodes, make, told_by

pytestmark = pytest.mark.usefixtures("program")

CHANGES = ("cd", "create", "add", "write", "mv", "rename", "rm", "mkdir", "rmdir", "axiom", "unaxiom")


@pytest.fixture
def asked(program):
    """A mount that is asked directly, and what a call of it sends: the changes, and the steps on the way."""
    noted = []

    def sent(call, *given):
        noted.clear()
        call(*given)
        return [line for line in noted if line.split()[0] in CHANGES]

    make("image", "64", "128", "64")
    with directly("image") as ways:
        program = ways.tree.image.program
        send_bytes = program.send_bytes
        program.send_bytes = lambda line, payload=b"", room=None: (noted.append(line.decode().rstrip()), send_bytes(line, payload, room))
        yield ways, sent


def test_commands(asked):
    """The commands for each request."""
    ways, sent = asked
    for wanted, call, *given in (
            (["mkdir music"], "mkdir", "music"), (["cd /music", "mkdir jazz", "cd /"], "mkdir", "music/jazz"),
            (["add x 1 music"], "put", "music/x", b"x"), (["write x 2"], "put", "music/x", b"xy"),
            (["create y"], "put", "y", b""),
            (["cd /music", "mv x /", "cd /"], "rename", "music/x", "x"), (["mv x /music/jazz"], "rename", "x", "music/jazz/x"),
            (["rename x z"], "rename", "x", "z"),
            (["rename z x", "cd /music/jazz", "mv x /music", "cd /"], "rename", "music/jazz/z", "music/x"),
            (["write y 2", "rm x"], "rename", "music/x", "y"), (["mv y /jazz"], "link", "y", "jazz/y"), (["rm y"], "unlink", "jazz/y"),
            (["unaxiom jazz music", "rmdir jazz"], "rmdir", "music/jazz"), (["add x 3"], "put", "x", b"old"),
            ([], "get", "x")):
        assert told_by(sent, getattr(ways, call), *given) == wanted, f"sent for {call}{given}"


@pytest.fixture
def with_a_file(asked):
    """The same, with a word and a file."""
    ways, _ = asked
    ways.mkdir("music")
    ways.put("x", b"old")
    return asked


def test_closes(with_a_file):
    """A shell closes one of two descriptors before it writes, and the other at the end."""
    ways, sent = with_a_file
    node, handle = ways.walk("x"), ways.open("x", WR | os.O_TRUNC)
    # A file whose inode differs from those of all open files, on whatever disk.
    other = next(name for name in map("other{}".format, range(99)) if not tree.is_open_in(os.getpid(), number_of(name)))
    with open(other, "w"):
        inode = ways.tree.nodes[node].inode = number_of(other)
        assert tree.is_open_in(os.getpid(), inode) == has_inodes(), "an open file of this process"
        assert told_by(sent, ways.tree.flush, handle, os.getpid()) == ([] if has_inodes() else ["write x 0"]), "the first close"
        ways.write(handle, b"new", 0)
        assert told_by(sent, ways.tree.flush, handle, os.getpid()) == ["write x 3"], "the second one"
    ways.close(handle)
    handle = ways.open("x", WR | os.O_TRUNC)
    with open(other):
        assert told_by(sent, ways.tree.flush, handle, os.getpid()) == ["write x 0"], "a close of the only one that may write"
    ways.write(handle, b"more", 0)
    ways.close(handle)
    handle = ways.open("x", WR | os.O_TRUNC)
    assert told_by(sent, ways.close, handle) == ["write x 0"], "a close of the only one"
    assert told_by(sent, lambda: ways.close(ways.open("x", RD))) == [], "a close of a reader"


def test_waits(with_a_file):
    """A new file waits for its bytes, but not while anything else must be changed or asked."""
    ways, sent = with_a_file
    handles = []

    def begin(name):
        handles.append(ways.open(name, WR | NEW))

    def row(wanted, call, *given):
        assert told_by(sent, getattr(ways, call), *given) == wanted, f"a new file waits, {call}{given}"

    for name, rows in (
            ("new", (([], "write", b"n", 0), ([], "stat", "new"), ([], "get", "x"), (["create new"], "ls", ""), (["write new 1"], "close"))),
            ("synced", ((["create synced"], "sync"), ([], "write", b"s", 0), (["write synced 1"], "sync"), ([], "close"))),
            ("music/whole", (([], "write", b"w", 0), (["add whole 1 music"], "sync"), ([], "close"))),
            ("empty", ((["create empty"], "close"),)),
            ("shown", ((["create shown"], "sync_folder", ""), ([], "close"))),
            ("first", ((["create first", "write x 1"], "put", "x", b"X"), ([], "close"))),
            ("gone", ((["create gone", "rm gone"], "unlink", "gone"), ([], "write", b"g", 0), ([], "close"))),
            ("music/found", ((["create found music"], "get", "size<1/found"), ([], "write", b"f", 0), (["write found 1"], "close"))),
            ("moved", ((["create moved", "mv moved /music"], "rename", "moved", "music/moved"), ([], "close"))),
            ("named", (([], "write", b"n", 0), (["create named", "rename named other"], "rename", "named", "other"), (["write other 1"], "close"))),
            ("taken", (([], "write", b"t", 0), (["create taken", "write x 1", "rm taken"], "rename", "taken", "x"), ([], "close"))),
            ("one", ((["create one", "mkdir word"], "mkdir", "word"), ([], "close")))):
        assert told_by(sent, begin, name) == [], f"the beginning of {name}"
        for wanted, call, *given in rows:
            row(wanted, call, *([handles[-1]] if call in ("write", "sync", "close") else []), *given)
    begin("both")
    begin("both")
    row(["create both"], "close", handles[-1])
    row([], "write", handles[-2], b"b", 0)
    row(["write both 1"], "close", handles[-2])
    assert told_by(sent, lambda: (begin("cut"), ways.change("cut", size=5))) == ["add cut 5"], "a new file that is cut by its path"
    ways.close(handles[-1])


def test_notices(with_a_file):
    """The kernel is notified of a folder's change if another thread may have old attributes; it knows itself what the thread with them changed."""
    ways, _ = with_a_file
    told, tree = [], ways.tree
    tree.changed = told.append

    def row(wanted, *calls):
        for tree.asker, call, *given in calls:
            told.clear()
            getattr(ways, call)(*given)
        assert told_by(lambda: sorted(number for number in told if number in (1, folder))) == wanted, f"notices of {calls}"

    tree.asker = 1
    folder = ways.walk("music")
    row([], (1, "stat", ""), (1, "mknod", "a"), (1, "mknod", "b"))
    row([], (1, "unlink", "a"))
    row([1], (1, "stat", ""), (2, "stat", ""), (1, "mknod", "c"))
    row([], (1, "mknod", "d"))
    row([1], (1, "stat", ""), (2, "mknod", "e"))
    row([1], (0, "stat", ""), (0, "mknod", "f"))
    row([1], (1, "stat", ""), (1, "stat", "music"), (1, "mknod", "music/g"))
    row([folder], (2, "stat", "music"), (1, "unlink", "music/g"))
    row([1], (1, "stat", ""), (1, "mkdir", "plans"))


def number_of(name):
    """The number of a file, which is made if necessary."""
    with open(name, "a") as file:
        return os.fstat(file.fileno()).st_ino


def crowded(is_asked):
    """The results for nine new files with new suffixes, if known words have room for seven of them; and which of them exist."""
    make("image", "64", "64", "8")
    with images.session() as program:
        for number in range(54):
            program.mkdir(b"w%d" % number)
    with directly("image") as ways:
        told = {}
        for number in range(9):
            told[f"f.e{number}"] = told_by(ways.open, f"f.e{number}", WR | NEW)
            if is_asked:
                told_by(ways.ls, "")
        for name, handle in told.items():
            told[name] = told_by(ways.close, handle) if isinstance(handle, int) else handle
        return list(told.values()), ways.ls(":all")


def refusing(number):
    def call(*_):
        raise Refused(number, "as it is told to")
    return call


@pytest.mark.parametrize("number", (9, 18, 19, 20, 21, 22, 24))
def test_not_made(number):
    """A new file that the program does not make after all, which is faked here: programs that have it open get an error."""
    name, error = f"a new file that is refused as {number}", errno.errorcode[error_of(number)]
    make("image", "64", "64", "8")
    with directly("image") as ways:
        handle = ways.open("x", RW | NEW)
        reader, program = ways.open("x", RD), ways.tree.image.program
        create, program.create = program.create, refusing(number)
        assert told_by(ways.ls, "") == error, f"{name}, and who asks"
        program.create = create
        assert told_by(ways.ls, "") == [], f"{name}, and is not there"
        for call, *given in (("read", reader, 9, 0), ("read", handle, 9, 0), ("write", handle, b"x", 0), ("sync", handle), ("sync", reader)):
            assert told_by(getattr(ways, call), *given) == error, f"{name}, {call}{given}"
        node = ways.tree.handles[handle].node
        assert told_by(ways.tree.setattr, node.number, Changes(None, None, None, 5, None, None), handle) == error, f"{name}, and a cut"
        with open("other", "w") as other:
            node.inode = os.fstat(other.fileno()).st_ino
            assert told_by(ways.tree.flush, handle, os.getpid()) == error, f"{name}, a close of one of two"
        assert told_by(ways.close, handle) == error, f"{name}, its close"
        ways.tree.release(reader)
        assert told_by(lambda: (ways.put("x", b"x"), ways.get("x"))) == (None, b"x"), f"{name}, and another one"


@pytest.mark.parametrize("number", (9, 18, 19, 20, 21, 22, 24))
def test_not_made_with_bytes(number):
    name, error = f"a new file that is refused as {number}", errno.errorcode[error_of(number)]
    make("image", "64", "64", "8")
    with directly("image") as ways:
        handle, program = ways.open("x", WR | NEW), ways.tree.image.program
        ways.write(handle, b"written", 0)
        program.create = program.add = refusing(number)
        assert told_by(ways.sync, handle) == error, f"{name}, with bytes, at a sync"
        assert told_by(ways.close, handle) == error, f"{name}, with bytes, at its close"


def test_unclosed():
    """What is written and not closed is stored when there are no more requests, or reported by name."""
    make("image", "64", "64", "4")
    with directly("image") as ways:
        ways.put("old", b"old")
        ways.put("emptied", b"emptied")
        handles = {name: ways.open(name, flags) for name, flags in (
            ("old", WR), ("new", WR | NEW), ("waits", WR | NEW), ("gone", WR | NEW), ("read", RD | os.O_CREAT), ("emptied", WR | os.O_TRUNC),
            ("synced", WR | NEW))}
        for name in ("old", "new", "gone", "synced"):
            ways.write(handles[name], name.upper().encode(), 0)
        ways.unlink("gone")
        ways.sync(handles["synced"])
        assert told_by(finished, ways) == (None, False), "the end with open files"
    with directly("image") as ways:
        assert told_by(lambda: {name: ways.get(name) for name in ways.ls(":all")}) == {
            "old": b"OLD", "new": b"NEW", "waits": b"", "read": b"", "emptied": b"", "synced": b"SYNCED"}, "what is in the image then"
        ways.write(ways.open("old", WR), bytes(20_000), 0)
        ways.write(ways.open("new", WR), b"N", 0)
        refused = ways.open("refused", WR | NEW)
        ways.write(refused, bytes(20_000), 0)
        assert told_by(ways.sync, refused) == "ENOSPC", "what a sync was refused"
        told = finished(ways)
        assert told[1] and [line.partition(": what was")[0] for line in told[0].splitlines()] == ["mount: old", "mount: refused"], (
            "the end of a full image", told)
    with directly("image") as ways:
        assert told_by(lambda: {name: ways.get(name) for name in ("old", "new", "refused")}) == {
            "old": b"OLD", "new": b"NEW", "refused": b""}, "what there was room for"


@pytest.mark.parametrize("number", (20, 21))
def test_unclosed_and_not_made(number):
    make("image", "64", "64", "8")
    with directly("image") as ways:
        ways.tree.image.program.create = ways.tree.image.program.add = refusing(number)
        ways.open("x", WR | NEW)
        told_by(ways.ls, "")
        told = finished(ways)
        assert told[1] and told[0].startswith("mount: x: what was written and not closed is lost: "), ("the end with a file that can't be made", told)


def finished(ways):
    """What an end says, and whether something is lost. The kernel gets no notifications any more."""
    ways.tree.changed = refusing(0)
    with contextlib.redirect_stderr(io.StringIO()) as said:
        ways.tree.finish()
    return said.getvalue() or None, ways.tree.has_lost


def dead(is_asked):
    """The close of a new file if the program has ended while it waited."""
    make("image", "64", "64", "8")
    with directly("image") as ways:
        handle = ways.open("x", WR | NEW)
        ways.tree.image.program.kill()
        if is_asked:
            assert told_by(ways.ls, "") == "EIO", "a question to a program that has ended"
        assert told_by(ways.close, handle) == "EIO", "the close of a new file where the program has ended"


@pytest.mark.parametrize("is_asked", (False, True))
def test_losses(is_asked):
    """No call on a file reports success for what is not in the image then."""
    told, there = crowded(is_asked)
    assert told == [None] * 7 + ["ENOSPC"] * 2, f"new files beside each other, {is_asked}"
    assert there == [f"f.e{number}" for number in range(7)], f"each of them is there, {is_asked}"


@pytest.mark.parametrize("is_asked", (False, True))
def test_dead(is_asked):
    """The program has ended while a new file waited."""
    assert told_by(dead, is_asked) == Ended, "the program's end"
