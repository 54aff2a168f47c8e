"""`tools/mount`: its parts, what is known of an image at the start, and runs that mount nothing."""
import collections
import contextlib
import errno
import io
import os
import select
import socket
import struct
import subprocess
import sys
import threading

import pytest

import support
from lisfs import dumps
from lisfs.client import Locked, held
from lisfs.dumps import NotADump, opened, read_dump
from lisfs.formulas import NotAFormula, Place, TooLarge, part
from lisfs.mount import attach, kernel
from lisfs.mount.kernel import Connection
from lisfs.refusals import REFUSALS
from support import images
from support.mount.answers import MOUNT, told_by
from support.waiting import LONG

TREES = {
    b"music": "music", b"year:": "year:", b"year:2003": "year:2003", b"a.b": "a.b", b"-": "-", b"!live": "!live", b"!!a": "!!a",
    b"a|b": "(a|b)", b"a|b|c": "((a|b)|c)", b"!a|b": "(!a|b)", b"!(a|b)": "!(a|b)", b"((a))": "a", b"(a)|b": "(a|b)", b"size>=10": "size>=10",
    b"size<007": "size<7", b"!size<1": "!size<1", b"size": "size", b"size:small": "size:small", b"w" * 60: "w" * 60,
    b"(" * 127 + b"a" + b")" * 127: "a", b"!" * 63 + b"a": "!" * 63 + "a",
}
NO_TREES = (b"", b"..", b".a", b"a b", b"a/b", b"a|", b"|a", b"(a", b"a)", b"()", b"!", b"size>", b"size>=", b"size<", b"size>10", b"size>=1x",
            b"a:b:c", b":all", b":", b"size>=1234567890123", b"w" * 61, b"x~", b"\xc3\xa4", b"a||b", b"!(a", b"a\nb")


def spelled(tree):
    kind = type(tree).__name__
    if kind == "Word":
        return tree.word.decode()
    if kind == "Test":
        return f"size{'>=' if tree.is_least else '<'}{tree.size}"
    return "!" + spelled(tree.part) if kind == "Not" else f"({spelled(tree.left)}|{spelled(tree.right)})"


@pytest.mark.parametrize("text, wanted", TREES.items(), ids=lambda text: str(text[:40]))
def test_formula(text, wanted):
    assert told_by(lambda: spelled(part(text))) == wanted, f"formula {text[:40]}"


@pytest.mark.parametrize("text", NO_TREES, ids=lambda text: str(text[:40]))
def test_no_formula(text):
    assert told_by(part, text) == NotAFormula, f"no formula {text[:40]}"


def test_a_long_name():
    assert told_by(part, b"!" * 255 + b"a") == TooLarge, "a long name"


@pytest.mark.parametrize("text, wanted", ((b"a", True), (b"b", False), (b"!a", False), (b"!b", True), (b"a|b", True), (b"b|c", False), (b"!(b|c)", True),
                                          (b"!a|year:3", True), (b"size>=10", True), (b"size>=11", False), (b"size<11", True), (b"size<10", False),
                                          (b"!size<10", True)))
def test_meets(text, wanted):
    file = collections.namedtuple("File", "words size")({b"a", b"year:", b"year:3"}, 10)
    assert part(text).meets(file) == wanted


def test_places():
    place = Place((b"music", b"(live)", b"music"))
    assert (place.words, place.text) == ((b"music", b"live"), b"/music/(live)/music"), "the words of a place"
    assert Place((b"a", b"!b")).words is None and Place((b"a|b",)).words is None and Place((b"size<1",)).words is None, "a place that has none"
    assert (Place().words, Place().text) == ((), b"/"), "the root"


@pytest.mark.parametrize("word, most", ((b"!a", 21), (b"a", 32), (b"w" * 60, 16)), ids=("64 nodes", "32 words", "1,024 bytes"))
def test_the_largest_place(word, most):
    assert told_by(Place, (word,) * most) is not TooLarge
    assert told_by(Place, (word,) * (most + 1)) is TooLarge


# The one of docs/MODEL.md.
MIXED = b"""mkdir big
mkdir k:
mkdir size>=3
add a 4 big
x
y

add f 0 k:0 k:1 k:2 k:3 k:4 k:5 k:6 k:7

mv f k:8/k:9
axiom size>=3 big
"""


def read(data):
    dump = read_dump(io.BytesIO(data))
    return dump.declared, dump.axioms, dump.files


WORDS = {b"k:%d" % number for number in range(10)}
LARGE = os.urandom(200_000)


@pytest.mark.parametrize("data, wanted", (
    (MIXED, ({b"big", b"k:", b"size>=3"}, {(b"size>=3", b"big")}, {b"a": (4, {b"big"}), b"f": (0, WORDS)})), (b"", (set(), set(), {})),
    (b"add n 200000\n" + LARGE + b"\nadd m 0 a\n\n", (set(), set(), {b"n": (200_000, set()), b"m": (0, {b"a"})})),
    (b"add n 18\nmkdir x\nadd y 5\na\n\n", (set(), set(), {b"n": (18, set())}))), ids=("a dump", "no dump at all", "large bytes", "bytes like lines"))
def test_a_dump(data, wanted):
    assert told_by(read, data) == wanted, "a dump"


@pytest.mark.parametrize("data", (b"add a 4\nxyz", b"add a 4\nxyz\n", b"add a 4\nxyz\nq", b"add a\n", b"add a x\n", b"add\n", b"mkdir\n", b"mkdir a b\n",
                                  b"axiom a\n", b"frob\n", b"\n", b"mkdir a", b"mv a b\n", b"create a\n", b"cd a\n", b"ok\n", b"add a 1\nxy\n"))
def test_no_dump(data):
    assert told_by(read, data) == NotADump, f"no dump: {data}"


# A program after whose dumps others change the image, each with a line of the file `others`.
DUMPER = r'''
import os, subprocess, sys
program, words = os.environ["REAL"], sys.argv[1:]
if words[0] != "dump":
    os.execv(program, [program] + words)
if os.path.exists("wrong"):
    os.write(2, b"lisfs: disk fault\n" + words[1].encode() + b": in use by another lisfs\n")
    sys.exit(3)
subprocess.run([program] + words, check=True)
first, _, others = open("others").read().partition("\n")
open("others", "w").write(others)
if first:
    # The second run ends what the first one left in the middle, so that the next opening writes nothing.
    for data in (first.replace("|", "\n").encode() + b"\n", b""):
        subprocess.run([program, "run", words[1]], input=data, stdout=subprocess.DEVNULL)
'''


# What is known at the start is what the image holds when the session has the lock.

def known():
    """What is known at the start, and the names that the session then lists."""
    program, dump = opened("image")
    with program:
        names = sorted(text for _, text in program.ls().body)
        return sorted(dump.declared), {name: size for name, (size, _) in dump.files.items()}, names


@pytest.fixture
def begin(image, program, monkeypatch):
    """Lets others change the image between the dump and the session, each with a line."""
    with images.session(image) as session:
        session.mkdir(b"unused")
        session.create(b"x")
    images.written("dumper", f"#!{sys.executable}\n{DUMPER}", 0o755)
    monkeypatch.setenv("REAL", program)
    monkeypatch.setattr(dumps, "PROGRAM", os.path.abspath("dumper"))
    return lambda others: images.written("others", others)


def test_known_at_the_start(begin, program, monkeypatch):
    monkeypatch.setattr(dumps, "PROGRAM", program)
    assert told_by(known) == ([b"unused"], {b"x": 0}, [b"x"]), "a dump"


@pytest.mark.parametrize("others, files", (
    ("", {b"x": 0}), ("create y", {b"x": 0, b"y": 0}), ("create y\ncreate z\nrm x", {b"y": 0, b"z": 0}),
    ("rename x y", {b"y": 0}), ("write x 2|ab", {b"x": 2}), ("rename x y\nwrite y 1|a\nrename y z", {b"z": 1})))
def test_others_get_in_between(begin, others, files):
    begin(others)
    assert told_by(known) == ([b"unused"], files, sorted(files)), f"others got in between: {others!r}"


def test_words_of_others(begin):
    begin("mkdir used\nrmdir unused")
    assert told_by(known) == ([b"used"], {b"x": 0}, [b"x"]), "words of others"


def test_one_that_changes_all_the_time(begin):
    begin("".join(f"create n{number}\n" for number in range(20)))
    assert told_by(known) == NotADump, "one that changes all the time"


def test_a_locked_image_at_the_start(begin):
    begin("")
    images.written("wrong")
    with pytest.raises(Locked):
        known()


def ran(*words, **more):
    """The status and the messages of a run that does not mount."""
    done = subprocess.run([sys.executable, MOUNT, *words], stdin=subprocess.DEVNULL, capture_output=True, timeout=LONG, check=False, **more)
    return done.returncode, done.stderr.decode()


NO_DEVICE = """
import runpy, sys
from lisfs.mount import attach
attach.DEVICE = "/dev/nosuch"
sys.argv = sys.argv[1:]
runpy.run_path(sys.argv[0], run_name="__main__")
"""


# A program that ends slowly.
LATE = """#!/bin/sh
"$REAL" "$@" || exit
[ "$1" != run ] || { sleep 0.5; touch ended; }
"""


# Runs that mount nothing: one line that says why, and the status 1. Afterwards no process has the image.

@pytest.fixture
def mountpoint(image):
    """A folder beside the image, which is free at the end."""
    os.mkdir("folder")
    yield "folder"
    with held(image):
        pass


def test_a_locked_image(image, mountpoint):
    with held(image):
        assert told_by(ran, "image", "folder") == (1, "mount: image: in use by another lisfs\n"), "a locked image"


@pytest.mark.parametrize("words, told", (
    (("nosuch", "folder"), "mount: lisfs: disk fault: nosuch: No such file or directory\n"),
    (("short", "folder"), "mount: lisfs: image too short: short: 5 bytes of 4096\n"),
    (("image", "nosuch"), "mount: nosuch: No such file or directory\n"), (("image", "short"), "mount: short: not a folder\n")),
    ids=("no image", "a short image", "no folder", "a file for a folder"))
def test_nothing_is_mounted(mountpoint, words, told):
    images.written("short", b"short")
    assert told_by(ran, *words) == (1, told), "what is said"


def test_no_program(mountpoint):
    nosuch = {**os.environ, "LISFS_PROGRAM": "/nosuch"}
    assert told_by(lambda: ran("image", "folder", env=nosuch)) == (
        1, "mount: build the program first: ./lisfs try 64 64 8 </dev/null\n"), "no program"


def test_wrong_use(image):
    assert told_by(lambda: ran("image")[0]) == 2, "wrong use"


def test_no_fuse(mountpoint, program):
    late = {"REAL": program, "LISFS_PROGRAM": os.path.abspath(images.written("late", LATE, 0o755))}
    done = subprocess.run([sys.executable, "-c", NO_DEVICE, MOUNT, "image", "folder"], stdin=subprocess.DEVNULL, capture_output=True,
                          timeout=LONG, check=False, env=support.with_package(**late))
    assert told_by(lambda: (done.returncode, done.stderr)) == (1, b"mount: /dev/nosuch is missing: this system has no FUSE\n"), "no FUSE"
    assert os.path.exists("ended"), "its program has ended"


def test_each_refusal_has_an_error():
    assert told_by(lambda: sorted(number for number, row in REFUSALS.items() if row.error)) == list(range(1, 26)), "each refusal has an error"


# It mounts nothing, and sends what it was told to send, or nothing.
HELPER = r"""
import array, os, socket, sys
open("asked", "a").write(" ".join(sys.argv[1:]) + "\n")
if "-u" in sys.argv:
    sys.exit(0)
if sys.argv[-1] == "bad":
    print("fusermount3: mountpoint is bad", file=sys.stderr)
    sys.exit(1)
end = socket.socket(fileno=int(os.environ["_FUSE_COMMFD"]))
device = array.array("i", [os.open("asked", os.O_RDONLY)])
end.sendmsg([b"x"], [] if sys.argv[-1] == "none" else [(socket.SOL_SOCKET, socket.SCM_RIGHTS, device)])
"""


@pytest.mark.parametrize("folder_name, wanted", (
    ("folder", ("-o default_permissions,subtype=lisfs,fsname=a\\,b -- folder", False)), ("none", "fusermount3 sent no device"),
    ("bad", "fusermount3: mountpoint is bad")), ids=("a device", "none is sent", "what the helper says"))
def test_helper(monkeypatch, folder_name, wanted):
    """The device from the helper that may mount for users other than root."""
    images.written("programs/fusermount3", f"#!{sys.executable}\n{HELPER}", 0o755)
    monkeypatch.setenv("PATH", f"programs:{os.environ['PATH']}")

    def mounted():
        try:
            device = attach._by_helper(folder_name, "a,b", ["default_permissions"])
        except attach.NotMounted as error:
            return str(error)
        with open(device) as sent:
            return sent.read().splitlines()[-1], os.get_inheritable(sent.fileno())

    assert told_by(mounted) == wanted, "by the helper"


# The messages of the device.

CALLER = kernel.Caller(1, 2, 3)
FOUND = kernel.Attributes(5, 6, 8, 10**18 + 1, 10**18 + 2, 10**18 + 3, 0o100644, 2, 1, 2)
ATTRIBUTES = struct.pack("=6Q10I", 5, 6, 8, 10**9, 10**9, 10**9, 1, 2, 3, 0o100644, 2, 1, 2, 0, 4096, 0)
AT, ENTRY = kernel.Entry(9, FOUND, 60), struct.pack("=QQQQII", 9, 0, 0, 60, 0, 0) + ATTRIBUTES
DONE, HANDLE = (0, b""), struct.pack("=QIIQ", 4, 0, 0, 0)
# The number of a message and its body, what the handler returns, the reply, and the call of the handler; after linux/fuse.h.
MESSAGES = (
    (26, struct.pack("=IIII", 7, 12, 0, 0), None, (errno.EPROTO, b""), None),
    (26, struct.pack("=IIII", 8, 0, 0, 0), None, (errno.EPROTO, b""), None),
    (26, struct.pack("=IIII", 7, 31, 4_096, 0), None, (0, struct.pack("=IIIIHHIIHHI28x", 7, 31, 4_096, 0, 12, 9, 1_048_576, 1, 256, 0, 0)), None),
    (1, b"x\0", AT, (0, ENTRY), ("lookup", 1, b"x")),
    (1, b"x\0", OSError(errno.ENOENT, "none"), (errno.ENOENT, b""), ("lookup", 1, b"x")),
    (1, b"x\0", ZeroDivisionError(), (errno.EIO, b""), ("lookup", 1, b"x")),
    (2, struct.pack("=Q", 4), None, None, ("forget", 1, 4)),
    (42, struct.pack("=IIQQQQ", 2, 0, 5, 1, 6, 2), None, None, ("forget", 6, 2)),
    (3, bytes(16), AT, (0, struct.pack("=QII", 60, 0, 0) + ATTRIBUTES), ("getattr", 1)),
    (6, b"x\0y\0", None, (errno.EPERM, b""), None),
    (8, struct.pack("=IIII", 0o100600, 0, 0, 0) + b"x\0", AT, (0, ENTRY), ("mknod", 1, b"x", 0o100600, CALLER)),
    (9, struct.pack("=II", 0o700, 0) + b"x\0", AT, (0, ENTRY), ("mkdir", 1, b"x", 0o700, CALLER)),
    (10, b"x\0", None, DONE, ("unlink", 1, b"x")),
    (11, b"x\0", None, DONE, ("rmdir", 1, b"x")),
    (12, struct.pack("=Q", 8) + b"x\0y\0", None, DONE, ("rename", 1, b"x", 8, b"y", 0)),
    (45, struct.pack("=QII", 8, 1, 0) + b"x\0y\0", None, DONE, ("rename", 1, b"x", 8, b"y", 1)),
    (13, struct.pack("=Q", 8) + b"x\0", AT, (0, ENTRY), ("link", 8, 1, b"x")),
    (14, struct.pack("=II", 2, 0), (4, 32), (0, struct.pack("=QII", 4, 32, 0)), ("open", 1, 2)),
    (35, struct.pack("=IIII", 2, 0o100600, 0, 0) + b"x\0", (AT, 4), (0, ENTRY + struct.pack("=QII", 4, 0, 0)),
     ("create", 1, b"x", 2, 0o100600, CALLER)),
    (15, struct.pack("=QQIIQII", 4, 7, 9, 0, 0, 0, 0), b"bytes", (0, b"bytes"), ("read", 4, 7, 9)),
    (16, struct.pack("=QQIIQII", 4, 7, 2, 0, 0, 1_024, 0) + b"ab", 2, (0, struct.pack("=II", 2, 0)), ("write", 4, 7, b"ab", 1_024)),
    (25, HANDLE, None, DONE, ("flush", 4, 3)),
    (20, struct.pack("=QII", 4, 0, 0), None, DONE, ("fsync", 4)),
    (18, HANDLE, None, DONE, ("release", 4)),
    (27, bytes(8), 4, (0, struct.pack("=QII", 4, 0, 0)), ("opendir", 1)),
    (28, struct.pack("=QQIIQII", 4, 1, 32, 0, 0, 0, 0), [(1, 4, b"."), (2, 4, b".."), (3, 8, b"x")],
     (0, struct.pack("=QQII8s", 2, 2, 2, 4, b"..")), ("readdir", 4, 1)),
    (29, HANDLE, None, DONE, ("releasedir", 4)),
    (30, struct.pack("=QII", 4, 0, 0), None, DONE, ("fsyncdir",)),
    (17, b"", kernel.Space(1, 2, 3, 4, 5, 6), (0, struct.pack("=QQQQQIIII24x", 1, 2, 2, 3, 4, 5, 6, 5, 0)), ("statfs",)),
    # Unknown requests: attributes of another kind, an interruption, and a call of later kernels.
    (22, bytes(8), None, (errno.ENOSYS, b""), None),
    (36, bytes(8), None, (errno.ENOSYS, b""), None),
    (52, bytes(24), None, (errno.ENOSYS, b""), None),
)


class Noting:
    """Handlers that note their calls, and return what they are told to."""

    def __init__(self):
        self.asked, self.reply = [], None

    def __getattr__(self, name):
        def call(*given):
            self.asked.append((name, *(bytes(one) if isinstance(one, memoryview) else one for one in given)))
            if isinstance(self.reply, Exception):
                raise self.reply
            return self.reply
        return call


@pytest.fixture
def device():
    """A pair of sockets instead of the device, handlers that know nothing, and a connection that serves them."""
    ours, theirs = socket.socketpair(socket.AF_UNIX, socket.SOCK_SEQPACKET)
    with ours, theirs:
        handlers = Noting()
        yield ours, handlers, Connection(theirs.fileno(), handlers)


@pytest.mark.parametrize("number", range(len(MESSAGES)), ids=[f"message {code}" for code, *_ in MESSAGES])
def test_message(device, number):
    ours, handlers, connection = device
    code, body, handlers.reply, wanted, asked = MESSAGES[number]
    ours.send(struct.pack("=IIQQIIIHH", 40 + len(body), code, 77, 1, *CALLER, 0, 0) + body)
    with contextlib.redirect_stderr(io.StringIO()):
        connection.serve()
    got = ours.recv(2_000_000) if select.select([ours], [], [], 0)[0] else None
    failure = got and struct.unpack_from("=IiQ", got)
    assert got is None or failure[::2] == (len(got), 77), (f"the head of a reply to {code}", got)
    assert (got and (-failure[1], got[16:])) == wanted, (f"message {code}: {handlers.reply!r}"[:60], got)
    assert handlers.asked[-1:] == ([asked] if asked else []), (f"what is asked by {code}", handlers.asked)


def test_a_notice(device):
    ours, handlers, connection = device
    handlers.changed(12)
    assert ours.recv(100) == struct.pack("=IiQQqq", 40, 2, 0, 12, -1, 0), "a notice"


def test_no_more_messages(device):
    ours, _, connection = device
    ours.close()
    with pytest.raises(kernel.Unmounted):
        connection.serve()


class Losing(Connection):
    """A device whose message is withdrawn between a check and the read, as when the asker is killed; then an end is requested."""

    def __init__(self, device, handlers, wanting):
        super().__init__(device, handlers)
        self.wanting = wanting

    def serve(self):
        os.read(self.device, 100)
        os.write(self.wanting, b"x")
        super().serve()


def test_taken_back():
    """A withdrawn message delays no end."""
    ours, theirs = socket.socketpair(socket.AF_UNIX, socket.SOCK_SEQPACKET)
    (stop, wanting), (program, its) = os.pipe(), os.pipe()
    ended = []
    with ours:
        ours.send(b"taken back")
        connection = Losing(theirs.detach(), Noting(), wanting)
        loop = threading.Thread(target=lambda: ended.append(attach.answered(connection, "nosuch", stop, program)))
        loop.start()
        loop.join(LONG)
        assert ended == [True], "an end that was wanted"
    loop.join()
    for descriptor in (stop, wanting, program, its):
        os.close(descriptor)
