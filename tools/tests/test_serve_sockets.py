"""`tools/serve`: its socket, and the lock that it holds at the start."""
import contextlib
import fcntl
import os
import stat
import subprocess
import sys

import pytest

import support
from support.peers import PWD, SERVE, TALK, Served, answers, make, refusing, talked, written
from support.waiting import children, until, waits_of

pytestmark = pytest.mark.usefixtures("rooms")


@pytest.fixture(autouse=True)
def four_images(rooms, folder):
    """Any images, with the names image0 to image3."""
    for k in range(4):
        make(f"image{k}", ("64", "64", "8"))


def modes_of(front):
    """The modes of all paths with this prefix."""
    modes = set()
    for name in os.listdir("."):
        with contextlib.suppress(FileNotFoundError):
            if name.startswith(front):
                modes.add(oct(os.stat(name).st_mode))
    return modes


def test_sockets():
    """The socket is for its owner alone, and only that of a server that is gone is replaced."""
    served = Served("image0", wait=False, preexec_fn=lambda: os.umask(0))
    modes = set()
    while served.process.poll() is None and not os.path.exists("socket"):
        modes |= modes_of("socket")
    assert answers("socket"), "it is served as soon as it is there"
    for _ in range(1_000):
        modes |= modes_of("socket")
    allowed = {oct(stat.S_IFSOCK | 0o600), oct(stat.S_IFREG | 0o600)}
    assert modes <= allowed and oct(stat.S_IFSOCK | 0o600) in modes, ("the mode from the beginning on, also of the lock file", modes)
    at = os.stat("socket").st_ino
    assert refusing("image1") == (1, "serve: socket: a server is there\n"), "a socket of a living server"
    assert refusing("image0", "other") == (3, "lisfs: disk fault\nimage0: in use by another lisfs\n"), "the same image"
    assert (os.stat("socket").st_ino, os.path.exists("other"), talked(b"pwd\n")) == (at, False, (0, PWD, "")), "it stands as it was"
    assert served.killed(), "its program ends with it"
    assert os.path.exists("socket"), "a killed server leaves its socket"
    assert talked(b"pwd\n") == (1, b"", "talk: socket: no server is there: Connection refused\n"), "nobody is there"
    with Served("image1") as served:
        assert talked(b"pwd\n") == (0, PWD, ""), "it is replaced"
        assert stat.S_IMODE(os.stat("socket").st_mode) == 0o600, "by one of this mode"
    assert not os.path.exists("socket"), "an ended server leaves none"
    assert talked(b"pwd\n") == (1, b"", "talk: socket: no server is there: No such file or directory\n"), "nobody is there"


# Paths at which there is no socket, and none can be, and other wrong arguments.

def test_a_plain_file():
    written("plain", b"x").close()
    assert refusing("image1", "plain") == (1, "serve: plain: it is there, and no socket\n"), "a plain file"
    assert talked(b"pwd\n", "plain") == (1, b"", "talk: plain.socket: no server is there: No such file or directory\n"), "no socket"
    with open("plain", "rb") as plain:
        assert plain.read() == b"x", "it is as it was"


def test_a_link():
    written("plain", b"x").close()
    os.symlink("plain", "link")
    assert refusing("image1", "link") == (1, "serve: link: it is there, and no socket\n"), "a link"


def test_no_folder():
    assert refusing("image1", "nosuch/socket") == (1, "serve: nosuch/socket.lock: No such file or directory\n"), "no folder"


def test_a_path_that_is_too_long():
    long = "s" * 120
    assert refusing("image1", long) == (1, f"serve: {long}: AF_UNIX path too long\n"), "a path that is too long"
    assert talked(b"pwd\n", long) == (1, b"", f"talk: {long}: no server is there: AF_UNIX path too long\n"), "one to talk to"


@pytest.mark.parametrize("wrong", ("soon", "-1", "nan", "1e9"))
def test_a_wrong_patience(wrong):
    assert refusing("image1", patience=wrong) == (1, f"serve: LISFS_PATIENCE: no number of seconds: {wrong}\n"), f"a patience of {wrong}"


@pytest.mark.parametrize("words", ([SERVE], [SERVE, "-h"], [SERVE, "-h", "socket"], [SERVE, "a", "b", "c"], [TALK], [TALK, "-h"], [TALK, "a", "b"]),
                         ids=lambda words: " ".join([os.path.basename(words[0]), *words[1:]]))
def test_wrong_use(words):
    told = subprocess.run(words, stdin=subprocess.DEVNULL, capture_output=True, check=False)
    assert told.returncode == 1 and b"usage: tools/" in told.stderr, (f"wrong use: {words}", told)


def waiting_for_lock(image):
    """A server that waits for a lock that another one has."""
    waiting = Served(image, wait=False)
    # It has the lock file open only for a moment at each try, which another process may never see; its program starts before the first try.
    assert until(lambda: children(waiting.process.pid)), "it has come to the lock"
    looks = until(lambda: waits_of(waiting.process.pid)) + 20
    until(lambda: (waits_of(waiting.process.pid) or 0) > looks)
    assert (waiting.process.poll(), os.path.exists("socket")) == (None, False), "while another one looks at the socket a server waits"
    return waiting


# A server has a separate lock, which it waits for, and locks of other files do not matter.

def test_a_folder_that_another_program_has_locked():
    folder = os.open(".", os.O_RDONLY)
    fcntl.flock(folder, fcntl.LOCK_EX)
    with Served("image0", patience=0):
        assert talked(b"pwd\n") == (0, PWD, ""), "a server in a folder that another program has locked"
        assert not os.path.exists("socket.lock"), "its lock file is gone"
    os.close(folder)


@pytest.fixture
def lock():
    """The lock, which another server has."""
    with written("socket.lock", b"") as file:
        fcntl.flock(file, fcntl.LOCK_EX)
        yield file


def test_a_lock_of_another_server(lock):
    assert refusing("image0", patience=0.1) == (
        1, "serve: socket: another server is starting there: it has the lock of socket.lock\n"), "a lock that another server has for long"


def test_a_signal_while_the_lock_is_waited_for(lock):
    assert waiting_for_lock("image0").end() == (0, ""), "a signal while it is waited for"


def test_two_that_wait_for_the_lock(lock):
    waiting, other = waiting_for_lock("image0"), waiting_for_lock("image1")
    # The one that has it first removes its name, and another file may have this name then.
    os.unlink("socket.lock")
    lock.close()
    assert until(lambda: answers("socket")), "of two that waited one serves"
    assert until(lambda: [one.process.poll() for one in (waiting, other)].count(1) == 1), "and the other says so"
    assert sorted(one.end() for one in (waiting, other)) == [(0, ""), (1, "serve: socket: a server is there\n")], "it says so"
    assert not os.path.exists("socket.lock"), "the lock file is gone"


def a_plain_file():
    written("socket.lock", b"x").close()


@pytest.mark.parametrize("make_it, cause", (
    (a_plain_file, "it is there, and no lock file of yours"), (lambda: os.mkfifo("socket.lock"), "it is there, and no lock file of yours"),
    (lambda: os.symlink("plain", "socket.lock"), "Too many levels of symbolic links"), (lambda: os.mkdir("socket.lock"), "Is a directory")),
    ids=("bytes", "a pipe", "a link", "a folder"))
def test_no_lock_file(make_it, cause):
    """A file that is no lock file of a server stays as it is."""
    make_it()
    before = os.lstat("socket.lock")
    assert refusing("image0") == (1, f"serve: socket.lock: {cause}\n"), "what is said"
    assert os.path.samestat(before, os.lstat("socket.lock")) and before.st_size == os.lstat("socket.lock").st_size, "it stays"


def test_a_lock_file_that_a_killed_server_left():
    written("socket.lock", b"").close()
    with Served("image0"):
        assert not os.path.exists("socket.lock"), "it is gone"


def test_at_once():
    """Of several servers that start at once one serves, and the others find it."""
    several = [Served(f"image{k}", wait=False) for k in range(4)]
    assert until(lambda: sum(one.process.poll() is None for one in several) == 1), "of several that begin at once one serves"
    assert talked(b"pwd\n") == (0, PWD, ""), "a client of it"
    ends = sorted(one.end() for one in several)
    assert ends == [(0, "")] + [(1, "serve: socket: a server is there\n")] * 3, "the others say so"
    nothing_is_left()


def nothing_is_left(*names):
    left = [name for name in os.listdir(".") if name.startswith(("socket", *names))]
    assert not left, ("nothing is left", left)


def test_a_server_without_its_socket():
    other = Served("image0")
    os.unlink("socket")
    with Served("image1"):
        assert other.end() == (0, ""), "a server without its socket"
        assert os.path.exists("socket"), "leaves that of another one"
    nothing_is_left()


def test_the_longest_path():
    longest = "s" * 107
    with Served("image1", longest):
        assert talked(b"pwd\n", longest) == (0, PWD, ""), "the longest path"
    nothing_is_left(longest)


# The server, and another program: just before the socket gets its name, that program makes something there, or it left a socket at the temporary
# name; or the server can't listen.
MEANWHILE = r"""
import errno, os, runpy, socket, sys
what, sys.argv = sys.argv[1], sys.argv[2:]
made, listen = [], socket.socket.listen

def make(path):
    if what == "plain":
        with open(path, "w") as file:
            file.write("x")
        return
    made.append(socket.socket(socket.AF_UNIX))
    made[-1].bind(path)
    if what == "served":
        listen(made[-1])
    else:
        made.pop().close()

def late(call):
    def called(*given, **more):
        os.link, os.rename = link, rename
        make(sys.argv[2])
        return call(*given, **more)
    return called

def deaf(*_):
    raise OSError(errno.ENOBUFS, os.strerror(errno.ENOBUFS))

link, rename = os.link, os.rename
if what == "deaf":
    socket.socket.listen = deaf
elif what == "aside":
    make(f"{sys.argv[2]}.{os.getpid()}")
else:
    os.link, os.rename = late(link), late(rename)
runpy.run_path(sys.argv[0], run_name="__main__")
"""


# What others make at the path while a server starts stays, and a server that does not start leaves nothing.

def beside(what):
    """The command of a server, and another program."""
    return ["env", f"PYTHONPATH={support.TOOLS}", sys.executable, "-c", MEANWHILE, what, SERVE]


def left():
    return [name for name in os.listdir(".") if name.startswith("socket.")]


@pytest.mark.parametrize("what, said, wanted", (("deaf", "No buffer space available", None), ("plain", "it is there, and no socket", stat.S_IFREG),
                                                ("served", "a server is there", stat.S_IFSOCK)))
def test_made_meanwhile(what, said, wanted):
    assert refusing("image0", command=beside(what)) == (1, f"serve: socket: {said}\n"), f"made meanwhile: {what}"
    assert not left(), (f"nothing is left beside it: {what}", left())
    kind = stat.S_IFMT(os.stat("socket").st_mode) if os.path.exists("socket") else None
    assert kind == wanted, f"it stays: {what}"


@pytest.mark.parametrize("what", ("gone", "aside"))
def test_a_socket_of_nobody_that_is_made_meanwhile(what):
    with Served("image0", command=beside(what)):
        assert talked(b"pwd\n") == (0, PWD, ""), "a client"
        assert not left(), ("nothing is left beside it", left())
    assert not os.path.exists("socket"), "an ended server leaves none"
