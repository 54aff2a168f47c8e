"""How the tools start and end, apart from their work: a line while an image opens, a pipe that nobody reads, and a wrong folder."""
import contextlib
import os
import signal
import subprocess
import sys

import pytest

from lisfs import progress
from lisfs.endings import folder_fault
from support import images, tool
from support.mount.answers import MOUNT
from support.peers import Served
from support.terminals import Terminal
from support.waiting import LONG, until

pytestmark = pytest.mark.usefixtures("program", "image")
# The program, with a delay.
SLOW = """#!/bin/sh
[ "$1" = make ] || [ $# -lt 2 ] || sleep 1.5
exec "$REAL" "$@"
"""


# A pipe that nobody reads.

@contextlib.contextmanager
def unread():
    """A descriptor for writing that nobody reads."""
    reading, writing = os.pipe()
    os.close(reading)
    yield writing
    os.close(writing)


def ended(words, both=False, given=b"", **more):
    """How a tool ends whose output nobody reads, nor its standard error if `both`; and what it says."""
    with unread() as pipe:
        ran = subprocess.run([sys.executable, tool(words[0]), *words[1:]], input=given, stdout=pipe, stderr=pipe if both else subprocess.PIPE, check=False,
                             timeout=LONG, **more)
    return ran.returncode, ran.stderr


@pytest.fixture
def top():
    """A folder with a file."""
    images.written("top/notes.txt", b"some notes")
    return "top"


SHOWING = (["shell", "image"], ["sync", "image", "top"], ["sync", "--dry-run", "image", "top"], ["sync", "--verbose", "image", "top"], ["import", "top"],
           ["browse", "image"], ["sync", "--help"], ["import", "--help"], ["browse", "--help"], ["mount", "--help"])


@pytest.mark.parametrize("both", (False, True), ids=("output", "errors too"))
@pytest.mark.parametrize("words", SHOWING, ids=" ".join)
def test_nobody_reads(top, words, both):
    """A tool ends by SIGPIPE and says nothing, as other tools do."""
    assert ended(words, both, b"pwd\nls\nstat\n") == (-signal.SIGPIPE, None if both else b"")


def test_nobody_reads_a_talk(rooms):
    with Served("image"):
        assert ended(["talk", "socket"], given=b"pwd\n" * 1_000) == (-signal.SIGPIPE, b"")


def test_a_pipe_that_is_read_for_a_while(top):
    """As with `| head -1`."""
    for number in range(2_000):
        images.written(f"top/f{number}", b"x")
    with subprocess.Popen([sys.executable, tool("import"), "top"], stdout=subprocess.PIPE, stderr=subprocess.PIPE, bufsize=0) as child:
        assert child.stdout.read(3) == b"add"
        child.stdout.close()
        assert (child.stderr.read(), child.wait(LONG)) == (b"", -signal.SIGPIPE)


@pytest.mark.limits("256", "512", "64")
def test_a_sync_that_nobody_reads_can_go_on(top):
    """What was done stays, and the next run goes on."""
    for number in range(20):
        images.written(f"top/f{number}", b"x")
    assert ended(["sync", "--verbose", "image", "top"])[0] == -signal.SIGPIPE
    ran = subprocess.run([sys.executable, tool("sync"), "image", "top"], capture_output=True, check=True, timeout=LONG)
    assert ran.stderr == b"" and ran.stdout.endswith(b"as they were\n")


@pytest.mark.usefixtures("fuse")
def test_a_mount_whose_words_nobody_reads(image):
    """It goes on."""
    os.mkdir("folder")
    with unread() as pipe, subprocess.Popen([sys.executable, MOUNT, "image", "folder"], stdin=subprocess.DEVNULL, stderr=pipe) as child:
        assert until(lambda: os.path.ismount("folder") or child.poll() is not None)
        images.written("folder/notes", b"kept")
        child.send_signal(signal.SIGTERM)
        assert child.wait(LONG) == 0
    assert images.bytes_of("notes") == b"kept"


# An image that opens for more than a second.

@pytest.fixture
def slow(program):
    """The environment in which the program has a delay."""
    return {"REAL": program, "LISFS_PROGRAM": os.path.abspath(images.written("slow", SLOW, 0o700)), "LISFS_PATIENCE": str(LONG)}


# Ctrl-D counts once the prompt is shown: earlier, it may come while the terminal changes to single keys, and get lost.
OPENING = ((["shell", "image"], b"> ", b"\4"), (["sync", "image", "top"], b"as they were", None), (["browse", "image"], b"http://", b"\3"),
           (["edit", "image", "notes.txt", "word:a"], b"no 10 no such file here", None), (["serve", "image"], None, b"\3"))


@pytest.mark.parametrize("words, wanted, end", OPENING, ids=[words[0] for words, *_ in OPENING])
def test_a_terminal_shows_that_an_image_opens(top, slow, words, wanted, end):
    """A line says so, and is removed again."""
    with Terminal([tool(words[0]), *words[1:]], **slow) as terminal:
        assert terminal.sees(f"{words[0]}: opening image ...".encode()), terminal.shown
        assert terminal.sees(progress.CLEAR.encode()), terminal.shown
        assert wanted is None or terminal.sees(wanted), terminal.shown
        if end:
            assert wanted or until(lambda: os.path.exists("image.socket"))
            terminal.types(end)
        terminal.ends()


@pytest.mark.usefixtures("fuse")
def test_a_terminal_shows_that_an_image_opens_for_a_mount(slow):
    os.mkdir("folder")
    with Terminal([tool("mount"), "image", "folder"], **slow) as terminal:
        assert terminal.sees(b"mount: opening image ...") and terminal.sees(b"mount: image is at folder"), terminal.shown
        terminal.types(b"\3")
        assert terminal.ends() == 0


def test_nothing_is_said_elsewhere(top, slow):
    ran = subprocess.run([sys.executable, tool("sync"), "image", "top"], capture_output=True, check=True, timeout=LONG, env={**os.environ, **slow})
    assert ran.stderr == b""


def test_nothing_is_said_of_an_image_that_opens_soon(top):
    with Terminal([tool("sync"), "image", "top"]) as terminal:
        assert terminal.sees(b"as they were")
        assert terminal.ends() == 0 and b"opening" not in terminal.shown


# A wrong folder.

@pytest.mark.parametrize("words, status", ((["sync", "image"], 2), (["import"], 2), (["mount", "image"], 1)), ids=("sync", "import", "mount"))
@pytest.mark.parametrize("at, why", (("nosuch", "No such file or directory"), ("image", "not a folder"), ("image/x", "not a folder")))
def test_a_wrong_folder(words, status, at, why):
    ran = subprocess.run([sys.executable, tool(words[0]), *words[1:], at], capture_output=True, check=False, timeout=LONG)
    said = ran.stderr.decode()
    assert (ran.returncode, ran.stdout, said) == (status, b"", f"{words[0]}: {at}: {why}\n")


def test_a_folder_that_can_not_be_read(root):
    os.mkdir("closed", 0o700)
    os.seteuid(65_534)
    try:
        assert folder_fault("closed") == "closed: Permission denied"
    finally:
        os.seteuid(0)
    assert folder_fault("closed") is None
