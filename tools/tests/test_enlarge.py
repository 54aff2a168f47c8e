"""`tools/enlarge`: an image gets other limits, with all that it holds. It is killed, the disk is full, and other programs have the image."""
import errno
import fcntl
import glob
import os
import random
import shutil
import signal
import subprocess
import sys
import time
from typing import NamedTuple

import pytest

from lisfs import enlarge, making
from lisfs import limits as limits_module
from lisfs.client import PROGRAM
from lisfs.constants import NO_FILE_ROOM
from lisfs.limits import VERSIONS, limits_of
from lisfs.limits import told as told_limits
from support import images, tool
from support.images import content, dump, session, usage, written
from support.peers import Served
from support.running import told
from support.syncing import sync
from support.waiting import LONG, until

pytestmark = pytest.mark.usefixtures("program")
ENLARGE = [sys.executable, tool("enlarge")]
KEPT = "image.before-enlarging"
SESSION = b"mkdir mine\nmkdir year:\nadd a.txt 5 mine year:2003\nhello\nadd b 9000\n" + b"b" * 9_000 + b"\naxiom year:2003 mine\n"
KILLS = 50


class Limited(NamedTuple):
    """The limits of an image."""

    files: int
    words: int
    blocks: int
    version: int = 1


def limits(image="image"):
    return Limited(*limits_of(image)[:4])


def make(*given):
    """Makes an image, and opens it once more, so that no later opening writes."""
    images.make(*given)
    dump(given[0] if given else "image")


def run(*words, **more):
    """What it does: the status, and its line, which is on standard output or on standard error."""
    ran = told([*ENLARGE, *words], b"", **more)
    assert not (ran.shown and ran.said)
    return ran.status, (ran.shown.decode() or ran.said).strip()


def without_room(*words, **more):
    """The same if it must fail: the image and its folder are as before."""
    before, names = content("image"), sorted(os.listdir())
    status, line = run(*words, **more)
    assert (status, content("image") == before, sorted(os.listdir())) == (1, True, names), line
    assert line.endswith(": nothing was changed") and "\n" not in line, line
    return line.removeprefix("enlarge: ").removesuffix(": nothing was changed")


def test_doubles():
    """What is more than half used is doubled, or else what is used most."""
    make("image", ("64", "64", "4"), SESSION)
    before, bytes_before = dump(), content("image")
    assert run("image") == (0, "enlarge: image: from 64 files, 64 words and 4 blocks to 64 files, 64 words and 8 blocks; the old image is "
                               f"{KEPT} until you remove it"), "4 of 4 blocks"
    assert (limits(), dump(), content(KEPT)) == ((64, 64, 8, 1), before, bytes_before), "all that it held, and the old one"
    assert run("image")[0] == 0 and limits() == (64, 64, 16, 1), "half is not more than half, so the fullest"
    with session() as program:
        for number in range(40):
            program.create(b"f%d" % number)
            program.mkdir(b"w%d" % number)
    assert run("image")[0] == 0 and limits() == (128, 128, 16, 1), "two at once"
    assert sorted(os.listdir()) == ["image", KEPT, KEPT + "-2", KEPT + "-3"], "each old one has a name"


@pytest.mark.parametrize("version", (1, 2, 3))
def test_numbers(version):
    make("image", ("64", "64", "4", *VERSIONS[version - 1].make), SESSION)
    before = dump()
    assert run("image", "4096", "8192", "32768")[0] == 0, "the most before version 3"
    assert (limits(), dump()) == ((4_096, 8_192, 32_768, version), before), "with its version"
    assert run("image", "0064", "64", "4") == (0, "enlarge: image: from 4,096 files, 8,192 words and 32,768 blocks to 64 files, 64 words and 4 blocks; "
                                               f"the old image is {KEPT}-2 until you remove it"), "and back"
    assert (limits(), dump()) == ((64, 64, 4, version), before)


@pytest.mark.parametrize("version", ((), ("v2",)))
@pytest.mark.parametrize("numbers", ((8_192, 64, 64), (64, 8_256, 64), (64, 64, 32_769)))
def test_limits_of_version_3(numbers, version):
    """The image gets that version if the limits need it."""
    make("image", ("64", "64", "4", *version), SESSION)
    before = dump()
    assert run("image", *map(str, numbers)) == (0, f"enlarge: image: from 64 files, 64 words and 4 blocks to {told_limits(*numbers)}, of version 3; the old "
                                                   f"image is {KEPT} until you remove it")
    assert (limits(), dump()) == ((*numbers, 3), before)


def test_a_full_image_of_version_2():
    """The command that `sync` and others name leads to version 3."""
    make("image", ("4096", "64", "4", "v2"))
    subprocess.run([PROGRAM, "load", "image"], input=b"".join(b"create f%d\n" % number for number in range(4_096)), stdout=subprocess.DEVNULL,
                   timeout=LONG, check=True)
    before, more = dump(), limits_module.full(NO_FILE_ROOM, limits_of("image"))
    assert "`tools/enlarge image 8192 64 4`" in more.helps
    assert run("image")[0] == 0
    assert (limits(), dump()) == ((8_192, 64, 4, 3), before)


def test_another_version():
    """For larger files, with the same limits or others."""
    make("image", ("64", "64", "300"), SESSION)
    before = dump()
    for word, version, name in (("v2", 2, KEPT), ("v3", 3, KEPT + "-2")):
        assert run("image", "64", "64", "300", word) == (0, f"enlarge: image: from {told_limits(64, 64, 300)} to {told_limits(64, 64, 300)}, of version "
                                                            f"{version}; the old image is {name} until you remove it")
        assert (limits(), dump()) == ((64, 64, 300, version), before)
    assert without_room("image", "64", "64", "300", "v2") == "image: it has these limits", "it goes to no earlier version"


@pytest.mark.parametrize("size, version", ((1_048_576, 2), (1_048_577, 3)))
def test_a_large_file(size, version):
    """It is in the new image too."""
    make("image", ("64", "64", "300", f"v{version}"), b"add large %d\n" % size + bytes(size) + b"\n")
    before = dump()
    assert run("image")[0] == 0
    assert (limits(), dump()) == ((64, 64, 600, version), before)


@pytest.mark.parametrize("numbers, said", (
    (("100", "64", "8"), "FILES is '100', and has to be a power of two from 64 to 262144"),
    (("524288", "0", "16777217"), "FILES is '524288', and has to be a power of two from 64 to 262144; PROPS is '0', and has to be a multiple of 64 from 64 "
                                  "to 1048576; BLOCKS is '16777217', and has to be a number from 1 to 16777216"),
    (("64", "100", "-1"), "PROPS is '100', and has to be a multiple of 64 from 64 to 1048576; BLOCKS is '-1', and has to be a number from 1 to 16777216"),
    (("64", "64", "\u0664"), "BLOCKS is '\u0664', and has to be a number from 1 to 16777216"),
    (("128", "64", "3"), "5 blocks are used, and 3 are too few"), (("64", "64", "8"), "it has these limits")))
def test_refused_numbers(numbers, said):
    make("image", ("64", "64", "8"), SESSION + b"create c\nadd d 1\nd\n")
    assert without_room("image", *numbers) == f"image: {said}"


def test_more_than_fits():
    make("image", ("128", "128", "8"), b"".join(b"create f%d\nmkdir w%d\n" % (number, number) for number in range(70)))
    assert without_room("image", "64", "64", "8") == "image: 70 files are used, and 64 are too few; 72 words are used, and 64 are too few"


def test_no_larger_one(monkeypatch):
    """If what is used most can't be more."""
    make("image", ("64", "64", "8"), SESSION)
    monkeypatch.setattr(limits_module, "LARGEST", limits_module.LARGEST._replace(blocks=8))
    with session() as program:
        program.add(b"more", bytes(16_384))
    before = dump()
    with pytest.raises(limits_module.NoLimits, match="it has 64 files, 64 words and 8 blocks, and no image has more: use several"):
        enlarge.enlarge("image", [], enlarge.Done())
    assert (dump(), limits(), os.listdir()) == (before, (64, 64, 8, 1), ["image"])


@pytest.mark.parametrize("words", ((), ("image", "64"), ("image", "64", "64"), ("image", "64", "64", "8", "v1"),
                                   ("image", "64", "64", "8", "v3", "v3"), ("--nope", "image")))
def test_wrong_use(words):
    make()
    status, line = run(*words)
    assert status == 2 and "usage: tools/enlarge IMAGE [FILES PROPS BLOCKS [v2|v3]]" in line
    assert os.listdir() == ["image"]


def test_no_image():
    make()
    written("text", b"text")
    os.mkdir("folder")
    os.symlink("gone", "link")
    for name, said in (("gone", "gone: No such file or directory"), ("link", "No such file or directory"), ("text", "lisfs: image too short: text: 4 bytes of 4096"),
                       ("folder", "folder: no file: only an image in a file can be enlarged; a dump brings another one into a larger image "
                                  "(docs/guide/backup.md)")):
        assert said in without_room(name), name


def test_a_link():
    os.mkdir("at")
    make("at/image", ("64", "64", "4"), SESSION)
    os.symlink("at/image", "link")
    before = dump("link")
    status, line = run("link")
    assert status == 0 and "at/image.before-enlarging until" in line and os.readlink("link") == "at/image", "the link stays"
    assert (limits("at/image"), dump("link"), sorted(os.listdir("at"))) == ((64, 64, 8, 1), before, ["image", KEPT])


def test_permissions():
    make("image", ("64", "64", "4"), SESSION)
    os.chmod("image", 0o640)
    with_attributes = True
    try:
        os.setxattr("image", "user.note", b"mine")
    except OSError as error:
        assert error.errno == errno.EOPNOTSUPP
        with_attributes = False
    assert run("image", umask=0)[0] == 0
    assert [os.stat(name).st_mode & 0o7777 for name in ("image", KEPT)] == [0o640] * 2
    assert not with_attributes or os.getxattr("image", "user.note") == b"mine"


def test_owner(root):
    make("image", ("64", "64", "4"), SESSION)
    os.chown("image", 12_345, 54_321)
    assert run("image")[0] == 0
    assert [(found.st_uid, found.st_gid) for found in map(os.stat, ("image", KEPT))] == [(12_345, 54_321)] * 2


def test_nobody_reads_it_before(monkeypatch):
    """While it is filled the new image is its owner's alone, however many may read the old one."""
    make("image", ("64", "64", "4"), SESSION)
    modes = []
    fill = enlarge.fill

    def looked(old, new, wished):
        modes.append(os.stat(new).st_mode & 0o777)
        fill(old, new, wished)
        modes.append(os.stat(new).st_mode & 0o777)

    monkeypatch.setattr(enlarge, "fill", looked)
    enlarge.enlarge("image", [], enlarge.Done())
    assert modes == [0o600, 0o600] and os.stat("image").st_mode & 0o777 == os.stat(KEPT).st_mode & 0o777


def test_in_use(rooms):
    make("image", ("64", "64", "4"), SESSION)
    with open("image", "rb") as file:
        fcntl.flock(file, fcntl.LOCK_EX)
        assert without_room("image") == "image: in use by another lisfs: end it, or its server, first"
    with Served("image"):
        assert without_room("image") == "image: in use by another lisfs: end it, or its server, first"


# Programs that run the real one, and do something more.
WRAPPERS = {
    # Another program puts a file into the old image after the larger one was filled, or after both were shown to be compared.
    "filled": ('"$REAL" "$@"; s=$?; [ "$1" != load ] || echo "create late" | "$REAL" run image >late; exit $s',
               "the dump of the larger image is not that of the old one"),
    "compared": ('"$REAL" "$@"; s=$?; case "$1 $2" in "load "*) touch filled;; "dump image") [ ! -e filled ] || touch shown;; '
                 '"dump "*) until [ -e shown ]; do sleep 0.01; done; until echo "create late" | "$REAL" run image >late 2>&1; do :; done;; esac; exit $s',
                 "another program has changed it meanwhile; run this again"),
    "dump": ('"$REAL" "$@"; [ "$1" != dump ] || exit 3', "the program ended with 3"),
    "load": ('"$REAL" "$@"; [ "$1" != load ] || { echo "lisfs: disk fault" >&2; exit 3; }', "lisfs: disk fault"),
    "cut": ('if [ "$1" = load ]; then head -c 100 >cut; "$REAL" "$@" <cut; else "$REAL" "$@"; fi', "the larger image refuses what the old one has"),
}


@pytest.mark.parametrize("name", WRAPPERS)
def test_what_goes_wrong(program, name):
    """Nothing is swapped if one of the two programs fails, or if another one has changed the image meanwhile."""
    text, said = WRAPPERS[name]
    make("image", ("64", "64", "4"), SESSION)
    before = dump()
    wrapper = os.path.abspath(written("wrapper", f"#!/bin/sh\n{text}\n", 0o755))
    status, line = run("image", env={**os.environ, "REAL": program, "LISFS_PROGRAM": wrapper})
    assert status == 1 and said in line and line.endswith(": nothing was changed"), line
    assert dump().replace(b"add late 0\n\n", b"") == before and limits() == (64, 64, 4, 1)
    assert not glob.glob("image.*"), "nothing is left"


def test_no_space(root):
    """On a disk that has room for one image and not for two."""
    make("image", ("64", "64", "300"), b"add one 65000\n" + b"x" * 65_000 + b"\nadd two 65000\n" + b"y" * 65_000 + b"\n")
    os.mkdir("disk")
    if subprocess.run(["mount", "-t", "tmpfs", "-o", "size=2m", "none", "disk"], capture_output=True, check=False).returncode:
        pytest.skip("no file system can be mounted")
    try:
        subprocess.run(["cp", "--sparse=always", "image", "disk/image"], check=True)
        os.chdir("disk")
        before = dump()
        written("ballast", bytes(os.statvfs(".").f_bavail * os.statvfs(".").f_bsize - 65_536))
        line = without_room("image")
        assert "No space left on device" in line and dump() == before, line
    finally:
        os.chdir("..")
        subprocess.run(["umount", "disk"], check=True)


def test_left_over(program):
    """What a killed run left is removed, unless another one works on it, and nothing else is."""
    make("image", ("64", "64", "4"), SESSION)
    for name in ("image.new-01234567", "image.new-89abcdef", "image.new-0123456", "image.new-0123456x", "other.new-01234567"):
        written(name, b"x")
    # Between its two steps: it has the old image under both names.
    os.link("image", KEPT)
    with open("image.new-89abcdef", "rb"):
        assert run("image")[0] == 0
    assert sorted(os.listdir()) == ["image", KEPT, "image.new-0123456", "image.new-0123456x", "image.new-89abcdef", "other.new-01234567"]
    assert run("image")[0] == 0 and not os.path.exists("image.new-89abcdef") and os.path.exists(KEPT + "-2")


def test_without_hard_links(monkeypatch):
    """As on a file system that has none. The old image then has one name at a time."""
    make("image", ("64", "64", "4"), SESSION)
    before = dump()

    def no_link(*_):
        raise OSError(errno.EPERM, "Operation not permitted")

    monkeypatch.setattr(os, "link", no_link)
    enlarge.enlarge("image", [], enlarge.Done())
    assert (limits(), dump(), dump(KEPT)) == ((64, 64, 8, 1), before, before)
    # If the second step fails, the first is undone.
    real = os.rename
    monkeypatch.setattr(os, "rename", lambda old, new: real(old, new) if ".new-" not in old else no_link())
    with pytest.raises(OSError):
        enlarge.enlarge("image", [], enlarge.Done())
    assert (limits(), dump(), sorted(os.listdir())) == ((64, 64, 8, 1), before, ["image", KEPT])
    # `tools/sync` makes an image there too, and overwrites nothing.
    monkeypatch.setattr(os, "rename", real)
    making.make("new", limits_of("image"))
    assert limits("new") == limits() and dump("new") == b""
    with pytest.raises(FileExistsError):
        making.make("new", limits_of("image"))


def test_who_opened_the_old_image(monkeypatch):
    """A program that opened the image by its name just before the swap can't write into the old one: its lock is held until that program ends."""
    make("image", ("64", "64", "4"), SESSION)
    late = os.open("image", os.O_RDWR)
    looks = []
    real = making.is_open_elsewhere

    def look(old):
        looks.append(real(old))
        with pytest.raises(BlockingIOError):
            fcntl.flock(late, fcntl.LOCK_EX | fcntl.LOCK_NB)
        if len(looks) == 3:
            os.close(late)
            monkeypatch.setattr(enlarge, "is_open_elsewhere", real)
        return looks[-1]

    monkeypatch.setattr(enlarge, "is_open_elsewhere", look)
    enlarge.enlarge("image", [], enlarge.Done())
    assert looks in ([True] * 3, [False]), "or its file system has no leases"


def test_a_folder_is_still_known(program):
    """`tools/sync` goes on as before, and takes no kept image for a file of the folder."""
    written("top/a.txt", "one\n")
    make("top/image", ("64", "64", "8"))
    assert sync("--as", "t", "top/image", "top")[0] == 0
    assert run("top/image")[0] == 0 and run("top/image")[0] == 0
    assert sync("--as", "t", "top/image", "top") == (0, ["sync:t: nothing changed, 1 as they were"], "")


def killed_after(seconds, *words):
    """Runs it in a process group, which is killed after this time. Returns whether it had ended by then."""
    process = subprocess.Popen([*ENLARGE, *words], stdin=subprocess.DEVNULL, stdout=subprocess.DEVNULL, stderr=subprocess.DEVNULL, start_new_session=True)
    try:
        process.wait(seconds)
        return True
    except subprocess.TimeoutExpired:
        return False
    finally:
        os.killpg(process.pid, signal.SIGKILL) if process.poll() is None else None
        process.wait(LONG)


def is_free():
    """Whether no program has the image open: of a killed group some may end only a moment later."""
    return b"in use by another lisfs" not in usage(PROGRAM, "dump", "image")


def test_kills():
    """SIGKILL of the whole process group, at moments that are spread over a run. The image is at its name and whole after each."""
    chance = random.Random(1)
    make("image", ("64", "64", "64"), SESSION + b"".join(b"add f%d 4096 mine\n%b\n" % (number, bytes(4_096)) for number in range(40)))
    before = dump()
    began = time.monotonic()
    assert run("image", "64", "64", "65")[0] == 0
    # A run may take longer than that one, as other work does.
    whole, ended = 1.2 * (time.monotonic() - began), 0
    for number in range(KILLS):
        ended += killed_after(whole * (number + chance.random()) / KILLS, "image", "64", "128", str(100 + number))
        assert until(is_free)
        assert dump() == before, f"kill {number}"
        for name in making.kept_names("image"):
            assert dump(name) == before, f"kill {number}: {name}"
            os.unlink(name)
        assert len(glob.glob("image.new-*")) <= 1, "one at a time is left"
    assert ended < KILLS, "some were killed"
    assert run("image", "128", "128", "64")[0] == 0
    assert (limits(), dump(), sorted(os.listdir())) == ((128, 128, 64, 1), before, ["image", KEPT]), "and nothing is left after a whole run"


def test_a_stop(program):
    """SIGTERM ends it, and removes what was begun."""
    make("image", ("64", "64", "4"), SESSION)
    before = dump()
    slow = os.path.abspath(written("slow", '#!/bin/sh\n[ "$1" != load ] || { mkfifo begun; echo >begun; sleep 60; }\nexec "$REAL" "$@"\n', 0o755))
    process = subprocess.Popen([*ENLARGE, "image"], env={**os.environ, "REAL": PROGRAM, "LISFS_PROGRAM": slow}, stderr=subprocess.PIPE,
                               start_new_session=True)
    while not os.path.exists("begun"):
        time.sleep(0.01)
    with open("begun", "rb"):
        pass
    os.killpg(process.pid, signal.SIGTERM)
    _, said = process.communicate(timeout=LONG)
    assert (process.returncode, said) == (1, b"enlarge: image: stopped: nothing was changed\n")
    assert dump() == before and not glob.glob("image.*")


def test_usage_of_the_program(program):
    """The words that it needs."""
    assert b"lisfs load IMAGE" in usage(program, "load") and shutil.which("env")
