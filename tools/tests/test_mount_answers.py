"""`tools/mount`: its answers over the built program, asked directly, by messages, and by the system if a folder can be mounted."""
import os
import random

import pytest

from lisfs.client import Refused
from lisfs.dumps import opened
from lisfs.formulas import Place
from lisfs.limits import limits_of
from lisfs.mount.image import KEPT, Image
from support import images
from support.mount.answers import (
    DERIVED, FOLDERS, NAMES, NEW, RD, RW, TAKING_BACK, WR, by_messages, directly, make, really, told_by)

pytestmark = pytest.mark.usefixtures("program")


@pytest.fixture(params=(directly, by_messages, really), ids=("directly", "by messages", "the system"))
def way(request):
    """How the mount is asked."""
    if request.param == really:
        request.getfixturevalue("fuse")
    return request.param


def rows(ways, table):
    for number, (wanted, call, *given) in enumerate(table):
        assert told_by(getattr(ways, call), *given) == wanted, f"row {number}: {call}{given}"[:120]


def several(ways, *calls):
    """The results of some calls, in sequence."""
    return tuple(getattr(ways, call)(*given) for call, *given in calls)


def new_ones(ways):
    """Everybody sees a new file before its first bytes are stored."""
    ways.mkdir("new")
    handle = ways.open("new/first", WR | NEW)
    ways.write(handle, b"first", 0)
    assert told_by(several, ways, ("ls", "new"), ("size", ":all/first"), ("get", "first")) == (["first"], 0, b""), "a new file elsewhere"
    assert told_by(lambda: (told_by(ways.open, "new/first", WR | os.O_CREAT | os.O_EXCL), told_by(ways.mkdir, "first"))) == (
        "EEXIST", "EEXIST"), "its name is taken"
    ways.close(handle)
    assert told_by(ways.get, "first") == b"first", "and closed"
    handle = ways.open("new/second", WR | NEW)
    ways.unlink("second")
    ways.write(handle, b"second", 0)
    ways.close(handle)
    assert told_by(ways.stat, "second") == "ENOENT", "a new file that was removed"
    handle = ways.open("new/third", WR | NEW)
    ways.rename("new/third", "fourth")
    ways.write(handle, b"third", 0)
    ways.close(handle)
    assert told_by(several, ways, ("ls", "new"), ("get", "fourth")) == (["first"], b"third"), "a new file that was moved"
    ways.unlink("first")
    ways.unlink("fourth")
    ways.rmdir("new")


def two_paths(ways):
    """A file has an inode at each path. What is written is seen at its own path, and elsewhere once it is closed or synced."""
    ways.mkdir("music")
    ways.put("music/x", b"first")
    assert told_by(several, ways, ("get", "music/x"), ("get", "x")) == (b"first", b"first"), "two paths"
    seen = [ways.stat(path) for path in ("x", "music/x", ":all/x")]
    assert len({found.inode for found in seen}) == 3, ("an inode for each", seen)
    assert {(found.links, found.size) for found in seen} == {(2, 5)}, ("two links, and a size", seen)
    assert ways.stat("x").inode == seen[0].inode, "the same inode again"
    handle = ways.open("x", RW)
    ways.write(handle, b"FI", 0)
    assert told_by(several, ways, ("read", handle, 9, 0), ("get", "x"), ("get", "music/x")) == (b"FIrst", b"FIrst", b"first"), "a writer"
    ways.write(handle, b"!", 7)
    assert told_by(lambda: (ways.stat("x").size, ways.stat("music/x").size)) == (8, 5), "sizes meanwhile"
    reader = ways.open("music/x", RD)
    assert told_by(ways.read, reader, 9, 0) == b"first", "a reader elsewhere"
    ways.sync(handle)
    assert told_by(several, ways, ("get", "x"), ("get", "music/x"), ("read", reader, 9, 0)) == (b"FIrst\0\0!",) * 3, "after a sync"
    assert told_by(lambda: (ways.stat("x").size, ways.stat("music/x").size)) == (8, 8), "sizes then"
    ways.close(reader)
    ways.change("x", handle, size=2)
    assert told_by(lambda: (ways.stat("x").size, ways.stat("music/x").size)) == (2, 8), "a cut through the handle"
    ways.close(handle)
    assert told_by(ways.get, "music/x") == b"FI", "and closed"
    ways.change("music/x", size=4)
    assert told_by(several, ways, ("get", "x"), ("get", "music/x")) == (b"FI\0\0", b"FI\0\0"), "a cut by the path"


def writers(ways):
    """Writers at two paths write the same bytes, and copying a file onto itself at another path loses nothing."""
    ways.put("log", b"")
    ways.link("log", "music/log")
    handles = [ways.open(path, WR | os.O_APPEND) for path in ("log", "music/log", "log")]
    for turn in range(3):
        for number, handle in enumerate(handles):
            ways.write(handle, b"%d%d " % (turn, number), 0, os.O_APPEND)
    for handle in handles:
        ways.close(handle)
    assert told_by(ways.get, "log") == b"00 01 02 10 11 12 20 21 22 ", "appenders"
    handles = [ways.open(path, RW) for path in ("log", "music/log")]
    ways.write(handles[0], b"AA", 0)
    ways.write(handles[1], b"BB", 3)
    assert told_by(several, ways, ("read", handles[0], 5, 0), ("read", handles[1], 5, 0)) == (b"AA BB", b"AA BB"), "two writers"
    ways.close(handles[0])
    ways.write(handles[1], b"CC", 6)
    assert told_by(several, ways, ("get", "log"), ("get", "music/log")) == (
        b"AA BB 02 10 11 12 20 21 22 ", b"AA BB CC 10 11 12 20 21 22 "), "one of them is left"
    ways.close(handles[1])
    assert told_by(ways.get, "log") == b"AA BB CC 10 11 12 20 21 22 ", "none is left"
    # As `cp music/x x` does: it opens both, which empties the second, and then reads the first.
    source, target = ways.open("music/x", RD), ways.open("x", WR | os.O_TRUNC)
    ways.write(target, ways.read(source, 99, 0), 0)
    ways.close(target)
    ways.close(source)
    assert told_by(ways.get, "x") == b"FI\0\0", "a copy onto itself"


def goes(ways):
    """A file that is open when it is removed, replaced, moved or renamed."""
    handle, reader = ways.open("x", RW), ways.open("music/x", RD)
    ways.write(handle, b"gone", 0)
    ways.unlink("music/x")
    assert told_by(ways.stat, "x") == "ENOENT", "gone"
    assert told_by(several, ways, ("read", handle, 9, 0), ("write", handle, b"more", 4), ("sync", handle)) == (b"gone", 4, None), "its writer goes on"
    assert told_by(ways.read, reader, 9, 0) == b"FI\0\0", "its reader too"
    ways.put("x", b"another")
    assert told_by(several, ways, ("read", handle, 9, 0), ("get", "x")) == (b"gonemore", b"another"), "it is another one"
    ways.close(handle)
    ways.close(reader)
    # Renamed onto another one before it is closed.
    reader, handle = ways.open("x", RD), ways.open("new", WR | NEW)
    ways.write(handle, b"new", 0)
    ways.rename("new", "x")
    assert told_by(several, ways, ("get", "x"), ("read", reader, 9, 0)) == (b"new", b"another"), "it took the place"
    ways.write(handle, b"er", 3)
    ways.close(handle)
    ways.close(reader)
    assert told_by(ways.get, "x") == b"newer", "and is written on"
    handle = ways.open("x", WR)
    ways.write(handle, b"NEW", 0)
    ways.rename("x", "music/y")
    ways.close(handle)
    assert told_by(ways.get, "music/y") == b"NEWer", "moved meanwhile"


def sizes(ways):
    """Empty files, new ones, and those of the largest size."""
    ways.close(ways.open("y", WR | os.O_TRUNC))
    assert told_by(ways.get, "music/y") == b"", "emptied by opening"
    assert told_by(ways.open, "y", WR | os.O_CREAT | os.O_EXCL) == "EEXIST", "not anew"
    ways.close(ways.open("z", WR | os.O_CREAT | os.O_EXCL))
    assert told_by(lambda: ways.stat("z").size) == 0, "an empty new one"
    assert told_by(ways.put, "z", bytes(65_537)) == "EFBIG", "too large"
    assert told_by(ways.put, "z", bytes(65_536)) is None, "the largest"
    assert told_by(lambda: ways.stat("z").size) == 65_536, "its size"
    assert told_by(lambda: ways.change("z", size=65_537)) == "EFBIG", "made too large"
    handle = ways.open("z", WR)
    assert told_by(ways.write, handle, b"x", 65_536) == "EFBIG", "written behind the end"
    ways.close(handle)


def test_a_file_larger_than_what_is_kept():
    """It is asked for once, although it is read in pieces."""
    size = KEPT + 4_096
    images.make("image", ("64", "64", "8300", "v3"), b"mkdir music\nadd large %d music\n%b\n" % (size, bytes(size)))
    program, dump = opened("image")
    with program:
        asked, image = [], Image(program, dump, limits_of("image"))
        real = program.cat
        program.cat = lambda name: asked.append(name) or real(name)
        large = image.files[b"large"]
        assert all(image.content(large)[at:at + 4_096] == bytes(4_096) for at in range(0, size, 1_048_576)) and asked == [b"large"]


def test_contents(way):
    """What is written, and when it is in the image."""
    make("image", "64", "128", "64")
    with way("image") as ways:
        for part in (new_ones, two_paths, writers, goes, sizes):
            part(ways)
    with way("image") as ways:
        assert told_by(lambda: [(file, ways.stat(file).size) for file in ways.ls(":all")]) == [("log", 27), ("y", 0), ("z", 65_536)], "in the image"
        assert told_by(ways.get, "music/log") == b"AA BB CC 10 11 12 20 21 22 ", "its bytes"


def test_looks(way):
    """Modes and times last for one mount."""
    make("image", "64", "128", "64")
    with way("image") as ways:
        ways.mkdir("music")
        ways.put("music/x", b"first")
        before = ways.stat("x").modified
        ways.change("music/x", mode=0o600)
        ways.change("music/x", accessed=10**18, modified=10**18 + 7)
        found = ways.stat("x")
        assert told_by(lambda: (found.mode, found.accessed, found.modified)) == (0o100600, 10**18, 10**18 + 7), "at both paths"
        ways.put("music/x", b"second")
        assert ways.stat("x").modified > before > 0, ("a write is told", ways.stat("x"))
        handle = ways.open("x", WR)
        ways.write(handle, b"S", 0)
        ways.change("x", modified=10**18 + 5)
        ways.close(handle)
        assert told_by(lambda: ways.stat("music/x").modified) == 10**18 + 5, "a time that was set before the close"
        ways.put("stamp", b"")
        ways.change("stamp", modified=10**18)
        ways.put("stamp", b"")
        assert ways.stat("stamp").modified > before, ("an empty file that was emptied", ways.stat("stamp"))
        ways.change("music", mode=0o700)
        assert told_by(lambda: (ways.stat("music").mode, ways.stat("").mode)) == (0o40700, 0o40755), "a folder"
        assert told_by(lambda: ways.stat("music").links) == 1, "a folder's links"
        if os.getuid() == 0:
            ways.change("x", user=7, group=8)
            assert told_by(lambda: ways.stat("music/x")[-2:]) == (7, 8), "an owner"
        before = ways.stat("").modified, ways.stat("music").modified
        ways.put("music/y", b"")
        after = ways.stat("").modified, ways.stat("music").modified
        assert after[0] > before[0] and after[1] > before[1], ("the times of folders", (before, after))
        ways.change("music", accessed=10**18, modified=10**18 + 9)
        assert told_by(lambda: ways.stat("music").modified) == 10**18 + 9, "a folder's time that was set"
        ways.change("music", mode=0o750)
        assert told_by(lambda: ways.stat("music").modified) == 10**18 + 9, "and stays"
        ways.rename("music/y", "y")
        assert ways.stat("music").modified > before[1], ("until something changes", before)
        assert told_by(lambda: tuple(ways.space())) == (64, 63, 64, 61, 4096, 60), "space"
    with way("image") as ways:
        assert told_by(lambda: ways.stat("x").mode) == 0o100644, "a new mount"


def test_no_room(way):
    """What an image has no room for is reported at the close, and can be tried again."""
    make("image", "64", "128", "4")
    with way("image") as ways:
        ways.put("old", bytes(8_192))
        ways.put("x", b"x")
        handle = ways.open("x", RW)
        ways.write(handle, bytes(12_288), 0)
        assert told_by(ways.sync, handle) == "ENOSPC", "no room"
        assert told_by(ways.read, handle, 99_999, 0) == bytes(12_288), "it still can be read"
        assert told_by(ways.sync, handle) == "ENOSPC", "no room again"
        assert told_by(ways.get, ":all/x") == b"x", "elsewhere"
        ways.unlink("old")
        assert told_by(ways.sync, handle) is None, "room now"
        assert told_by(lambda: ways.stat(":all/x").size) == 12_288, "and there it is"
        ways.write(handle, bytes(12_288), 12_288)
        assert told_by(ways.close, handle) == "ENOSPC", "no room at the close"
        assert told_by(ways.get, "x") == bytes(12_288), "the old bytes"
        assert told_by(ways.put, "x", bytes(20_480)) == "ENOSPC", "a new try"
        assert told_by(lambda: ways.change("x", size=20_480)) == "ENOSPC", "a cut"
        assert told_by(lambda: ways.stat("x").size) == 12_288, "the size then"
        assert told_by(ways.put, "x", bytes(16_384)) is None, "a smaller one"
        assert told_by(ways.put, "y", b"y") == "ENOSPC", "no other one"
        assert told_by(ways.get, "y") == b"", "which is there, empty"


def test_too_many(way):
    make("image", "64", "128", "64")
    with way("image") as ways:
        for number in range(64):
            ways.put(f"f{number}", b"")
        assert told_by(ways.open, "f64", WR | NEW) == "ENOSPC", "too many files"
        for number in range(17):
            ways.mkdir(f"w{number}")
        path = "/".join(f"w{number}" for number in range(17))
        ways.unlink("f0")
        assert told_by(ways.open, path + "/f0", WR | NEW) == "EMLINK", "too many words"
        assert told_by(ways.put, path.rpartition("/")[0] + "/f0", b"16") is None, "sixteen"
        assert told_by(ways.link, "f0", "w16/f0") == "EMLINK", "one more"
        told = [told_by(ways.mkdir, f"v{number}") for number in range(128)]
        assert told[0] is None and told[-1] == "ENOSPC", ("too many known words", told[-1])
        ways.unlink("f1")
        assert told_by(ways.open, "f1.new", WR | NEW) == "ENOSPC", "no room for the word of an ending"
        assert told_by(lambda: (told_by(ways.put, "f1", bytes(2_000)), ways.stat("f1").size)) == ("ENOSPC", 0), "nor for one of the bytes"
    # Sixteen words of 60 bytes and a name: no line has room for all of them.
    make("image", "64", "128", "64")
    with way("image") as ways:
        words = [f"{number:02}" + "w" * 58 for number in range(16)]
        for word in words:
            ways.mkdir(word)
        assert told_by(ways.put, "/".join(words) + "/" + "n" * 60, b"long") is None, "the longest place"
        assert told_by(ways.get, words[3] + "/" + "n" * 60) == b"long", "its file"


def test_both_kinds(way):
    """An image may have a file with the name of a word: the folder hides it, and `:all` has the file."""
    make("image", "64", "128", "64")
    with images.session() as program:
        program.mkdir(b"music")
        program.add(b"music", b"a file", b"music")
        program.create(b"x")
    with way("image") as ways:
        rows(ways, (
            (["music/", "x"], "ls", ""), ([], "ls", "music"), (["music", "x"], "ls", ":all"), (b"a file", "get", ":all/music"),
            ("EISDIR", "get", "music"), (None, "rename", ":all/music", "song"), (["song"], "ls", "music")))


@pytest.mark.parametrize("table", (FOLDERS, TAKING_BACK, DERIVED, NAMES), ids=("folders", "taking back", "derived words", "names"))
def test_table(way, table):
    make("image", "64", "128", "64")
    with way("image") as ways:
        rows(ways, table)


def test_shown_derived_words(way):
    make("image", "64", "128", "64")
    with way("image", True) as ways:
        rows(ways, (
            (None, "put", "a.c", b""), (["a.c"], "ls", ""), (None, "put", "b", b"b"), (["ext:/", "size:empty/", "size:small/"], "ls", ""),
            (["a.c"], "ls", "ext:")))


PARTS = ["a", "b", "c", "d", "e", "k:1", "k:2", "k:", "!a", "a|k:2", "!(b|c)", "size>=3", "size<2", "ext:c", "!ext:c", "size:small|a"]


def some_change(chance, at):
    """A call and its arguments, at a path or from it to another one."""
    name = chance.choice("uvwxyz") + chance.choice(["", ".c"])
    other = "/".join([chance.choice(["a", "b", "k:1", "k:2"]) for _ in range(chance.randrange(3))] + [name])
    path = "/".join(at + [name])
    return chance.choice((
        ("put", path, b"x" * chance.randrange(12)), ("put", path, b"#include <%s>\n" % chance.choice((b"p", b"q"))), ("unlink", path),
        ("rename", path, other), ("link", path, other), ("rename", path, "/".join(at + [chance.choice("uvwxyz")])),
        ("mkdir", "/".join(at + [chance.choice("de")])), ("rmdir", "/".join(at + [chance.choice("deck")])),
        ("open", path, WR | NEW), ("open", path, WR | os.O_CREAT)))


def go_on(ways, handles, chance):
    """Actions on an open file."""
    if handles:
        handle = chance.choice(handles)
        told_by(ways.write, handle, b"y" * chance.randrange(1, 9), chance.randrange(3))
        if chance.randrange(2):
            handles.remove(handle)
            told_by(ways.close, handle)


def test_agreement():
    """After any changes, what the mount knows of an image is what the program says."""
    chance = random.Random(7)
    make("image", "64", "192", "64")
    with images.session() as program:
        for word in (b"a", b"b", b"c", b"k:", b"size>=3", b"size>=9", b"size<2"):
            program.mkdir(word)
        program.axiom(b"size>=3", b"c")
        program.axiom(b"k:1", b"b")
    with directly("image") as ways:
        image, handles = ways.tree.image, []
        image.settle = made_surely(image.settle)
        for turn in range(500):
            at = [chance.choice(PARTS) for _ in range(chance.randrange(3))]
            call, *given = some_change(chance, at)
            told = told_by(getattr(ways, call), *given)
            if call == "open" and isinstance(told, int):
                handles.append(told)
            if chance.randrange(2):
                go_on(ways, handles, chance)
            if turn % 4 == 0:
                for place in [Place(part.encode() for part in at)] + [Place((part.encode(),)) for part in PARTS]:
                    agrees(f"turn {turn}, {place.text.decode()}", image, place)
        for handle in handles:
            told_by(ways.close, handle)
        before, words = known_of(image), (image.declared, image.axioms)
    with directly("image") as ways:
        image = ways.tree.image
        assert known_of(image) == before, "opened again"
        assert (image.declared, image.axioms) == words, ("the words again", (image.axioms, words))


def made_surely(settle):
    """Nothing prevents that a waiting file is made."""
    def settled():
        try:
            settle()
        except Refused as refused:
            raise AssertionError("a file that waits is not made") from refused
    return settled


def known_of(image):
    files = [file.name for file in image.listing(Place(), True)[1]]
    return files, {file.name: (file.size, file.words, bytes(image.content(file))) for file in image.files.values()}


def agrees_below(name, image, place, used):
    """A folder that shows only words that entail its last one shows those of the listing that do, and each file that they don't cover."""
    last, here = place.words[-1], image.extension(place)
    words, files = image.below(place, last, True)
    found = [word for word in words if image.index.having(word)]
    assert {word for word in used if last in image.entailed([word])} <= set(found), f"{name}: more specific words"
    assert all(last in image.entailed([word]) and 0 < here & image.index.having(word) < here for word in found), f"{name}: only such words"
    covered = 0
    for word in found:
        covered |= image.index.having(word)
    assert {file.name for file in image.index.of(here & ~covered)} - image.declared == {file.name for file in files}, f"{name}: other files"


def agrees(name, image, place):
    """A place's listing and files are those of the program."""
    program, here = image.program, image.extension(place)
    try:
        words, files = image.listing(place, True)
        program.cd(place.text)
    except Refused as refused:
        assert refused.number == 6 and not (here and place.words is not None), f"{name}: a place of unknown words"
        return
    used = [word for word in words if word not in image.declared or image.index.having(word)]
    body = program.ls().body
    assert [text for letter, text in body if letter == b"d"] == used, (f"{name}: words", (body, words))
    shown = {text for letter, text in body if letter == b"f"} - image.declared
    assert shown == {file.name for file in files}, (f"{name}: files", (body, files))
    if place.words:
        agrees_below(name, image, place, used)
    for file in image.files.values():
        try:
            told = frozenset(text for _, text in program.props(file.name).body)
        except Refused:
            told = None
        assert told == (file.words if file.bit & here else None), f"{name}: {file.name.decode()}"
    program.cd(b"/")
