"""`tools/mount`: what its folders show to programs that walk all of them: each file, and few enough folders that they end. Also what a mount asks the
program for."""
import itertools
import os
import shutil
import subprocess
import tempfile

import pytest

from lisfs.dumps import dumped
from support.images import make, session
from support.mount import mails
from support.mount.answers import Mount, by_messages, directly, really, told_by
from support.waiting import LONG

pytestmark = pytest.mark.usefixtures("program")
MAILS = 1_500
BOXES = sorted(word.decode() + "/" for word in mails.BOXES)


@pytest.fixture(scope="module")
def image_of_mails(request):
    """The path of an image with N synthetic mails, which no test changes, and how many words each file has altogether."""
    request.getfixturevalue("program")
    folder = tempfile.mkdtemp()
    yield make(os.path.join(folder, "mails"), mails.LIMITS, mails.session(MAILS))
    shutil.rmtree(folder)


class Walked:
    """What a program finds that enters each folder that it is shown, and how much it asked for. More than `most` folders are too many."""

    def __init__(self, ways, top, most, looks=False):
        self.folders, self.entries, self.files, self.ways = 0, 0, set(), ways
        self.most, self.looks = most, looks
        self.walk(ways.walk(top))

    def walk(self, number):
        self.folders += 1
        assert self.folders <= self.most, "so many folders"
        handle, entries = self.ways.tree.opendir(number), []
        while new := self.ways.tree.readdir(handle, len(entries))[len(entries):]:
            entries += new
        self.ways.tree.releasedir(handle)
        self.entries += len(entries) - 2
        for inode, kind, name in entries[2:]:
            if kind == 4 or self.looks:
                found = self.ways.tree.lookup(number, name)
                assert found.attributes.inode == inode, "the same file as the listing has"
            if kind == 4:
                self.walk(found.node)
                self.ways.tree.forget(found.node, 1)
            else:
                self.files.add(name.decode())


def names(count):
    return {f"m{number:04}.eml" for number in range(count)}


def given_to(image):
    """The words that each file of an image was given, and their heads."""
    return [words | {word.partition(b":")[0] + b":" for word in words if b":" in word} for _, words in dumped(image).files.values()]


@pytest.mark.parametrize("looks", (False, True), ids=("as find", "as ls -lR"))
def test_a_walk(image_of_mails, looks):
    """It meets each file at most once for each of its words, and each word once."""
    given = given_to(image_of_mails)
    known = set().union(*given)
    with directly(image_of_mails) as ways:
        walked = Walked(ways, "", len(known) + 1, looks)
        assert walked.files == names(MAILS), "each file"
        assert walked.entries <= len(known) + sum(map(len, given)), "what it was shown"


def test_a_walk_of_derived_words(image_of_mails):
    with directly(image_of_mails) as ways:
        index = ways.tree.image.index
        # It asks for the words that files have on their own.
        ways.ls(":by")
        for top in ("", "in:Work"):
            walked = Walked(ways, f"{top}/:by".lstrip("/"), len(index.words()) + 1)
            assert walked.files == {name for name in names(MAILS) if not top or ways.exists(f"{top}/{name}")}, "each file"
            assert walked.entries <= len(index.words()) + sum(len(file.words) for file in index.files.values()), "what it was shown"
    with directly(image_of_mails, True) as ways:
        assert Walked(ways, "", 4_000).files == names(MAILS), "with --derived"


def test_little_is_asked(image_of_mails):
    """The words of each file are asked for when automatic words matter, and not before."""
    with directly(shutil.copy(image_of_mails, "copy")) as ways:
        box = next(word for word in ways.tree.image.files[b"m0000.eml"].given if word.startswith(b"in:")).decode()
        program, sent = ways.tree.image.program, []
        send_bytes = program.send_bytes
        program.send_bytes = lambda line, *more, **named: (sent.append(line.split()[0]), send_bytes(line, *more, **named))
        for path in ("", "who:", "in:Work", "in:Work/who:p1", "!answered", ":all"):
            assert ways.ls(path), path
        assert sent.count(b"props") == 0 and len(sent) <= 4, sent
        ways.put(f"{box}/m0000.eml", b"From: x@example.org\n\n")
        assert "m0000.eml" in ways.ls(box) and sent.count(b"props") == 1, "one that was changed"
        assert told_by(ways.ls, "from:x@example.org") == ["m0000.eml"] and sent.count(b"props") == MAILS, "all of them"
        assert told_by(ways.ls, "from:x@example.org") == ["m0000.eml"] and sent.count(b"props") == MAILS, "only once"


def test_words_by_axioms_and_tests(program):
    """If an automatic word gives files a declared one, all words are asked for at first."""
    for name, line in (("axiom", b"axiom from:a@b own\n"), ("test", b"mkdir size>=30\naxiom size>=30 own\n")):
        make(name, script=b"mkdir own\nmkdir other\nmkdir both\naxiom other both\n" + line + b"add x.eml 30 other\nFrom: a@b\nSubject: a word!\n\n!\n\n"
             b"create y.eml other\ncreate z\n")
        with directly(name) as ways:
            assert told_by(ways.ls, "own") == ["x.eml"] and told_by(ways.ls, "both") == ["own/", "y.eml"], name
    with directly(make("plain", script=b"mkdir other\nmkdir both\naxiom other both\ncreate y other\ncreate z\n")) as ways:
        assert told_by(ways.ls, "") == ["both/", "z"] and told_by(ways.ls, "both") == ["y"] and ways.tree.image.unasked, "by an axiom"


def test_values_stand_below_their_head(image_of_mails):
    with directly(image_of_mails) as ways:
        assert told_by(ways.ls, "") == ["about:/", "answered/", "date:/", "in:/", "list:/", "who:/"], "one folder for each head"
        assert told_by(ways.ls, "in:") == BOXES, "all files have the head, and its folder has the values"
        assert told_by(ways.ls, "who:") == sorted(f"who:p{number}/" for number in range(60)), "other values"
        assert told_by(ways.ls, ":by")[:3] == ["about:/", "answered/", "date:/"] and "from:/" in ways.ls(":by"), "derived ones too"
        assert told_by(ways.ls, "from:") == sorted(names(MAILS)), "a derived head shows no folders but below `:by`"
        assert all(name.startswith("from:p") for name in ways.ls(":by/from:")), "there it does"


def test_paths_open_that_no_listing_shows(image_of_mails):
    with directly(image_of_mails) as ways:
        inside, both = ways.ls("in:Work"), ways.ls("in:Work/who:p1")
        assert inside and not any(name.endswith("/") for name in inside), "a folder of one word has files alone"
        assert both and set(both) < set(inside) and ways.ls("who:p1/in:/in:Work") == both, "a folder of two words"
        assert ways.ls("in:Work/who:p1/date:2020-01|date:2021-01/!answered") is not None, "a formula"
        assert told_by(ways.ls, "in:Work/who:")[0].startswith("who:p"), "a head shows its values there too"
        below = ways.ls("in:Work/:by")
        assert {"about:/", "answered/", "date:/", "who:/"} <= set(below) and "in:/" not in below, "what narrows it, by `:by`"
        assert set(ways.ls("in:Work/:by/who:/who:p1")) == set(both), "and its files"
        assert ways.ls("!answered")[:2] == ["about:/", "date:/"], "a formula begins again"


def test_a_place_in_another_order(image_of_mails):
    """`..` and the same words in another order."""
    with directly(image_of_mails) as ways:
        one, other = ways.ls("in:Work/date:2020-01"), ways.ls("date:2020-01/in:Work")
        assert one == other and ways.get(f"in:Work/date:2020-01/{one[0]}") == ways.get(one[0]), "the same files"


def made_small(files, words):
    """An image of some files, each with some of these words, in each combination."""
    script = [b"mkdir %b\n" % word for word in words]
    choices = itertools.cycle(itertools.combinations(words, len(words) - 2))
    script += [b"create f%d %b\n" % (number, b" ".join(next(choices))) for number in range(files)]
    return make("image", ("256", "256", "8"), b"".join(script))


def test_a_small_image():
    """Folders of two words are shown, and no more."""
    words = [b"w%02d" % number for number in range(12)]
    with directly(made_small(66, words)) as ways:
        assert told_by(ways.ls, "") == [f"{word.decode()}/" for word in words], "each word"
        assert told_by(ways.ls, "w00") == [f"{word.decode()}/" for word in words[1:]], "each other one"
        assert ways.ls("w00/w01") == ways.ls("w01/w00") and all(name.startswith("f") for name in ways.ls("w00/w01")), "files alone"
        assert told_by(ways.ls, "w00/w01/:by")[0] == "w02/", "what narrows it is below `:by`"
        walked = Walked(ways, "", 1 + 12 + 12 * 11)
        assert walked.files == {f"f{number}" for number in range(66)}, "each file"


def test_few_files_with_derived_words():
    """Automatic words are more, so that fewer files make an image large."""
    with directly(made_small(66, [b"v", b"w"])) as ways:
        assert told_by(ways.ls, ":by") == told_by(ways.ls, ""), "all files are alike"
    for count, shown in ((49, ["k/", "size:empty/", "size:small/"]), (51, None)):
        script = b"mkdir k\nmkdir l\n" + b"".join(b"add f%d %d %b\n%b\n" % (number, number % 2, b" ".join([b"k"] * (number % 3 > 0) + [b"l"] * (
            number % 5 > 0)), b"x" * (number % 2)) for number in range(count))
        make("few", ("256", "256", "256"), script)
        with directly("few") as ways:
            files = sorted(f"f{number}" for number in range(count) if number % 5)
            assert told_by(ways.ls, ":by/l") == (shown or files), f"{count} files"
            assert told_by(ways.ls, "l") == ["k/", *sorted(f"f{number}" for number in range(count) if number % 5 and not number % 3)], "given words"


def test_more_specific_words_go_on():
    """A word below another one is shown in its folder, however deep, so that a tree of folders stays a tree."""
    script = b"".join(b"mkdir w%d\n%b" % (number, b"axiom w%d w%d\n" % (number, number - 1) * (number > 0)) for number in range(8))
    make("image", ("2048", "256", "8"), script + b"mkdir other\n" + b"".join(
        b"create f%d w%d%b\n" % (number, number % 8, b" other" * (number % 2)) for number in range(1_200)))
    with directly("image") as ways:
        path = "w0"
        for number in range(1, 8):
            shown = ways.ls(path)
            assert shown[0] == f"w{number}/" and "other/" not in shown and len(shown) == 151, path
            path += f"/w{number}"
        assert len(ways.ls(path)) == 150, "the deepest one"
        assert told_by(ways.ls, "w3/other") == sorted(f"f{number}" for number in range(1_200) if number % 8 >= 3 and number % 2), "no word"
    with session() as program:
        for number in range(1, 1_200, 8):
            program.rm(b"f%d" % number)
    with directly("image") as ways:
        assert told_by(ways.ls, "w1")[:2] == ["w3/", "f10"], "all files of w1 have w2, and what is below that is shown"


def test_unused_words_are_shown():
    make("image", ("2048", "256", "8"), b"mkdir a\nmkdir b\n" + b"".join(b"create f%d a%b\n" % (number, b" b" * (number % 2)) for number in range(1_100)))
    with directly("image") as ways:
        ways.mkdir("a/new")
        ways.mkdir("a/new/inner")
        assert told_by(ways.ls, "a")[:2] == ["new/", "f0"] and told_by(ways.ls, "a/new") == ["inner/"], "where they were made"
        ways.mkdir("a/b/both")
        assert told_by(ways.ls, "a/b")[0] == "both/" and "both/" in ways.ls("a"), "below both words"
        for path in ("a/new/inner", "a/new", "a/both"):
            assert told_by(ways.rmdir, path) is None and told_by(ways.ls, path) == "ENOENT", path


# Marks that keep programs out that read all files of a system.

@pytest.mark.parametrize("way", (directly, by_messages, really), ids=("directly", "by messages", "the system"))
def test_marks(request, way):
    if way == really:
        request.getfixturevalue("fuse")
    with session(make()) as program:
        program.mkdir(b"music")
        program.create(b"x", b"music")
    with way("image") as ways:
        for name in (".nomedia", ".metadata_never_index", ".noindex", ".trackerignore"):
            found = ways.stat(name)
            assert (found.size, found.mode, ways.get(name)) == (0, 0o100444, b""), name
            assert told_by(ways.put, name, b"x") == told_by(ways.unlink, name) == told_by(ways.rename, name, "y") == "EPERM", name
            assert told_by(ways.link, name, f"music/{name}") == "EPERM" and told_by(ways.stat, f"music/{name}") == "ENOENT", name
            assert told_by(lambda name=name: ways.change(name, size=1)) == "EPERM", name
        assert told_by(ways.ls, "") == told_by(ways.ls, ":all") == ["x"], "no listing shows them"
        assert len({ways.stat(name).inode for name in (".nomedia", ".metadata_never_index", "x", "")}) == 4, "inodes"
        # A file of the image hides a mark.
        ways.put("music/.nomedia", b"mine")
        assert ways.get(".nomedia") == b"mine" and told_by(ways.put, ".nomedia", b"more") is None and ways.get("music/.nomedia") == b"more"
        ways.unlink(".nomedia")
        assert ways.get(".nomedia") == b"", "the mark again"
        ways.put("mark", b"")
        ways.rename("mark", ".nomedia")
        assert told_by(ways.ls, "") == ["music/", ".nomedia"], "one of one's own"


# By the system.

@pytest.mark.parametrize("command", ("find . -type f -printf '%f\\n'", "ls -lR", "du -a", "grep -rlc m0000 ."))
def test_programs_that_walk(fuse, needs, image_of_mails, command):
    """They end, and meet each file."""
    needs(command.split()[0])
    shutil.copy(image_of_mails, "copy")
    os.mkdir("folder")
    mount = Mount("copy", "folder")
    done = subprocess.run(command, shell=True, cwd="folder", stdin=subprocess.DEVNULL, capture_output=True, timeout=LONG, check=False)
    mount.stop()
    shown = done.stdout.decode().replace("/", " ").split()
    assert (done.returncode if "grep" not in command else 0, done.stderr) == (0, b""), command
    assert "grep" in command or names(MAILS) <= set(shown), command
