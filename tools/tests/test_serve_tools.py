"""The tools over a served image: each is a client of the server, and sees what another client changes."""
import os
import random
import re
import subprocess
import sys
import threading
import time

import pytest

import support
from lisfs import image as images_of
from lisfs import opening, served
from lisfs.folder import sync as syncing_module
from lisfs.limits import limits_of
from lisfs.mount.tree import KEPT_SECONDS
from support import images
from support.mount.answers import Mount, by_messages, told_by
from support.mount.asking import Real
from support.peers import LIMITS, Served, talked
from support.shells import SHELL, shell, within
from support.syncing import SYNC, sync
from support.visitors import Browsed
from support.waiting import LONG, until
from support.web import Visitor

pytestmark = [pytest.mark.usefixtures("rooms"), pytest.mark.limits(*LIMITS)]
SOCKET = "image.socket"


def joins(tool):
    """What a tool says that becomes a client."""
    return f"{tool}: image is served: a client of {SOCKET}\n"


@pytest.fixture(autouse=True)
def beside(image, rooms):
    """A server at the socket beside the image."""
    with Served(image, SOCKET) as server:
        yield server


def asked(*lines):
    """What another client is shown for these lines, none of which is refused."""
    status, shown, said = talked(b"".join(line + b"\n" for line in lines), SOCKET)
    assert (status, said) == (0, "") and not re.search(rb"^no \d\d$", shown, re.MULTILINE), (shown, said)
    return shown


def write(name, content):
    return asked(b"write %b %d" % (name, len(content)), content)


# The prompt.

class Script:
    """A prompt that gets its lines one by one, in a `with` block."""

    def __init__(self):
        self.child = subprocess.Popen([SHELL, "image"], stdin=subprocess.PIPE, stdout=subprocess.PIPE, stderr=subprocess.PIPE, bufsize=0)

    def __enter__(self):
        return self

    def __exit__(self, *_):
        self.child.stdin.close()
        self.said = self.child.stderr.read().decode()
        self.child.stdout.close()
        self.child.stderr.close()
        self.status = self.child.wait(LONG)

    def shows(self, line, wanted):
        """Whether a line shows this, and `pwd` after it nothing more."""
        self.child.stdin.write(line + b"\npwd\n")
        got = b""
        while not got.endswith(b"w /\n") and (more := self.child.stdout.read(1)):
            got += more
        return got == wanted + b"w /\n" or got


def test_two_prompts():
    with Script() as one, Script() as other:
        assert one.shows(b"mkdir music", b"") is True
        assert other.shows(b"create song music", b"") is True
        assert one.shows(b"ls", b"f song\n") is True
        assert one.shows(b"find music", b"song\n") is True
        assert other.shows(b"rename song tune", b"") is True
        assert one.shows(b"find", b"tune\n") is True
        assert one.shows(b"rm tune", b"") is True
        assert other.shows(b"find", b"") is True
        assert other.shows(b"rmdir music", b"") is True
    assert (one.status, one.said) == (other.status, other.said) == (0, joins("shell"))


def test_a_prompt_says_that_the_server_has_ended(beside):
    with Script() as one:
        assert one.shows(b"mkdir music", b"") is True
        beside.end()
        one.child.stdin.write(b"ls\n")
        assert one.child.wait(LONG) == 1
    assert one.said == joins("shell") + "shell: image: the server has ended; what was replied to is kept\n"


def random_line(chance):
    """A line that changes something, or goes somewhere."""
    one, two = (b"f%d" % chance.randrange(12) for _ in range(2))
    word, other = chance.sample((b"a", b"b", b"c", b"k:1", b"k:2"), 2)
    return b" ".join(chance.choice((
        (b"create", one, word), (b"create", one), (b"rm", one), (b"rename", one, two), (b"mv", one, word), (b"mv", one, b"/" + other), (b"mv", one, b"/"),
        (b"write", one, b"3\nabc"), (b"tag", word, one, two), (b"untag", word, one), (b"undo",), (b"cd", word), (b"cd", b"/"), (b"cd", b".."),
        (b"axiom", b"a", b"b"), (b"unaxiom", b"a", b"b"), (b"mkdir", b"size>=2"), (b"rmdir", b"size>=2"), (b"find",), (b"ls", b"-c")))) + b"\n"


@pytest.mark.parametrize("seed", range(3))
def test_prompts_keep_in_step(seed, monkeypatch, image):
    """What two prompts know of the files is what the image holds, after random lines of both."""
    monkeypatch.setattr("support.shells.opened", lambda image: opening.opened("shell", image))
    chance = random.Random(seed)
    asked(b"mkdir a", b"mkdir b", b"mkdir c", b"mkdir k:")
    with within() as one, within() as other:
        for _ in range(300):
            chance.choice((one, other))(random_line(chance))
        known = []
        for prompt in (one, other):
            prompt(b"cd /\nls -c\n")
            session = prompt.session
            known.append(({name: (file.size, file.given, file.words) for name, file in session.index.files.items()}, session.declared, session.axioms))
        program, dump = served.joined(image)
        with program:
            fresh = images_of.Image(program, dump, limits_of(image))
            fresh.describe(fresh.index.files.values())
    files = {name: (file.size, file.given, file.words) for name, file in fresh.index.files.items()}
    assert known[0] == known[1] == (files, dump.declared, dump.axioms)
    assert len(files) > 3


def test_bytes_through_a_prompt():
    images.written("large", os.urandom(300_000))
    assert shell(b"put large\nget large back\n")[0] == 0
    assert images.content("back") == images.content("large") and asked(b"cat large")[:9] == b"b 300000\n"


# The pages.

@pytest.fixture
def pages():
    """The pages over the served image, which may change it, and a visitor."""
    with Browsed("image", "--write") as browsed:
        yield browsed, Visitor(browsed)


def test_two_browsers(pages):
    with Browsed("image", "--write") as second:
        one, other = pages[1], Visitor(second)
        one.does("declare", {**one.token(), "word": "music", "at": "/"}, True)
        other.upload({**other.token(), "at": "/", "words": "music", "name": "song"}, b"la", b"song")
        other.upload({**other.token(), "at": "/", "name": "todo"}, b"", b"todo")
        assert one.page().counts()[b"music"] == 1
        one.does("give", {**one.token(), "name": "song", "word": "music"}, True, "had this word already")
        one.does("rename", {**one.token(), "name": "song", "other": "tune"}, True)
        assert "tune" in other.page("", at="/music").text and other.get("file", name="song").status == 404
        other.does("remove", {**other.token(), "name": "tune", "at": "/"}, True)
        assert one.get("file", name="tune").status == 404 and b"music" not in one.page().counts()
        assert second.end() == (0, joins("browse"))


def test_pages_while_others_change(pages):
    """Each page shows a state of the image, whatever others do meanwhile, and the last page the last state."""
    visitor = pages[1]
    asked(b"mkdir w", b"mkdir v", b"axiom v w", *(b"create f%d" % k for k in range(60)))

    def change():
        for number in range(8):
            asked(*(b"mv f%d %b" % (k, (b"v", b"w")[number % 2]) for k in range(60)), *(b"create g%d-%d w" % (number, k) for k in range(9)),
                  b"unaxiom v w", b"axiom v w")

    thread = threading.Thread(target=change)
    thread.start()
    statuses = set()
    while thread.is_alive():
        statuses.add(visitor.get("").status)
    thread.join()
    assert statuses == {200}
    assert visitor.page("", at="/w").text.count("132 files") and visitor.page("declared").text.count("v → w") == 1
    asked(b"unaxiom v w", *(b"rm f%d" % k for k in range(60)))
    assert visitor.page("", at="/w").text.count("72 files") and visitor.page("declared").text.count("v → w") == 0


def test_an_undo_beside_another_client(pages):
    """An undo that is refused changes nothing, and can be tried again; nobody loses bytes by it."""
    visitor = pages[1]
    token = visitor.token()
    visitor.does("declare", {**token, "word": "jazz", "at": "/"}, True)
    asked(b"create x jazz")
    visitor.does("undo", {**token, "at": "/"}, False, "The word is in use")
    asked(b"rm x")
    visitor.does("undo", {**token, "at": "/"}, True, "The last change is undone.")
    assert b"jazz" not in asked(b"ls")
    visitor.upload({**token, "at": "/", "name": "new"}, b"abc", b"new")
    write(b"new", b"other bytes")
    visitor.does("undo", {**token, "at": "/"}, False, "The file has other bytes by now")
    assert asked(b"cat new") == b"b 11\nother bytes\nok\n"


# The mount.

@pytest.fixture
def mounts(fuse, monkeypatch):
    """Two folders at which the served image is mounted."""
    first, one = mounted_by("one", monkeypatch)
    second, other = mounted_by("two", monkeypatch)
    try:
        yield one, other
    finally:
        assert first.stop() == second.stop() == (0, "")


def test_two_mounts(mounts):
    one, other = mounts
    one.mkdir("music")
    one.put("todo", b"")
    other.put("music/song", b"la la")
    assert (one.ls(""), one.ls("music"), one.get("music/song"), one.size("music/song")) == (["music/", "todo"], ["song"], b"la la", 5)
    one.put("music/song", b"another, and longer")
    assert (other.get("music/song"), other.size("song")) == (b"another, and longer", 19)
    other.rename("music/song", "music/tune")
    assert (one.ls("music"), one.exists("music/song"), one.get("music/tune")) == (["tune"], False, b"another, and longer")
    one.rename("music/tune", "tune")
    assert (other.ls("music"), other.ls("")) == ([], ["music/", "todo", "tune"])
    other.unlink("tune")
    other.rmdir("music")
    assert (one.ls(""), one.exists("music"), told_by(one.get, "tune")) == (["todo"], False, "ENOENT")


def shuffle(ways, own, seed, fine):
    """Makes, writes, moves, renames and removes files in a mount, some of them those of others, and checks what is there."""
    chance = random.Random(seed)
    for number in range(120):
        names = [name for name in told_by(ways.ls, ":all") if isinstance(name, str)] or ["none"]
        one, place = chance.choice(names), chance.choice(("", "a/", "b/", "a/b/"))
        answers = [told_by(*call) for call in chance.choice((
            [(ways.put, f"{place}{own}{number}", os.urandom(chance.choice((0, 9, 5_000))))], [(ways.put, one, b"%d" % number)], [(ways.unlink, one)],
            [(ways.rename, one, f"{place}{own}{number}")], [(ways.get, one), (ways.size, one)], [(ways.ls, place.rstrip("/"))]))]
        fine.update(answer for answer in answers if isinstance(answer, str))


def test_two_busy_mounts(mounts):
    """At the end each shows what the other one shows, and the only errors are those of a change that another client made first."""
    one, other = mounts
    one.mkdir("a")
    one.mkdir("b")
    refused = [set(), set()]
    threads = [threading.Thread(target=shuffle, args=(ways, own, number, refused[number])) for number, (ways, own) in enumerate(((one, "x"), (other, "y")))]
    for thread in threads:
        thread.start()
    for thread in threads:
        thread.join()
    assert refused[0] | refused[1] <= {"ENOENT", "ESTALE", "EEXIST"}, refused
    one.put("a/last", b"x")
    other.put("b/last2", b"y")
    shown = [{place: (sorted(ways.ls(place)), {name: ways.get(f":all/{name}") for name in ways.ls(":all")}) for place in ("", "a", "b", "a/b", ":all")}
             for ways in (one, other)]
    assert shown[0] == shown[1] and {"last", "last2"} <= set(shown[0][":all"][0])


@pytest.mark.usefixtures("fuse")
def test_a_mount_whose_server_ends(monkeypatch, beside):
    """The folder is free then, and what was not stored is named."""
    mount, ways = mounted_by("one", monkeypatch)
    ways.put("kept", b"bytes")
    handle = ways.open("new", os.O_WRONLY | os.O_CREAT)
    ways.write(handle, b"lost", 0)
    beside.end()
    status, said = mount.ended()
    assert status == 1 and "mount: new: what was written and not closed is lost" in said and "mount: image: the server has ended" in said, said
    assert told_by(ways.close, handle) is not None
    assert images.bytes_of("kept") == b"bytes" and images.bytes_of("new") == b""


def mounted_by(name, monkeypatch):
    """A mount, which says first that it is a client."""
    os.mkdir(name)
    popen = subprocess.Popen

    def begun(*given, **more):
        child = popen(*given, **more)
        assert child.stderr.readline() == joins("mount").encode()
        return child

    monkeypatch.setattr(subprocess, "Popen", begun)
    mount = Mount("image", name)
    monkeypatch.undo()
    return mount, Real(name)


@pytest.fixture
def asker(monkeypatch):
    """A mount that is asked by messages, as a client."""
    monkeypatch.setattr("support.mount.answers.opened", lambda image: opening.opened("mount", image))
    with by_messages("image") as ways:
        yield ways


def test_what_a_mount_shows(asker):
    """Names, sizes, bytes, folders and times, as soon as another client has changed them."""
    asked(b"mkdir music", b"mkdir year:", b"create song music year:1999", b"add other 3", b"abc")
    assert (asker.ls(""), asker.ls("music"), asker.get("other")) == (["music/", "year:/", "other"], ["song"], b"abc")
    before = asker.stat("other")
    time.sleep(0.01)
    write(b"other", b"longer than before")
    assert (asker.get("other"), asker.size("other")) == (b"longer than before", 18)
    assert asker.stat("other").modified > before.modified
    asked(b"cd year:1999", b"mv song /year:2000")
    assert (asker.exists("year:1999/song"), asker.exists("year:2000/song")) == (False, True)
    asked(b"rename song tune", b"mkdir rock", b"axiom rock music", b"create loud rock")
    assert (asker.ls("music"), asker.ls("rock")) == (["rock/", "year:/"], ["loud"])
    asked(b"unaxiom rock music")
    assert asker.ls("music") == ["tune"] and asker.ls("") == ["music/", "rock/", "year:/", "other"]
    asked(b"rm tune", b"rm loud", b"rmdir rock", b"rmdir music")
    assert asker.ls("") == ["year:/", "other"]
    # A new file is made at once, since another client may take the name.
    handle = asker.open("new", os.O_WRONLY | os.O_CREAT)
    assert asked(b"cat new") == b"b 0\n\nok\n"
    asker.write(handle, b"bytes", 0)
    asker.close(handle)
    assert asked(b"cat new") == b"b 5\nbytes\nok\n"
    assert asker.tree.lookup(1, b"new").seconds == 0 < KEPT_SECONDS, "the kernel keeps no attributes"


def test_a_file_that_another_client_removes_while_it_is_open(asker):
    """No call reports that bytes are stored which are not."""
    asked(b"add one 3", b"abc", b"add two 3", b"abc")
    reading, writing = asker.open("one", os.O_RDONLY), asker.open("two", os.O_WRONLY)
    asker.write(writing, b"x", 0)
    asked(b"rm one", b"rm two")
    assert told_by(asker.read, reading, 3, 0) == "ESTALE"
    assert told_by(asker.write, writing, b"y", 0) == "ESTALE"
    assert told_by(asker.close, writing) == "ESTALE"
    asker.close(reading)
    asked(b"add two 1", b"z")
    assert asker.get("two") == b"z", "another file of this name"


def test_a_file_that_is_open_and_written_by_another_client(asker):
    """A program that has it open and wrote nothing since sees the new bytes."""
    asker.put("notes", b"first")
    handle = asker.open("notes", os.O_RDWR)
    asker.write(handle, b"F", 0)
    asker.sync(handle)
    write(b"notes", b"second")
    assert asker.read(handle, 99, 0) == b"second"
    asker.write(handle, b"S", 0)
    asker.close(handle)
    assert asked(b"cat notes") == b"b 6\nSecond\nok\n"


# Sync.

@pytest.fixture
def top():
    """A folder that was brought in."""
    for name in ("a.txt", "b.txt", "c.txt"):
        images.written(f"top/{name}", f"{name} as it was\n")
    status, out, said = sync("--as", "t", "image", "top")
    assert (status, out, said) == (0, ["sync:t: 3 new, 0 as they were"], joins("sync"))
    return "top"


def test_sync_and_another_client(top):
    """What another client changed is not overwritten, and what it left alone is brought in again."""
    assert asked(b"cat a.txt") == b"b 16\na.txt as it was\n\nok\n"
    write(b"b.txt", b"by hand")
    images.written("top/a.txt", b"new")
    status, out, _ = sync("--as", "t", "image", "top")
    assert (status, out) == (0, ["sync:t: 1 changed, 1 as they were", "1 file changed in the image: left as the image has it"])
    assert asked(b"cat a.txt", b"cat b.txt") == b"b 3\nnew\nok\nb 7\nby hand\nok\n"
    status, out, _ = sync("--as", "t", "--dry-run", "image", "top")
    assert (status, out[0]) == (0, "sync:t: nothing changed, 2 as they were")


def test_a_change_between_look_and_write(top, monkeypatch, capsys):
    """Another client changes files after `sync` has looked at the image: they stay, and are named."""
    make_plan = syncing_module.Sync.make_plan

    def late(self, *given):
        plan = make_plan(self, *given)
        write(b"a.txt", b"by hand")
        asked(b"rename b.txt mine.txt")
        return plan

    images.written("top/a.txt", b"new")
    images.written("top/b.txt", b"new")
    os.unlink("top/c.txt")
    with monkeypatch.context() as context:
        context.setattr(syncing_module.Sync, "make_plan", late)
        context.setattr(sys, "argv", ["sync", "--verbose", "--as", "t", "image", top])
        assert syncing_module.main() == 1
    out = capsys.readouterr().out.splitlines()
    assert "sync: not taken: top/a.txt: another client has changed it meanwhile" in out
    assert "sync: not taken: top/b.txt: another client has changed it meanwhile" in out
    assert "sync: gone: c.txt: top/c.txt" in out
    assert asked(b"cat a.txt", b"cat mine.txt") == b"b 7\nby hand\nok\nb 16\nb.txt as it was\n\nok\n"
    status, out, _ = sync("--as", "t", "image", "top")
    assert (status, out[1]) == (1, "conflict: a.txt: top/a.txt: changed in the folder and in the image")
    assert asked(b"cat a.txt", b"cat mine.txt") == b"b 7\nby hand\nok\nb 3\nnew\nok\n", "what was only renamed gets the folder's bytes"


def test_a_word_that_another_client_takes_away(monkeypatch, capsys):
    """A refusal names the words that it may be about."""
    images.written("top/Garden/x.txt", b"x")
    run = syncing_module.Carrying.run

    def late(self):
        asked(b"rmdir in:")
        run(self)

    with monkeypatch.context() as context:
        context.setattr(syncing_module.Carrying, "run", late)
        context.setattr(sys, "argv", ["sync", "--verbose", "--as", "t", "image", "top"])
        assert syncing_module.main() == 1
    assert "sync: not taken: top/Garden/x.txt: no 06 unknown property: sync:t, in:Garden" in capsys.readouterr().out.splitlines()
    assert sync("--as", "t", "image", "top")[:2] == (0, ["sync:t: 1 new, 0 as they were"])


def test_a_folder_with_the_image_in_it(beside):
    """Neither the image nor its socket is a file of the folder."""
    images.written("f.txt", b"x")
    status, out, said = sync("--as", "t", "image", ".")
    assert (status, out, said) == (0, ["sync:t: 1 new, 0 as they were"], joins("sync"))


def test_two_syncs_at_once(top):
    """Each brings in its own folder; names that the other one used first are brought in at the next run."""
    for k in range(2):
        for number in range(30):
            images.written(f"more{k}/f{number}", b"%d %d" % (k, number))
    children = [subprocess.Popen([sys.executable, SYNC, "--as", f"more{k}", "image", f"more{k}"], stdout=subprocess.PIPE, stderr=subprocess.PIPE)
                for k in range(2)]
    for child in children:
        out, said = child.communicate(timeout=LONG)
        lines = out.decode().splitlines()
        assert said == joins("sync").encode() and (len(lines) == 1 or lines[1].endswith("the name is taken")), out
    for k in range(2):
        assert sync("--as", f"more{k}", "image", f"more{k}")[0] == 0
    assert asked(b"stat").startswith(b"s files 63\n")
    assert all(asked(b"cat f%d" % number) in (b"b %d\n%d %d\nok\n" % (len(b"0 %d" % number), k, number) for k in range(2)) for number in range(30))


# An editor, and a talk.

@pytest.mark.parametrize("does, status, said, content", (
    ("sed -i s/alpha/ALPHA/", 0, "", b"ALPHA one\nbeta\n"),
    ("true", 0, "edit: notes: nothing was changed\n", b"alpha one\nbeta\n"),
    ("false", 1, "edit: the editor ended with 1: nothing was written", b"alpha one\nbeta\n")))
def test_an_editor(does, status, said, content):
    asked(b"add notes 15", b"alpha one\nbeta\n")
    ran = subprocess.run([support.tool("edit"), "image", "notes", "word:alpha"], capture_output=True, check=False, timeout=LONG,
                         env={**os.environ, "VISUAL": does, "EDITOR": ""})
    assert (ran.returncode, ran.stdout) == (status, b"") and ran.stderr.decode().startswith(joins("edit") + said), ran
    assert asked(b"cat notes") == b"b 15\n" + content + b"\nok\n"


def test_an_editor_of_a_large_file():
    """In an image of version 3."""
    text = b"".join(b"line %d\n" % number for number in range(250_000))
    images.make("large.lis", ("64", "64", "2000", "v3"), b"add notes %d\n%b\n" % (len(text), text))
    with Served("large.lis", "large.lis.socket"):
        ran = subprocess.run([support.tool("edit"), "large.lis", "notes", "word:77777|word:200000"], capture_output=True, check=False, timeout=LONG,
                             env={**os.environ, "VISUAL": "sed -i s/line/LINE/", "EDITOR": ""})
        assert (ran.returncode, ran.stdout) == (0, b""), ran
    assert images.bytes_of("notes", "large.lis") == text.replace(b"line 77777\n", b"LINE 77777\n").replace(b"line 200000\n", b"LINE 200000\n")


@pytest.mark.parametrize("change", (b"write notes 6\nbeta!\n", b"rm notes"))
def test_an_editor_and_another_client(change):
    """While the editor was open another client has changed the view, or removed the file: nothing is written."""
    asked(b"add notes 15", b"alpha one\nbeta\n")
    images.written("change", change + b"\n")
    images.written("editor", f"#!/bin/sh\n'{support.tool('talk')}' '{os.path.abspath('image')}' < '{os.path.abspath('change')}' > /dev/null\n"
                             "echo +more >> \"$1\"\n", 0o700)
    ran = subprocess.run([support.tool("edit"), "image", "notes", "word:alpha"], capture_output=True, check=False, timeout=LONG,
                         env={**os.environ, "VISUAL": os.path.abspath("editor")})
    cause = "no 10 no such file here" if change.startswith(b"rm") else "its view has changed in the meantime"
    assert ran.returncode == 1 and f"edit: notes: {cause}: nothing was written" in ran.stderr.decode(), ran


@pytest.mark.parametrize("name, formula, said", (("nosuch", "a", "nosuch: no 10 no such file here"), ("a b", "a", "a b: no file name"),
                                                 ("notes", "a//b", "notes: no 05 formula")))
def test_wrong_words_for_an_editor(name, formula, said):
    asked(b"create notes")
    ran = subprocess.run([support.tool("edit"), "image", name, formula], capture_output=True, check=False, timeout=LONG)
    assert (ran.returncode, ran.stderr.decode()) == (1, joins("edit") + f"edit: {said}\n")


def test_a_session_of_import():
    """The session of `import` works for a talk too, even if a line has as many words as fit."""
    images.written("top/" + "d" * 60 + "/" + "e" * 60 + "/" + "n" * 60, b"x")
    words = [word for k in range(14) for word in ("--word", f"{k:02}" + "w" * 58)]
    session = subprocess.run([support.tool("import"), "--by-folder", *words, "top"], capture_output=True, check=True, timeout=LONG).stdout
    status, shown, said = talked(session, "image")
    assert (status, set(shown.split()), said) == (0, {b"ok"}, "")
    assert asked(b"stat").startswith(b"s files 1\n")


def test_who_is_refused(beside):
    """A tool that finds no room says so in one line."""
    talks = [subprocess.Popen([support.tool("talk"), "image"], stdin=subprocess.PIPE, stdout=subprocess.PIPE) for _ in range(8)]
    for talk in talks:
        talk.stdin.write(b"pwd\n")
        talk.stdin.flush()
        assert talk.stdout.readline() == b"w /\n"
    full = f"{SOCKET}: eight clients are here\n"
    assert shell(b"ls\n") == (1, b"", f"shell: {full}")
    assert sync("image", ".")[::2] == (1, f"sync: {full}")
    for words in ((support.tool("browse"), "image"), (support.tool("mount"), "image", "."), (support.tool("edit"), "image", "n", "f")):
        ran = subprocess.run([sys.executable, *words], capture_output=True, check=False, timeout=LONG)
        assert (ran.returncode, ran.stderr.decode()) == (1, f"{os.path.basename(words[0])}: {full}"), words
    for talk in talks:
        talk.communicate()
    assert until(lambda: shell(b"ls\n")[0] == 0)
