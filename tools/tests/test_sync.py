"""`tools/sync`: folders into real images, repeatedly, small images, and what it refuses."""
import contextlib
import fcntl
import os
import re
import shutil
import subprocess
import sys

import pytest

from lisfs.client import Refused
from support.images import bytes_of, dump, session, written
from support.syncing import LIMITS, SYNC, held, mail, maildir, make, sync, who_may_not_read

pytestmark = [pytest.mark.usefixtures("program"), pytest.mark.limits(*LIMITS)]


def test_folder(image):
    # Files that somebody has added, under names that the folder would use, and with words of its heads.
    with session() as program:
        for word in (b"mine", b"in:", b"sync:"):
            program.mkdir(word)
        program.add(b"a.txt", b"foreign\n", b"mine")
        program.add(b"old", b"foreign too\n", b"in:sub", b"sync:other")
    foreign = {"a.txt": {"mine"}, "old": {"in:sub", "sync:other"}}
    written("top/a.txt", "one\n")
    written("top/sub/b.txt", "two\n")
    written("top/sub/Ünter lage/c d.txt", "three\n")
    written("top/empty")
    assert sync("--as", "t", "--dry-run", "image", "top")[0] == 0, "a dry run"
    assert held() == foreign, "changes nothing"
    status, out, error = sync("--as", "t", "image", "top")
    assert (status, out, error) == (0, ["sync:t: 4 new, 0 as they were"], ""), "the first run"
    now = held()
    own = {name: words for name, words in now.items() if "sync:t" in words}
    assert {name: words for name, words in now.items() if name not in own} == foreign, "other files stay"
    assert sorted(own.values(), key=sorted) == (
        sorted([{"sync:t"}, {"sync:t"}, {"sync:t", "in:sub"}, {"sync:t", "in:sub", "in:Uenter_lage"}], key=sorted)), "words for folders"
    assert any(re.fullmatch(r"a-[0-9a-f]{10}\.txt", name) for name in own), ("a name that is taken gets a digest", own)
    assert "sub+b.txt" in own, "and a path is a name"
    before = dump()
    assert sync("--as", "t", "image", "top") == (0, ["sync:t: nothing changed, 4 as they were"], ""), "the second run"
    assert dump() == before, "changes nothing at all"
    # Somebody gives words, which stay, and takes one away, which comes again.
    with session() as program:
        program.mv(b"sub+b.txt", b"mine/in:other")
        program.cd(b"in:sub")
        program.mv(b"sub+b.txt", b"/")
    written("top/sub/b.txt", "TWO\n")
    written("top/a.txt", "one, longer\n")
    os.remove("top/empty")
    written("top/sub/new one.txt", "four\n")
    status, out, error = sync("--as", "t", "--verbose", "image", "top")
    assert (status, out[-1], error) == (0, "sync:t: 1 new, 2 changed, 1 gone, 1 as they were", ""), "what has changed"
    assert sorted(line.split(":")[0] for line in out[:-1]) == ["changed", "changed", "gone", "new"], "what is told of each"
    assert held()["sub+b.txt"] == {"sync:t", "in:sub", "mine"}, "words that somebody gave"
    assert bytes_of("sub+b.txt") == b"TWO\n", "other bytes of the same length"
    assert (bytes_of("a.txt"), bytes_of("old")) == (b"foreign\n", b"foreign too\n"), "files of others"
    assert sync("--as", "t", "image", "top") == (0, ["sync:t: nothing changed, 4 as they were"], ""), "then nothing"
    written("top/.git/objects/a")
    written("top/sub/x.o")
    assert sync("--as", "t", "--without", ".git", "--without", "*.o", "image", "top") == (
        0, ["sync:t: nothing changed, 4 as they were"], ""), "names that are passed over"
    shutil.rmtree("top/.git")
    os.remove("top/sub/x.o")
    status, out, _ = sync("--as", "t", "--flat", "--dry-run", "image", "top")
    assert (status, out[-1]) == (0, "sync:t: would be 3 with other words, 1 as they were"), "without words for folders"


def test_two_folders_of_one_name(image):
    """Under their default names."""
    written("top/a.txt", "one\n")
    written("else/top/a.txt", "other\n")
    for path in ("top", "else/top"):
        assert sync("image", path)[0] == 0, f"by itself: {path}"
    markers = {word for words in held().values() for word in words if word.startswith("sync:")}
    assert len([word for word in markers if re.fullmatch(r"sync:top-[0-9a-f]{4}", word)]) == 2, "two folders of one name"


def test_an_empty_folder(image):
    """As if a disk is not mounted."""
    with session() as program:
        for word in (b"in:", b"sync:"):
            program.mkdir(word)
        program.add(b"a.txt", b"foreign\n")
        program.add(b"old", b"foreign too\n", b"in:sub", b"sync:other")
    for name in ("a", "b", "c", "d"):
        written(f"top/{name}", name)
    written("else/e", "of another folder")
    for name, folder in (("t", "top"), ("u", "else")):
        assert sync("--as", name, "image", folder)[0] == 0, "the first run"
    before = dump()
    os.makedirs("nothing")
    status, out, error = sync("--as", "t", "image", "nothing")
    assert status == 1 and "--all-gone" in error, ("an empty folder", (status, out, error))
    assert dump() == before, "changes nothing"
    assert sync("--as", "t", "--all-gone", "image", "nothing")[:2] == (0, ["sync:t: 4 gone, 0 as they were"]), "but with a word for it"
    assert held() == {"a.txt": set(), "old": {"in:sub", "sync:other"}, "e": {"sync:u"}}, "removes its own alone"


def test_odd_files(image):
    written("top/f", "x")
    written("top/large", bytes(65_537))
    written("top/largest", bytes(65_536))
    os.symlink("f", "top/link")
    os.symlink("..", "top/up")
    os.mkfifo("top/pipe")
    status, out, error = sync("--as", "t", "image", "top")
    assert (status, out, error) == (
        1, ["sync:t: 2 new, 0 as they were", "not taken: 3 no plain file, 1 too large"], ""), "links, pipes and large files"
    make("second", ("64", "64", "64", "v2"))
    assert sync("--as", "t", "second", "top")[1] == ["sync:t: 3 new, 0 as they were", "not taken: 3 no plain file"], "an image of version 2"
    assert len(bytes_of("large", "second")) == 65_537, "its bytes"
    # A file that has grown stays as it was.
    written("top/f", bytes(70_000))
    assert sync("--as", "t", "image", "top")[:2] == (
        1, ["sync:t: nothing changed, 1 as they were", "not taken: 3 no plain file, 2 too large"]), "a file that has grown too large"
    assert bytes_of("f") == b"x", "stays as it was"
    # A file that becomes a link is gone.
    os.remove("top/largest")
    os.symlink("f", "top/largest")
    assert sync("--as", "t", "image", "top")[1][0] == "sync:t: 1 gone, 0 as they were", "a file that becomes a link"
    # The image itself may be in the folder.
    os.rename("image", "top/image")
    assert sync("--as", "t", "top/image", "top")[1] == [
        "sync:t: nothing changed, 0 as they were", "not taken: 4 no plain file, 2 too large"], "the image itself"


@pytest.fixture
def closed():
    """An image of three files, of which then one is gone and two can be read only by root."""
    make("shut")
    os.chmod("shut", 0o666)
    written("closed/in/f", "x")
    written("closed/g", "y")
    written("closed/h", "z")
    assert sync("--as", "t", "shut", "closed")[0] == 0, "before"
    os.chmod("closed/in", 0)
    os.chmod("closed/g", 0)
    os.remove("closed/h")


@pytest.fixture
def other(closed):
    """The user who can't read them, and that user's Python."""
    if (found := who_may_not_read("closed/g")) is None:
        pytest.skip("no other user can be taken on here (it needs root, and a python3 for all users)")
    return found


def test_files_that_may_not_be_read(other):
    status, out, error = sync("--as", "t", "shut", "closed", **other)
    assert (status, out, error) == (
        1, ["sync:t: nothing changed, 0 as they were", "not taken: 2 Permission denied",
            "2 files not removed, since not all of the folder could be read"], ""), "what may not be read"
    assert sorted(held("shut")) == ["g", "h", "in+f"], "is not removed"


def test_a_mail_folder_that_may_not_be_read(other):
    maildir("mail", ".Shut")
    written("mail/.Shut/cur/1:2,", mail(number=1))
    written("mail/cur/2:2,", mail(number=2))
    make("box")
    os.chmod("box", 0o666)
    sync("--as", "m", "box", "mail")
    os.chmod("mail/.Shut", 0)
    assert sync("--as", "m", "box", "mail", **other)[:2] == (
        1, ["sync:m: nothing changed, 1 as they were", "not taken: 1 Permission denied",
            "1 file not removed, since not all of the folder could be read"]), "a mail folder that may not be read"


def test_a_folder_that_may_not_be_read_at_all(other):
    os.chmod("closed", 0)
    status, out, error = sync("--as", "t", "shut", "closed", **other)
    assert (status, out, error) == (2, [], "sync: closed: Permission denied\n"), "a folder that may not be read at all"


def test_older_files_where_not_all_may_be_read(other):
    """There may be fewer newer ones than it seems, so no older one is removed."""
    os.chmod("closed/in", 0o755)
    os.utime(written("closed/old", "o"), (1, 1))
    assert sync("--as", "t", "shut", "closed", user=other["user"], python=other["python"])[0] == 1, "before"
    assert "old" in held("shut")
    os.chmod("closed/in", 0)
    status, out, error = sync("--as", "t", "--newest", "1", "shut", "closed", **other)
    assert (status, error, "old" in held("shut")) == (1, "", True) and "files not removed" in " ".join(out), out


def test_files_that_may_be_read_again(closed):
    os.chmod("closed/in", 0o755)
    os.chmod("closed/g", 0o644)
    assert sync("--as", "t", "shut", "closed")[:2] == (0, ["sync:t: 1 gone, 2 as they were"]), "one is gone"


@pytest.fixture
def hundred(folder):
    """A maildir of a hundred mails."""
    maildir("mail")
    for number in range(100):
        written(f"mail/cur/{number}:2,", mail(f"Subject number{number} word{number}", sender=f"Person P{number} <p{number}@example.org>", number=number))


def test_no_room_for_files(hundred):
    make("files", ("64", "1024", "512"))
    status, out, error = sync("--as", "m", "files", "mail")
    told = ["not taken: 36 no room for more files",
            "limit reached: 64 files, and 100 are needed: --newest 64 keeps the newest; tools/enlarge files 128 1024 512 makes room"]
    assert (status, out, error) == (1, ["sync:m: 64 new, 0 as they were", *told], ""), "no room for files"
    assert sync("--as", "m", "files", "mail")[1] == ["sync:m: nothing changed, 64 as they were", *told], "again"


def test_no_room_for_words(hundred):
    make("words", ("128", "128", "512"))
    status, out, error = sync("--as", "m", "--reserve", "0", "words", "mail")
    assert out.pop(0).startswith("words: not enough known words (100 new files need "), "what is said before the run"
    assert (status, out[0], error) == (1, "sync:m: 100 new, 0 as they were", ""), "no room for words"
    assert (
        len(out) == 4 and re.fullmatch(r"[0-9]+ words of [0-9]+ files left out: no room for more words", out[1])
        and re.fullmatch(r"[0-9]+ files named as by --lean: no room for the words that the program derives", out[2])), ("what is told", out)
    now = held("words")
    left_out = 100 * 7 - sum(map(len, now.values()))
    assert out[1].startswith(f"{left_out} words of ") and out[2].startswith(f"{len([name for name in now if not name.endswith('.eml')])} files "), (
        "and it is true", (left_out, out))
    with session("words") as program:
        counts = dict(text.split() for _, text in program.stat().body)
    assert counts[b"known"] == b"128", "each word that there was room for"
    before = dump("words")
    status, out, error = sync("--as", "m", "--reserve", "0", "words", "mail")
    assert status == 1 and out[0] == "sync:m: nothing changed, 100 as they were" and "no room for more words" in out[1], (
        "again", (status, out, error))
    assert dump("words") == before, "changes nothing at all"
    # If there is room again the words come.
    with session("words") as program:
        for name in sorted(now)[:50]:
            program.rm(name.encode())
    for name in os.listdir("mail/cur")[:60]:
        os.remove(f"mail/cur/{name}")
    sync("--as", "m", "words", "mail")
    status, out, error = sync("--as", "m", "words", "mail")
    assert "changed" in out[0] and all("sync:m" in words for words in held("words").values()), ("with room again", (out, held("words")))


def test_lean_mails(hundred):
    """From the start."""
    for number in range(60):
        os.remove(f"mail/cur/{number}:2,")
    make("lean", ("128", "256", "512"))
    status, out, error = sync("--as", "m", "--lean", "lean", "mail")
    assert status == 0 and not any(name.endswith(".eml") for name in held("lean")), ("lean mails", (status, out, error))
    assert sync("--as", "m", "lean", "mail")[1] == ["sync:m: nothing changed, 40 as they were"], "stay so"


def test_no_room_for_bytes(folder):
    make("blocks", ("64", "64", "4"))
    for number in range(6):
        written(f"top/f{number}", bytes(4_096 if number else 8_192))
    for number in range(6):
        os.utime(f"top/f{number}", (100 - number, 100 - number))
    status, out, _ = sync("--as", "t", "blocks", "top")
    assert (status, out[:2]) == (1, ["sync:t: 3 new, 0 as they were", "not taken: 3 no room for its bytes"]), "no room for bytes"
    os.remove("top/f1")
    assert sync("--as", "t", "blocks", "top")[1][:2] == [
        "sync:t: 1 new, 1 gone, 2 as they were", "not taken: 2 no room for its bytes"], "what is gone makes room"


def test_no_room_for_the_word_of_the_folder(folder):
    written("top/f", "x")
    make("none", ("64", "64", "4"))
    with session("none") as program, contextlib.suppress(Refused):
        for number in range(64):
            program.mkdir(b"w%d" % number)
    status, out, error = sync("--as", "t", "none", "top")
    assert status == 1 and "no room for a further word" in error, ("no room for the folder's own word", (status, out, error))
    # Nearly none.
    with session("none") as program:
        program.rmdir(b"w0")
        program.rmdir(b"w1")
    status, out, error = sync("--as", "t", "none", "top")
    assert status == 1 and "no room for more words" in " ".join(out), ("hardly any room", (status, out, error))


@pytest.fixture
def with_a_file(image):
    """A folder of one file, beside the image."""
    written("top/f", "x")


@pytest.mark.parametrize("words", ([], ["image"], ["image", "nosuch"], ["--as", "a b", "image", "top"], ["--as", "x" * 56, "image", "top"],
                                   ["--as", "", "image", "top"], ["--nope", "image", "top"]))
def test_wrong_use(with_a_file, words):
    assert sync(*words)[0] == 2, f"wrong use: {words}"


@pytest.mark.parametrize("name, told", (("nosuch/image", "No such file"), ("top/f", "image too short"), ("top", "Is a directory")))
def test_no_image(with_a_file, name, told):
    status, out, error = sync(name, "top")
    assert status == 1 and out == [] and told in error and error.startswith("sync: ") and error.count("\n") == 1, (
        f"no image: {name}", (status, out, error))


@pytest.mark.parametrize("words", ([], ["--dry-run"]))
def test_a_locked_image(with_a_file, words):
    with open("image", "rb") as file:
        fcntl.flock(file, fcntl.LOCK_EX)
        assert sync(*words, "image", "top") == (1, [], "sync: image is in use by another lisfs\n"), "a locked image"


@pytest.mark.parametrize("name", ("nosuch", "silent"))
def test_another_program(with_a_file, name):
    written("silent", "#!/bin/sh\necho hello\n", 0o755)
    status, out, error = sync("image", "top", program=os.path.abspath(name))
    assert status == 1 and error.startswith("sync: ") and error.count("\n") == 1, ("another program", (status, out, error))


def test_memory(program):
    """Not all of a folder is in memory: 24 MB more of files take less than 12 MB more."""
    peaks = []
    for count in (8, 32):
        top = f"top{count}"
        for number in range(count):
            written(f"{top}/f{number}", bytes([number]) * 1_000_000)
        make(f"image{count}", ("64", "64", "9000", "v2"))
        with subprocess.Popen([sys.executable, SYNC, "--as", "t", f"image{count}", top], stdin=subprocess.DEVNULL, stdout=subprocess.DEVNULL,
                              env={**os.environ, "LISFS_PROGRAM": program}) as child:
            _, status, used = os.wait4(child.pid, 0)
            child.returncode = os.waitstatus_to_exitcode(status)
        assert child.returncode == 0, "all taken"
        peaks.append(used.ru_maxrss)
        shutil.rmtree(top)
    assert peaks[1] - peaks[0] < 12_000, ("memory", peaks)
