"""`tools/sync`: how long what earlier runs brought in is kept, and that a dry run changes no byte."""
import errno
import os
import shutil
import time

import pytest

from lisfs.folder import private
from lisfs.folder.memory import KEPT, YEAR, Memory, Record, words_of_memories
from support.images import content, dump, session, written
from support.syncing import LIMITS, make, memory_words, sync

MARKER = b"sync:t"


def records(number):
    """What one run brought in."""
    return {f"file:{number}": Record(f"f{number}", f"f{number}", "digest", "digest")}


def is_known(word, image="elsewhere"):
    """Whether a memory with this word of an image can be read."""
    return Memory(MARKER, image).read({word}) is not None


def state():
    return os.path.join(os.environ["XDG_STATE_HOME"], "lisfs")


def aged(days):
    """Makes all that is kept N days old."""
    for name in os.listdir(state()):
        os.utime(os.path.join(state(), name), (time.time() - days * 86_400,) * 2)


def test_each_image_keeps_its_memory():
    """However many other images and folders there are."""
    words = [Memory(MARKER, written(f"image{number}")).write(records(number)) for number in range(100)]
    assert all(map(is_known, words)), "each is known"
    aged(5_000)
    Memory(MARKER, written("another")).write(records(100))
    assert all(map(is_known, words)), "also long after"


def test_an_image_keeps_its_last_memories():
    """Copies and backups of it name these."""
    first = Memory(MARKER, written("first")).write(records(1_000))
    words = [Memory(MARKER, written("image")).write(records(number)) for number in range(KEPT + 5)]
    assert [is_known(word) for word in words] == [False] * 5 + [True] * KEPT
    assert is_known(first), "another image keeps its own"
    other = Memory(b"sync:u", "image").write(records(1_000))
    assert Memory(b"sync:u", "image").read({other}) and is_known(words[-1]), "and so does another folder"


def test_a_memory_of_two_images():
    """A copy of an image names the same memory, which stays as long as one of them has it."""
    word = Memory(MARKER, written("copy")).write(records(0))
    for number in range(KEPT + 5):
        Memory(MARKER, written("image")).write(records(number))
    assert is_known(word), "the copy has it"


def test_a_memory_of_an_image_that_is_gone():
    """It may have moved, or its disk is not mounted. So its memory is kept for a year."""
    word = Memory(MARKER, written("image")).write(records(0))
    os.rename("image", "moved")
    aged(YEAR // 86_400 - 1)
    Memory(MARKER, written("another")).write(records(1))
    assert is_known(word), "within a year"
    aged(YEAR // 86_400 + 1)
    assert is_known(word), "after it"
    Memory(MARKER, "another").write(records(2))
    assert is_known(word), "a memory that was read is used"
    aged(YEAR // 86_400 + 1)
    Memory(MARKER, "another").write(records(3))
    assert not is_known(word), "and not for ever"


def test_a_memory_of_before():
    """A memory that no list names, as an older `tools/sync` wrote it, is kept for a year."""
    memory = Memory(MARKER, written("image"))
    word = memory.write(records(0))
    os.remove(memory.list)
    Memory(MARKER, written("another")).write(records(1))
    assert is_known(word), "within a year"


@pytest.mark.parametrize("text", ("", "{", "[]", '{"form": 1}', '{"form": 1, "image": 3, "memories": 4}'))
def test_a_damaged_list(text):
    memory = Memory(MARKER, written("image"))
    words = [memory.write(records(number)) for number in range(3)]
    with open(memory.list, "w", encoding="ascii") as file:
        file.write(text)
    words.append(memory.write(records(3)))
    assert all(map(is_known, words)), "no memory is lost by it"


def test_a_run_that_was_stopped():
    """What was coming is forgotten, and nothing else."""
    memory = Memory(MARKER, written("image"))
    words = [memory.write(records(number)) for number in range(3)]
    memory.forget(words[1])
    assert [is_known(word) for word in words] == [True, False, True]
    assert words_of_memories(MARKER, set(words)) == sorted(words)


@pytest.mark.limits(*LIMITS)
def test_runs(image):
    """Runs over other images remove nothing of one, and each run leaves one more memory."""
    for number in range(3):
        written("top/f", f"{number}\n")
        make(f"image{number}")
        assert sync("--as", "t", f"image{number}", "top")[0] == 0
    words = {word for number in range(3) for word in memory_words(f"image{number}")}
    assert len(words) == 3 and len([name for name in os.listdir(state()) if name.startswith("synced-")]) == 3, os.listdir(state())
    assert all(map(is_known, words)), words
    aged(5_000)
    sync("--as", "t", image, "top")
    assert all(map(is_known, words)), "long after"


@pytest.mark.limits(*LIMITS)
def test_a_dry_run_changes_no_byte(image):
    """Although opening the image would: its journal has records that are not yet written to their place."""
    written("top/f", "x\n")
    sync("--as", "t", image, "top")
    with session() as program:
        program.mkdir(b"mine")
        program.mv(b"f", b"mine")
    whole, kept = content(image), sorted(os.listdir(state()))
    shutil.copy(image, "opened")
    with session("opened") as program:
        program.stat()
    assert content("opened") != whole, "an opening changes bytes"
    written("top/g", "y\n")
    written("top/f", "changed\n")
    os.chmod(image, 0o444)
    times = os.stat(image)
    assert sync("--as", "t", "--dry-run", image, "top") == (
        0, ["changed: f: top/f", "new: g: top/g", "sync:t: would be 1 new, 1 changed, 0 as they were"], ""), "what is told"
    assert content(image) == whole, "no byte is another one"
    assert (os.stat(image).st_mtime_ns, os.stat(image).st_ctime_ns) == (times.st_mtime_ns, times.st_ctime_ns), "nor was it written"
    assert sorted(os.listdir(state())) == kept, "nothing is kept of it"
    os.chmod(image, 0o644)
    assert sync("--as", "t", image, "top")[1] == ["sync:t: 1 new, 1 changed, 0 as they were"], "a run does it"


def test_a_long_device(image):
    """What follows an image is not read: a device may be large."""
    whole = content(image)
    os.truncate(image, 1 << 33)
    written("top/f", "x\n")
    assert sync("--as", "t", "--dry-run", image, "top")[:2] == (0, ["new: f: top/f", "sync:t: would be 1 new, 0 as they were"])
    private.copy_image(image, "copy")
    assert content("copy") == whole


@pytest.mark.parametrize("size", (0, 7, 24, 25, 5_000))
def test_a_copy_of_what_is_no_image(size):
    """It is copied whole: what is wrong with it, the program says."""
    written("image", b"LISFS-IM".ljust(size, b"x")[:size])
    private.copy_image("image", "copy")
    assert content("copy") == content("image")


def test_a_copy_of_a_sparse_image(program):
    """Of version 3, with room for many gigabytes. The copy takes as little room, and as little time."""
    make("image", ("65536", "8192", "16777216", "v3"))
    with session() as program:
        program.add(b"f", b"x" * 70_000)
    began = time.process_time()
    private.copy_image("image", "copy")
    assert time.process_time() - began < 5, "holes are not read"
    assert os.path.getsize("copy") == os.path.getsize("image") and os.stat("copy").st_blocks <= os.stat("image").st_blocks
    assert dump("copy") == dump("image")


def test_no_space_for_a_copy(monkeypatch):
    def copy_image(image, path):
        raise OSError(errno.ENOSPC, os.strerror(errno.ENOSPC))

    monkeypatch.setattr(private, "copy_image", copy_image)
    with pytest.raises(OSError, match="no space for a copy of the image: TMPDIR says where it is made"), private.private_copy("image"):
        pass


def test_a_dry_run_without_a_copy(program):
    written("top/f", "x\n")
    os.mkfifo("pipe")
    os.symlink("nosuch", "link")
    for name, told in (("link", "No such file"), ("top", "Is a directory"), ("pipe", "not a file or a block device"), ("top/f", "top/f: 2 bytes of 4096")):
        status, out, error = sync("--dry-run", name, "top")
        assert (status, out, error.count("\n")) == (1, [], 1) and told in error and "/lisfs-" not in error, (name, error)
