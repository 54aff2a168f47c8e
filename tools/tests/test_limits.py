"""Limits that nobody has to choose: `tools/sync` makes an image that is missing, and so does the launcher's `make` without numbers."""
import os
import random
import re
import shutil
import subprocess
import sys

import pytest

from lisfs.client import PROGRAM, NotSent, Refused, counts_in
from lisfs.constants import LARGE_FILE, NO_AXIOM_ROOM, NO_FILE_ROOM, NO_PROPERTY_ROOM, NO_SPACE
from lisfs.folder import music
from lisfs.folder.room import beside_free
from lisfs.folder.options import part_or_number
from lisfs.limits import VERSIONS, Limits, Need, NoLimits, beyond, blocks_of, doubled, enlarged, full, limits_of, roomy, smallest
from support import TOP
from support.images import bytes_of, content, dump, make, session, written
from support.replies import DONE, told_by
from support.syncing import held, mail, maildir, sync

pytestmark = pytest.mark.usefixtures("program")
# The most in version 2, and in version 3.
MOST, MOST_OF_3 = Need(4_096, 8_192, 32_768, 1_048_576), Need(262_144, 1_048_576, 16_777_216, 67_108_864)
# Runs `sync` as if there were no version 3, since few folders are too large for that.
BEFORE_3 = """#!{python}
import sys
sys.path.insert(0, {tools!r})
from lisfs import limits
limits.VERSIONS = limits.VERSIONS[:2]
limits.LARGEST = limits.VERSIONS[-1]
from lisfs.folder import sync
sys.exit(sync.main())
"""


def limits(image="image"):
    """The three numbers and the version."""
    return limits_of(image)[:4]


def counts(image="image"):
    with session(image) as program:
        return counts_in(program.stat().body)


# The numbers.

@pytest.mark.parametrize("need, found", (
    (Need(0, 0, 0, 0), (64, 64, 1, 1)), (Need(64, 64, 8, 65_536), (64, 64, 8, 1)), (Need(65, 65, 8, 65_537), (128, 128, 8, 2)),
    (Need(4_096, 8_192, 32_768, 1), (4_096, 8_192, 32_768, 1)), (MOST, (4_096, 8_192, 32_768, 2)), (Need(2_049, 8_129, 1), (4_096, 8_192, 1, 1)),
    (Need(4_097, 1, 1), (8_192, 64, 1, 3)), (Need(1, 8_193, 1), (64, 8_256, 1, 3)), (Need(1, 1, 32_769), (64, 64, 32_769, 3)),
    (Need(1, 1, 8, 1_048_577), (64, 64, 257, 3)), (MOST_OF_3, (262_144, 1_048_576, 16_777_216, 3))))
def test_smallest(need, found):
    assert smallest(need)[:4] == found and roomy(need)[:2] == found[:2]
    assert make("image", smallest(need).make()) and limits() == found, "which the program makes"
    assert limits_of("image").image_bytes == os.path.getsize("image"), "as long as it makes it"
    assert limits_of("image").file_bytes >= need.largest, "with room for the largest file"


def test_least_version():
    """The smallest image of a version or of a later one."""
    assert [smallest(Need(1, 1, 1), version)[:4] for version in (1, 2, 3)] == [(64, 64, 1, 1), (64, 64, 1, 2), (64, 64, 1, 3)]
    assert smallest(Need(4_097, 1, 1), 2).version == 3 and smallest(MOST_OF_3._replace(files=262_145), 3) is None


@pytest.mark.parametrize("found, most", (((64, 64, 8, 1), 65_536), ((64, 64, 8, 2), 1_048_576), ((64, 64, 8, 3), 32_768), ((64, 64, 16_385, 3), 67_108_864)))
def test_the_most_bytes_of_a_file(found, most):
    """In version 3 the blocks limit them too."""
    assert Limits(*found).file_bytes == most
    make("image", Limits(*found).make())
    with session() as program:
        assert told_by(program.add, b"f", bytes(most)) in (DONE, (Refused, NO_SPACE, "no space")), "not too large, though it may not fit"
        assert told_by(program.add, b"g", bytes(most + 1)) in ((Refused, LARGE_FILE, "file too large"), NotSent)


def test_beyond():
    for name, number in MOST_OF_3._asdict().items():
        more = MOST_OF_3._replace(**{name: number + 1})
        assert smallest(more) is None and roomy(more) == smallest(MOST_OF_3)
        assert [str(lack) for lack in beyond(more)] == ([] if name == "largest" else [
            f"{number + 1:,} {name}, 1 more than the {number:,} of the largest image"])
    assert beyond(MOST_OF_3) == [] and roomy(Need(1, 1, 1))[:3] == (64, 64, 64)


def test_enlarged():
    small = Limits(64, 128, 3_000, 2, "a b")
    assert enlarged(small, {"files": 0})[:4] == (128, 128, 3_000, 2)
    assert enlarged(small, {"files": 300, "words": 129})[:4] == (512, 256, 3_000, 2)
    assert enlarged(small, {"blocks": 7_001})[:4] == (64, 128, 7_001, 2)
    assert enlarged(small, {"words": 8_192})[:4] == (64, 8_192, 3_000, 2), "the most of its version"
    assert enlarged(small, {"words": 8_193})[:4] == (64, 8_256, 3_000, 3), "and a later one"
    assert enlarged(small, {"words": 1_048_577}) is None, "more than there is"
    large = small._replace(words=1_048_512, version=3)
    assert enlarged(large, {"words": 0}).words == 1_048_576, "the most"
    assert enlarged(large._replace(words=1_048_576), {"words": 0}) is None, "no more"
    assert enlarged(Limits(64, 64, 3, 3), {"files": 0})[:4] == (128, 64, 3, 3), "no earlier version"
    assert doubled(small, Need(32, 65, 1_501))[:4] == (64, 256, 6_000, 2), "more than half"
    assert doubled(small, Need(20, 1, 1))[:4] == (128, 128, 3_000, 2), "or else the fullest"
    assert doubled(small._replace(words=8_192), Need(33, 8_000, 1))[:4] == (128, 16_384, 3_000, 3)
    assert doubled(large._replace(words=1_048_576), Need(33, 1_000_000, 1)).files == 128
    with pytest.raises(NoLimits, match="64 files, 1,048,576 words and 3,000 blocks, and no image has more"):
        doubled(large._replace(words=1_048_576), Need(1, 1_000_000, 1))


@pytest.mark.parametrize("number, more, said", (
    (NO_FILE_ROOM, 0, ("at most 64 files", "`tools/enlarge 'a b' 128 128 3000` makes room once no program has it open")),
    (NO_PROPERTY_ROOM, 200, ("at most 128 known words", "`tools/enlarge 'a b' 64 384 3000` makes room once no program has it open")),
    (NO_AXIOM_ROOM, 0, ("at most 128 axioms", "`tools/enlarge 'a b' 64 256 3000` makes room once no program has it open")),
    (NO_SPACE, 40_000, ("at most 3,000 blocks", "`tools/enlarge 'a b' 64 128 43000` makes room once no program has it open")),
    (NO_SPACE, 16_777_216, ("at most 3,000 blocks", "no image has more: use several (docs/guide/other-machines.md)"))))
def test_full(number, more, said):
    assert full(number, Limits(64, 128, 3_000, 2, "a b"), more) == said


@pytest.mark.parametrize("version", (2, 3))
@pytest.mark.parametrize("size", (0, 1, 4_096, 4_097, 65_536, 65_537, 1_048_576, 4_194_304, 4_194_305, 67_108_864))
def test_blocks(size, version):
    if size > VERSIONS[version - 1].file_bytes:
        return
    make("image", ("64", "64", "16400", f"v{version}"))
    with session() as program:
        program.add(b"f", bytes(size))
    assert blocks_of(size) == 16_400 - counts()["free"], "as the program takes them"


def test_words_beside_free_ones():
    for text, words, found in (("0", 100, 100), ("7", 100, 107), ("1/2", 100, 200), ("1/20", 95, 100), ("1/20", 96, 102), ("0.1", 0, 0)):
        assert beside_free(words, part_or_number(text)) == found, text


# An image for a folder.

def line(found, need, folder="top", image="image", made="made"):
    """What `sync` says of an image that it has made."""
    return f"{made} {image} for {found[0]:,} files, {found[1]:,} words and {found[2]:,} blocks, of version {found[3]}: three times the {need} of {folder}"


def test_made_for_a_folder():
    written("top/sub/a.txt", "one\n")
    written("top/b", bytes(30_000))
    need = "2 files, 10 words and 9 blocks"
    assert sync("--as", "t", "--dry-run", "image", "top") == (
        0, [line((64, 64, 64, 2), need, made="would make"), "new: b: top/b", "new: sub+a.txt: top/sub/a.txt", "sync:t: would be 2 new, 0 as they were"], "")
    assert os.listdir() == ["top"], "a dry run makes nothing"
    status, out, error = sync("--as", "t", "image", "top")
    assert (status, out, error) == (0, [line((64, 64, 64, 2), need), "sync:t: 2 new, 0 as they were"], "")
    assert limits() == (64, 64, 64, 2) and sorted(os.listdir()) == ["image", "top"]
    assert (counts()["files"], counts()["known"], 64 - counts()["free"]) == (2, 10, 9), "what the line says is so"
    before = dump()
    assert sync("--as", "t", "image", "top") == (0, ["sync:t: nothing changed, 2 as they were"], ""), "it is not made again"
    assert dump() == before


def test_versions():
    """A file three times as large as those of the folder must have room too."""
    for size, version in ((0, 1), (21_845, 1), (21_846, 2), (65_537, 2), (349_525, 2), (349_526, 3), (3_000_000, 3)):
        written("top/f", bytes(size))
        assert sync("--as", "t", "image", "top")[0] == 0 and limits()[3] == version, size
        assert bytes_of("f") == bytes(size)
        os.remove("image")
    with open("top/larger", "wb") as file:
        file.truncate(67_108_865)
    status, out, _ = sync("--as", "t", "image", "top")
    assert (status, out[2:]) == (1, ["not taken: 1 too large"]), "what no image can hold is not taken, and not counted"


def test_a_file_of_3_mb():
    """It makes an image of version 3, in which the next run finds it as it was."""
    written("top/f", random.Random(1).randbytes(3_000_000))
    need = "1 file, 5 words and 734 blocks"
    assert sync("--as", "t", "image", "top") == (0, [line((64, 64, 2_202, 3), need), "sync:t: 1 new, 0 as they were"], "")
    assert (limits(), 2_202 - counts()["free"], bytes_of("f")) == ((64, 64, 2_202, 3), 734, content("top/f"))
    before = dump()
    assert sync("--as", "t", "--dry-run", "image", "top") == (0, ["sync:t: nothing changed, 1 as they were"], "")
    assert sync("--as", "t", "image", "top") == (0, ["sync:t: nothing changed, 1 as they were"], "")
    assert dump() == before


def mixed(chance):
    """A folder with mails, sources, music without tags and other files."""
    maildir("top/mail", ".Work")
    for number in range(30):
        box = chance.choice(("cur", ".Work/new"))
        written(f"top/mail/{box}/{number}:2,S", mail(f"About thing{number} and more{number}", sender=f"P{number} <p{number}@example.org>", number=number))
    for number in range(30):
        source = "".join(f"int f{number}_{k}(void) {{ }}\n" for k in range(chance.randrange(4)))
        written(f"top/src{number % 3}/s{number}.{chance.choice('chx')}", f'#include "h{number}.h"\n{source}')
        written(f"top/deep/a b/c{number % 5}/text {number}.txt", bytes(chance.choice((0, 100, 5_000, 70_000))))


@pytest.mark.parametrize("words", ((), ("--lean",), ("--flat",), ("--newest", "20"), ("--without", "*.txt", "--reserve", "100")))
def test_what_a_folder_needs(words):
    """What is counted before there is an image is what the folder then takes in it."""
    mixed(random.Random(1))
    status, out, error = sync("--as", "t", *words, "image", "top")
    assert (status, error) == (0, ""), (out, error)
    need = [int(number.replace(",", "")) for number in re.search(r"three times the ([0-9,]+) files?, ([0-9,]+) words? and ([0-9,]+) blocks? of", out[0]).groups()]
    files, known, blocks, _ = limits()
    found = counts()
    assert need == [found["files"], found["known"], blocks - found["free"]] and len(held()) == need[0]
    assert files >= 3 * need[0] > files // 2 or files == 64
    free = 100 if "--reserve" in words else 0
    assert known >= 3 * need[1] + free and (known == 64 or known - 64 < 3 * need[1] * 20 / 19 + free)


def test_music_is_counted(mutagen):
    written("top/a.mp3", b"no tags\n")
    assert music.is_music("top/a.mp3") and sync("--as", "t", "image", "top")[1][0] == line((64, 64, 64, 1), "1 file, 7 words and 1 block")


def test_no_folder_is_too_small():
    os.mkdir("top")
    assert sync("--as", "t", "image", "top") == (
        0, [line((64, 64, 64, 1), "0 files, 3 words and 0 blocks"), "sync:t: nothing changed, 0 as they were"], "")


def test_beyond_any_image():
    """Nothing is made, and the line says which limit it is, and by how much. Here as if version 2 were the last."""
    for number in range(4_100):
        written(f"top/f{number}")
    wrapper = written("before", BEFORE_3.format(python=sys.executable, tools=os.path.join(TOP, "tools")), 0o755)

    def early(*words):
        ran = subprocess.run([os.path.abspath(wrapper), *words], stdin=subprocess.DEVNULL, capture_output=True, text=True, check=False)
        return ran.returncode, [line.removeprefix("sync: ") for line in ran.stdout.splitlines()], ran.stderr

    assert early("--as", "t", "image", "top") == (
        1, [], "sync: nothing was made: top has 4,100 files, 4 more than the 4,096 of the largest image: --newest N takes the newest, and several images "
               "hold more (docs/guide/other-machines.md)\n")
    assert sorted(os.listdir()) == ["before", "top"]
    # And what is near it gets the largest image.
    status, out, error = early("--as", "t", "--newest", "2000", "image", "top")
    assert (status, out[:2], error) == (0, [
        "made image for 4,096 files, 64 words and 64 blocks, of version 1: as near as an image can be to three times the 2,000 files, 5 words and 0 blocks of top",
        "sync:t: 2000 new, 0 as they were"], "")
    # In version 3 there is room for all.
    assert sync("--as", "t", "other", "top") == (0, [line((16_384, 64, 64, 3), "4,100 files, 5 words and 0 blocks", image="other"),
                                                     "sync:t: 4100 new, 0 as they were"], "")


def test_a_reserve_of_no_image():
    written("top/f", "x")
    status, out, error = sync("--as", "t", "--reserve", "1048576", "image", "top")
    assert (status, out, error) == (1, [], "sync: --reserve 1048576: image has room for 1048576 known words in all\n") and os.listdir() == ["top"]
    assert sync("--as", "t", "--reserve", "1000", "image", "top")[0] == 0 and limits()[1] == 1_024, "beside what is kept free"


@pytest.mark.parametrize("name, said", (("link", "link: No such file or directory"), ("gone/image", "No such file or directory"),
                                        ("served", "served: No such file or directory")))
def test_where_none_is_made(name, said):
    """A link that leads nowhere, a folder that is missing, and an image that a server had."""
    written("top/f", "x")
    os.symlink("elsewhere", "link")
    written("served.socket")
    status, out, error = sync("--as", "t", name, "top")
    assert status == 1 and out == [] and said in error and error.count("\n") == 1, error
    assert sorted(os.listdir()) == ["link", "served.socket", "top"]


def test_an_image_that_comes_meanwhile(program):
    """It is not overwritten: here another run has made one since this one looked."""
    written("top/f", "x")
    wrapper = written("wrapper", '#!/bin/sh\n[ "$1" != make ] || "$REAL" make image 128 128 8\nexec "$REAL" "$@"\n', 0o755)
    status, out, error = sync("--as", "t", "image", "top", program=os.path.abspath(wrapper), REAL=os.path.abspath(PROGRAM))
    assert (status, out) == (1, []) and "File exists" in error and limits() == (128, 128, 8, 1)
    assert sorted(os.listdir()) == ["image", "top", "wrapper"]


def test_permissions_of_a_new_image():
    written("top/f", "x")
    before = os.umask(0o027)
    try:
        assert sync("--as", "t", "image", "top")[0] == 0
    finally:
        os.umask(before)
    assert os.stat("image").st_mode & 0o777 == 0o640, "as those of any new file"


# The command of a full image helps.

def enlarge_line(out):
    """The command that a line of `sync` names."""
    return re.search(r"(tools/enlarge .*) makes room$", out[-1])[1].split()


@pytest.mark.parametrize("limits_before, prepare", (
    (("64", "1024", "64"), lambda: [written(f"top/f{number}") for number in range(100)]),
    (("64", "64", "64"), lambda: [written(f"top/d{number}/f", "x") for number in range(60)]),
    (("64", "1024", "5"), lambda: [written(f"top/f{number}", bytes(4_096)) for number in range(20)])))
def test_the_command_helps(limits_before, prepare):
    """It names what is needed, and after it all has room."""
    make("image", limits_before)
    prepare()
    status, out, _ = sync("--as", "t", "image", "top")
    assert status == 1 and " are needed: " in out[-1], out
    command = enlarge_line(out)
    assert subprocess.run([os.path.join(TOP, command[0]), *command[1:]], capture_output=True, check=False).returncode == 0, command
    status, out, _ = sync("--as", "t", "image", "top")
    assert status == 0, out


# The launcher.

def launcher():
    """A tree with the launcher, the program, and a source that is older, so that nothing is built."""
    os.makedirs("tree/crates/lisfs/out")
    shutil.copy(PROGRAM, "tree/crates/lisfs/out/lisfs")
    for source in ("tree/crates.txt", "tree/crates/lisfs/main.rt"):
        os.utime(written(source), (0, 0))
    return os.path.abspath(shutil.copy(os.path.join(TOP, "lisfs"), "tree"))


def test_make_without_numbers():
    path = launcher()
    ran = subprocess.run([path, "make", "image"], stdin=subprocess.DEVNULL, capture_output=True, text=True, check=False)
    assert (ran.returncode, ran.stdout, ran.stderr) == (0, "", "lisfs: image: no numbers are given, so it is for the most: 4096 files, 8192 known "
                                                          "words and 32768 blocks, in version 2\n")
    assert limits() == smallest(MOST)[:4], "the largest one"
    with session() as program:
        program.create(b"x")
    ran = subprocess.run([path, "make", "image"], stdin=subprocess.DEVNULL, capture_output=True, text=True, check=False)
    assert ran.returncode == 0 and "lisfs: warning: image is an image with 1 file; make overwrites it\n" in ran.stderr
    ran = subprocess.run([path, "make"], stdin=subprocess.DEVNULL, capture_output=True, text=True, check=False)
    assert ran.returncode == 1 and ran.stderr.startswith("lisfs: usage\n")


@pytest.mark.parametrize("words, is_make", (
    (("64", "64", "8"), True), (("64", "64", "8", "v2"), True), (("64", "64", "8", "v3"), True), (("0262144", "1048576", "16777216", "v3"), True),
    (("8192", "64", "8"), False), (("8192", "64", "8", "v2"), False), (("524288", "64", "8", "v3"), False), (("192", "64", "8", "v3"), False),
    (("64", "1048640", "8", "v3"), False), (("64", "64", "16777217", "v3"), False), (("64", "64", "8", "v4"), False), (("64", "64", "8", ""), False),
    (("64", "64", "8", "v3", "v3"), False)))
def test_make_over_an_image_with_files(words, is_make):
    """The launcher warns of what the program would overwrite."""
    path = launcher()
    make("image")
    with session() as program:
        program.create(b"x")
    ran = subprocess.run([path, "make", "image", *words], stdin=subprocess.DEVNULL, capture_output=True, text=True, check=False)
    assert (ran.returncode, ("image is an image with 1 file; make overwrites it" in ran.stderr)) == (0 if is_make else 1, is_make), ran.stderr
