"""The second reader of images, `bench/reading.py`, with small images that a writer here makes by docs/IMAGE.md, right ones and wrong ones.

LISFS_IMAGES_3 may name a folder of images of version 3: there are NAME.img.xz, the dump of each in NAME.dump, and `answers.txt`. A line of this says
what opening answers for an image in which one byte is changed: `NAME.img byte 45 is 62: NotAnImage(Super)`.

The built program, if there is one, answers as the reader does: over images that it made itself, whole and damaged, and over those of this folder.
"""
import itertools
import lzma
import mmap
import os
import random
import re
import struct
import subprocess
import sys

import pytest
import reading
from lisfs.client import PROGRAM
from support import images
from support.inputs import random_input
from support.waiting import LONG

BLOCK = 4096
IMAGES = os.environ.get("LISFS_IMAGES_3")
needs_images = pytest.mark.skipif(not IMAGES, reason="LISFS_IMAGES_3 names no folder of images of version 3")
ANSWER = re.compile(r"(\S+) byte (\d+) is (\d+): NotAnImage\((.+)\)\n")
# The dump of `sample`.
SAMPLE = b"mkdir music\nadd f 0 music\n\n"


def numbers(*given):
    """Some u32 in sequence."""
    return struct.pack(f"<{len(given)}I", *given)


class Image:
    """An image and its writer, which writes whatever a test says. It begins as one of the empty state."""

    def __init__(self, blocks=8, version=3, files=64, words=64):
        self.version, self.files = version, files
        self.homes = 2 + (files // 8 + 1088 if version == 3 else 576)
        sizes = (words // 64, -(-words // 512), files // 16, files // 8 if version == 3 else -(-words * files // 32768), -(-blocks // 32768), blocks)
        self.parts = dict(zip(("properties", "axioms", "files", "descriptions", "bitmap", "data", "end"), itertools.accumulate(sizes, initial=self.homes)))
        # It takes memory only for the pages that are written.
        self.bytes = mmap.mmap(-1, self.parts["end"] * BLOCK)
        self.write(0, b"LISFS-IM" + numbers(3 if version == 3 else 1, files, words, blocks) + bytes([2 if version == 2 else 0]))

    def write(self, at, data):
        self.bytes[at:at + len(data)] = data

    def put(self, part, at, data):
        """Writes at a byte of a part."""
        self.write(self.parts[part] * BLOCK + at, data)

    def flip(self, part, bit):
        at = self.parts[part] * BLOCK + bit // 8
        self.write(at, bytes([self.bytes[at] ^ 1 << bit % 8]))

    def block(self, number):
        return self.bytes[number * BLOCK:(number + 1) * BLOCK]

    def word(self, number, word, kind=1):
        self.put("properties", number * 64, bytes([kind, len(word)]) + word)

    def axiom(self, number, left, right):
        self.put("axioms", number * 8, numbers(left + 1, right + 1))

    def numbers(self, *given):
        return numbers(*given) if self.version == 3 else struct.pack(f"<{len(given)}H", *given)

    def file(self, number, name, content=b"", blocks=(), index=(), assigned=(), described=()):
        """Writes a file, in these blocks and index blocks, and what the other parts say of it."""
        width, chosen = len(self.numbers(0)), index or blocks
        slot = struct.pack("<BB60sBxI", 1, len(name), name, len(assigned), len(content))
        self.put("files", number * 256, slot + self.numbers(*assigned).ljust(16 * width, b"\0") + self.numbers(*chosen))
        for at, block in enumerate(blocks):
            self.put("data", block * BLOCK, content[at * BLOCK:(at + 1) * BLOCK])
        for at, block in enumerate(index):
            self.put("data", block * BLOCK, self.numbers(*blocks[at * 1024:(at + 1) * 1024]))
        for block in (*blocks, *index):
            self.flip("bitmap", block)
        if self.version == 3:
            self.put("descriptions", number * 512, numbers(*(word + 1 for word in described)))
        else:
            for word in described:
                self.flip("descriptions", word * self.files + number)

    def record(self, begin, homes, contents=()):
        """Writes a record that begins at a block, and gives the block after it."""
        header = numbers(len(homes), *homes)
        first = begin + len(homes) // 1024 + 1
        self.write(begin * BLOCK, header.ljust((first - begin) * BLOCK, b"\0") + b"".join(contents))
        return first + len(homes)

    def gates(self, *gates):
        self.write(BLOCK, bytes(gates))

    def answer(self):
        return answer(self.bytes)


def answer(image):
    """The dump of an image, or the check that fails."""
    found = reading.read(image)
    return str(found) if isinstance(found, reading.Failure) else reading.dump(found)


def sample(**limits):
    """An image of a declared word and a file without bytes that has it."""
    image = Image(**limits)
    image.word(0, b"size:")
    image.word(1, b"size:empty")
    image.word(2, b"music", 2)
    image.file(0, b"f", assigned=[2], described=[0, 1, 2])
    return image


def source(blocks):
    """A C source of this many blocks, no two of which are equal. Its last block has the definition of `last`."""
    return b"".join((b"//%d" % number).ljust(BLOCK - 1) + b"\n" for number in range(blocks - 1)) + b"int last() {}"


def large(count, **limits):
    """An image of a file `l.c` of this many blocks. Its index blocks come first, and the blocks of its content are falling."""
    image = Image(blocks=count + 8, **limits)
    for number, word in enumerate((b"size:", b"size:large", b"ext:", b"ext:c", b"defines:", b"defines:last")):
        image.word(number, word)
    index = range(-(-count // 1024) if count > 16 else 0)
    image.file(0, b"l.c", source(count), range(count + 7, 7, -1), index, described=range(6))
    return image


def added(content):
    return b"add l.c %d\n%b\n" % (len(content), content)


@pytest.mark.parametrize("version", (1, 2, 3))
def test_sample(version):
    image = sample(version=version)
    assert image.answer() == SAMPLE
    assert Image(version=version).answer() == b""
    # What follows the image is no part of it, and its bytes may be in memory.
    assert answer(image.bytes[:] + b"more") == SAMPLE
    state = reading.read(image.bytes)
    assert state == ((version, 64, 64, 8), [b"music"], [], [(b"f", b"", [b"music"])])


def test_tests_and_many_words():
    image = sample()
    image.word(3, b"k:", 2)
    for number in range(4, 13):
        image.word(number, b"k:%d" % number)
    for number, word in enumerate((b"size>=1", b"size>=3", b"size>=4", b"size<3", b"size<4", b"size<10"), 13):
        image.word(number, word, 2)
    image.word(19, b"size:small")
    image.axiom(9, 13, 2)
    image.file(0, b"f", assigned=[2], described=[0, 1, 2, 16, 17, 18])
    # By the axiom `g` has the word `music`, which it is not assigned.
    image.file(7, b"g", b"x\n\n", [5], assigned=range(4, 13), described=[0, *range(2, 15), 17, 18, 19])
    assert image.answer() == (b"mkdir k:\nmkdir music\nmkdir size<10\nmkdir size<3\nmkdir size<4\nmkdir size>=1\nmkdir size>=3\nmkdir size>=4\n"
                              b"add f 0 music\n\nadd g 3 k:10 k:11 k:12 k:4 k:5 k:6 k:7 k:8\nx\n\n\nmv g k:9\naxiom size>=1 music\n")


def test_words_known_by_an_axiom():
    image = sample()
    image.word(3, b"from:a")
    image.axiom(0, 3, 2)
    assert image.answer() == "Axiom(0)"
    image.word(4, b"from:")
    assert image.answer() == SAMPLE + b"axiom from:a music\n"
    image.put("axioms", 0, bytes(8))
    assert image.answer() == "Word(3)"


def test_most_assigned_words():
    image = Image(blocks=32)
    image.word(0, b"size:")
    image.word(1, b"size:small")
    for number in range(2, 19):
        image.word(number, b"w%d" % number, 2)
    image.file(0, b"f", b"x", [18], assigned=range(2, 18), described=range(18))
    assert b"\nmv f w2/w3/w4/w5/w6/w7/w8/w9\n" in image.answer()
    # The number of the block would be that of the seventeenth word.
    image.put("files", 62, b"\x11")
    assert image.answer() == "File(0)"


@pytest.mark.parametrize("count", (126, 127))
def test_most_words_of_a_description(count):
    image = Image(words=192)
    image.word(0, b"size:")
    image.word(1, b"size:empty")
    for number in range(count):
        image.word(2 + number, b"w%03d" % number, 2)
    for number in range(1, count):
        image.axiom(number, 2, 2 + number)
    image.file(0, b"f", assigned=[2], described=range(min(2 + count, 128)))
    found = image.answer()
    assert found == "File(0)" if count == 127 else found.startswith(b"mkdir w000\n") and b"\nadd f 0 w000\n" in found


def test_most_derived_words():
    image = Image()
    for number, word in enumerate((b"size:", b"size:small", b"ext:", b"ext:eml", b"subject:", *(b"subject:t%d" % token for token in range(46)))):
        image.word(number, word)
    mail = b"Subject: " + b" ".join(b"t%d" % token for token in range(60)) + b"\n"
    image.file(0, b"m.eml", mail, [0], described=range(51))
    assert image.answer() == b"add m.eml %d\n%b\n" % (len(mail), mail)


@pytest.mark.parametrize("spot, change", [
    # A word twice, of the wrong kind, a count with a leading zero, a valued word that begins with a full stop, and a byte after the word.
    ("Property(5)", lambda image: image.word(5, b"music", 2)), ("Property(4)", lambda image: image.word(4, b"jazz", 1)),
    ("Property(4)", lambda image: image.word(4, b"size>=01", 2)), ("Property(4)", lambda image: image.word(4, b".k:v")),
    ("Property(1)", lambda image: image.put("properties", 127, b"\1")),
    # A cycle of two axioms and of one, a pair twice, a right word that is a head, a left word without a slot, half a pair, a right word that is a
    # test, and a slot beyond the last.
    ("Axiom(9)", lambda image: image.axiom(9, 2, 3)), ("Axiom(1)", lambda image: image.axiom(1, 3, 3)), ("Axiom(9)", lambda image: image.axiom(9, 3, 2)),
    ("Axiom(9)", lambda image: image.axiom(9, 2, 0)), ("Axiom(9)", lambda image: image.axiom(9, 4, 2)), ("Axiom(9)", lambda image: image.axiom(9, -1, 2)),
    ("Axiom(9)", lambda image: image.word(4, b"size<1", 2) or image.axiom(9, 3, 4)),
    ("Axiom(64)", lambda image: image.axiom(64, 0, 2)),
    # A name twice, a word that can't be assigned, a block that isn't there, more blocks than there are, and a description with a word without a slot.
    ("File(1)", lambda image: image.file(1, b"f", described=[0, 1])), ("File(1)", lambda image: image.file(1, b"g", assigned=[0], described=[0, 1])),
    ("File(0)", lambda image: image.put("files", 64, numbers(99)) or image.put("files", 132, numbers(8))),
    ("File(0)", lambda image: image.put("files", 66, b"\1")),
    ("File(1)", lambda image: image.file(1, b"g.c", described=[0, 1])),
    # Numbers of words that fall, and a number after those of words and after those of blocks.
    ("File(0)", lambda image: image.put("files", 62, b"\2") or image.put("files", 68, numbers(3, 2))),
    ("File(0)", lambda image: image.put("files", 72, numbers(3))), ("File(0)", lambda image: image.put("files", 132, numbers(1))),
    # A valued word that no file has.
    ("Word(4)", lambda image: image.word(4, b"from:a"))])
def test_slots(spot, change):
    image = sample()
    image.word(3, b"jazz", 2)
    image.axiom(0, 3, 2)
    assert image.answer() == b"mkdir jazz\n" + SAMPLE + b"axiom jazz music\n"
    change(image)
    assert image.answer() == spot


@pytest.mark.parametrize("version, limits, found", [
    (3, (64, 64, 1), "TooShort"), (3, (262144, 1048576, 16777216), "TooShort"), (3, (524288, 64, 8), "Super"), (3, (64, 1048640, 8), "Super"),
    (3, (64, 64, 16777217), "Super"), (3, (96, 64, 8), "Super"), (3, (64, 96, 8), "Super"), (3, (64, 64, 0), "Super"), (3, (32, 64, 8), "Super"),
    (1, (4096, 8192, 32768), "TooShort"), (1, (8192, 64, 8), "Super"), (1, (64, 8256, 8), "Super"), (1, (64, 64, 32769), "Super"),
    (2, (64, 64, 8), "Super")])
def test_super_block(version, limits, found):
    block = (b"LISFS-IM" + numbers(version, *limits)).ljust(BLOCK, b"\0")
    assert answer(block) == found
    assert answer(block[:-1]) == "TooShort"
    assert answer(block[:-1] + b"\1") == "Super"


def test_byte_of_the_version():
    assert answer(sample(version=3).bytes[:-1]) == "TooShort"
    for version, gate, found in ((3, 1, "Super"), (3, 2, "Super"), (1, 1, 1), (1, 255, 1), (1, 2, 2), (2, 0, 1)):
        image = sample(version=version)
        image.write(24, bytes([gate]))
        answered = reading.read(image.bytes)
        assert (str(answered) if isinstance(answered, reading.Failure) else answered.limits.version) == found


@pytest.mark.parametrize("count, blocks", [(1023, 1), (1024, 2), (1094, 2)])
def test_header_of_several_blocks(count, blocks):
    target = Image(blocks=1100)
    target.word(0, b"size:")
    target.word(1, b"size:small")
    # The last home of the record has the bytes of the file.
    target.file(0, b"g", b"xyz", [count - 16], described=[0, 1])
    homes = range(target.homes, target.homes + count)
    image = Image(blocks=1100)
    assert image.record(2, homes, map(target.block, homes)) == 2 + blocks + count
    assert image.answer() == b""
    image.gates(1)
    assert image.answer() == b"add g 3\nxyz\n"
    # Zeros follow the last home up to the end of the last header block.
    if count != 1023:
        image.write((2 + blocks) * BLOCK - 1, b"\1")
        assert image.answer() == "BadRecord(2)"


def test_record_up_to_the_homes():
    image = Image(blocks=1100)
    assert image.record(2, range(image.homes, image.homes + 1094)) == image.homes
    image.gates(1)
    assert image.answer() == b""
    # The next record would begin at the first home.
    image.gates(1, 1)
    assert image.answer() == f"BadRecord({image.homes})"
    image.record(2, range(image.homes, image.homes + 1095))
    assert image.answer() == "BadRecord(2)"


@pytest.mark.parametrize("version", (1, 2, 3))
@pytest.mark.parametrize("gates, word", [((1, 1), b"tango"), ((1, 0), b"blues"), ((1, 2), b"blues"), ((0, 1), b"music"), ((2, 1), b"music"),
                                         ((255, 1), b"music"), ((1, 1, 0, 1), b"tango")])
def test_records(gates, word, version):
    image = sample(version=version)
    properties = image.block(image.homes)
    end = image.record(2, [image.homes], [properties.replace(b"music", b"blues")])
    image.record(end, [image.homes], [properties.replace(b"music", b"tango")])
    image.gates(*gates)
    assert image.answer() == SAMPLE.replace(b"music", word)


def test_a_later_record_of_other_homes():
    image = sample()
    properties, axioms = image.block(image.homes), image.block(image.homes + 1)
    end = image.record(2, [image.homes, image.homes + 1], [bytes(BLOCK), axioms])
    image.record(end, [image.homes], [properties])
    image.gates(1)
    assert image.answer() == "File(0)"
    image.gates(1, 1)
    assert image.answer() == SAMPLE
    # The last byte of block 1 is no gate.
    image.write(2 * BLOCK - 1, b"\1")
    assert image.answer() == SAMPLE


@pytest.mark.parametrize("header", [
    lambda first, end: (), lambda first, end: (1, first - 1), lambda first, end: (1, 0), lambda first, end: (1, end), lambda first, end: (2, first, first),
    lambda first, end: (2, first + 1, first), lambda first, end: (1, first, first + 1), lambda first, end: (1, first, *[0] * 1021, 1),
    lambda first, end: (2 ** 32 - 1, first), lambda first, end: (first - 2, first)])
def test_malformed_record(header):
    image = sample()
    given = numbers(*header(image.homes, image.parts["end"]))
    image.write(2 * BLOCK, given)
    assert image.answer() == SAMPLE
    image.gates(1)
    assert image.answer() == "BadRecord(2)"
    image.gates(0, 1)
    assert image.answer() == SAMPLE
    # As the second record, after one that is well formed.
    image.write(2 * BLOCK, bytes(BLOCK))
    image.write(image.record(2, [image.homes], [image.block(image.homes)]) * BLOCK, given)
    image.gates(1, 1, 1)
    assert image.answer() == "BadRecord(4)"
    image.gates(1, 0, 1)
    assert image.answer() == SAMPLE


@pytest.mark.parametrize("version, count, index", [(1, 16, 0), (2, 16, 0), (2, 17, 1), (2, 256, 1), (3, 16, 0), (3, 17, 1), (3, 1024, 1), (3, 1025, 2)])
def test_large_file(version, count, index):
    image = large(count, version=version)
    assert image.answer() == added(source(count))
    # The first blocks are the index blocks, and after them one is free.
    for bit in range(index + 1):
        image.flip("bitmap", bit)
        assert image.answer() == f"Bitmap({bit})"
        image.flip("bitmap", bit)


@pytest.mark.parametrize("version, count", [(1, 17), (2, 257)])
def test_larger_than_its_version_allows(version, count):
    assert large(count, version=version).answer() == "File(0)"


@pytest.mark.parametrize("at, number", [
    # After the last number, directly and at the end of the block.
    (BLOCK + 4, 3), (2 * BLOCK - 4, 3),
    # A block beyond the last, one that the content has, and an index block.
    (0, 1033), (0, 1031), (0, 1), (BLOCK, 9)])
def test_wrong_number_in_an_index_block(at, number):
    image = large(1025)
    image.put("data", at, numbers(number))
    assert image.answer() == "File(0)"


def test_number_after_the_last_in_one_index_block():
    image = large(17)
    image.put("data", 17 * 4, numbers(1))
    assert image.answer() == "File(0)"
    image.put("data", 17 * 4, numbers(0))
    assert image.answer() == added(source(17))


def test_index_blocks_in_the_wrong_order():
    image = large(1025)
    image.put("files", 132, numbers(1, 0))
    assert image.answer() == "File(0)"


@pytest.mark.parametrize("version", (1, 2, 3))
def test_bitmap(version):
    for bit in (0, 7, 8, 32767):
        image = sample(version=version)
        image.flip("bitmap", bit)
        assert image.answer() == f"Bitmap({bit})"
        if bit < 32767:
            image.flip("bitmap", 32767)
            assert image.answer() == f"Bitmap({bit})"


def test_bitmap_of_two_blocks():
    image = sample(blocks=32780)
    image.word(3, b"size:small")
    image.file(1, b"g", b"xyz", [32768], described=[0, 3])
    shown = b"mkdir music\nadd f 0 music\n\nadd g 3\nxyz\n"
    assert image.answer() == shown
    for bit in (32768, 32770, 32780, 65535):
        image.flip("bitmap", bit)
        assert image.answer() == f"Bitmap({bit})"
        image.flip("bitmap", bit)
    assert image.answer() == shown


def test_sets():
    for slot, found, spot in ((5, numbers(1), 5), (63, bytes(511) + b"\1", 63), (0, numbers(1, 2), 0), (0, numbers(2, 1, 3), 0), (0, numbers(1, 2, 3, 4), 0),
                              (0, numbers(0, 1, 2), 0)):
        image = sample()
        image.put("descriptions", slot * 512, found.ljust(512, b"\0"))
        assert image.answer() == f"Set({spot})"
        # A bit of the bitmap is checked before.
        image.flip("bitmap", 7)
        assert image.answer() == "Bitmap(7)"


@pytest.mark.parametrize("version", (1, 2))
def test_rows(version):
    # Of 64 words and as many files the rows have 512 bytes, and the rest of their block is zero.
    for bit, spot in ((0, 0), (1, 0), (2 * 64, 2), (3 * 64 + 5, 3), (63 * 64 + 63, 63), (64 * 64, 64), (8 * BLOCK - 1, 64)):
        image = sample(version=version)
        image.flip("descriptions", bit)
        assert image.answer() == f"Row({spot})"


def test_as_a_program():
    image = sample()
    with open("image", "wb") as file:
        file.write(image.bytes)
    command = [sys.executable, reading.__file__, "image"]
    ran = subprocess.run(command, capture_output=True, check=False)
    assert (ran.returncode, ran.stdout, ran.stderr) == (0, SAMPLE, b"")
    os.truncate("image", 0)
    ran = subprocess.run(command, capture_output=True, check=False)
    assert (ran.returncode, ran.stdout, ran.stderr) == (1, b"", b"TooShort\n")


def unpacked(name):
    with lzma.open(os.path.join(IMAGES, name + ".xz")) as file:
        return file.read()


@needs_images
def test_dumps():
    names = sorted(name.removesuffix(".img.xz") for name in os.listdir(IMAGES) if name.endswith(".img.xz"))
    assert names
    for name in names:
        with open(os.path.join(IMAGES, name + ".dump"), "rb") as file:
            assert answer(unpacked(name + ".img")) == file.read()


@needs_images
def test_answers():
    with open(os.path.join(IMAGES, "answers.txt"), encoding="ascii") as file:
        lines = file.readlines()
    assert lines
    for line in lines:
        name, at, byte, spot = ANSWER.fullmatch(line).groups()
        image = unpacked(name)
        assert answer(image[:int(at)] + bytes([int(byte)]) + image[int(at) + 1:]) == spot


# The program.

# What the program says of each spot.
SPOTS = {"Super": "super block", "BadRecord": "record at block", "Property": "property slot", "Axiom": "axiom slot", "File": "file slot",
         "Word": "unused word in property slot", "Bitmap": "bitmap bit", "Row": "extension row", "Set": "set"}


def said_by_the_program(image):
    """The dump of an image, by the program, or the check that fails, as the reader names it."""
    with open("image", "wb") as file:
        file.write(image)
    ran = subprocess.run([PROGRAM, "dump", "image"], stdin=subprocess.DEVNULL, capture_output=True, timeout=LONG, check=False)
    if ran.returncode == 0:
        return ran.stdout
    said = ran.stderr.decode().splitlines()
    assert ran.returncode == 2 and ran.stdout == b"", ran
    if said[0] == "lisfs: image too short":
        return "TooShort"
    spot, number = re.fullmatch(r"image: (.*?)(?: ([0-9]+))?", said[1]).groups()
    return next(name for name, words in SPOTS.items() if words == spot) + (f"({number})" if number else "")


def made_by_the_program(number):
    """An image of version 3 on which random commands ran, its journal perhaps not replayed."""
    chance = random.Random(number)
    images.make("made", (str(chance.choice((64, 128))), str(chance.choice((64, 192))), str(chance.choice((8, 40, 2_000))), "v3"))
    for _ in range(chance.randrange(1, 4)):
        subprocess.run([PROGRAM, chance.choice(("run", "load")), "made"], input=SETTING + random_input(chance), stdout=subprocess.DEVNULL, timeout=LONG,
                       check=True)
    with open("made", "rb") as file:
        return bytearray(file.read())


# Words and files besides those of random inputs: mails, sources, tests, axioms, and a large file.
SETTING = (b"mkdir w\nmkdir v\nmkdir y:\nmkdir size>=5\naxiom from:ann@x w\naxiom w v\nadd m.eml 24 w\nFrom: ann@x\nSubject: hi\n\nadd s.c 13 v y:1\n"
           b"int main() {}\nadd large 70000 w\n" + b"l" * 70_000 + b"\nwrite large 80001\n" + b"k" * 80_001 + b"\nrm s.c\n")


def places_in(image):
    """The bytes of each part of an image that are not zero."""
    files, words, blocks = struct.unpack_from("<3I", image, 12)
    begins = [0, 1, 2, *Image(blocks, 3, files, words).parts.values()]
    found = [[at for at in range(begin * BLOCK, end * BLOCK) if image[at]] for begin, end in itertools.pairwise(begins)]
    return [places for places in found if places]


def damaged(image, places, chance):
    """An image with one or two bytes changed, near one that is not zero."""
    other = image.copy()
    for _ in range(chance.randrange(1, 3)):
        at = min(chance.choice(chance.choice(places)) + chance.choice((0, 0, 0, 1, 2, 4, -1)), len(image) - 1)
        other[at] = chance.choice((0, 1, 2, 255, chance.randrange(256), image[at] ^ 1 << chance.randrange(8)))
    return other


@pytest.mark.parametrize("number", range(12))
def test_images_of_the_program(program, number):
    """Whole, damaged and cut."""
    image = made_by_the_program(number)
    chance, places, whole = random.Random(number), places_in(image), answer(bytes(image))
    assert said_by_the_program(image) == whole and isinstance(whole, bytes)
    for _ in range(20):
        other = damaged(image, places, chance)
        wanted = answer(bytes(other))
        assert said_by_the_program(other) == wanted, wanted
    short = image[:chance.randrange(len(image))]
    assert said_by_the_program(short) == answer(bytes(short))


@pytest.mark.parametrize("count", (17, 1_024, 1_025, 2_049))
def test_large_files_of_the_program(program, count):
    """Files whose numbers fill one index block or more."""
    images.make("made", ("64", "64", str(count + 3), "v3"), b"add l.c %d\n%b\n" % (len(source(count)), source(count)))
    with open("made", "rb") as file:
        image = file.read()
    assert answer(image) == said_by_the_program(image) == added(source(count))


def test_an_image_of_the_writer(program):
    """The program opens what the writer here makes, and goes on with it."""
    image = large(1_025)
    assert said_by_the_program(image.bytes) == added(source(1_025))
    subprocess.run([PROGRAM, "run", "image"], input=b"mkdir w\nmv l.c w\nadd small 2 w\nhi\n", stdout=subprocess.DEVNULL, timeout=LONG, check=True)
    with open("image", "rb") as file:
        assert answer(file.read()) == b"mkdir w\nadd l.c %d w\n%b\nadd small 2 w\nhi\n" % (len(source(1_025)), source(1_025))


@needs_images
def test_images_of_another_program(program):
    for name in sorted(name for name in os.listdir(IMAGES) if name.endswith(".dump")):
        with open(os.path.join(IMAGES, name), "rb") as file:
            assert said_by_the_program(unpacked(name.removesuffix(".dump") + ".img")) == file.read(), name


@needs_images
def test_answers_of_the_program(program):
    with open(os.path.join(IMAGES, "answers.txt"), encoding="ascii") as file:
        lines = file.readlines()
    for line in lines:
        name, at, byte, spot = ANSWER.fullmatch(line).groups()
        image = bytearray(unpacked(name))
        image[int(at)] = int(byte)
        assert said_by_the_program(image) == spot, line
