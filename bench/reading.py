"""A second reader of images, of all three versions, written from docs/IMAGE.md and docs/DISK.md alone.

`read` answers as opening does: the state that an image represents, or the first check that fails. It writes nothing: the open records are replayed
in memory. `dump` gives the dump of a state. As a program, `reading.py IMAGE` shows the dump, or the failed check on standard error.
"""
import bisect
import itertools
import mmap
import os
import re
import struct
import sys
import typing
from collections.abc import Callable, Iterable, Iterator, Sequence

import support  # noqa: F401, which puts the package on the path
from lisfs.derived import mail_words, source_words, suffix_of

BLOCK = 4096
GATES = 64
PLAIN = rb"[A-Za-z0-9_.+@-]"
PLAIN_WORD = rb"(?!\.)" + PLAIN + rb"+"
FORMS = re.compile(rb"(?P<plain>%b)|(?P<head>%b:)|(?P<valued>%b:%b+)|(?P<test>size(?:>=|<)(?:0|[1-9][0-9]{0,11}))"
                   % (PLAIN_WORD, PLAIN_WORD, PLAIN_WORD, PLAIN))
NAME = re.compile(rb"(?!\.\.?\Z)" + PLAIN + rb"{1,60}")
BUILT_IN_HEADS = frozenset((b"ext:", b"size:", b"from:", b"to:", b"subject:", b"includes:", b"defines:"))
# The most assigned words of a file, the most derived ones, and the most words of a description.
MOST_ASSIGNED, MOST_DERIVED, MOST_DESCRIBED = 16, 48, 128
# The most blocks of a content whose numbers are in the slot of its file.
MOST_DIRECT = 16
SIZES = ((0, b"size:empty"), (1023, b"size:small"), (16383, b"size:medium"))
# The largest limits of files, of words and of blocks in each version.
LARGEST = {1: (4096, 8192, 32768), 2: (4096, 8192, 32768), 3: (262144, 1048576, 16777216)}

# The bytes of an image, in memory or in a file.
Bytes: typing.TypeAlias = bytes | mmap.mmap
Axiom: typing.TypeAlias = tuple[bytes, bytes]
Slot = typing.TypeVar("Slot")
Read = typing.TypeVar("Read")


class Failure(Exception):
    """The first check that fails: `TooShort`, or the spot that is wrong, with its number if it has one."""

    def __init__(self, spot: str, number: int | None = None) -> None:
        super().__init__(spot if number is None else f"{spot}({number})")


class Wrong(Exception):
    """A condition of a slot, a set or a word does not hold."""


class Limits(typing.NamedTuple):
    """What the super block says."""
    version: int
    files: int
    words: int
    blocks: int

    @property
    def are_in_range(self) -> bool:
        files, words, blocks = LARGEST[self.version]
        return (64 <= self.files <= files and self.files.bit_count() == 1 and 64 <= self.words <= words and self.words % 64 == 0
                and 1 <= self.blocks <= blocks)

    @property
    def record_blocks(self) -> int:
        return self.files // 8 + 1088 if self.version == 3 else 576

    @property
    def file_limit(self) -> int:
        return {1: 65536, 2: 1048576, 3: min(BLOCK * self.blocks, 67108864)}[self.version]

    @property
    def number_code(self) -> str:
        """How `struct` names a number in a file slot or an index block."""
        return "I" if self.version == 3 else "H"

    def index_blocks(self, count: int) -> int:
        """How many index blocks a content of this many blocks has. In version 2 one is enough for each."""
        return over(count, BLOCK // struct.calcsize("<" + self.number_code)) if count > MOST_DIRECT else 0


class Parts(typing.NamedTuple):
    """The first block of each part after the records, and the number of blocks of the image. The description part has the extension rows or the sets."""
    properties: int
    axioms: int
    files: int
    descriptions: int
    bitmap: int
    data: int
    end: int


class FileSlot(typing.NamedTuple):
    """What a file slot has: a name, a size, the numbers of assigned words, and the numbers of the blocks of its content or of its index blocks."""
    name: bytes
    size: int
    words: Sequence[int]
    blocks: Sequence[int]


class File(typing.NamedTuple):
    """A file. Its assigned words are in byte order."""
    name: bytes
    content: bytes
    assigned: Sequence[bytes]


class State(typing.NamedTuple):
    """A state. Its declared words, its axioms and its files, by their names, are in byte order."""
    limits: Limits
    declared: Sequence[bytes]
    axioms: Sequence[Axiom]
    files: Sequence[File]


def read(image: Bytes) -> State | Failure:
    """What opening answers for an image."""
    try:
        return opened(image)
    except Failure as failure:
        return failure


def dump(state: State) -> bytes:
    """The session that makes a state again, as docs/MODEL.md describes it."""
    lines = [b"mkdir %b\n" % word for word in state.declared]
    for name, content, assigned in state.files:
        lines += [b" ".join((b"add", name, b"%d" % len(content), *assigned[:8])), b"\n", content, b"\n"]
        if len(assigned) > 8:
            lines.append(b"mv %b %b\n" % (name, b"/".join(assigned[8:])))
    return b"".join(lines + [b"axiom %b %b\n" % axiom for axiom in state.axioms])


def opened(image: Bytes) -> State:
    """The state that an image represents. The checks are those of the page, in its order."""
    if len(image) < BLOCK:
        raise Failure("TooShort")
    limits = super_of(image[:BLOCK])
    parts = parts_of(limits)
    if len(image) < parts.end * BLOCK:
        raise Failure("TooShort")
    replayed = Replayed(image, parts)
    words = Words()
    each("Property", slots(replayed.part(parts.properties, parts.axioms), 64), words.take_word)
    each("Axiom", slots(replayed.part(parts.axioms, parts.files), 8), words.take_axiom)
    files = Files(limits, parts, replayed, words)
    each("File", slots(replayed.part(parts.files, parts.descriptions), 256), files.take)
    check_known(words, files.descriptions)
    check_bitmap(replayed.part(parts.bitmap, parts.data), files.used)
    check_descriptions(limits, replayed.part(parts.descriptions, parts.bitmap), files.descriptions)
    return State(limits, sorted(words.declared), sorted(words.axioms), sorted(files.found.values()))


def each(spot: str, found: Iterable[Slot], take: Callable[[int, Slot], Read]) -> list[Read]:
    """What is read of each slot, rising. The first wrong slot is the failure."""
    taken = []
    for number, slot in enumerate(found):
        try:
            taken.append(take(number, slot))
        except Wrong:
            raise Failure(spot, number) from None
    return taken


def need(holds: bool) -> None:
    if not holds:
        raise Wrong


def over(count: int, size: int) -> int:
    """How many parts of a size are needed for a count: the quotient, rounded up."""
    return -(-count // size)


def is_rising(numbers: Sequence[int]) -> bool:
    return all(first < second for first, second in itertools.pairwise(numbers))


def slots(part: bytes, size: int) -> Iterator[bytes]:
    """The slots of a part, each of this many bytes."""
    return (part[at:at + size] for at in range(0, len(part), size))


def super_of(block: bytes) -> Limits:
    """The limits and the version of a super block."""
    number, files, words, blocks = struct.unpack_from("<4I", block, 8)
    gate = block[24]
    limits = Limits(2 if number == 1 and gate == 2 else number, files, words, blocks)
    if block[:8] != b"LISFS-IM" or number not in (1, 3) or number == 3 and gate or any(block[25:]) or not limits.are_in_range:
        raise Failure("Super")
    return limits


def parts_of(limits: Limits) -> Parts:
    """Where each part begins."""
    version, files, words, blocks = limits
    descriptions = files // 8 if version == 3 else over(words * files, 32768)
    sizes = (limits.record_blocks + 2, over(words, 64), over(words, 512), over(files, 16), descriptions, over(blocks, 32768), blocks)
    return Parts(*itertools.accumulate(sizes))


class Replayed:
    """The replayed image: the image with the contents of the open records in their homes."""

    def __init__(self, image: Bytes, parts: Parts) -> None:
        self.image = image
        # The latest content of each home that an open record has.
        self.latest: dict[int, bytes] = {}
        begin = 2
        for gate in image[BLOCK:BLOCK + GATES]:
            if gate != 1:
                break
            begin = self.replay(begin, parts)

    def replay(self, begin: int, parts: Parts) -> int:
        """Keeps the contents of the record that begins at a block, and gives the block after it."""
        first, homes = record_at(self.image, begin, parts)
        self.latest.update((home, at_block(self.image, content)) for content, home in enumerate(homes, first))
        return first + len(homes)

    def block(self, number: int) -> bytes:
        return self.latest.get(number) or at_block(self.image, number)

    def part(self, first: int, end: int) -> bytes:
        """The bytes of the blocks from the first one up to an end."""
        return b"".join(map(self.block, range(first, end)))


def at_block(image: Bytes, number: int, count: int = 1) -> bytes:
    """The bytes of some blocks as they are in an image."""
    return image[number * BLOCK:(number + count) * BLOCK]


def record_at(image: Bytes, begin: int, parts: Parts) -> tuple[int, Sequence[int]]:
    """The first content block and the homes of the record that begins at a block, or a failure if it is malformed."""
    count: int = struct.unpack_from("<I", at_block(image, begin))[0]
    first = begin + count // 1024 + 1
    # The record ends before the first home block.
    if count < 1 or first + count > parts.properties:
        raise Failure("BadRecord", begin)
    _, *homes = struct.unpack_from(f"<{1 + count}I", header := at_block(image, begin, first - begin))
    if not is_rising(homes) or homes[0] < parts.properties or homes[-1] >= parts.end or any(header[4 + 4 * count:]):
        raise Failure("BadRecord", begin)
    return first, homes


def form_of(word: bytes) -> str | None:
    """Whether a word is plain, a head, valued or a test, or none of them."""
    form = FORMS.fullmatch(word) if len(word) <= 60 else None
    return form.lastgroup if form else None


def head_of(word: bytes) -> bytes:
    return word[:word.index(b":") + 1]


def base_of(word: bytes) -> bytes:
    """The head of a valued word, and any other word itself."""
    return head_of(word) if form_of(word) == "valued" else word


class Words:
    """The words of the property slots and the axioms, as far as they are read."""

    def __init__(self) -> None:
        self.slots: list[bytes | None] = []
        self.numbers: dict[bytes, int] = {}
        self.declared: set[bytes] = set()
        # The counts of the declared tests, by their signs, rising.
        self.counts: dict[bytes, list[int]] = {b">=": [], b"<": []}
        # The axioms in the order of their slots, and the right words of each left one.
        self.axioms: dict[Axiom, None] = {}
        self.rights: dict[bytes, list[bytes]] = {}

    def take_word(self, _: int, slot: bytes) -> None:
        """Takes a property slot."""
        if not any(slot):
            self.slots.append(None)
            return
        word = slot[2:2 + slot[1]]
        form = form_of(word)
        kind = 1 if form == "valued" or word in BUILT_IN_HEADS else 2
        need(form is not None and slot == struct.pack("BB62s", kind, len(word), word) and word not in self.numbers)
        self.numbers[word] = len(self.slots)
        self.slots.append(word)
        if kind == 2:
            self.declared.add(word)
        if form == "test":
            sign, count = test_of(word)
            bisect.insort(self.counts[sign], count)

    def take_axiom(self, number: int, slot: bytes) -> None:
        """Takes an axiom slot."""
        if not any(slot):
            return
        left, right = (self.word(plus_one - 1) for plus_one in struct.unpack("<II", slot))
        need(number < len(self.slots) and (left, right) not in self.axioms)
        need(form_of(right) == "plain" and right in self.declared)
        need(self.is_nameable(left) and base_of(left) in self.numbers)
        need(left not in self.entailed((right,)))
        self.axioms[left, right] = None
        self.rights.setdefault(left, []).append(right)

    def word(self, number: int) -> bytes:
        """The word of a number."""
        word = self.slots[number] if 0 <= number < len(self.slots) else None
        if word is None:
            raise Wrong
        return word

    def is_assignable(self, word: bytes) -> bool:
        return form_of(word) in ("plain", "valued") and base_of(word) in self.declared

    def is_nameable(self, word: bytes) -> bool:
        return base_of(word) in self.declared or base_of(word) in BUILT_IN_HEADS

    def entailed(self, words: Iterable[bytes]) -> set[bytes]:
        """The words to which chains of links lead from some words, and these."""
        found = set(words)
        ahead = list(found)
        while ahead:
            more = set(self.links(ahead.pop())) - found
            found |= more
            ahead += more
        return found

    def links(self, word: bytes) -> Iterator[bytes]:
        """Words to which links lead from a word. Of the weaker tests it is the nearest: a chain leads from it to the others."""
        form = form_of(word)
        if form == "valued":
            yield head_of(word)
        elif form == "test":
            sign, count = test_of(word)
            yield from self.met(sign, count - 1 if sign == b">=" else count)
        yield from self.rights.get(word, ())

    def met(self, sign: bytes, size: int) -> Iterator[bytes]:
        """The strongest declared test with this sign that a size meets, if any. It entails the weaker ones, and the size meets them too."""
        counts = self.counts[sign]
        at = bisect.bisect_right(counts, size)
        if sign == b">=":
            at -= 1
        if 0 <= at < len(counts):
            yield b"size%b%d" % (sign, counts[at])


def test_of(word: bytes) -> tuple[bytes, int]:
    """The sign and the count of a test."""
    sign = b">=" if word.startswith(b"size>=") else b"<"
    return sign, int(word[4 + len(sign):])


def file_slot(slot: bytes, limits: Limits) -> FileSlot:
    """What a slot that is not free has. It is well formed if these values are spelled by exactly its bytes."""
    form = f"<BB60sBBI32{limits.number_code}"
    _, name_size, _, assigned, _, size, *numbers = struct.unpack_from(form, slot)
    need(assigned <= MOST_ASSIGNED and size <= limits.file_limit)
    count = over(size, BLOCK)
    end = 16 + (limits.index_blocks(count) or count)
    name, words, blocks = slot[2:2 + name_size], numbers[:assigned], numbers[16:end]
    need(slot == struct.pack(form, 1, len(name), name, assigned, 0, size, *numbers).ljust(256, b"\0"))
    need(NAME.fullmatch(name) is not None and not any(numbers[assigned:16] + numbers[end:]))
    need(is_rising(words) and len(set(blocks)) == len(blocks))
    return FileSlot(name, size, words, blocks)


def derived_words(name: bytes, content: bytes) -> list[bytes]:
    """The words that a file has by its name, its size and its bytes."""
    suffix = suffix_of(name)
    found = [b"ext:" + suffix] if suffix else []
    found.append(next((word for most, word in SIZES if len(content) <= most), b"size:large"))
    if suffix == b"eml":
        found += mail_words(content)
    elif suffix in (b"c", b"h"):
        found += source_words(content)
    return list(dict.fromkeys(filter(form_of, found)))[:MOST_DERIVED]


class Files:
    """The files of the file slots, as far as they are read."""

    def __init__(self, limits: Limits, parts: Parts, replayed: Replayed, words: Words) -> None:
        self.limits = limits
        self.parts = parts
        self.replayed = replayed
        self.words = words
        self.found: dict[bytes, File] = {}
        # For each slot the numbers of the words of its file's description, rising. A free slot has none.
        self.descriptions: list[list[int]] = []
        # A bit for each data block, as in the bitmap.
        self.used = bytearray((parts.data - parts.bitmap) * BLOCK)

    def take(self, _: int, slot: bytes) -> None:
        """Takes a file slot."""
        if not any(slot):
            self.descriptions.append([])
            return
        found = file_slot(slot, self.limits)
        assigned = sorted(map(self.words.word, found.words))
        need(found.name not in self.found and all(map(self.words.is_assignable, assigned)))
        content = b"".join(map(self.data, self.content_blocks(found)))[:found.size]
        self.found[found.name] = file = File(found.name, content, assigned)
        self.descriptions.append(self.description(file))

    def content_blocks(self, slot: FileSlot) -> Sequence[int]:
        """The numbers of the blocks of a content, which are used now, as the index blocks are."""
        self.use(slot.blocks)
        count = over(slot.size, BLOCK)
        if not self.limits.index_blocks(count):
            return slot.blocks
        index = b"".join(map(self.data, slot.blocks))
        form = f"<{count}{self.limits.number_code}"
        blocks = struct.unpack_from(form, index)
        need(not any(index[struct.calcsize(form):]))
        self.use(blocks)
        return blocks

    def use(self, blocks: Sequence[int]) -> None:
        """Marks blocks that no file uses yet."""
        for block in blocks:
            need(block < self.limits.blocks and not self.used[block // 8] >> block % 8 & 1)
            self.used[block // 8] |= 1 << block % 8

    def data(self, number: int) -> bytes:
        """The bytes of a data block."""
        return self.replayed.block(self.parts.data + number)

    def description(self, file: File) -> list[int]:
        """The numbers of the words of a file's description, rising."""
        words, size = self.words, len(file.content)
        own = {*file.assigned, *derived_words(file.name, file.content), *words.met(b">=", size), *words.met(b"<", size)}
        described = words.entailed(own)
        need(len(described) <= MOST_DESCRIBED and described <= words.numbers.keys())
        return sorted(words.numbers[word] for word in described)


def check_known(words: Words, descriptions: Iterable[list[int]]) -> None:
    """Each word of a property slot is known."""
    lefts = {left for left, _ in words.axioms}
    known = words.declared | lefts | set(map(base_of, lefts)) | {words.word(number) for described in descriptions for number in described}
    each("Word", words.slots, lambda _, word: need(word is None or word in known))


def check_bitmap(bitmap: bytes, used: bytes) -> None:
    """The bitmap shows exactly the blocks that files use."""
    if bitmap != used:
        raise Failure("Bitmap", first_difference(bitmap, used))


def first_difference(these: bytes, those: bytes) -> int:
    """The number of the first bit that differs. Bit 0 is the lowest of a byte."""
    bits = int.from_bytes(these, "little") ^ int.from_bytes(those, "little")
    return (bits & -bits).bit_length() - 1


def check_descriptions(limits: Limits, part: bytes, descriptions: Sequence[list[int]]) -> None:
    """The sets, or the extension rows, show exactly which file has which word."""
    if limits.version == 3:
        each("Set", slots(part, 512), lambda slot, found: need(found == set_bytes(descriptions[slot])))
        return
    rows = bytearray(len(part))
    for slot, described in enumerate(descriptions):
        for number in described:
            rows[(number * limits.files + slot) // 8] |= 1 << slot % 8
    if rows != part:
        raise Failure("Row", min(first_difference(rows, part) // limits.files, limits.words))


def set_bytes(numbers: Sequence[int]) -> bytes:
    """The set of a description: the numbers of its words, each plus 1."""
    return struct.pack(f"<{len(numbers)}I", *(number + 1 for number in numbers)).ljust(512, b"\0")


def main() -> int:
    """Shows the dump of an image, or the check that fails."""
    if len(sys.argv) != 2:
        print("usage: reading.py IMAGE", file=sys.stderr)
        return 1
    with open(sys.argv[1], "rb") as file:
        # An empty file can't be mapped.
        answer = read(mmap.mmap(file.fileno(), 0, access=mmap.ACCESS_READ) if os.fstat(file.fileno()).st_size else b"")
    if isinstance(answer, Failure):
        print(answer, file=sys.stderr)
        return 1
    sys.stdout.buffer.write(dump(answer))
    return 0


if __name__ == "__main__":
    sys.exit(main())
