"""The limits of images: the most that each version can have, the smallest image that has room for what is needed, and what helps if one is full.

Nobody has to choose these numbers: `tools/sync` makes an image for its folder, and `tools/enlarge` a larger one. Both choose here.
"""
import re
import shlex
import struct
from collections.abc import Callable, Mapping, Sequence
from typing import Literal, NamedTuple, TypeAlias

from lisfs.constants import (
    AXIOMS_PER_BLOCK, BLOCK_BITS, BLOCK_LEN, FILES_PER_BLOCK, MAX_BLOCKS, MAX_DIGITS, MAX_FILE, MAX_FILES, MAX_LARGE_FILE, MAX_PROPS, NO_AXIOM_ROOM,
    NO_FILE_ROOM, NO_PROPERTY_ROOM, NO_SPACE, NUMBERS_PER_INDEX, PROPERTIES_PER_BLOCK, RECORD_BLOCKS, SETS_PER_BLOCK, SLOT_BLOCKS, V3_MAX_BLOCKS,
    V3_MAX_FILE, V3_MAX_FILES, V3_MAX_PROPS, V3_RECORD_BLOCKS)

# FILES and PROPS are at least this, and PROPS is a multiple of it.
LEAST = 64
# How an image begins, and how many bytes have its limits.
BEGIN, HEAD = b"LISFS-IM", 25
# How much more room than a folder takes today an image has that is made for it.
TIMES = 3
# The limits of which an image can run out: the number of its axioms is that of its words.
Limit: TypeAlias = Literal["files", "words", "blocks"]
LIMITS: tuple[Limit, ...] = ("files", "words", "blocks")
# The limit that each refusal of a full image is about, and what of it is full.
REACHED: dict[int, tuple[Limit, str]] = {
    NO_FILE_ROOM: ("files", "file"), NO_PROPERTY_ROOM: ("words", "known word"), NO_AXIOM_ROOM: ("words", "axiom"), NO_SPACE: ("blocks", "block")}
SEVERAL = "no image has more: use several (docs/guide/other-machines.md)"


class Version(NamedTuple):
    """A version of images: the words after the numbers of `make`, the most of each limit, and the most bytes of a file."""

    number: int
    make: tuple[str, ...]
    files: int
    words: int
    blocks: int
    file_bytes: int


# The versions that an image can have, the smallest first.
VERSIONS = (
    Version(1, (), MAX_FILES, MAX_PROPS, MAX_BLOCKS, MAX_FILE),
    Version(2, ("v2",), MAX_FILES, MAX_PROPS, MAX_BLOCKS, MAX_LARGE_FILE),
    Version(3, ("v3",), V3_MAX_FILES, V3_MAX_PROPS, V3_MAX_BLOCKS, V3_MAX_FILE),
)
LARGEST = VERSIONS[-1]
# From this version on the number of the version is in the super block, an image has sets instead of extension rows, and the blocks limit a file too.
THIRD = 3


def told(files: int, words: int, blocks: int) -> str:
    """The three numbers in a line."""
    return f"{counted(files, 'file')}, {counted(words, 'word')} and {counted(blocks, 'block')}"


def counted(count: int, word: str) -> str:
    return f"{count:,} {word}{'' if count == 1 else 's'}"


class Limits(NamedTuple):
    """The most files, known words and blocks of an image, its version, and its path, for a line that names it."""

    files: int
    words: int
    blocks: int
    version: int
    image: str = ""

    @property
    def most(self) -> Version:
        """What its version can have."""
        return next(row for row in VERSIONS if row.number == self.version)

    @property
    def file_bytes(self) -> int:
        """The most bytes of a file."""
        return min(self.most.file_bytes, BLOCK_LEN * self.blocks) if self.version >= THIRD else self.most.file_bytes

    @property
    def image_bytes(self) -> int:
        """How many bytes an image of these limits has (docs/IMAGE.md)."""
        sets = self.files // SETS_PER_BLOCK
        records, descriptions = (V3_RECORD_BLOCKS + sets, sets) if self.version >= THIRD else (RECORD_BLOCKS, over(self.words * self.files, BLOCK_BITS))
        slots = self.words // PROPERTIES_PER_BLOCK + over(self.words, AXIOMS_PER_BLOCK) + self.files // FILES_PER_BLOCK
        return BLOCK_LEN * (2 + records + slots + descriptions + over(self.blocks, BLOCK_BITS) + self.blocks)

    def make(self) -> list[str]:
        """The words after the image's path with which `make` makes such an image."""
        return [*map(str, (self.files, self.words, self.blocks)), *self.most.make]

    def __str__(self) -> str:
        return told(self.files, self.words, self.blocks)


class Need(NamedTuple):
    """What must have room in an image: files, known words, blocks, and the bytes of the largest file."""

    files: int
    words: int
    blocks: int
    largest: int = 0

    def times(self, count: int) -> "Need":
        return Need(*(count * number for number in self))

    def __str__(self) -> str:
        return told(self.files, self.words, self.blocks)


class Beyond(NamedTuple):
    """A limit of which no image has as much as is needed."""

    limit: str
    needed: int
    most: int

    def __str__(self) -> str:
        return f"{self.needed:,} {self.limit}, {self.needed - self.most:,} more than the {self.most:,} of the largest image"


def limits_of(path: str) -> Limits:
    """The limits in the first block of an image, which the program has checked."""
    with open(path, "rb") as file:
        return limits_in(file.read(HEAD), path)


def limits_in(head: bytes, path: str) -> Limits:
    """The limits in the first bytes of an image."""
    number, files, words, blocks = struct.unpack_from("<4I", head, 8)
    # Versions 1 and 2 have one number, and a gate.
    version = number if number >= THIRD else 2 if head[24] == 2 else 1
    return Limits(files, words, blocks, version, path)


def over(count: int, many: int) -> int:
    """A quotient, rounded up."""
    return -(-count // many)


def blocks_of(size: int) -> int:
    """How many blocks a content of this many bytes takes: one with more than a slot has numbers for takes index blocks too."""
    needed = over(size, BLOCK_LEN)
    return needed + over(needed, NUMBERS_PER_INDEX) if needed > SLOT_BLOCKS else needed


def beyond(need: Need) -> list[Beyond]:
    """The limits of which no image has enough."""
    of_all = ((name, getattr(need, name), getattr(LARGEST, name)) for name in LIMITS)
    return [Beyond(name, needed, most) for name, needed, most in of_all if needed > most]


def smallest(need: Need, least: int = 1) -> Limits | None:
    """The smallest limits, in the smallest version from `least` on, that have room for this; None if no image has."""
    for row in VERSIONS:
        if row.number >= least and all(needed <= most for needed, most in zip(need, (row.files, row.words, row.blocks, row.file_bytes))):
            files = 1 << (max(need.files, LEAST) - 1).bit_length()
            blocks = max(need.blocks, 1, over(need.largest, BLOCK_LEN) if row.number >= THIRD else 1)
            return Limits(files, over(max(need.words, LEAST), LEAST) * LEAST, blocks, row.number)
    return None


def roomy(wanted: Need) -> Limits:
    """The smallest limits that have room for this, or as much of it as an image can have. Blocks are at least as many as files and words: one that
    is not written takes no room on the disk."""
    found = smallest(Need(min(wanted.files, LARGEST.files), min(wanted.words, LARGEST.words), min(max(wanted.blocks, LEAST), LARGEST.blocks),
                          min(wanted.largest, LARGEST.file_bytes)))
    assert found
    return found


def enlarged(limits: Limits, needed: Mapping[Limit, int]) -> Limits | None:
    """Limits with at least twice as much of what is full, and at least as much as is `needed` of it, which is 0 if nobody knows; the most that there
    can be, if that is enough. The version is that of the image, or a later one that has as much. None if no image has enough."""
    counts: dict[Limit, int] = {"files": limits.files, "words": limits.words, "blocks": limits.blocks}
    for name, count in needed.items():
        most = getattr(LARGEST, name)
        if counts[name] >= most:
            return None
        counts[name] = max(min(2 * counts[name], most), count)
    found = smallest(Need(counts["files"], counts["words"], counts["blocks"]), limits.version)
    return found and found._replace(image=limits.image)


class NoLimits(ValueError):
    """Why an image can't have other limits, as a clause."""


def doubled(limits: Limits, used: Need) -> Limits:
    """Limits with twice as much of all that is more than half used, or else of that which is used most. Raises `NoLimits`."""
    parts = {name: getattr(used, name) / getattr(limits, name) for name in LIMITS}
    wanted = [name for name, part in parts.items() if part > 1 / 2 or part == max(parts.values())]
    found = enlarged(limits, {name: 0 for name in wanted if getattr(limits, name) < getattr(LARGEST, name)})
    if found is None or found == limits:
        raise NoLimits(f"it has {limits}, and " + SEVERAL)
    return found


def chosen(limits: Limits, numbers: Sequence[str], used: Need, least: int = 1) -> Limits:
    """The limits of these numbers, for an image that has others and uses this much of them, in its version, in `least` or in a later one. Raises
    `NoLimits`."""
    wrong = [f"{name} is {number!r}, and has to be {form}" for (name, is_one, form), number in zip(RANGES, numbers) if not is_one(number)]
    files, words, blocks = (int(number) if not wrong else 0 for number in numbers)
    few = [f"{getattr(used, name):,} {name} are used, and {count:,} are too few" for name, count in zip(LIMITS, (files, words, blocks))
           if count < getattr(used, name)]
    found = smallest(Need(files, words, blocks), max(limits.version, least))
    if wrong or few or found is None:
        raise NoLimits("; ".join(wrong or few))
    if found[:4] == limits[:4]:
        raise NoLimits("it has these limits")
    return found._replace(image=limits.image)


def is_count(text: str, least: int, most: int) -> bool:
    return re.fullmatch(r"[0-9]{1,%d}" % MAX_DIGITS, text) is not None and least <= int(text) <= most


def is_files(text: str) -> bool:
    return is_count(text, LEAST, LARGEST.files) and int(text).bit_count() == 1


def is_words(text: str) -> bool:
    return is_count(text, LEAST, LARGEST.words) and int(text) % LEAST == 0


def is_blocks(text: str) -> bool:
    return is_count(text, 1, LARGEST.blocks)


# The names of the numbers, in order, with what each has to be.
RANGES: tuple[tuple[str, Callable[[str], bool], str], ...] = (
    ("FILES", is_files, f"a power of two from {LEAST} to {LARGEST.files}"),
    ("PROPS", is_words, f"a multiple of {LEAST} from {LEAST} to {LARGEST.words}"),
    ("BLOCKS", is_blocks, f"a number from 1 to {LARGEST.blocks}"),
)


def command(limits: Limits) -> str:
    """The command that gives an image these limits."""
    return f"tools/enlarge {shlex.quote(limits.image)} {limits.files} {limits.words} {limits.blocks}"


class Full(NamedTuple):
    """What a full image has at most, and a clause for what helps."""

    most: str
    helps: str


def full(number: int, limits: Limits, more: int = 0) -> Full | None:
    """What a refusal says that is about a full image; None for another one. If it is known how many `more` of what is full are needed, the command
    that helps makes room for these."""
    if number not in REACHED:
        return None
    name, what = REACHED[number]
    count = getattr(limits, name)
    larger = enlarged(limits, {name: count + more if more else 0})
    return Full(f"at most {counted(count, what)}", f"`{command(larger)}` makes room once no program has it open" if larger else SEVERAL)
