"""What a collection has, read by what `tools/sync` reads it by, and how much of it an image has room for.

The databases beside LISFS get these words, and the right answers come from them. The program derives a part of the words on its own: if it derived
others than `lisfs.derived`, answers would differ.
"""
import os
from collections.abc import Iterable, Sequence
from typing import NamedTuple

from lisfs import constants, derived, limits
from lisfs.folder.changes import MARKER, folder_words
from lisfs.folder.entries import Entries, Entry
from lisfs.folder.walk import content
from lisfs.limits import blocks_of
from lisfs.progress import Line
from lisfs.words import head_of

NAME = "bench"
OWN_WORD = MARKER + b":" + NAME.encode()
# Words that stay free: for the heads that `sync` declares and its memory, and for what the bench declares.
FREE = 32
# The most words that `sync` gives a file beside its own word, if a tag follows.
GIVEN = constants.MAX_ASSIGNED - 2


class Version(NamedTuple):
    """The largest image of a version: the last word of `make`, and its limits."""

    word: str
    files: int
    words: int
    blocks: int
    file_bytes: int

    def make(self) -> list[str]:
        """The words of `make` after the image."""
        return [str(self.files), str(self.words), str(self.blocks), self.word]


# By the word. A later version is one more row of `lisfs.limits`.
VERSIONS = {word: Version(word, *row[2:]) for row in limits.VERSIONS for word in row.make}


class Fact(NamedTuple):
    """A file: its name in an image, its path, its path below the folder, its size, its date, and the words that it has in an image."""

    name: bytes
    path: str
    below: str
    size: int
    date: float
    words: frozenset[bytes]


class Room(NamedTuple):
    """The files for which an image has room, and in words what was left out and why."""

    facts: list[Fact]
    left: list[str]


def entries_of(folder: str, largest: int) -> Sequence[Entry]:
    """The files of a folder that are at most this large. Those that can't be taken have a `problem`."""
    entries = Entries(folder, largest, folder_words, lambda path, why: None, Line("scale"))
    entries.read()
    return entries.all


def facts_of(folder: str, largest: int) -> tuple[list[Fact], list[str]]:
    """What the files of a folder are, the newest first, and in words which are left out."""
    facts, large, full, unsure = [], 0, 0, 0
    for entry in entries_of(folder, largest):
        if entry.found.problem:
            large += 1
            continue
        if len(entry.words) > GIVEN:
            full += 1
            continue
        fact = fact_of(entry, largest)
        if fact.size > derived.LOOKED and derived.has_many(fact.name) and not derived.is_full(fact.words):
            # Only the program reads all of it for its words.
            unsure += 1
        else:
            facts.append(fact)
    facts.sort(key=lambda fact: (-fact.date, fact.path))
    counts = ((large, f"are larger than {largest:,} bytes"), (full, f"have more than {GIVEN} words from their folders and headers, and no room for a tag"),
              (unsure, f"are sources of more than {derived.LOOKED:,} bytes with fewer words than a file can have"))
    return facts, [f"{count:,} {why}" for count, why in counts if count]


def fact_of(entry: Entry, largest: int) -> Fact:
    name, data = entry.names(OWN_WORD, False)[0], content(entry.found, largest)
    words = {OWN_WORD, *entry.words, *derived.derived_words(name, data)[:constants.MAX_DERIVED]}
    heads = {head for head in map(head_of, words) if head}
    return Fact(name, entry.found.path, os.path.join(*entry.found.parts), len(data), entry.date, frozenset(words | heads))


def fitting(facts: Iterable[Fact], version: Version, most: int) -> Room:
    """The newest files, at most so many, that an image of this version has room for."""
    known: set[bytes] = set()
    taken: list[Fact] = []
    blocks, all_facts, why = 0, list(facts), ""
    for fact in all_facts:
        if len(taken) == most:
            break
        more = len(known) + len(fact.words - known)
        why = (f"an image has {version.files:,} files" if len(taken) == version.files else
               f"an image knows {version.words:,} words" if more > version.words - FREE else
               f"an image has {version.blocks:,} blocks" if blocks + blocks_of(fact.size) > version.blocks else "")
        if why:
            break
        known |= fact.words
        blocks += blocks_of(fact.size)
        taken.append(fact)
    return Room(taken, [f"{len(all_facts) - len(taken):,} more do not fit: {why}"] if why else [])


def linked(folder: str, facts: Sequence[Fact], to: str) -> None:
    """Makes a folder with these files of another one, by links."""
    for fact in facts:
        path = os.path.join(to, fact.below)
        at = os.path.dirname(path)
        if not os.path.isdir(at):
            os.makedirs(at)
            if os.path.basename(at) == "cur":
                # So that it is a maildir.
                for part in ("new", "tmp"):
                    os.makedirs(os.path.join(os.path.dirname(at), part), exist_ok=True)
        os.link(fact.path, path)
