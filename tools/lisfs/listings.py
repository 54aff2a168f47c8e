"""The words of a listing by their groups, as tools show them."""
from __future__ import annotations

import collections
from collections.abc import Iterable
from typing import TypeAlias

from lisfs.words import head_of, is_test

# A word, and how many files it leaves.
Count: TypeAlias = tuple[bytes, int]
TITLES = {b"words": "Words", b"heads": "Heads", b"tests": "Sizes"}
# The groups that come before those of heads.
FIRST = {b"words": 0, b"heads": 1, b"tests": 2}
# Heads of words that `tools/sync` and `tools/import` read from a mail, decoded and for a person, come before all others. Those that the program reads
# from its raw header come after all others.
READABLE, RAW = frozenset((b"who:", b"about:", b"thread:")), frozenset((b"from:", b"to:", b"subject:"))


def kind_of(word: bytes) -> bytes:
    """The group of a listing's word: `tests`, the head of a value, `heads` for heads themselves, and `words` for all others."""
    if is_test(word):
        return b"tests"
    head = head_of(word)
    return b"words" if head is None else b"heads" if head == word else head


def rank_of(word: bytes) -> int:
    """Where a word is shown among others: first words without a head, and then values and heads by how useful their head is to a person."""
    head = head_of(word)
    return 0 if head is None else 1 if head in READABLE else 3 if head in RAW else 2


def by_rank(words: Iterable[bytes]) -> list[bytes]:
    """Words as they are shown in one list: in byte order within each rank."""
    return sorted(words, key=lambda word: (rank_of(word), word))


def groups_of(words: Iterable[Count], wanted: bytes = b"") -> list[tuple[bytes, list[Count]]]:
    """The words of a listing that contain a text, by their groups, the more useful heads first; each group has the most frequent first."""
    found, wanted = collections.defaultdict(list), wanted.lower()
    for word, count in words:
        if wanted in word.lower():
            found[kind_of(word)].append((word, count))
    for group in found.values():
        # Of one head all have the same rank.
        group.sort(key=lambda entry: (rank_of(entry[0]), -entry[1], entry[0]))
    return sorted(found.items(), key=lambda group: (FIRST.get(group[0], 3), rank_of(group[0]), -group[1][0][1], group[0]))


def within(group: bytes, word: bytes) -> bytes:
    """A word as it is shown in its group: a value without its head."""
    return word[len(group):] if group.endswith(b":") else word
