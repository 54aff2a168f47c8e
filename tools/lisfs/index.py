"""Which words each file has: for each word a row of bits, a Python integer, in which each file has a bit. So the number of files of a place that have
a word is one `&` and a count of bits, and thousands of words are counted in milliseconds.
"""
from __future__ import annotations

import itertools
from collections.abc import Callable, Iterable, KeysView
from typing import Generic, TypeVar, cast, overload

# The digits of a row as selectors for `compress`.
DIGITS = bytes.maketrans(b"01", b"\0\1")


NO_WORDS: frozenset[bytes] = frozenset()


class File:
    """`words` are all words that it has, and `given` those that it was given. `bit` represents it in each row."""

    def __init__(self, name: bytes, size: int, given: Iterable[bytes], bit: int) -> None:
        self.name, self.size, self.given, self.bit, self.words = name, size, frozenset(given), bit, NO_WORDS


# The class of the files of an index: `File`, or a subclass.
F = TypeVar("F", bound=File)
# Makes a file from its name, its size, the words that it was given and its bit.
Kind = Callable[[bytes, int, Iterable[bytes], int], F]


class Index(Generic[F]):
    """The files of an image."""

    @overload
    def __init__(self: Index[File]) -> None: ...

    @overload
    def __init__(self, kind: Kind[F]) -> None: ...

    def __init__(self, kind: Kind[File] = File) -> None:
        # Without a `kind`, F is `File`.
        self.kind = cast(Kind[F], kind)
        # By name. Rows have only the bits of these files.
        self.files: dict[bytes, F] = {}
        self.everything = 0
        self._rows: dict[bytes, int] = {}
        # The file of each bit, or None, and the bits of removed files, for the next files.
        self._of_bits: list[F | None] = []
        self._free: list[int] = []

    def add(self, name: bytes, size: int, given: Iterable[bytes]) -> F:
        """Adds a file of this name. If there is one already, another client of the image has just removed it."""
        self._make_way(name)
        if self._free:
            at = self._free.pop()
        else:
            at = len(self._of_bits)
            self._of_bits.append(None)
        file = self._of_bits[at] = self.files[name] = self.kind(name, size, given, 1 << at)
        self.everything |= file.bit
        return file

    def drop(self, file: F) -> set[bytes]:
        """Removes a file. Returns the words that no file has any more."""
        lost = self.describe(file, NO_WORDS)
        self.everything &= ~file.bit
        at = file.bit.bit_length() - 1
        self._of_bits[at] = None
        self._free.append(at)
        del self.files[file.name]
        return lost

    def rename(self, file: F, name: bytes) -> None:
        self._make_way(name)
        del self.files[file.name]
        file.name = name
        self.files[name] = file

    def _make_way(self, name: bytes) -> None:
        if name in self.files:
            self.drop(self.files[name])

    def describe(self, file: F, words: frozenset[bytes]) -> set[bytes]:
        """Sets the words of a file. Returns the words that no file has any more. A file that was removed has no words."""
        if self.files.get(file.name) is not file:
            return set()
        lost = set()
        for word in file.words - words:
            if left := self._rows[word] & ~file.bit:
                self._rows[word] = left
            else:
                del self._rows[word]
                lost.add(word)
        for word in words - file.words:
            self._rows[word] = self._rows.get(word, 0) | file.bit
        file.words = words
        return lost

    def words(self) -> KeysView[bytes]:
        """All words that files have."""
        return self._rows.keys()

    def beginning(self, text: bytes) -> list[bytes]:
        """The words of files that begin with a text, the most frequent first. Case is ignored."""
        text = text.lower()
        found = [word for word in self._rows if word.lower().startswith(text)]
        return sorted(found, key=lambda word: (-self._rows[word].bit_count(), word))

    def having(self, word: bytes) -> int:
        """The files that have a word, as a row."""
        return self._rows.get(word, 0)

    def where(self, is_so: Callable[[F], bool]) -> int:
        """The files that a test accepts, as a row."""
        return int("".join("1" if file and is_so(file) else "0" for file in reversed(self._of_bits)) or "0", 2)

    def of(self, row: int) -> list[F]:
        """The files of a row, in the order of their names."""
        digits = bin(row)[:1:-1].encode().translate(DIGITS)
        found = [file for file in itertools.compress(self._of_bits, digits) if file]
        return sorted(found, key=lambda file: file.name)
