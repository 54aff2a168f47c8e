"""Formulas: which files each matches. This is the only parser of the grammar in the package.

The grammar is that of docs/MODEL.md. A formula is parsed here only to find files by it. The program decides which words a listing shows, and what a
change does.
"""
from __future__ import annotations

import functools
import re
from collections.abc import Callable, Iterable, Sequence, Set
from typing import NamedTuple, Protocol

from lisfs.constants import MAX_FORMULA, MAX_NODES, MAX_WORD
from lisfs.words import TEST, WORD, is_test

# The most bytes of a name in a path, so the depth of a formula is bounded.
PART_LIMIT = 255
# The signs between the words of a formula.
SIGNS = re.compile(rb"[/|!()]")
PIECES = re.compile(rb"([/|!()])")
# The signs after which, and before which, `joined` adds no sign.
SIGN_BEFORE, SIGN_BEHIND = b"/|!(", b"/|)"


def words_in(formula: bytes) -> list[bytes]:
    """The words of a formula's text, without its tests."""
    return [word for word in dict.fromkeys(SIGNS.split(formula)) if word and not is_test(word)]


class NotAFormula(ValueError):
    """The text is not a formula."""


class TooLarge(ValueError):
    """The place would have more nodes or bytes than allowed."""


class Described(Protocol):
    """A file as a formula sees it."""

    @property
    def words(self) -> Set[bytes]: ...

    @property
    def size(self) -> int: ...


class Rows(Protocol):
    """Files as rows of bits, as `index.Index` has them."""

    @property
    def everything(self) -> int: ...

    def having(self, word: bytes) -> int: ...

    def where(self, is_so: Callable[[Described], bool]) -> int: ...


def replaced(text: bytes, word: bytes, other: bytes) -> bytes:
    """The text of a formula with the word `other` instead of `word`."""
    return b"".join(other if piece == word else piece for piece in PIECES.split(text))


def joined(words: Sequence[bytes]) -> bytes | None:
    """The formula that was meant by several words separated by blanks: `/` joins those that no other sign joins. None if that is not a formula."""
    if len(words) < 2:
        return None
    text = b""
    for word in words:
        is_apart = text and text[-1:] not in SIGN_BEFORE and word[:1] not in SIGN_BEHIND
        text += b"/" + word if is_apart else word
    try:
        formula(text.removeprefix(b"/"))
    except NotAFormula:
        return None
    return text


class Formula(Protocol):
    """A formula can say whether it matches a file, which files of an index it matches, as a row of bits, which words it has, and how it is
    written."""

    nodes: int
    words: tuple[bytes, ...]

    @property
    def text(self) -> bytes: ...

    def meets(self, file: Described) -> bool: ...

    def row(self, index: Rows) -> int: ...


class Word:
    def __init__(self, word: bytes) -> None:
        self.word, self.nodes = word, 1
        self.words: tuple[bytes, ...] = (word,)

    @property
    def text(self) -> bytes:
        return self.word

    def meets(self, file: Described) -> bool:
        return self.word in file.words

    def row(self, index: Rows) -> int:
        return index.having(self.word)


class Test:
    def __init__(self, sign: bytes, size: int) -> None:
        self.is_least, self.size, self.nodes = sign == b">=", size, 1
        self.words: tuple[bytes, ...] = ()

    @property
    def text(self) -> bytes:
        return b"size%b%d" % (b">=" if self.is_least else b"<", self.size)

    def meets(self, file: Described) -> bool:
        return (file.size >= self.size) == self.is_least

    def row(self, index: Rows) -> int:
        return index.where(self.meets)


class Not:
    def __init__(self, part: Formula) -> None:
        self.part, self.words, self.nodes = part, part.words, part.nodes + 1

    @property
    def text(self) -> bytes:
        return b"!" + enclosed(self.part, Pair)

    def meets(self, file: Described) -> bool:
        return not self.part.meets(file)

    def row(self, index: Rows) -> int:
        return index.everything & ~self.part.row(index)


class Pair:
    def __init__(self, left: Formula, right: Formula) -> None:
        self.left, self.right = left, right
        self.words, self.nodes = left.words + right.words, left.nodes + right.nodes + 1


class Or(Pair):
    @property
    def text(self) -> bytes:
        return enclosed(self.left, And) + b"|" + enclosed(self.right, Pair)

    def meets(self, file: Described) -> bool:
        return self.left.meets(file) or self.right.meets(file)

    def row(self, index: Rows) -> int:
        return self.left.row(index) | self.right.row(index)


class And(Pair):
    @property
    def text(self) -> bytes:
        return self.left.text + b"/" + enclosed(self.right, And)

    def meets(self, file: Described) -> bool:
        return self.left.meets(file) and self.right.meets(file)

    def row(self, index: Rows) -> int:
        return self.left.row(index) & self.right.row(index)


def enclosed(part: Formula, kind: type[Pair]) -> bytes:
    """The text of a part, in parentheses if it is of this kind."""
    return b"(" + part.text + b")" if isinstance(part, kind) else part.text


class Reader:
    """Parses a text from its beginning. `/` and `|` group to the left."""

    def __init__(self, text: bytes) -> None:
        self.text, self.at = text, 0

    def whole(self) -> Formula:
        read = self._path()
        if self.at != len(self.text):
            raise NotAFormula(self.text)
        return read

    def _takes(self, byte: bytes) -> bool:
        is_there = self.text[self.at:self.at + 1] == byte
        self.at += is_there
        return is_there

    def _path(self) -> Formula:
        left: Formula = self._either()
        while self._takes(b"/"):
            left = And(left, self._either())
        return left

    def _either(self) -> Formula:
        left: Formula = self._one()
        while self._takes(b"|"):
            left = Or(left, self._one())
        return left

    def _one(self) -> Formula:
        if self._takes(b"!"):
            return Not(self._one())
        if self._takes(b"("):
            part = self._path()
            if not self._takes(b")"):
                raise NotAFormula(self.text)
            return part
        found = TEST.match(self.text, self.at) or WORD.match(self.text, self.at)
        if not found or found.re is WORD and len(found[0]) > MAX_WORD:
            raise NotAFormula(self.text)
        self.at = found.end()
        if found.re is WORD:
            return Word(found[0])
        return Test(found[1], int(found[2]))


def formula(text: bytes) -> Formula:
    """The parsed formula of a text. It is no deeper than the limit of nodes of a place. Raises `NotAFormula`."""
    return Reader(text).whole()


# A formula instead of one with words that no file has, and these words. Written as a call so that the types of its fields are no texts at the start.
Instead = NamedTuple("Instead", [("formula", bytes), ("unused", tuple[bytes, ...])])


def without(text: bytes, unused: Sequence[bytes]) -> Instead | None:
    """The formula of a text, without each side of `|` that matches no file because no file has the words `unused`. It matches the same files. None if
    there is no such formula: nothing is left, or `!` turns such a side into all files, or the text is not a formula."""
    root = text[:1] if text.startswith(b"/") else b""
    try:
        left = held(formula(text[len(root):]), unused)
    except NotAFormula:
        return None
    return Instead(root + left.text, tuple(unused)) if left and unused else None


def held(whole: Formula, unused: Sequence[bytes]) -> Formula | None:
    """A formula without its parts that match no file, or None if it matches no file itself. Raises `NotAFormula` if no formula says this."""
    if isinstance(whole, Word):
        return None if whole.word in unused else whole
    if isinstance(whole, Not):
        if (part := held(whole.part, unused)) is None:
            raise NotAFormula(whole.text)
        return Not(part)
    if isinstance(whole, Pair):
        left, right = held(whole.left, unused), held(whole.right, unused)
        if isinstance(whole, Or):
            return Or(left, right) if left and right else left or right
        return And(left, right) if left and right else None
    return whole


@functools.lru_cache(4_096)
def part(name: bytes) -> Formula:
    """The formula of a name in a path, which has no slash. Raises `NotAFormula`."""
    if len(name) > PART_LIMIT:
        raise TooLarge(name)
    if b"/" in name:
        raise NotAFormula(name)
    return formula(name)


class Place:
    """The steps of a path; the root has none. `words` are those of the place if it has only words, and else None; `named` are those that its formulas
    have."""

    def __init__(self, names: Iterable[bytes] = ()) -> None:
        self.names = tuple(names)
        self.text = b"/" + b"/".join(self.names)
        self.steps = [part(name) for name in self.names]
        # The slashes between steps are nodes too.
        if len(self.text) > MAX_FORMULA or sum(step.nodes + 1 for step in self.steps) > MAX_NODES + 1:
            raise TooLarge(self.text)
        words = [step.word for step in self.steps if isinstance(step, Word)]
        self.words = tuple(dict.fromkeys(words)) if len(words) == len(self.steps) else None
        self.named = [word for step in self.steps for word in step.words]

    def step(self, name: bytes) -> Place:
        return Place(self.names + (name,))

    def meets(self, file: Described) -> bool:
        return all(step.meets(file) for step in self.steps)

    def row(self, index: Rows) -> int:
        row = index.everything
        for step in self.steps:
            row &= step.row(index)
        return row


ROOT = Place()
