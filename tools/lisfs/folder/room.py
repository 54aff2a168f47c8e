"""How much room an image has for the files of a folder, and what to do if that is not enough.

Files come in one after the other, the newest first, and each takes its room before it is sent. So what comes in does not depend on which replies have
come by then. Some of the words that an image may know are kept free for the person. The program is asked which words it knows only if there may be
too many.
"""
import contextlib
from collections.abc import Callable, Iterable, Mapping, Sequence
from fractions import Fraction

from lisfs import derived
from lisfs.constants import MAX_ASSIGNED, MAX_DERIVED
from lisfs.folder import walk
from lisfs.folder.entries import Entry
from lisfs.folder.memory import WORD
from lisfs.limits import SEVERAL, Limit, Limits, Need, blocks_of, command, enlarged
from lisfs.words import head_of

# The part of the words that is kept free if nobody says how many.
RESERVE = Fraction(1, 20)


def with_heads(words: Sequence[bytes]) -> list[bytes]:
    """Words and the heads that become known with them."""
    return [*words, *filter(None, map(head_of, words))]


def own_words(name: bytes, content: bytes) -> list[bytes]:
    """The words that the program derives from a file, with their heads."""
    return with_heads(derived.derived_words(name, content)[:MAX_DERIVED])


def kept_free(wish: Fraction, words: int) -> int:
    """How many of this number of words are kept free: a fraction of them, or a number."""
    return int(wish * words) if wish < 1 else int(wish)


def beside_free(words: int, wish: Fraction) -> int:
    """How many words an image must have room for, so that this many are left beside those that are kept free."""
    return -int(-words // (1 - wish)) if wish < 1 else words + int(wish)


def needed(entries: Iterable[Entry], marker: bytes, is_lean: bool, looked: Callable[[], None]) -> Need:
    """What the files of a folder need in an image of their own. Sources and mails are read for this, and `looked` is called after each file."""
    taken = [entry for entry in entries if not entry.found.problem and not entry.is_older]
    # One names the memory of what was brought in.
    words, sizes = {WORD, *with_heads([marker])}, [entry.found.size or 0 for entry in taken]
    for entry in taken:
        words.update(with_heads([*entry.words[:MAX_ASSIGNED - 1], *words_alone(entry, entry.names(marker, is_lean)[0])]))
        looked()
    return Need(len(taken), len(words), sum(map(blocks_of, sizes)), max(sizes, default=0))


def words_alone(entry: Entry, name: bytes) -> list[bytes]:
    """The words that a file of the folder has on its own in an image; none of its bytes if it can't be read, which is reported later."""
    size = entry.found.size or 0
    if derived.has_many(name):
        with contextlib.suppress(OSError):
            return derived.derived_words(name, walk.content(entry.found, size))[:MAX_DERIVED]
    return derived.words_by_name(name, size)


class Room:
    """The files that an image can still take, and the words that may become known. `reserve` words are kept free."""

    def __init__(self, limits: Limits, reserve: int) -> None:
        self.limits, self.reserve = limits, reserve
        self.files = 0
        # How many more words may become known, and the known words if there may be too many.
        self._words = 0
        self._known: set[bytes] | None = None
        # The words that there was no room for.
        self._lacking: set[bytes] = set()

    def measure(self, counts: Mapping[str, int], most: int) -> bool:
        """Takes what `stat` shows. Returns whether the known words are needed, since this many more may be wanted."""
        self.files = self.limits.files - counts["files"]
        self._words = self.limits.words - self.reserve - counts["known"]
        self._known = None
        return most > self._words

    def learn(self, known: Iterable[bytes]) -> None:
        """Takes the words that the image knows."""
        self._known = set(known)

    @property
    def free(self) -> int:
        """How many more words may become known."""
        return max(self._words, 0)

    def words_of(self, name: bytes, content: bytes) -> list[bytes]:
        """The words of `own_words`, if they must be counted."""
        if self._known is None:
            return []
        return own_words(name, content)

    def take(self, words: Iterable[bytes]) -> bool:
        """Whether there is room for the words of a file. If so, they count as known."""
        if self._known is None:
            return True
        new = set(words) - self._known
        if len(new) > self.free:
            self._lacking |= new
            return False
        self._words -= len(new)
        self._known |= new
        return True

    def force(self, word: bytes) -> None:
        """Counts a word as known that becomes known in any case."""
        if self._known is not None and word not in self._known:
            self._words -= 1
            self._known.add(word)

    def words_needed(self) -> int:
        """How many words the image would have to have room for, at least, those that are kept free among them; 0 if that is not known."""
        return 0 if self._known is None else len(self._known | self._lacking) + self.reserve

    def advice(self, reached: Sequence[Limit], need: Need, files: int, newest: int, can_be_lean: bool) -> list[str]:
        """A line for each limit that was reached. `need` has how much is needed of each, or 0 if that is not known. The newest `newest` files are
        complete, and the image has room for `files` files of the folder."""
        counts: dict[Limit, int] = {"files": need.files, "words": need.words, "blocks": need.blocks}
        ways: dict[Limit, list[str]] = {"files": [keeps(files)], "words": [keeps(newest)], "blocks": [keeps(newest)]}
        limits = {"files": f"{self.limits.files:,} files", "words": f"{self.limits.words:,} known words", "blocks": f"{self.limits.blocks:,} blocks"}
        if can_be_lean:
            ways["words"].insert(0, "--lean takes fewer words for each new mail and source")
        if self.reserve:
            ways["words"].append("--reserve 0 keeps none free")
            limits["words"] += f", {self.reserve:,} of them kept free"
        # The image must have room for all, also where no limit was reached yet.
        larger = enlarged(self.limits, {name: count for name, count in counts.items() if name in reached or count > getattr(self.limits, name)})
        helps = f"{command(larger)} makes room" if larger else SEVERAL
        return [f"limit reached: {limits[name]}{f', and {counts[name]:,} are needed' if counts[name] else ''}: {'; '.join([*ways[name], helps])}"
                for name in reached]


def keeps(newest: int) -> str:
    return f"--newest {newest} keeps the newest" if newest > 0 else "--newest N keeps the newest"
