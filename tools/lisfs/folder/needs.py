"""How many further words an image must know for the changes of a run, before any is made: with the names that files would have, and with lean ones.

The bytes of changed files are not looked at: they are taken in any case, and their words may use some of what is kept free.
"""
from collections.abc import Iterable, Mapping, Set
from typing import NamedTuple

from lisfs import derived
from lisfs.constants import MEDIUM_FILE
from lisfs.folder import names, walk
from lisfs.folder.changes import Change, Changes
from lisfs.folder.room import own_words, with_heads
from lisfs.progress import Look


class Needs(NamedTuple):
    """How many new files come in, how many words that are not known are needed for them and for other changes, how many with lean names, and how many
    are free."""

    files: int
    words: int
    lean: int
    free: int

    def helps(self) -> bool:
        """Whether words will run short, and fewer are needed with lean names."""
        return self.words > self.free and self.lean < self.words


def can_be_lean(plan: Changes) -> bool:
    """Whether the program would derive fewer words from new files with lean names."""
    return not plan.is_lean and any(change.is_new and derived.has_many(change.name) for change in plan.changes)


def needs_of(plan: Changes, known: Set[bytes], free: int, room: int, look: Look) -> Needs:
    """What the changes need, if these words are still known after all that is removed, so many more may become known, and the image has room for so
    many new files. `look` is called for each of these."""
    new = [change for change in plan.changes if change.is_new][:room]
    others = [change for change in plan.changes if not change.is_new]
    found = set(with_heads([plan.marker, *(word for change in new + others for word in change.gains)]))
    lean = set(found)
    for change in new:
        content = begin_of(change)
        is_many = derived.has_many(change.name)
        found.update(own_words(change.name, content))
        lean.update(own_words(names.lean(change.name, change.entry.is_mail) if is_many else change.name, content))
        look(1, len(content))
    return Needs(len(new), len(found - known), len(lean - known), free)


def begin_of(change: Change) -> bytes:
    """As many bytes of a file as words are derived from; of most files only how many there are matters. None if it can't be read."""
    found = change.entry.found
    try:
        return walk.content(found, derived.LOOKED) if derived.has_many(change.name) else bytes(min(found.size or 0, MEDIUM_FILE))
    except OSError:
        return b""


def left_of(words: Mapping[bytes, Set[bytes]], plan: Changes) -> Iterable[bytes]:
    """The words of the files that stay, without those that they lose, by the words of each file."""
    gone, losing = set(plan.gone), {change.was or change.name: set(change.loses) for change in plan.changes if change.loses}
    return (word for name, had in words.items() if name not in gone for word in (had - losing[name] if name in losing else had))
