"""What a program is asked that keeps a collection: `in_lisfs`, `in_sqlite` and `in_notmuch` are such programs.

A system that can't answer a question returns None, and one that can't make a change returns False.
"""
import os
import shutil
import time
from collections.abc import Sequence
from typing import NamedTuple

from measuring import Ran, used
from scaling.facts import Fact, Version

# The words that changes give to files.
TAG, MEANT = b"tagged", b"meant"


class Wrong(Exception):
    """A system gave a wrong answer, or did not do what it was asked."""


class Term(NamedTuple):
    """What must hold of a file: it has one of these words, or none of them, or it has at least so many bytes."""

    words: tuple[bytes, ...] = ()
    is_not: bool = False
    least: int | None = None

    def holds(self, fact: Fact) -> bool:
        return fact.size >= self.least if self.least is not None else fact.words.isdisjoint(self.words) == self.is_not


# All of its terms hold.
Place = Sequence[Term]
Names = set[bytes]
Counts = dict[bytes, int]


class System:
    """A program with a collection in it."""

    name = ""
    # What it is for a reader: what it is asked through, and what it keeps.
    told = ""

    def __init__(self, top: str) -> None:
        self.top = os.path.join(top, self.name.lower())

    def lacks(self) -> str | None:
        """Why it can't be measured here, or None."""
        raise NotImplementedError

    def takes(self, name: str) -> bool:
        """Whether it takes a collection of this name."""
        return True

    def bring(self, folder: str, facts: Sequence[Fact], version: Version) -> Ran:
        """Brings these files of a folder in, into an empty place. It is watched."""
        raise NotImplementedError

    def emptied(self) -> None:
        """Its folder is there, with nothing in it."""
        shutil.rmtree(self.top, ignore_errors=True)
        os.makedirs(self.top)

    def bytes_on_disk(self) -> int:
        return sum(os.lstat(os.path.join(at, name)).st_blocks * 512 for at, _, names in os.walk(self.top) for name in names)

    def open(self, facts: Sequence[Fact]) -> None:
        """Begins to answer questions about these files."""

    def close(self) -> None:
        pass

    def processor(self) -> float:
        """Seconds of processor time so far: of this process, of its children that have ended, and of the system's own process, if it has one."""
        return time.process_time() + used()[0]

    def find(self, place: Place) -> Names | None:
        """The files of a place."""
        return None

    def refine(self, place: Place) -> Counts | None:
        """The most general words that some files of a place have and not all, each with how many have it."""
        return None

    def words(self, name: bytes) -> Names | None:
        """All words of a file."""
        return None

    def counts(self, head: bytes) -> Counts | None:
        """How many files have each value of a head."""
        return None

    def tag(self, place: Place, names: Sequence[bytes]) -> bool:
        """Gives the files of a place, which are these, the word TAG."""
        return False

    def untag(self, names: Sequence[bytes]) -> bool:
        """Takes it back from all files that have it, which are these."""
        return False

    def mean(self, word: bytes) -> bool:
        """From now on each file with a word has MEANT too."""
        return False

    def unmean(self, word: bytes) -> bool:
        """No longer."""
        return False

    def asked_once(self, word: bytes) -> Ran:
        """What it takes to start, find the files with a word, and end. It is watched."""
        raise NotImplementedError


def checked(ran: Ran, what: str) -> Ran:
    """What a command took that must end well."""
    if ran.status:
        raise Wrong(f"{what} ended with status {ran.status}: {ran.out.decode(errors='replace').strip()}")
    return ran
