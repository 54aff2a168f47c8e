"""How costs grow with files and with words: a listing, a change, an opening and memory, of LISFS and beside it of SQLite and notmuch.

The files are empty and have two words each, as in `bench/measure`. In SQLite the listing is the query for the words that some files have and not all. In
notmuch a file is a mail of three lines, its words are tags, and the listing is that of all tags. A command of notmuch is a process, whose start is
counted; of the others an opening is taken off.
"""
import os
import shutil
from collections.abc import Callable, Iterator, Sequence
from typing import NamedTuple

from measuring import SHOWN, cost, database, filled, memory, query_cost, spent, words_of_file
from scaling.facts import Version
from scaling.in_notmuch import Notmuch
from scaling.in_sqlite import Sqlite
from turns import PROGRAMS, middle, rounds, row, table

FIRST = 1_024
# How many listings and changes one session has.
LISTINGS, CHANGES = 50, 100
# How often one session asks notmuch, which starts anew each time.
PROCESSES = 5
# The least limits of an image.
LEAST = 64
MEASURES = ("milliseconds of a listing", "milliseconds of a change", "milliseconds of an opening", "MiB with a listing")
SCALES = (1_000, 1_000, 1_000, 1)
# What is less is within the variation of an opening, and a logarithmic axis has no zero.
LEAST_SHOWN = 0.01


class Point(NamedTuple):
    files: int
    words: int


class Costs(NamedTuple):
    """Seconds of processor time of a listing, of a change and of an opening, and the mebibytes that are resident."""

    listing: float
    change: float
    opening: float
    memory: float


def points(first: int, most_files: int, most_words: int) -> list[Point]:
    """First the files grow with the fewest words, and then the words with the most files, each to twice as many."""
    by_files = [Point(files, first) for files in powers(first, most_files)]
    return by_files + [Point(by_files[-1].files, words) for words in powers(2 * first, most_words)]


def powers(first: int, most: int) -> Iterator[int]:
    while first <= most:
        yield first
        first *= 2


class InImage:
    """The files of a point in an image with its limits."""

    def __init__(self, folder: str, point: Point, version: Version) -> None:
        limits = [str(max(point.files, LEAST)), str(max(point.words, LEAST)), str(LEAST), version.word]
        self._program, self._words = PROGRAMS[0], words_of_file(0, point.words)
        self._image = filled(folder, "grown", limits, point.files, point.words)[self._program]

    def listing(self) -> float:
        return cost(self._program, self._image, b"ls\n" * LISTINGS, LISTINGS)[1]

    def change(self) -> float:
        pair = f"rm f0000\ncreate f0000 {' '.join(self._words)}\n".encode()
        return cost(self._program, self._image, pair * CHANGES, 2 * CHANGES)[1]

    def opening(self) -> float:
        return spent(self._program.run("run", self._image), b"")[1]

    def memory(self) -> float:
        return memory(self._program.run("run", self._image), b"ls\n")


class InBase:
    """The same in a database of SQLite."""

    def __init__(self, folder: str, point: Point, version: Version) -> None:
        self._base, self._words = database(folder, point.files, point.words), words_of_file(0, point.words)

    def listing(self) -> float:
        return query_cost(self._base, SHOWN, LISTINGS)[1]

    def change(self) -> float:
        rows = " ".join(f"INSERT INTO has VALUES('f0000', '{word}');" for word in self._words)
        pair = f"DELETE FROM file WHERE name = 'f0000';\nBEGIN; INSERT INTO file VALUES('f0000', x''); {rows} COMMIT;\n"
        return query_cost(self._base, pair, CHANGES, "PRAGMA foreign_keys=ON; PRAGMA synchronous=FULL;\n")[1] / 2

    def opening(self) -> float:
        return spent(["sqlite3", self._base], b"SELECT count(*) FROM file;\n")[1]

    def memory(self) -> float:
        return memory(["sqlite3", self._base], SHOWN.encode())


class InMails(Notmuch):
    """The same in notmuch."""

    def __init__(self, folder: str, point: Point, version: Version) -> None:
        super().__init__(folder)
        mails = os.path.join(folder, "mails", "cur")
        os.makedirs(mails)
        for number in range(point.files):
            with open(os.path.join(mails, f"{number:06}"), "w", encoding="ascii") as file:
                file.write(f"From: ann@example.org\nMessage-ID: <{number:06}@example.org>\nDate: Mon, 3 Jun 2024 10:00:00 +0000\n\n")
        self.bring(os.path.dirname(mails), [], version)
        lines = [f"{' '.join(f'+{word}' for word in words_of_file(number, point.words))} -- id:{number:06}@example.org" for number in range(point.files)]
        self._ran("tag", "--batch", data="\n".join(lines) + "\n")

    def listing(self) -> float:
        return self._of_processes(["search", "--output=tags", "*"])

    def change(self) -> float:
        return self._of_processes(["tag", "+other", "--", "id:000000@example.org"], ["tag", "-other", "--", "id:000000@example.org"])

    def opening(self) -> float:
        return self._of_processes(["count", "*"])

    def memory(self) -> float:
        return max(sum(self._ran("search", "--output=tags", "*", is_watched=True).mebibytes) for _ in range(PROCESSES))

    def _of_processes(self, *commands: list[str]) -> float:
        """Seconds of processor time of one of these commands."""
        return sum(self._ran(*words).processor for words in commands * PROCESSES) / (PROCESSES * len(commands))


Measured = InImage | InBase | InMails
KINDS: dict[str, type[InImage] | type[InBase] | type[InMails]] = {"LISFS": InImage, "SQLite": InBase, "notmuch": InMails}


def lacking(top: str) -> dict[str, str]:
    """The programs that are missing, each with why."""
    found = {kind.name: kind(top).lacks() for kind in (Sqlite, Notmuch)}
    return {name: why for name, why in found.items() if why}


def measured(kinds: Sequence[Measured], count: int) -> list[Costs]:
    """The costs of each, alternately; memory once, since it does not vary."""
    calls: list[Callable[[], float]] = [call for one in kinds for call in (one.listing, one.change, one.opening)]
    figures = iter([middle(figures) for figures in rounds(count, calls)])
    return [Costs(next(figures), next(figures), next(figures), one.memory()) for one in kinds]


def grow(top: str, version: Version, count: int, first: int = FIRST) -> None:
    """Measures each point, and shows a table for each measure. A figure is the middle one of some."""
    lacks = lacking(top)
    for name, why in lacks.items():
        print(f"{name} is skipped: {why}")
    kinds = {name: kind for name, kind in KINDS.items() if name not in lacks}
    found: list[tuple[Point, list[Costs]]] = []
    for point in points(first, version.files, version.words):
        folder = os.path.join(top, f"growth-{point.files}-{point.words}")
        shutil.rmtree(folder, ignore_errors=True)
        os.makedirs(folder)
        found.append((point, measured([kind(folder, point, version) for kind in kinds.values()], count)))
        shutil.rmtree(folder)
    for place, measure in enumerate(MEASURES):
        table(f"{measure}, files", "words", *kinds)
        for point, costs in found:
            row(f"{point.files:,}", f"{point.words:,}", *(f"{max(one[place] * SCALES[place], LEAST_SHOWN):.{2 if place < 3 else 1}f}" for one in costs))
