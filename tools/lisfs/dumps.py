"""What an image holds, read from the session that makes it again, as `lisfs dump IMAGE` shows it."""
import os
import signal
import time
from collections.abc import Callable, Collection
from typing import IO, NamedTuple, Protocol

from lisfs.client import PROGRAM, Heed, Program, counts_in, no_heed, shown
from lisfs.progress import Look, no_look

# The clock of file times advances in steps of at most this many nanoseconds, or of two seconds if it has only whole seconds.
STEP, WHOLE = 20_000_000, 2 * 10**9
# The signals that stop a tool.
STOPS = (signal.SIGINT, signal.SIGTERM, signal.SIGHUP)


class NotADump(ValueError):
    """The session has a line that no dump has."""


class Axiom(NamedTuple):
    """Each file with the word `left` has the word `right` too."""

    left: bytes
    right: bytes


class Stored(NamedTuple):
    """What a dump says about a file: its size, and the words that it was given."""

    size: int
    words: frozenset[bytes]


class Times(NamedTuple):
    """When an image was changed, in nanoseconds, and which file it is."""

    changed: int
    modified: int
    inode: int


class Digest(Protocol):
    """An object that is updated with the bytes of a file, as those of `hashlib` are."""

    def update(self, data: bytes, /) -> None: ...
    def digest(self) -> bytes: ...


def new_digest() -> Digest:
    # OpenSSL is slow to load, and few sessions need it.
    import hashlib
    return hashlib.sha256()


class Dump:
    """The declared words, the axioms, and each file by its name; and if digests were requested, the SHA-256 of each file."""

    def __init__(self) -> None:
        self.declared: set[bytes] = set()
        self.axioms: set[Axiom] = set()
        self.files: dict[bytes, Stored] = {}
        self.digests: dict[bytes, bytes] = {}


def read_dump(stream: IO[bytes], with_digests: bool = False, look: Look = no_look) -> Dump:
    """Reads a dump from a binary stream: `mkdir`, `add`, `mv` and `axiom` lines. `look` is called for each file.

    The bytes of files are skipped, so that a large image takes little memory. A `mv` is read as a dump has it: from the root to a place of words.
    """
    dump = Dump()
    while line := stream.readline():
        words = line.split()
        if not line.endswith(b"\n") or not words:
            raise NotADump(f"{line[:80]!r} is no line of a dump")
        command, given = words[0], words[1:]
        if command == b"mkdir" and len(given) == 1:
            dump.declared.add(given[0])
        elif command == b"axiom" and len(given) == 2:
            dump.axioms.add(Axiom(*given))
        elif command == b"add" and len(given) >= 2 and given[1].isdigit():
            dump.files[given[0]] = Stored(int(given[1]), frozenset(given[2:]))
            digest = new_digest() if with_digests else None
            pass_over(stream, int(given[1]), digest)
            if digest:
                dump.digests[given[0]] = digest.digest()
            look(1, int(given[1]))
        elif command == b"mv" and len(given) == 2 and given[0] in dump.files:
            size, had = dump.files[given[0]]
            dump.files[given[0]] = Stored(size, had | frozenset(given[1].split(b"/")))
        else:
            raise NotADump(f"{line[:80]!r} is no line of a dump")
    return dump


def pass_over(stream: IO[bytes], size: int, digest: Digest | None = None) -> None:
    """Reads a payload and its line feed, and updates the digest with the payload if there is one."""
    while size:
        read = stream.read(min(size, 65_536))
        if not read:
            raise NotADump("it ends within the bytes of a file")
        if digest:
            digest.update(read)
        size -= len(read)
    if stream.read(1) != b"\n":
        raise NotADump("a byte other than a line feed after the bytes of a file")


def dumped(image: str, with_digests: bool = False, unheard: Collection[signal.Signals] = (), heed: Heed = no_heed, look: Look = no_look) -> Dump:
    """What an image holds."""
    with shown([PROGRAM, "dump", image], unheard, heed) as stream:
        return read_dump(stream, with_digests, look)


def times_of(image: str) -> Times | None:
    """The image's times of change and its identity; None if it is missing, which the program then reports."""
    try:
        found = os.stat(image)
    except OSError:
        return None
    return Times(found.st_ctime_ns, found.st_mtime_ns, found.st_ino)


def settled(image: str) -> Times | None:
    """The image's times of change, once each later change is sure to get other times."""
    times = None
    for _ in range(100):
        now, times = time.time_ns(), times_of(image)
        if times is None or not times.changed <= now < times.changed + (STEP if times.changed % 10**9 else WHOLE):
            break
        time.sleep(STEP / 10**9)
    return times


def opened(image: str, tries: int = 8, word: str = "run", with_digests: bool = False, look: Look = no_look) -> tuple[Program, Dump]:
    """A session that runs over an image, by this word of the program, and what the image holds. See `opened_by`."""
    return opened_by(lambda: dumped(image, with_digests, look=look), lambda: started(image, word), image, tries)


def opened_by(look: Callable[[], Dump], start: Callable[[], Program], image: str, tries: int = 8) -> tuple[Program, Dump]:
    """What an image holds, and a program that runs over it, by these functions.

    Nobody has the lock between the end of the dump and the session's first reply. So the image's time of change shows whether anybody wrote it since
    the dump began; it is then dumped again. The first opening can write too, if it replays the journal.
    """
    for _ in range(tries):
        before, dump, program = settled(image), look(), start()
        if before == times_of(image) and counts_in(program.first().stat().body)["files"] == len(dump.files):
            return program, dump
        program.close()
    raise NotADump(f"{image} changes all the time")


def started(image: str, word: str = "run") -> Program:
    """A signal for the whole process group is for the tool, which then lets the program finish."""
    return Program([PROGRAM, word, image], word == "rooms", STOPS)
