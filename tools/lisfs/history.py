"""What a served image holds, updated with each command that ran, and which client changed what. From this `tools/serve` reports to its clients what
others have changed, so that what a client knows of an image stays true; and it refuses a change of a file that another client has changed.

A client asks by lines of the server's own. They begin with a colon, as no command does, and the program gets none of them:

    :all        what the image holds, and which file the image is
    :since N    what other clients have changed after the change of number N, and what this one has after that
    :guard N    from now on `write`, `mv`, `rename` and `rm` of a file that another client has changed after N is refused

The replies have the form of replies. The first line says the number of the last change, and then the lines follow that are needed to know the current
state, with new names of files first. If two lines contradict, the last one holds, and the client may know any of them already.

    n COUNT            the number of the last change
    i DEVICE INODE     which file the image is: what follows is all that the image holds
    r OLD NEW          the file got another name
    f NAME SIZE WORD.. a file, and the words that it was given
    c NAME             its bytes were written
    g NAME             there is no such file
    d WORD             the word is declared
    u WORD             it is not
    a LEFT RIGHT       there is this axiom
    x LEFT RIGHT       there is not

A refusal by `:guard` is the line `no 00 changed by another client`, and nothing is changed.
"""
import collections
import os
from collections.abc import Callable, Iterator, Sequence
from typing import NamedTuple

from lisfs.client import COUNT
from lisfs.constants import BAD_LINE, REFUSAL_WORDS
from lisfs.dumps import Axiom, Dump, Stored
from lisfs.formulas import words_in
from lisfs.refusals import CHANGED
from lisfs.words import is_built_in, is_head

ROOT = b"/"
# How many changes are kept. A client that knows only older ones is sent the whole state.
KEPT = 16_384
REFUSED = b"no %02d changed by another client\n" % CHANGED
OK = b"ok\n"
BAD = f"no {BAD_LINE:02} {REFUSAL_WORDS[BAD_LINE]}\n".encode()
# The commands whose meaning depends on the place, and those that need a file as it was.
PLACED = frozenset((b"create", b"add", b"mv", b"mkdir"))
GUARDED = frozenset((b"write", b"mv", b"rename", b"rm"))
# The letters of changes, and the letters that are reported as another one. `b` are the bytes of a renamed file.
LETTERS = (b"r", b"f", b"c", b"d", b"a")
STATES = {b"g": b"f", b"u": b"d", b"x": b"a", b"b": b"c"}


class Change(NamedTuple):
    """A change: its number, the client that made it, the letter of its line and the words of the line."""

    number: int
    client: int
    letter: bytes
    of: tuple[bytes, ...]


class Latest(NamedTuple):
    """Who changed a file last, by which change, and the last change by anybody else."""

    client: int
    number: int
    others: int


def tags(place: bytes) -> frozenset[bytes]:
    """The words that a place of words gives to a file: those that are neither heads nor built in."""
    return frozenset(word for word in words_in(place) if not is_head(word) and not is_built_in(word))


def without_last_step(place: bytes) -> bytes:
    """A place, as the program prints it, without its last step."""
    depth = 0
    for at in range(len(place) - 1, -1, -1):
        byte = place[at:at + 1]
        depth += (byte == b")") - (byte == b"(")
        if byte == b"/" and not depth:
            return place[:at] or ROOT
    return ROOT


def resolved(formula: bytes, place: bytes) -> bytes:
    """Where a formula leads from a place: a text with the words of that place."""
    return without_last_step(place) if formula == b".." else formula if formula.startswith(ROOT) else place + b"/" + formula


class History:
    def __init__(self, dump: Dump, image: str, kept: int = KEPT) -> None:
        self.declared, self.axioms, self.files, self.count = set(dump.declared), set(dump.axioms), dict(dump.files), 0
        found = os.stat(image)
        self._identity = b"%d %d" % (found.st_dev, found.st_ino)
        self._changes: collections.deque[Change] = collections.deque()
        # Changes up to the number `_lost` are no longer kept.
        self._kept, self._lost, self._latest, self._guards = kept, 0, dict[bytes, Latest](), dict[int, int]()
        # What each command changes, from its place and its words.
        self._steps: dict[bytes, Callable[[bytes, Sequence[bytes]], Iterator[tuple[bytes, ...]]]] = {
            b"mkdir": self._declare, b"rmdir": self._take_back, b"axiom": self._add_axiom, b"unaxiom": self._remove_axiom,
            b"create": self._create, b"add": self._add, b"write": self._write, b"mv": self._move, b"rename": self._rename, b"rm": self._remove}

    # What has changed.

    def note(self, client: int, place: bytes, words: Sequence[bytes]) -> None:
        """Notes that a command with these words ran at a place, and that its reply was `ok` alone."""
        if step := self._steps.get(words[0]):
            self.count += 1
            for letter, *of in step(place, words[1:]):
                self._changes.append(Change(self.count, client, letter, tuple(of)))
                if letter in (b"f", b"g"):
                    self._touch(client, of[0])
            while len(self._changes) > self._kept:
                self._forget(self._changes.popleft())

    def _touch(self, client: int, name: bytes) -> None:
        last = self._latest.get(name, Latest(client, 0, 0))
        self._latest[name] = Latest(client, self.count, last.others if last.client == client else last.number)

    def _forget(self, change: Change) -> None:
        """Forgets who changed a removed file last, once the change itself is not kept."""
        self._lost = change.number
        if change.letter == b"g" and change.of[0] not in self.files and self._latest[change.of[0]].number <= change.number:
            del self._latest[change.of[0]]

    def _declare(self, place: bytes, given: Sequence[bytes]) -> Iterator[tuple[bytes, ...]]:
        self.declared.add(given[0])
        yield b"d", given[0]
        for word in words_in(place):
            self.axioms.add(Axiom(given[0], word))
            yield b"a", given[0], word

    def _take_back(self, _: bytes, given: Sequence[bytes]) -> Iterator[tuple[bytes, ...]]:
        self.declared.discard(given[0])
        yield b"u", given[0]

    def _add_axiom(self, _: bytes, given: Sequence[bytes]) -> Iterator[tuple[bytes, ...]]:
        self.axioms.add(Axiom(*given))
        yield b"a", *given

    def _remove_axiom(self, _: bytes, given: Sequence[bytes]) -> Iterator[tuple[bytes, ...]]:
        self.axioms.discard(Axiom(*given))
        yield b"x", *given

    def _create(self, place: bytes, given: Sequence[bytes]) -> Iterator[tuple[bytes, ...]]:
        return self._made(given[0], 0, tags(place).union(given[1:]))

    def _add(self, place: bytes, given: Sequence[bytes]) -> Iterator[tuple[bytes, ...]]:
        return self._made(given[0], int(given[1]), tags(place).union(given[2:]))

    def _made(self, name: bytes, size: int, words: frozenset[bytes]) -> Iterator[tuple[bytes, ...]]:
        self.files[name] = Stored(size, words)
        yield b"f", name
        yield b"c", name

    def _write(self, _: bytes, given: Sequence[bytes]) -> Iterator[tuple[bytes, ...]]:
        return self._made(given[0], int(given[1]), self.files[given[0]].words)

    def _move(self, place: bytes, given: Sequence[bytes]) -> Iterator[tuple[bytes, ...]]:
        size, words = self.files[given[0]]
        self.files[given[0]] = Stored(size, words - tags(place) | tags(resolved(given[1], place)))
        yield b"f", given[0]

    def _rename(self, _: bytes, given: Sequence[bytes]) -> Iterator[tuple[bytes, ...]]:
        self.files[given[1]] = self.files.pop(given[0])
        yield b"r", *given
        yield b"g", given[0]
        yield b"f", given[1]
        # Earlier writes are known under the old name.
        yield b"b", given[1]

    def _remove(self, _: bytes, given: Sequence[bytes]) -> Iterator[tuple[bytes, ...]]:
        del self.files[given[0]]
        yield b"g", given[0]

    # What clients are sent.

    def answer(self, client: int, words: Sequence[bytes]) -> bytes | None:
        """The server's own reply to a line of a client, or None if the line is for the program."""
        if not words[0].startswith(b":"):
            is_refused = client in self._guards and self._is_changed(words, client, self._guards[client])
            return REFUSED if is_refused else None
        if words == [b":all"]:
            return self._all()
        if len(words) != 2 or not COUNT.fullmatch(words[1]) or words[0] not in (b":since", b":guard"):
            return BAD
        number = int(words[1])
        if words[0] == b":since":
            return self._all() if number < self._lost or number > self.count else self._since(client, number)
        self._guards[client] = number
        return OK

    def leave(self, client: int) -> None:
        """Notes that a client is gone."""
        self._guards.pop(client, None)

    def _is_changed(self, words: Sequence[bytes], client: int, number: int) -> bool:
        """Whether a command needs a file as it was at a change, and another client has changed it since."""
        if words[0] not in GUARDED or len(words) < 2 or not (last := self._latest.get(words[1])):
            return False
        return (last.others if last.client == client else last.number) > number

    def _since(self, client: int, number: int) -> bytes:
        """What clients other than this one have changed after a change."""
        found = self._found(client, number)
        # Each once, in the order of the first occurrence.
        of: dict[bytes, dict[tuple[bytes, ...], None]] = {letter: {} for letter in LETTERS}
        for change in found:
            of[STATES.get(change.letter, change.letter)][change.of] = None
        return self._shown([
            *(b"r %b %b" % (change.of[0], change.of[1]) for change in found if change.letter == b"r"),
            *(self._file(name) for name, in of[b"f"]), *(b"c " + name for name, in of[b"c"] if name in self.files),
            *((b"d " if word in self.declared else b"u ") + word for word, in of[b"d"]),
            *((b"a " if Axiom(*pair) in self.axioms else b"x ") + b" ".join(pair) for pair in of[b"a"])])

    def _found(self, client: int, number: int) -> list[Change]:
        """What others have changed after a change, and what the client itself has changed since the first of these: it may have changed something
        that it does not know yet, as when it renames a file that has just got its name."""
        found: list[Change] = []
        count = 0
        for change in reversed(self._changes):
            if change.number <= number:
                break
            if change.client != client or change.letter != b"c":
                found.append(change)
            if change.client != client:
                count = len(found)
        return found[:count][::-1]

    def _all(self) -> bytes:
        """What the image holds."""
        return self._shown([b"i " + self._identity, *map(self._file, self.files), *(b"d " + word for word in self.declared),
                            *(b"a " + b" ".join(axiom) for axiom in self.axioms)])

    def _file(self, name: bytes) -> bytes:
        """The current line of a name: a file, or that there is none."""
        if name not in self.files:
            return b"g " + name
        size, words = self.files[name]
        return b" ".join((b"f", name, b"%d" % size, *sorted(words)))

    def _shown(self, lines: list[bytes]) -> bytes:
        return b"".join(line + b"\n" for line in [b"n %d" % self.count, *lines]) + OK
