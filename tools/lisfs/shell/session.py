"""An open image as a person works in it: the session that runs over it, its place, and which files and words there are.

Which files the image has, and which words they were given, is known from its dump, and later from the commands that ran. All words of a file are in
the index that the tools share: `props` returns them again after each change. So the files of a place are looked up there, by the program's text of
the place. Each change is kept with what undoes it.
"""
import collections
import contextlib
from collections.abc import Callable, Iterable, Iterator, KeysView, Sequence
from typing import TYPE_CHECKING, NamedTuple

from lisfs import client
from lisfs.client import GoOn, NotSent, Program, Refused, Reply, Retag, Retagged, as_content, words_of
from lisfs.constants import UNKNOWN_PROPERTY
from lisfs.dumps import Axiom, Dump
from lisfs.formulas import Instead, without, words_in
from lisfs.formulas import formula as read_formula
from lisfs.image import Following
from lisfs.limits import Limits
from lisfs.index import File, Index
from lisfs.shell.undoing import UNDOABLE, Change, moving, tags_of, undoing
from lisfs.words import head_of, is_plain, is_test

if TYPE_CHECKING:
    from lisfs.served import News

ROOT = b"/"
# How many commands are sent before the first reply is received, and how many bytes are requested.
AHEAD, AHEAD_BYTES = 128, 4_194_304
# Commands that change nothing.
LOOKS = (b"pwd", b"ls", b"cat", b"props", b"way", b"stat")


class NoWayBack(Exception):
    """The place could not be reached again, so it is not left."""


class NothingKept(Exception):
    """There is no change to undo."""


class Listing(NamedTuple):
    """The words, and the names of the files, that `ls` shows."""

    words: list[bytes]
    files: list[bytes]


class Counted(NamedTuple):
    """The same, with the number of files that each word leaves."""

    words: list[tuple[bytes, int]]
    files: list[bytes]


class Where(NamedTuple):
    """A place as it was after a number of changes, and a formula that leads on from there."""

    place: bytes
    changes: int
    formula: bytes


class Offered(NamedTuple):
    """The words that a listing showed."""

    at: Where
    words: list[bytes]


class Session(Following[File]):
    """`ask_stop` is called at times during longer work, and may raise an error that ends it."""

    def __init__(self, program: Program, dump: Dump, limits: Limits, ask_stop: Callable[[], None] = lambda: None) -> None:
        self.program, self.limits, self.ask_stop = program, limits, ask_stop
        self.declared, self.axioms = set(dump.declared), set(dump.axioms)
        self.index = Index()
        for name, (size, words) in dump.files.items():
            self.index.add(name, size, words)
        self.place = self._asked_place()
        # How many changes there were, and the files whose words were not asked for since they changed.
        self.changes, self._stale = 0, set(self.index.files.values())
        self._offered: Offered | None = None
        # The last changes, the latest last.
        self.kept: collections.deque[Change] = collections.deque(maxlen=UNDOABLE)

    # Commands.

    def carry_out(self, line: bytes, payload: bytes = b"") -> Reply:
        """Runs a command as it is written, with the bytes after it, and notes what it does. Raises `Refused`."""
        words = words_of(line)
        change = self._undoing(line, words)
        self.program.send_bytes(line + b"\n", payload)
        reply = self.program.receive()
        self._note(words, change)
        return reply

    def add(self, line: bytes, name: bytes, content: bytes, *words: bytes) -> None:
        """Adds a file. `line` is how the command was typed."""
        self._run(line, (b"add", name, b"%d" % len(content), *words), content)

    def write(self, line: bytes, name: bytes, content: bytes) -> None:
        self._run(line, (b"write", name, b"%d" % len(content)), content)

    def retag(self, line: bytes, changes: Iterable[Retag], go_on: GoOn) -> Retagged:
        """Changes words of files at the root, and comes back."""
        with self.at_the_root():
            found = client.retag(self.program, changes, go_on)
            self._note_retags(found.done)
        if found.done:
            self.kept.append(Change(line, retags=tuple(found.done)))
        return found

    def undo(self, go_on: GoOn) -> bytes:
        """Undoes the last change that is kept. Returns the line that made it. If it is refused, or stopped, the rest of the change is still kept."""
        if not self.kept:
            raise NothingKept
        with self.at_the_root():
            change = self.kept.pop()
            while change.commands or change.retags:
                # If an error is raised, the rest of the change is kept here.
                self.kept.append(change)
                change = self._undo_part(change, go_on)
                self.kept.pop()
        return change.line

    def _undo_part(self, change: Change, go_on: GoOn) -> Change:
        """Undoes a command of a change, or all words. Returns what is left of it."""
        if change.commands:
            words, payload = change.commands[0]
            self.program.ask(*words, payload=payload)
            self._note(words)
            return change._replace(commands=change.commands[1:])
        found = client.undo(self.program, change.retags, go_on)
        self._note_retags(found.done)
        done = {part.inverse() for part in found.done}
        rest = change._replace(retags=tuple(part for part in change.retags if part not in done))
        if rest.retags:
            self.kept[-1] = rest
            self.ask_stop()
        if found.refused:
            raise found.refused[0][1]
        return rest

    def content(self, name: bytes) -> bytes:
        return self.program.cat(name).body

    def _run(self, line: bytes, words: Sequence[bytes], content: bytes) -> None:
        change = self._undoing(line, words)
        self.program.ask(*words, payload=content)
        self._note(words, change)

    # What a change does.

    def _undoing(self, line: bytes, words: Sequence[bytes]) -> Change | None:
        """What will undo a command, or None if it changes nothing or will be refused."""
        try:
            commands, retags = undoing(words, self.place, self.index.files, self.content)
        except (Refused, NotSent):
            return None
        return Change(line, commands, retags) if commands or retags else None

    def _note(self, words: Sequence[bytes], change: Change | None = None) -> None:
        command, *given = words
        if command == b"cd":
            self.place = self._asked_place()
        elif command not in LOOKS:
            self.changes += 1
            # Another client may have changed something just before.
            self.catch_up()
            if command in (b"mkdir", b"rmdir", b"axiom", b"unaxiom"):
                self._note_word(command, given)
            else:
                self._note_file(command, given)
            if change:
                self.kept.append(change)

    def _note_word(self, command: bytes, given: Sequence[bytes]) -> None:
        if command == b"mkdir":
            self.declared.add(given[0])
            self.axioms.update(Axiom(given[0], word) for word in words_in(self.place))
        elif command == b"rmdir":
            self.declared.discard(given[0])
        elif command == b"axiom":
            self.axioms.add(Axiom(given[0], given[1]))
        else:
            self.axioms.discard(Axiom(given[0], given[1]))
        if b"axiom" in command:
            self._stale.update(self.index.of(self.index.having(given[0])))
        elif is_test(given[0]):
            self._stale.update(self.index.files.values())

    def _note_file(self, command: bytes, given: Sequence[bytes]) -> None:
        name, files = given[0], self.index.files
        new = given[1] if command == b"rename" and name in files else name if command in (b"create", b"add") else None
        if new in files:
            # What was there has gone, or it is the same, if the news have said so already.
            self._is_removed(files[new])
        if command in (b"create", b"add"):
            words = given[2:] if command == b"add" else given[1:]
            self.index.add(name, int(given[1]) if command == b"add" else 0, {*(tags_of(self.place) or ()), *words})
        if not (file := files.get(name)):
            # Another client has removed it since.
            return
        if command == b"rm":
            self._is_removed(file)
            return
        if command == b"write":
            file.size = int(given[1])
        elif command == b"mv" and (change := moving(name, self.place, given[1], files)):
            self._note_retags([change])
        elif command == b"rename":
            self.index.rename(file, given[1])
        self._stale.add(file)

    def _note_retags(self, changes: Sequence[Retag]) -> None:
        self.changes += len(changes)
        for change in changes:
            if not (file := self.index.files.get(change.name)):
                continue
            file.given = file.given - set(change.loses) | set(change.gains)
            self._stale.add(file)

    # What others change.

    def catch_up(self) -> "News | None":
        if news := super().catch_up():
            self.changes += 1
        return news

    def _is_removed(self, file: File) -> None:
        self._stale.discard(file)
        self.index.drop(file)

    def _take_axioms(self, news: "News") -> None:
        self.axioms = set(news.axioms) if news.whole else self.axioms - news.unaxioms | news.axioms

    def _is_stale(self, files: set[File]) -> None:
        self._stale |= files

    # Places.

    def _asked_place(self) -> bytes:
        return self.program.pwd().body[0][1]

    @contextlib.contextmanager
    def away(self, formula: bytes) -> Iterator[None]:
        """Goes to a place, and after the block back to this one, however the block ends. Raises `Refused` if the program does not go there, and
        `NoWayBack` if it could not come back: this place then has a word that nothing has any more, or is too long for a line."""
        here, is_onward = self.place, not formula.startswith(b"/") and formula != b".."
        way_back = here if here == ROOT else b"/" + here
        if not is_onward:
            try:
                if len(b"cd " + way_back) > self.program.longest:
                    raise NoWayBack
                self.program.cd(way_back)
            except Refused:
                raise NoWayBack from None
        self.program.cd(formula)
        try:
            self.place = ROOT if formula == ROOT else self._asked_place()
            yield
        finally:
            self.place = here
            if is_onward:
                # The new steps follow those of this place. No two places print alike.
                while self._asked_place() != here:
                    self.program.cd(b"..")
            else:
                self.program.cd(way_back)

    @contextlib.contextmanager
    def at_the_root(self) -> Iterator[None]:
        """Goes to the root for changes, and after the block back to this place; it stays there if the place has a word that nothing has any more.
        Raises `NoWayBack` if the place is too long for a line."""
        here, way_back = self.place, self.place if self.place == ROOT else b"/" + self.place
        if len(b"cd " + way_back) > self.program.longest:
            raise NoWayBack
        self.program.cd(ROOT)
        self.place = ROOT
        try:
            yield
        finally:
            with contextlib.suppress(Refused):
                self.program.cd(way_back)
                self.place = here

    # What is there.

    @property
    def names(self) -> KeysView[bytes]:
        """The names of all files."""
        return self.index.files.keys()

    def _refresh(self) -> None:
        """Asks for the words of the files that were changed; if there is no way back from the root, only for those at this place."""
        if self._stale:
            with contextlib.ExitStack() as stack:
                if self.place != ROOT:
                    with contextlib.suppress(NoWayBack):
                        stack.enter_context(self.away(ROOT))
                self._describe(sorted(self._stale, key=lambda file: file.name))

    def _describe(self, files: Sequence[File]) -> None:
        for at in range(0, len(files), AHEAD):
            self.ask_stop()
            some = files[at:at + AHEAD]
            for file in some:
                self.program.send(b"props", file.name)
            # All of them are received before anything else can be sent.
            for file, words in [(file, self._received_words()) for file in some]:
                if words is not None:
                    self.index.describe(file, words)
                    self._stale.discard(file)

    def _received_words(self) -> frozenset[bytes] | None:
        try:
            return frozenset(text for _, text in self.program.received_lines().body)
        except Refused:
            return None

    def row(self) -> int:
        """The files of the place, as a row of the index."""
        if self.place == ROOT:
            return self.index.everything
        self._refresh()
        found = read_formula(self.place).row(self.index)
        for file in self._stale:
            # It is elsewhere, since it could not be asked for here.
            found &= ~file.bit
        return found

    def files(self) -> list[File]:
        """The files of the place, in byte order."""
        return self.index.of(self.row())

    def contents(self, files: Iterable[File]) -> Iterator[tuple[File, bytes]]:
        """Files of the place with their bytes, many requested at once; without those that another client has just removed."""
        some: list[File] = []
        for file in (*files, None):
            if some and (file is None or len(some) == AHEAD or sum(one.size for one in some) > AHEAD_BYTES):
                self.ask_stop()
                for one in some:
                    self.program.send(b"cat", one.name)
                # All of them are received before anything else can be sent.
                received = [(one, self._received_content()) for one in some]
                yield from ((one, content) for one, content in received if content is not None)
                some = []
            if file:
                some.append(file)

    def _received_content(self) -> bytes | None:
        try:
            return as_content(self.program.receive()).body
        except Refused:
            if self.program.is_shared:
                return None
            raise

    def names_here(self, beginning: bytes = b"") -> list[bytes]:
        """The names of the files of the place that begin with a text."""
        return [file.name for file in self.files() if file.name.startswith(beginning)]

    def is_here(self, name: bytes) -> bool:
        if name not in self.index.files:
            return False
        with contextlib.suppress(Refused):
            self.program.props(name)
            return True
        return False

    def listing(self) -> Listing:
        """What `ls` shows at the place: the words, and the files."""
        body = self.program.ls().body
        return Listing([text for letter, text in body if letter == b"d"], [text for letter, text in body if letter == b"f"])

    def counted(self) -> Counted:
        """The same, with counts."""
        words, files = self.listing()
        self._refresh()
        here = self.row()
        return Counted([(word, (self.index.having(word) & here).bit_count()) for word in words], files)

    def offered(self, formula: bytes = b"") -> list[bytes]:
        """The words that a listing shows at the place to which a formula leads, none if it leads nowhere."""
        at = Where(self.place, self.changes, formula)
        if self._offered is None or self._offered.at != at:
            try:
                with self.away(formula) if formula else contextlib.nullcontext():
                    self._offered = Offered(at, self.listing().words)
            except (Refused, NoWayBack):
                self._offered = Offered(at, [])
        return self._offered.words

    def known(self) -> set[bytes]:
        """The words that a formula may have: those that are declared or that are on the left side of an axiom, and all that files have. If there is
        no way back from the root, files are covered as far as they were looked at."""
        self._refresh()
        begun = {left for left, _ in self.axioms}
        return self.declared.union(begun, filter(None, map(head_of, begun)), self.index.words())

    def described(self) -> Iterable[File]:
        """Each file with all its words, as far as `known` could look."""
        self._refresh()
        return self.index.files.values()

    def beginning(self, word: bytes) -> list[bytes]:
        """The words of files that begin with this text, the most frequent first."""
        self._refresh()
        return self.index.beginning(word)

    def is_assignable(self, word: bytes) -> bool:
        """Whether a file may be given this word."""
        return is_plain(word) and word in self.declared or head_of(word) in self.declared and word not in self.declared

    def instead_of(self, formula: bytes) -> Instead | None:
        """The formula that finds the same as one with unknown words, without these, or None if there is none: see `formulas.without`."""
        return without(formula, self._asked_unknown(formula))

    def unknown(self, formula: bytes) -> list[bytes]:
        """Those words of a formula that the program does not know."""
        # At a place that is almost too large none can be asked for.
        return self._asked_unknown(formula) or [word for word in words_in(formula) if word not in self.known()]

    def _asked_unknown(self, formula: bytes) -> list[bytes]:
        """The same. Each is asked for alone, as a step from this place, unless the place is almost too large."""
        found = []
        for word in words_in(formula):
            try:
                self.program.cd(word)
            except Refused as refused:
                found += [word] if refused.number == UNKNOWN_PROPERTY else []
            else:
                self.program.cd(b"..")
        return found
