"""The commands that make changes in an image, many sent ahead of their replies.

A folder's own file is removed, written and given other words only at the place of the folder's marker: a file without this word is not there, so the
program itself protects all other files.
"""
import collections
import contextlib
import fcntl
import os
import re
import subprocess
from collections.abc import Callable, Generator, Iterator, Sequence
from typing import NamedTuple, Protocol, TypeAlias

from lisfs import derived
from lisfs.client import PROGRAM, ROOM_LINE, BodyLine, Program, Refused, counts_in
from lisfs.constants import LARGE_DESCRIPTION, MAX_DERIVED, NO_FILE_ROOM, NO_PROPERTY_ROOM, NO_SPACE, V3_MAX_FILE
from lisfs.folder import memory, names, walk
from lisfs.folder.changes import MARKER, Change, Changes, Done
from lisfs.folder.entries import Entry, newest_first
from lisfs.folder.needs import Needs, can_be_lean, left_of, needs_of
from lisfs.folder.room import Room
from lisfs.limits import Limit, Need, blocks_of
from lisfs.progress import Look, no_look
from lisfs.refusals import REFUSALS, cause_of, named
from lisfs.words import head_of, stem_of

# The most commands, and bytes of files, that are sent and not replied to.
AHEAD, AHEAD_BYTES = 2_048, 4_194_304
# How many bytes the pipe to the program should hold, so that many commands fit in it at once.
PIPE = 1_048_576
# The most words of one place.
PLACED = 8
ROOT = b"/"
NO_MORE_FILES, NO_MORE_WORDS = REFUSALS[NO_FILE_ROOM].cause or "", REFUSALS[NO_PROPERTY_ROOM].cause or ""
# The most words, with their heads, that a file brings by its name and its size, and the most heads more by its bytes.
BY_NAME, HEADS_BY_BYTES = 4, len(derived.HEADS)
FEWER_WORDS_HELP = (NO_PROPERTY_ROOM, LARGE_DESCRIPTION)


# The words of a command.
Words: TypeAlias = Sequence[bytes]


class Step(NamedTuple):
    """A command at a place, and its bytes."""

    place: bytes
    words: Words
    payload: bytes | None = None


# Yields its steps, and receives for each the refusal, or None.
Job: TypeAlias = Generator[Step, Refused | None, None]


class Pending(NamedTuple):
    """A command that was sent, and how many bytes were sent with it. The job is None if the command goes to the place of the next one."""

    job: Job | None
    words: Words
    size: int


class Completed(NamedTuple):
    """The words that a file got, and how many were too many for it."""

    given: list[bytes]
    large: int


class Half(NamedTuple):
    """The name of a file whose change is half made, and what was done."""

    name: bytes
    done: list[str]


class Told(Protocol):
    def __call__(self, what: Done, name: bytes, more: str = "") -> None: ...


def session_word() -> str:
    """The word of the program that runs the changes: `load`, which makes many durable at a time, if its usage text lists it, else `run`."""
    usage = subprocess.run([PROGRAM], stdin=subprocess.DEVNULL, capture_output=True, check=False).stderr
    return "load" if re.search(rb"^\S+ load IMAGE\b", usage, re.M) else "run"


class Sender:
    """Runs jobs. A `cd` is sent only before a step whose place is not where the program is. `look` is called with the bytes of each command that
    was replied to."""

    def __init__(self, program: Program, look: Look = no_look) -> None:
        self._program, self._place, self._bytes, self._look = program, ROOT, 0, look
        self._waiting: collections.deque[Pending] = collections.deque()
        # A system may allow less.
        with contextlib.suppress(OSError):
            fcntl.fcntl(program.input_fileno(), fcntl.F_SETPIPE_SZ, PIPE)

    def start(self, job: Job) -> None:
        self._go_on(job, None)
        while len(self._waiting) > AHEAD or self._bytes > AHEAD_BYTES:
            self._take()

    def finish(self) -> None:
        """Waits until each job has ended."""
        while self._waiting:
            self._take()

    def ask(self, *commands: Words) -> Iterator[list[BodyLine]]:
        """The lines that commands show at the root, after each job has ended; the caller must consume them all. A command is refused only if another
        client of a served image has just removed its file: it shows none."""
        self.finish()
        if self._place != ROOT:
            self._program.cd(ROOT)
            self._place = ROOT
        for command in commands:
            self._program.send(*command)
        for _ in commands:
            try:
                yield self._program.received_lines().body
            except Refused:
                yield []

    def _go_on(self, job: Job, refusal: Refused | None) -> None:
        try:
            step = job.send(refusal)
        except StopIteration:
            return
        if step.place != self._place:
            self._send(None, (b"cd", step.place), None)
            self._place = step.place
        self._send(job, step.words, step.payload)

    def _send(self, job: Job | None, words: Words, payload: bytes | None) -> None:
        self._program.send(*words, payload=payload)
        size = len(payload or b"")
        self._bytes += size
        self._waiting.append(Pending(job, words, size))

    def _take(self) -> None:
        job, words, size = self._waiting.popleft()
        self._bytes -= size
        refusal: Refused | None = None
        try:
            self._program.receive()
        except Refused as error:
            refusal = error
            refusal.command, refusal.given = words[0].decode(), tuple(words[1:])
        if size:
            self._look(0, size)
        if job is not None:
            self._go_on(job, refusal)
        elif refusal is not None:
            # All commands that are under way would run elsewhere. A place of words that files have is never refused, unless another client of a
            # served image takes the last file from it.
            raise RuntimeError(f"{refusal.command}: {named(refusal)}")


class NoRoom(Exception):
    """The image has no room even for the word by which the folder's files are known."""


class Carrying:
    """Makes changes in an image. `told` is called for each change that was made, with what was done, a name and more; `failed` is called with a path
    and why; and `runs_short` once, when known words run short, with how many changes had their words. First comes `needs`, if it is wanted, then
    `declare` and `remember`, then `run`, and at the end `remember` again."""

    def __init__(self, sender: Sender, plan: Changes, room: Room, told: Told, failed: walk.Leave, runs_short: Callable[[int], None]) -> None:
        self.sender, self.plan, self.room, self.told, self.failed, self._runs_short = sender, plan, room, told, failed, runs_short
        # How many changes were begun before the one that is under way, and whether words have run short.
        self._begun, self._is_short = 0, False
        self.largest, self.place = room.limits.file_bytes, ROOT + plan.marker
        # Words that a file can be given without another word becoming known.
        self.known = known_words(plan)
        # Whether no further word can become known.
        self.is_full = False
        # The names that files have in the image, and for each change of an existing file its name and what was done so far.
        self.names, self.halves = set(plan.dump.files), dict[str, Half]()
        # Counts of words that there was no room for, of their files, of files that are named so that the program derives fewer words, and of words
        # that would be too many for their files, with all that is entailed and derived, and of these files.
        self.without = self.without_files = self.lean = self.too_many = self.too_many_files = 0
        # The keys of files that there was not enough room for, and what was short.
        self.short: set[str] = set()
        self.lacks_files = self.lacks_words = self.lacks_blocks = False
        # The words of the image that name a memory, and whether there was no room for one.
        self.memories, self.is_forgetful = set(memory.words_of_memories(plan.marker, plan.dump.declared)), False

    def declare(self) -> None:
        if heads := self.plan.heads():
            self._measure()
        for head in heads:
            # The marker is needed in any case, and the words of other heads may be left out.
            if head == MARKER or self.room.take([head + b":"]):
                self.sender.start(self._declare(head))
        self.sender.finish()
        if not self.plan.is_nothing() and MARKER + b":" not in self.known:
            raise NoRoom("the image has no room for a further word, and a folder's files need one of their own")

    def remember(self, word: bytes | None) -> None:
        """Makes the image name the memory of this word, or none."""
        self.sender.start(self._remember(word))
        self.sender.finish()

    def _remember(self, word: bytes | None) -> Job:
        olds = self.memories - {word}
        if word is not None and word not in self.memories:
            refusal = yield Step(ROOT, (b"mkdir", word))
            if refusal is not None and olds:
                # Removing an earlier one makes room for it.
                yield Step(ROOT, (b"rmdir", olds.pop()))
                refusal = yield Step(ROOT, (b"mkdir", word))
            self.is_forgetful = refusal is not None
        for old in olds:
            yield Step(ROOT, (b"rmdir", old))
        self.memories = set() if word is None or self.is_forgetful else {word}

    def run(self) -> None:
        """First all that makes room, and the bytes of existing files. Then the words of these and the new files, the newest first."""
        for name in self.plan.gone:
            self.sender.start(self._remove(name))
        for change in self.plan.changes:
            if not change.is_new:
                self.sender.start(self._prepare(change))
        self._measure()
        for self._begun, change in enumerate(self.plan.changes):
            if change.is_new:
                self._start_new(change)
            elif change.key in self.halves:
                self.sender.start(self._end(change, self.halves[change.key]))
        self.sender.finish()

    def _start_new(self, change: Change) -> None:
        if self.room.files <= 0:
            # A file that is under way may be refused.
            self.sender.finish()
        if self.room.files <= 0:
            self._lacks(change, NO_FILE_ROOM)
            self.failed(change.entry.found.path, NO_MORE_FILES)
        else:
            self.room.files -= 1
            self.sender.start(self._add(change))

    def needs(self, look: Look) -> Needs | None:
        """What the changes need of words, before any is made. None if there is room for whatever they may bring, or if lean names would not help."""
        if not can_be_lean(self.plan) or not self._may_be_short():
            return None
        words, beside = self._words_of_files(), self._words_beside()
        left = beside.union(left_of(words, self.plan))
        freed = len(beside.union(*words.values())) - len(left)
        # A memory needs a word too.
        free = self.room.free + freed - (not self.memories)
        return needs_of(self.plan, left, max(free, 0), self.room.files + len(self.plan.gone), look)

    def _measure(self) -> None:
        """Finds how much room there is now, and for which words, if that may be too little."""
        if self._may_be_short():
            self.room.learn(self._words_beside().union(*self._words_of_files().values()))
            self.room.force(self.plan.marker)

    def _may_be_short(self) -> bool:
        """Finds how much room there is now. Returns whether it may be too little for the words of all changes."""
        counts, = map(counts_in, self.sender.ask((b"stat",)))
        return self.room.measure(counts, sum(map(most_words, self.plan.changes)))

    def _words_of_files(self) -> dict[bytes, set[bytes]]:
        """All words of each file of the image."""
        all_names = sorted(self.names)
        return {name: {text for _, text in lines} for name, lines in zip(all_names, self.sender.ask(*((b"props", name) for name in all_names)))}

    def _words_beside(self) -> set[bytes]:
        """The words that are known whatever files have."""
        axioms = {word for axiom in self.plan.dump.axioms for word in (axiom.left, head_of(axiom.left) or axiom.left)}
        return axioms | self.known | self.plan.dump.declared | self.memories

    def _declare(self, head: bytes) -> Job:
        refusal = yield Step(ROOT, (b"mkdir", head + b":"))
        if refusal is None:
            self.known.add(head + b":")

    def _remove(self, name: bytes) -> Job:
        refusal = yield Step(self.place, (b"rm", name))
        if refusal is None:
            self.names.discard(name)
            self.plan.removed(name)
            self.told(Done.OLD if name in self.plan.out else Done.GONE, name, self.plan.path_of_gone(name))
        else:
            self.failed(name.decode(), cause_of(refusal, self.known))

    # A file that is new.

    def _add(self, change: Change) -> Job:
        entry, refusal, is_large = change.entry, None, False
        try:
            content = self._content(entry)
        except OSError as error:
            self.room.files += 1
            self.failed(entry.found.path, error.strerror or str(error))
            return
        for name, given in self._candidates(change, content):
            line, rest = fitting(name, [self.plan.marker, *given])
            refusal = yield Step(ROOT, (b"add", name, b"%d" % len(content), *line[1:]), content)
            if refusal is None:
                if name != change.name:
                    self.lean += 1
                    self._lacks(change, LARGE_DESCRIPTION if is_large else NO_PROPERTY_ROOM)
                yield from self._added(change, name, [word for word in given if word not in rest])
                return
            is_large = is_large or refusal.number == LARGE_DESCRIPTION
            if refusal.number not in FEWER_WORDS_HELP:
                break
        self.room.files += 1
        self._lacks(change, refusal.number if refusal else NO_PROPERTY_ROOM)
        self.failed(entry.found.path, cause_of(refusal, self.known) if refusal else NO_MORE_WORDS)

    def _candidates(self, change: Change, content: bytes) -> Iterator[tuple[bytes, Sequence[bytes]]]:
        """Names and words for which there is room, as far as is known, each to be tried if the one before was refused."""
        gains, all_names = self._declared(change.gains), [change.name]
        if derived.has_many(change.name) and (lean := names.lean(change.name, change.entry.is_mail)) not in self.plan.taken:
            # From a file with the lean name the program derives fewer words.
            all_names.append(lean)
        for name in all_names:
            own = self.room.words_of(name, content)
            for given in self._tries(gains, name == all_names[-1]):
                if self.room.take([*own, self.plan.marker, *given]):
                    yield name, given
                else:
                    self._words_are_short()

    def _added(self, change: Change, name: bytes, given: list[bytes]) -> Job:
        """Completes a new file, which exists now: gives it the words that did not fit its line, or those for which there is room one by one."""
        self.names.add(name)
        given, large = yield from self._complete(ROOT, name, self._declared(change.gains), given)
        self._lacking(change, len(change.gains) - len(given), large)
        self.plan.done(change, name)
        self.told(Done.NEW, name, change.entry.found.path)

    def _lacks(self, change: Change, number: int) -> None:
        """Notes that there is not enough room for a file, if the refusal means that."""
        self.lacks_files = self.lacks_files or number == NO_FILE_ROOM
        if number == NO_PROPERTY_ROOM:
            self.lacks_words = True
            self._words_are_short()
        self.lacks_blocks = self.lacks_blocks or number == NO_SPACE
        if number in (NO_FILE_ROOM, NO_PROPERTY_ROOM, NO_SPACE):
            self.short.add(change.key)

    def _words_are_short(self) -> None:
        if not self._is_short:
            self._is_short = True
            self._runs_short(self._begun)

    def _content(self, entry: Entry) -> bytes:
        content = walk.content(entry.found, self.largest)
        if len(content) > self.largest:
            raise OSError(0, f"more than {self.largest} bytes; a file has no more")
        # The bytes that are written are those that the file has now.
        entry.read_from(content)
        return content

    # A file that exists.

    def _prepare(self, change: Change) -> Job:
        """The first half of a change: the name, the words that are removed, and the bytes."""
        entry, name, refusal, done = change.entry, change.name, None, []
        if change.was is not None:
            if (yield Step(self.place, (b"rename", change.was, name))) is not None:
                # It keeps its name.
                name = change.was
            self.names.discard(change.was)
            self.names.add(name)
        for begin in range(0, len(change.loses), PLACED):
            part = change.loses[begin:begin + PLACED]
            refusal = refusal or (yield Step(self.place + b"/" + b"/".join(part), (b"mv", name, self.place)))
        done += ["-" + word.decode() for word in change.loses] if refusal is None else []
        if change.has_other_bytes and refusal is None:
            try:
                refusal = yield Step(self.place, *self._written(entry, name))
            except OSError as error:
                self.failed(entry.found.path, error.strerror or str(error))
                return
        if refusal is None:
            self.halves[change.key] = Half(name, done)
        else:
            self._lacks(change, refusal.number)
            self.failed(entry.found.path, cause_of(refusal, self.known))

    def _end(self, change: Change, half: Half) -> Job:
        """The second half: the words that are added."""
        name, done = half
        given, large = yield from self._complete(self.place, name, self._declared(change.gains), [])
        self._lacking(change, len(change.gains) - len(given), large)
        done += ["+" + word.decode() for word in given]
        self.plan.done(change, name)
        if change.is_moved:
            self.told(Done.MOVED, name, change.entry.found.path)
        elif change.has_other_bytes:
            self.told(Done.CHANGED, name, change.entry.found.path)
        else:
            self.told(Done.WORDS if done else Done.SAME, name, " ".join(done))

    def _written(self, entry: Entry, name: bytes) -> tuple[Words, bytes]:
        content = self._content(entry)
        return (b"write", name, b"%d" % len(content)), content

    # Words that there may be no room for.

    def _declared(self, words: Sequence[bytes]) -> list[bytes]:
        """Those of some words whose heads are declared: a head needs room too."""
        return [word for word in words if stem_of(word) + b":" in self.known]

    def _tries(self, gains: Sequence[bytes], to_the_end: bool) -> Iterator[Sequence[bytes]]:
        """Lists of words to make a file with, each tried if the one before was refused: with all words, with those that are known already; and at the
        end, if wanted, without any."""
        known = [word for word in gains if word in self.known]
        tries = [known] if self.is_full else [list(gains), known]
        for number, words in enumerate(tries + [[]] if to_the_end else tries):
            if number == 0 or words != tries[number - 1]:
                yield words

    def _complete(self, place: bytes, name: bytes, gains: Sequence[bytes], given: list[bytes]) -> Generator[Step, Refused | None, Completed]:
        """Gives a file the words that it lacks, as far as there is room: in few commands, or one by one if these are refused. Returns all given words
        that it has then, and how many were too many for it."""
        self.known.update(given)
        large = 0
        missing = [word for word in gains if word not in given and self.room.take([word])]
        parts = [missing[begin:begin + PLACED] for begin in range(0, len(missing), PLACED)]
        while parts:
            part = [word for word in parts.pop(0) if not self.is_full or word in self.known]
            if not part:
                continue
            refusal = yield Step(place, (b"mv", name, b"/".join(part)))
            if refusal is None:
                given = given + part
                self.known.update(part)
            elif len(part) > 1:
                parts[:0] = [[word] for word in part]
            elif refusal.number == LARGE_DESCRIPTION:
                large += 1
            elif refusal.number == NO_PROPERTY_ROOM:
                # Not even one word can become known, and so no other one.
                self.is_full = True
                self.known.difference_update(part)
        return Completed(given, large)

    def _lacking(self, change: Change, count: int, large: int) -> None:
        if large:
            self.too_many += large
            self.too_many_files += 1
        if count > large:
            self.without += count - large
            self.without_files += 1
            self._lacks(change, NO_PROPERTY_ROOM)

    def advice(self) -> list[str]:
        """What a person can do about each limit that was reached."""
        newest, entries = 0, sorted(self.plan.keyed, key=lambda pair: newest_first(pair[1]))
        for key, entry in entries:
            if key in self.short:
                break
            newest += not entry.found.problem
        others = len(self.plan.dump.files) - self.plan.own + self.plan.staying
        is_lean_fewer = not self.plan.is_lean and any(entry.is_mail or derived.has_many(os.fsencode(entry.found.key)) for _, entry in entries)
        lacks: dict[Limit, bool] = {"files": self.lacks_files, "words": self.lacks_words, "blocks": self.lacks_blocks}
        return self.room.advice([name for name, is_short in lacks.items() if is_short], self._needed(), self.room.limits.files - others, newest, is_lean_fewer)

    def _needed(self) -> Need:
        """How much the image would need for all files of the folder and all others in it, as far as that is known."""
        plan, away = self.plan, set(self.plan.away)
        sizes = [entry.found.size or 0 for _, entry in plan.keyed if not entry.found.problem and not entry.is_older and entry.found.path not in away]
        sizes += [size for name, (size, _) in plan.dump.files.items() if name not in plan.kept and name not in plan.gone_keys]
        return Need(len(sizes), self.room.words_needed(), sum(map(blocks_of, sizes)))


def most_words(change: Change) -> int:
    """The most words that can become known by a change."""
    if not change.is_new:
        return len(change.gains)
    by_bytes = min(change.entry.derived or MAX_DERIVED, MAX_DERIVED) + HEADS_BY_BYTES if derived.has_many(change.name) else 0
    return len(change.gains) + BY_NAME + by_bytes


def fitting(name: bytes, words: Sequence[bytes]) -> tuple[list[bytes], Sequence[bytes]]:
    """A name and as many words as fit the line that makes a file, also for a served image, and the words that don't."""
    room, line = ROOM_LINE - len(b"add  %d" % V3_MAX_FILE) - len(name), [name]
    for number, word in enumerate(words):
        room -= len(word) + 1
        if room < 0:
            return line, words[number:]
        line.append(word)
    return line, []


def known_words(plan: Changes) -> set[bytes]:
    """The words that somebody has given, or declared, and that remain."""
    gone, losing = set(plan.gone), {change.was or change.name: set(change.loses) for change in plan.changes if change.loses}
    known = set(plan.dump.declared)
    for name, (_, words) in plan.dump.files.items():
        if name not in gone:
            known.update(words - losing[name] if name in losing else words)
    return known
