"""Brings a folder or a maildir into an image, again and again: what is new, what has changed, and what is gone.

usage: tools/sync [--as NAME] [--without PATTERN].. [--since DATE] [--newest N] [--reserve NUMBER] [--flat] [--lean] [--threads] [--dry-run] [--verbose] [--all-gone] [--no-cache] [--ours[=PATH] | --theirs[=PATH]].. [--restore] IMAGE FOLDER

If IMAGE is missing, it is made: the smallest image that has room for the folder three times over, which a line says. If no image has room for
the folder, nothing is made.

The folder's own files have the word `sync:NAME` in the image. --as says which NAME, of at most 55 letters, digits and `_ - . + @`. Without it
NAME is the folder's name and four digits that depend on its path. Only files with this word are written, given other words or removed: what
others put in stays as it is. Words that somebody gave to the folder's files stay too, except those that begin with one of the heads below,
which are the folder's.

What was changed in the image is never overwritten and never removed. A file that has other bytes only in the image keeps them. A file that
has other bytes both there and in the folder, or is gone from the folder, is a conflict: it is named, and left. --ours settles conflicts by
what the image has, and --theirs by what the folder has. --ours=PATH and --theirs=PATH settle the conflict of one file, and may be repeated:
PATH is its path in the folder, or, of a file that the folder does not have, its name in the image. A file that was renamed in the image keeps that name, also if it was edited there too.
One that was removed from it stays away until it changes in the folder; --restore brings such files back. A file that was renamed or moved in
the folder is found again by its bytes, and keeps the words that it was given.

What was brought in is kept in `$XDG_STATE_HOME/lisfs`, or in `~/.local/state/lisfs`, and a plain word `synced-NAME-DIGEST` of the image names
it. If that is missing, for example after an older `tools/sync`, each difference is a conflict.

A file is named after its path below the folder, with `+` instead of `/`. If that is no name, it gets one with a digest. A folder that has
`cur` and `new` in it is a maildir, and so is a folder below that has these and `tmp`. A mail there is named after its Subject and a digest
of its Message-ID, or of its path if it has none, and ends with `.eml`. So names are the same at each run.

--without skips files and folders with such a name, as `.git` or `*.o`, and may be repeated. The image itself is skipped too, if it is in the
folder, its socket if it is served, and those that `tools/enlarge` kept. No symbolic link below the folder is followed. Over a served image `sync` is a client of its server, and
what another client changes during the run is left as it is.

--since DATE takes the files from a day, a month or a year on (2024-06-03, 2024-06, 2024), and --newest N the N newest files. The date of a
mail is that of its header, and of another file the time of its last change. An older file does not come in. If it is in the image it is
removed from it, unless somebody edited or renamed it there or gave it a word.

The newest files come in first, so if the image has no room for all, the oldest are left out. A line says which limit was reached, how much is
needed, and what helps. --reserve says how many of the words of the image stay free for you: a number, or a part such as 1/10 or 0.1. Without it this is a
twentieth.

What a mail or a piece of music gave is kept in `$XDG_CACHE_HOME/lisfs`, or in `~/.cache/lisfs`, so that the next run reads only those whose
size or times have changed. --no-cache reads all of them, and keeps nothing.

Files get words in this order, at most 15 beside `sync:NAME`:
  in:FOLDER       for each folder that it is in, unless --flat is given
  date:2024-06    of a mail, the month of its Date
  list:           its List-Id
  thread:         the subject of the first mail of its thread, if --threads is given and the thread has another mail
  who:            those who wrote it, by name or otherwise by address
  about:          the words of its Subject that carry meaning
  who:            those who got it
  artist:, album:, genre:, year:  of a piece of music, by its tags, which needs Debian's python3-mutagen
If the image has no room for more words, a file goes in with fewer. If necessary a mail of a maildir has no `.eml` in its name, and the name of
a `.eml`, `.c` or `.h` file gets `_` at its end, so that the program derives no words of its bytes. --lean names new files so from the start: an
image then has room for more mails and sources.

Words that do not fit are counted: those beyond the 16 that a file is given, the 128 that it has in all, and the 48 that the program derives
for it. A search by a derived word can miss a file whose words are cut.

--threads gives the mails of each thread one word, so that they are found together: one word for each subject of a thread. A mail whose parent, by
References and In-Reply-To, is not in the folder begins a thread. Without --threads all `thread:` words stay as they are, and new mails get none.

--dry-run says what it would do, one line a file. It works on a copy of the image below the temporary folder, and no byte of the image
changes. --verbose says what is done in the same way: each path that comes in, changes or is removed. The counts come at the end, and on a terminal there is a line of progress. If none of its
files is in the folder any more, for example because a disk is not mounted, nothing is done, except with --all-gone. If some of the folder could
not be read, nothing is removed.

The status is 0 if all was taken, 1 if something was not, and 2 for wrong use. It can be stopped at any point: the next run goes on. Nothing
of it is proved. It uses the word `load` of the program if that has it, and otherwise `run`.
"""  # noqa: E501, as the line of the usage is printed
from __future__ import annotations

import argparse
import contextlib
import hashlib
import os
import re
import struct
import sys
from collections.abc import Sequence
from fractions import Fraction

from lisfs import making, opening
from lisfs.client import PROGRAM, Ended, Locked, NotAReply, Program, missing, socket_of
from lisfs.constants import MAX_ASSIGNED, MAX_DERIVED, MAX_DESCRIPTION, MAX_WORD
from lisfs.dumps import Dump, NotADump
from lisfs.endings import Stopped, folder_fault, quiet, stop_at_signals
from lisfs.folder.cache import Cache, Nothing, Remembered
from lisfs.folder.carrying import Carrying, NoRoom, Sender, session_word
from lisfs.folder.changes import MARKER, Changes, Done, Side, Wishes, folder_words
from lisfs.folder.entries import Entries, Entry
from lisfs.folder.forms import folder_value
from lisfs.folder.memory import Memory, Records
from lisfs.folder.needs import can_be_lean
from lisfs.folder.options import at_least_one, day, part_or_number
from lisfs.folder.private import private_copy
from lisfs.folder.report import Telling, counted, left_out
from lisfs.folder.room import RESERVE, Room, beside_free, kept_free, needed
from lisfs.limits import LARGEST, TIMES, Limits, beyond, limits_of, roomy
from lisfs.making import kept_names
from lisfs.progress import Progress
from lisfs.showing import harmless, write_line
from lisfs.words import PLAIN_FORM, PLAIN_RUN

# What is counted, and the words of the report.
COUNTED = {Done.NEW: "new", Done.CHANGED: "changed", Done.MOVED: "moved", Done.WORDS: "with other words", Done.GONE: "gone",
           Done.OLD: "removed as older"}
# How many conflicts are named in any case.
NAMED = 10
# The option that settles the conflict of one file. The path follows `=`, since the next word of the command line is the image or the folder.
ONE_SIDE = re.compile(r"--(ours|theirs)=(.+)", re.S)


class Failed(Exception):
    """What is wrong, in one line."""


def default_name(folder: str) -> bytes:
    """The folder's name, and digits that represent its path: two folders of one name have separate files."""
    path = os.path.realpath(folder)
    name = folder_value(os.path.basename(path))[:40] or b"root"
    return name + b"-" + hashlib.sha256(os.fsencode(path)).hexdigest()[:4].encode()


class Options(argparse.Namespace):
    """The words of the command line."""

    name: str | None
    without: list[str]
    since: float | None
    newest: int | None
    reserve: Fraction
    flat: bool
    lean: bool
    threads: bool
    dry_run: bool
    verbose: bool
    all_gone: bool
    no_cache: bool
    side: Side | None
    named: dict[str, Side]
    restore: bool
    image: str
    folder: str


class Sync:
    def __init__(self, words: Options, telling: Telling) -> None:
        self.image, self.folder, self.words, self.telling = words.image, words.folder, words, telling
        # What is opened: the image, or a copy of it.
        self.path = words.image
        name = os.fsencode(words.name) if words.name is not None else default_name(words.folder)
        self.marker = MARKER + b":" + name
        self.memory = Memory(self.marker, words.image)
        # Why what was brought in could not be kept, and what earlier runs brought in, if it is known.
        self.unkept: str | None = None
        self.known: Records | None = None
        # How many files of each kind were done, and how far the changes are.
        self.counts = dict.fromkeys(COUNTED, 0)
        self.work = Progress(telling.line, "changing")
        # The entries so far, for a report after an early end.
        self.entries: Entries | None = None
        self.plan: Changes | None = None
        self.carrying: Carrying | None = None
        # Why an image that was made has its limits.
        self.why = ""
        # Whether it was said before the first change that words will run short.
        self.is_foretold = False

    def run(self) -> None:
        if what := missing():
            raise Failed(what)
        with contextlib.ExitStack() as stack:
            if is_missing(self.image):
                # Which image is needed depends on the folder.
                entries, remembered = self.read(LARGEST.file_bytes)
                self.make(self.choose(entries.all), stack)
                room = self.look()
            else:
                if self.words.dry_run:
                    self.path = stack.enter_context(private_copy(self.image))
                room = self.look()
                entries, remembered = self.read(room.limits.file_bytes)
            if not self.words.dry_run:
                remembered.save()
            program, dump = opening.opened("sync", self.path, session_word(), with_digests=True)
            with program:
                # What another client changes from now on is not overwritten.
                program.guard()
                self.carry(program, self.make_plan(entries, dump, program), room)

    def look(self) -> Room:
        """Checks that the image can be opened, before anything takes long, and finds what it has room for."""
        opening.tried("sync", self.path)
        try:
            # A line names the image, also if a copy is opened.
            limits = limits_of(self.path)._replace(image=self.image)
        except (OSError, struct.error) as error:
            raise Failed(f"{self.image}: {error}") from None
        return Room(limits, self.reserve(limits))

    def reserve(self, limits: Limits) -> int:
        """How many words of the image are kept free."""
        reserve = kept_free(self.words.reserve, limits.words)
        if reserve >= limits.words:
            raise Failed(f"--reserve {reserve}: {self.image} has room for {limits.words} known words in all")
        return reserve

    def choose(self, entries: Sequence[Entry]) -> Limits:
        """The limits of an image for the folder, which has room for it three times over, or as much as an image can have."""
        with Progress(self.telling.line, "counting words", len(entries)) as work:
            need = needed(entries, self.marker, self.words.lean, lambda: work.add(1))
        if lacks := beyond(need):
            raise Failed(f"nothing was made: {harmless(self.folder)} has {'; '.join(map(str, lacks))}: --newest N takes the newest, and several images "
                         "hold more (docs/guide/other-machines.md)")
        times = need.times(TIMES)
        wanted = times._replace(words=beside_free(times.words, self.words.reserve))
        limits = roomy(wanted)
        self.reserve(limits)
        self.why = f"{'as near as an image can be to ' if beyond(wanted) else ''}three times the {need} of {harmless(self.folder)}"
        return limits

    def make(self, limits: Limits, stack: contextlib.ExitStack) -> None:
        """Makes the image that is missing; for a dry run elsewhere, until it ends."""
        if self.words.dry_run:
            import tempfile
            self.path = os.path.join(stack.enter_context(tempfile.TemporaryDirectory(prefix="lisfs-")), "image")
        making.make(self.path, limits)
        self.telling.tell(f"{'would make' if self.words.dry_run else 'made'} {harmless(self.image)} for {limits}, of version {limits.version}: {self.why}")

    def read(self, largest: int) -> tuple[Entries, Cache]:
        """Looks at the files of the folder."""
        remembered: Cache = Nothing()
        if not self.words.no_cache:
            remembered = Remembered(self.folder)
        folders = no_words if self.words.flat else folder_words
        self.entries = entries = Entries(self.folder, largest, folders, self.telling.leave, self.telling.line, self.words.without,
                                         own_files(self.image), remembered, self.words.threads)
        entries.read()
        entries.choose(self.words.since, self.words.newest)
        return entries, remembered

    def make_plan(self, entries: Entries, dump: Dump, program: Program) -> Changes:
        named = {within(self.folder, path): side for path, side in self.words.named.items()}
        wishes = Wishes(self.words.side, named, self.words.restore, self.words.threads)
        self.known = self.memory.read(dump.declared)
        with Progress(self.telling.line, "comparing", len(entries.all)) as work:
            plan = Changes(entries.all, dump, self.marker, self.words.lean, self.known, wishes, entries.walk.is_blind,
                           lambda name: program.cat(name).body, self.folder, work.add)
        if plan.own and not plan.kept and not plan.is_blind and not self.words.all_gone:
            raise Failed(f"nothing was done: none of the {counted(plan.own, 'file')} of {self.marker.decode()} is in {self.folder} any "
                         "more; --all-gone removes them anyway")
        self.plan = plan
        for entry in plan.refused:
            self.telling.leave(entry.found.path, entry.found.problem or "")
        return plan

    def carry(self, program: Program, plan: Changes, room: Room) -> None:
        self.work = Progress(self.telling.line, "changing", len(plan.changes) + len(plan.gone), plan.size())
        self.carrying = carrying = Carrying(Sender(program, self.work.add), plan, room, self.told, self.failed, self.runs_short)
        self.foretell(carrying)
        carrying.declare()
        before, coming = set(carrying.memories), None
        if not plan.is_nothing():
            coming = self.remember(carrying, plan.coming())
        carrying.run()
        # If nothing is known and nothing was brought in, the memory of another run stays.
        if plan.records or self.known is not None:
            is_other = self.remember(carrying, plan.seen()) != coming and coming is not None and coming not in before
            if is_other and coming is not None and not self.words.dry_run:
                self.memory.forget(coming)

    def foretell(self, carrying: Carrying) -> None:
        """Says before the first change that there are not enough words for all, if --lean needs fewer."""
        with Progress(self.telling.line, "counting words", sum(change.is_new for change in carrying.plan.changes)) as work:
            needs = carrying.needs(work.add)
        if needs and needs.helps():
            self.is_foretold = True
            self.telling.tell(f"{harmless(self.image)}: not enough known words ({counted(needs.files, 'new file')} need {needs.words:,}, and "
                              f"{needs.free:,} are free): --lean needs {needs.lean:,}{', also too many' if needs.lean > needs.free else ''}: {lean_command()}")

    def runs_short(self, begun: int) -> None:
        """Says in the middle of a run that words run short, if --lean helps and this was not foretold."""
        if self.carrying and can_be_lean(self.carrying.plan) and not self.is_foretold:
            room = self.carrying.room
            self.telling.tell(f"{harmless(self.image)}: known words run short after {begun:,} of {len(self.carrying.plan.changes):,} changes "
                              f"({room.limits.words:,} in all, {room.reserve:,} of them kept free): --lean needs fewer: {lean_command()}")

    def remember(self, carrying: Carrying, records: Records) -> bytes | None:
        """Keeps what was brought in, and makes the image name it by a word, which it returns. If that is impossible, the image names nothing."""
        word = None
        try:
            if records:
                word = self.memory.word(records) if self.words.dry_run else self.memory.write(records)
        except OSError as error:
            self.unkept = f"{error.filename or self.memory.top}: {error.strerror}"
        carrying.remember(word)
        return word

    def told(self, what: Done, name: bytes, more: str = "") -> None:
        self.work.add(1)
        if what is not Done.SAME:
            self.counts[what] += 1
            self.telling.tell_file(f"{what.value}: {name.decode()}" + (f": {harmless(more)}" if more else ""))
        elif self.plan:
            self.plan.same += 1

    def failed(self, path: str, why: str) -> None:
        self.work.add(1)
        self.telling.leave(path, why)

    def report(self) -> None:
        """Prints the counts, as far as they are known."""
        tell = self.telling.tell
        if self.plan is not None:
            self.report_plan(self.plan)
        if self.carrying is not None:
            self.report_carrying(self.carrying)
        if self.entries is not None:
            self.entries.tell_tags(tell)
        if self.telling.not_taken:
            tell(f"not taken: {self.telling.causes()}")
        for line in self.carrying.advice() if self.carrying is not None else ():
            tell(line)
        if self.plan is not None and self.plan.unseen:
            tell(f"{counted(self.plan.unseen, 'file')} not removed, since not all of the folder could be read")
        if self.unkept is not None:
            tell(f"what was brought in could not be kept: {harmless(self.unkept)}: the next run takes each difference for a conflict")
        elif self.carrying is not None and self.carrying.is_forgetful:
            tell("no room for the word that names what was brought in: the next run takes each difference for a conflict")

    def report_plan(self, plan: Changes) -> None:
        """Prints what was done, or would be, and what was left out."""
        tell, marker, same = self.telling.tell, self.marker.decode(), f"{plan.same} as they were"
        if parts := [f"{self.counts[what]} {name}" for what, name in COUNTED.items() if self.counts[what]]:
            tell(f"{marker}: {'would be ' if self.words.dry_run else ''}{', '.join(parts)}, {same}")
        else:
            tell(f"{marker}: nothing changed, {same}")
        if older := plan.older + len(plan.out):
            tell(f"{counted(older, 'older file')} left out by --since or --newest")
        if plan.staying:
            tell(f"{counted(plan.staying, 'older file')} changed in the image: not removed")
        self.report_image(plan)
        left_out(tell, plan.beyond, plan.beyond_files, f"a file is given {MAX_ASSIGNED} at most")
        self.report_cut(plan)

    def report_carrying(self, carrying: Carrying) -> None:
        """Prints what there was no room for."""
        tell = self.telling.tell
        left_out(tell, carrying.too_many, carrying.too_many_files, f"a file has {MAX_DESCRIPTION} at most, with those that it has on its own")
        left_out(tell, carrying.without, carrying.without_files, "no room for more words")
        if carrying.lean:
            tell(f"{counted(carrying.lean, 'file')} named as by --lean: no room for the words that the program derives")

    def report_cut(self, plan: Changes) -> None:
        """Prints how many words the program does not derive, since there are too many."""
        cut = plan.cut()
        for name, count in cut:
            self.telling.tell_file(f"cut: {name}: {MAX_DERIVED} of at least {count:,} words that it has on its own")
        if cut:
            self.telling.tell(f"at least {counted(sum(count - MAX_DERIVED for _, count in cut), 'word')} of {counted(len(cut), 'file')} cut: a file "
                              f"has at most {MAX_DERIVED} on its own, so a search by from:, to:, subject:, includes: or defines: can miss it")

    def report_image(self, plan: Changes) -> None:
        """Prints what was changed in the image, and stays."""
        tell = self.telling.tell
        for was, name in plan.renamed:
            self.telling.tell_file(f"renamed in the image: {name}: it was {was}")
        for name in plan.edited:
            self.telling.tell_file(f"changed in the image: {name}")
        for path in plan.away:
            self.telling.tell_file(f"removed from the image: {harmless(path)}")
        if plan.edited:
            tell(f"{counted(len(plan.edited), 'file')} changed in the image: left as the image has {'it' if len(plan.edited) == 1 else 'them'}")
        if plan.away:
            tell(f"{counted(len(plan.away), 'file')} removed from the image: left out until changed in the folder, or --restore")
        if plan.conflicts:
            if self.known is None and plan.own:
                tell("nothing is known of earlier runs, so no difference shows who made it")
            named = plan.conflicts if self.telling.is_verbose else plan.conflicts[:NAMED]
            for text, why in named:
                tell(f"conflict: {harmless(text)}: {why}")
            more = f" ({len(plan.conflicts) - len(named)} not named: --verbose)" if len(named) < len(plan.conflicts) else ""
            tell(f"{counted(len(plan.conflicts), 'conflict')} left{more}: --ours keeps what the image has, --theirs takes what the folder has; "
                 "--ours=PATH or --theirs=PATH settles one")
        for path in self.unsettled():
            tell(f"not settled: {harmless(path)}: this file is in no conflict")

    def unsettled(self) -> list[str]:
        """The paths that --ours and --theirs name, and that are in no conflict."""
        return [path for path in self.plan.wishes.named if path not in self.plan.settled] if self.plan else []

    def is_whole(self) -> bool:
        plan, carrying = self.plan, self.carrying
        if self.telling.not_taken or self.unkept or plan and (plan.unseen or plan.conflicts) or self.unsettled():
            return False
        return not (carrying and (carrying.without or carrying.too_many or carrying.lean or carrying.is_forgetful))


def is_missing(image: str) -> bool:
    """Whether there is no image. A link that leads nowhere may lead to a disk that is not mounted, and a socket to a server that has the image."""
    return not os.path.lexists(image) and not os.path.lexists(socket_of(image))


def lean_command() -> str:
    """The command of this run, with --lean."""
    # Few runs are short of words.
    import shlex
    tool, *words = sys.argv
    return harmless(shlex.join([tool, "--lean", *words]))


def own_files(image: str) -> list[os.stat_result]:
    """The image, its socket if it is served, and those from before it was enlarged: none of them is one of the folder's files."""
    found: list[os.stat_result] = []
    for path in (image, socket_of(image), *kept_names(image)):
        with contextlib.suppress(OSError):
            found.append(os.stat(path) if path == image else os.lstat(path))
    return found


def within(folder: str, path: str) -> str:
    """The path of a file in a folder. It may begin with the path of the folder, as a conflict is shown."""
    path = os.path.normpath(path)
    if not os.path.isabs(path) and os.path.lexists(os.path.join(folder, path)):
        return path
    below = os.path.relpath(path, folder)
    return below if path.startswith(os.path.normpath(folder) + os.sep) and os.path.lexists(os.path.join(folder, below)) else path


def no_words(_: Sequence[str]) -> list[bytes]:
    return []


def cause(error: BaseException, image: str) -> str:
    """What is wrong, in one line."""
    if isinstance(error, Locked):
        return f"{image} is in use by another lisfs"
    if isinstance(error, Ended):
        return str(error)
    if isinstance(error, NotAReply):
        return f"{PROGRAM} does not reply as it should: {error}"
    if isinstance(error, (KeyboardInterrupt, Stopped)):
        return "stopped"
    if isinstance(error, OSError) and error.strerror:
        return f"{os.fsdecode(error.filename or image)}: {error.strerror}"
    return str(error)


def apart(given: Sequence[str]) -> tuple[list[str], list[tuple[str, Side]]]:
    """The words of a command line without those that settle one conflict, and these: each a path and a side."""
    end = given.index("--") if "--" in given else len(given)
    named = [(found[2], Side(found[1])) for found in map(ONE_SIDE.fullmatch, given[:end]) if found]
    return [word for number, word in enumerate(given) if number >= end or not ONE_SIDE.fullmatch(word)], named


def options() -> Options:
    """The parsed command line. Exits after wrong use."""
    parser = argparse.ArgumentParser(usage=__doc__.split("usage: ", 1)[1])
    parser.add_argument("--as", dest="name")
    parser.add_argument("--without", action="append", default=[])
    parser.add_argument("--since", type=day)
    parser.add_argument("--newest", type=at_least_one)
    parser.add_argument("--reserve", type=part_or_number, default=RESERVE)
    parser.add_argument("--flat", action="store_true")
    parser.add_argument("--lean", action="store_true")
    parser.add_argument("--threads", action="store_true")
    parser.add_argument("--dry-run", action="store_true")
    parser.add_argument("--verbose", action="store_true")
    parser.add_argument("--all-gone", action="store_true")
    parser.add_argument("--no-cache", action="store_true")
    sides = parser.add_mutually_exclusive_group()
    for side in Side:
        sides.add_argument(f"--{side.value}", dest="side", action="store_const", const=side)
    parser.add_argument("--restore", action="store_true")
    parser.add_argument("image")
    parser.add_argument("folder")
    given, named = apart(sys.argv[1:])
    words = Options(named=dict(named))
    _, others = parser.parse_known_args(given, words)
    if others:
        hint = "; --ours=PATH and --theirs=PATH settle one conflict" if words.side and not others[0].startswith("-") else ""
        parser.error(f"unrecognized arguments: {harmless(' '.join(others))}{hint}")
    if twice := [path for path, side in named if words.named[path] is not side]:
        parser.error(f"{harmless(twice[0])}: --ours or --theirs, and not both")
    longest = MAX_WORD - len(MARKER + b":")
    if words.name is not None and not (PLAIN_RUN.fullmatch(os.fsencode(words.name)) and len(words.name) <= longest):
        parser.error(f"{harmless(words.name)} is no name: it has 1 to {longest} {PLAIN_FORM}")
    return words


@quiet
def main() -> int:
    words = options()
    if fault := folder_fault(words.folder):
        write_line(sys.stderr, f"sync: {fault}")
        return 2
    stop_at_signals()
    telling = Telling("sync", sys.stdout, words.verbose or words.dry_run)
    syncing = Sync(words, telling)
    amiss: str | None = None
    try:
        syncing.run()
    except BrokenPipeError:
        raise
    except (Ended, Failed, NoRoom, NotADump, NotAReply, OSError, RuntimeError, KeyboardInterrupt, Stopped) as error:
        amiss = cause(error, words.image).replace(syncing.path, words.image)
        amiss += "; the next run goes on" if syncing.carrying and not words.dry_run else ""
    telling.line.clear()
    syncing.report()
    sys.stdout.flush()
    if amiss:
        write_line(sys.stderr, f"sync: {amiss}")
    return 0 if amiss is None and syncing.is_whole() else 1
