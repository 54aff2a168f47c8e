"""Makes a session from a folder or a maildir: the words that are needed, and an `add` line with its bytes for each file.

usage: tools/import [--word WORD].. [--by-folder] [--without PATTERN].. [--since DATE] [--newest N] [--threads] [--v2|--v3] [--verbose] FOLDER > session
       ./lisfs run files.lis < session
       tools/talk files.lis < session      (if files.lis is served by `tools/serve files.lis`)

--word gives each file this word, and may be repeated. --by-folder gives a file a word for each folder below FOLDER that it is in. A mail
gets words of its header (`date:2024-06`, `list:`, `who:`, `about:`). A piece of music gets those of its tags (`artist:`, `album:`, `genre:`,
`year:`), which needs Debian's python3-mutagen. Letters that are not ASCII are written with others, in small letters. A file gets at most 16
words: first those of --word, then those of its folders, then its own.

A folder that has `cur` and `new` in it is a maildir, and so is a folder below that has these and `tmp`. Their mails are read, and those of
folders named `.NAME.NAME`. Each mail is named after its file without the flags, and the name ends with `.eml`. Elsewhere a file named `.eml`
is a mail. --without skips files and folders with such a name, as `.git` or `*.o`, and may be repeated. --v2 is for an image of version 2: it
takes files of up to 1,048,576 bytes. --v3 is for one of version 3, and takes files of up to 67,108,864. Without them 65,536 are the most.

--threads gives the mails of each thread one word more, `thread:` and the subject of the thread's first mail. A mail whose parent, by References and
In-Reply-To, is not in the folder begins a thread, and a mail alone gets no such word.

--since DATE takes the files from a day, a month or a year on (2024-06-03, 2024-06, 2024), and --newest N the N newest files. The date of a
mail is that of its header, and of another file the time of its last change. The newest files come first in the session, so an image that has
no room for all refuses the oldest.

A name has 1 to 60 letters, digits and `_ - . + @`. Each other byte becomes `_`, and if two files would have the same name, the later one
gets a number. A folder's word is made likewise, of at most 60 bytes and without leading full stops; letters that are not ASCII are written
with others. Standard error has the counts at the end: what is not taken (a file that is too large, one that can't be read, a link, a
device), what gets another name or word, and what is left out. --verbose names each, one a line.

If the program is built, it also says which limits an image needs, since it knows which words it derives. No bytes of files are kept: each
file is read when its turn comes. No symbolic link below FOLDER is followed. To bring in the same folder again and again, use `tools/sync`.

The status is 0 if all was taken, 1 if something was not, and 2 for wrong use.
"""
import argparse
import collections
import os
import sys
from collections.abc import Callable, Iterator, Sequence
from typing import BinaryIO, NamedTuple

from lisfs import derived
from lisfs.client import PROGRAM, Ended, NotAReply, Program, counts_in
from lisfs.constants import MAX_ASSIGNED, MAX_DERIVED, MAX_WORD
from lisfs.endings import Stopped, folder_fault, quiet, stop_at_signals
from lisfs.folder import walk
from lisfs.folder.carrying import BY_NAME, HEADS_BY_BYTES, ROOT, Job, Sender, Step, Words, fitting, session_word
from lisfs.folder.entries import Entries, Entry, newest_first
from lisfs.folder.forms import folder_value
from lisfs.folder.options import at_least_one, day
from lisfs.folder.report import Telling, counted, left_out
from lisfs.limits import LARGEST, VERSIONS, Need, beyond, blocks_of, roomy, smallest
from lisfs.progress import Progress
from lisfs.refusals import cause_of
from lisfs.showing import harmless, write_line
from lisfs.words import head_of, is_assignable, mapped

# How many causes of refusals are named.
SOME = 3


class Options(argparse.Namespace):
    """The words of the command line."""

    word: list[str]
    by_folder: bool
    without: list[str]
    since: float | None
    newest: int | None
    threads: bool
    v2: bool
    v3: bool
    verbose: bool
    folder: str


class Taken(NamedTuple):
    """A file that is taken, with its name and its words."""

    found: walk.Found
    name: bytes
    words: list[bytes]


class Command(NamedTuple):
    """A command of the session, and its bytes, if any."""

    words: Words
    payload: bytes | None = None


class Import:
    def __init__(self, words: Words, by_folder: bool, version: int, telling: Telling) -> None:
        self.words, self.by_folder, self.version, self.largest, self.telling = words, by_folder, version, VERSIONS[version - 1].file_bytes, telling
        self.files: list[Taken] = []
        self.names: set[str] = set()
        self.declared: dict[bytes, None] = {}
        self.taken = self.blocks = self.renamed = self.beyond = self.beyond_files = self.older = 0
        # The folders whose word differs from their name, or that have none, and the words that represent two folders.
        self.odd_folders: set[str] = set()
        self.double_words: set[bytes] = set()
        self.told_words: dict[bytes, str] = {}
        self.entries: Entries | None = None

    def tell(self, line: str) -> None:
        self.telling.tell(line)

    def name_for(self, wanted: str, path: str) -> bytes:
        """A unique name for a file. If it differs from the file's own name, the cause is reported."""
        name = mapped(os.fsencode(wanted))[-MAX_WORD:].decode()
        if name in (".", ".."):
            name = "_" + name
        number, free = 1, name
        while free in self.names:
            number += 1
            stem, dot, end = name.rpartition(".")
            stem, end = (stem, dot + end) if stem else (name, "")
            free = stem[:MAX_WORD - len(f"-{number}{end}")] + f"-{number}" + end
        self.names.add(free)
        if free != os.path.basename(path):
            self.renamed += 1
            cause = "the name is taken" if free != name else "the form of a name"
            self.telling.tell_file(f"named otherwise: {harmless(path)}: {free} ({cause})")
        return free.encode()

    def word_for(self, folder: str) -> bytes:
        """The word of a folder. If it differs from the folder's name, or if there is none, that is reported once."""
        whole = folder_value(folder)
        word = whole[:MAX_WORD]
        if word != os.fsencode(folder) and folder not in self.odd_folders:
            self.odd_folders.add(folder)
            cause = f"{MAX_WORD} bytes are the most" if word != whole else "the form of a word"
            self.telling.tell_file(f"a folder's word: {harmless(folder)}: {word.decode()} ({cause})" if word else
                                   f"no word for a folder: {harmless(folder)}")
        return word

    def words_of(self, folders: Sequence[str]) -> list[bytes]:
        """The words that every file is given, and one for each folder."""
        words = list(self.words)
        for folder in folders if self.by_folder else []:
            word = self.word_for(folder)
            if not word:
                continue
            if self.told_words.setdefault(word, folder) != folder:
                self.double_words.add(word)
                self.telling.tell_file(f"one word for two folders: {word.decode()}: {harmless(folder)} and {harmless(self.told_words[word])}")
                self.told_words[word] = folder
            words.append(word)
        return words

    def read(self, words: Options) -> None:
        """Finds the files to take, the newest first, and the words that they need."""
        self.entries = entries = Entries(words.folder, self.largest, self.words_of, self.telling.leave, self.telling.line, words.without,
                                         has_threads=words.threads)
        entries.read()
        entries.choose(words.since, words.newest)
        # Names depend on the order in which files are found.
        taken = [(newest_first(entry), found) for entry in entries.all if (found := self.take(entry))]
        self.files = [found for _, found in sorted(taken, key=lambda pair: pair[0])]

    def take(self, entry: Entry) -> Taken | None:
        """A file with its name and its words, or None if it is not taken."""
        found = entry.found
        if found.problem:
            self.telling.leave(found.path, found.problem)
            return None
        if entry.is_older:
            self.older += 1
            return None
        words = list(entry.words[:MAX_ASSIGNED])
        if len(entry.words) > MAX_ASSIGNED:
            self.beyond += len(entry.words) - MAX_ASSIGNED
            self.beyond_files += 1
            self.telling.tell_file(f"left out: {harmless(found.path)}: {b' '.join(entry.words[MAX_ASSIGNED:]).decode()}")
        name = self.name_for(os.path.basename(found.path) if found.base is None else found.base[-56:] + ".eml", found.path)
        self.declared.update(dict.fromkeys(head_of(word) or word for word in words))
        return Taken(found, name, words)

    def commands(self) -> Iterator[Command]:
        """Each command of the session. A file that can no longer be read is left out."""
        for word in self.declared:
            yield Command((b"mkdir", word))
        for found, name, words in self.files:
            try:
                content = walk.content(found, self.largest)
            except OSError as error:
                self.telling.leave(found.path, error.strerror or str(error))
                continue
            if len(content) > self.largest:
                self.telling.leave(found.path, f"more than {self.largest} bytes; a file has no more")
                continue
            self.taken += 1
            self.blocks += blocks_of(len(content))
            line, rest = fitting(name, words)
            yield Command((b"add", name, b"%d" % len(content), *line[1:]), content)
            if rest:
                yield Command((b"mv", name, b"/".join(rest)))

    def carry(self, out: BinaryIO, largest: "Largest") -> None:
        """Writes the session, and sends it to the largest image too."""
        size = sum(taken.found.size or 0 for taken in self.files)
        with Progress(self.telling.line, "writing", len(self.files), size) as work:
            for words, payload in self.commands():
                out.write(b" ".join(words) + b"\n")
                if payload is not None:
                    out.write(payload)
                    out.write(b"\n")
                    work.add(1, len(payload))
                largest.take(words, payload)
        out.flush()

    def report(self, largest: "Largest") -> None:
        need = Need(self.taken, largest.known, self.blocks)
        self.tell(f"{self.taken} files taken, {self.telling.not_taken.total()} not taken, {self.renamed} named otherwise")
        if self.telling.not_taken:
            self.tell(f"not taken: {self.telling.causes()}")
        if self.older:
            self.tell(f"{counted(self.older, 'older file')} left out by --since or --newest")
        if self.odd_folders:
            self.tell(f"{counted(len(self.odd_folders), 'folder')} with another word than the name, or with none")
        if self.double_words:
            self.tell(f"{counted(len(self.double_words), 'word')} for more folders than one")
        left_out(self.tell, self.beyond, self.beyond_files, f"a file is given {MAX_ASSIGNED} at most")
        if self.entries:
            self.entries.tell_tags(self.tell)
        if beyond(need):
            self.tell(f"no image holds all of it: it takes {self.taken} of {LARGEST.files} files and {self.blocks} of {LARGEST.blocks} blocks; "
                      "--newest N takes the newest files")
        elif largest.why:
            self.tell(f"the words that are derived from files are not counted, since {largest.why}")
        elif largest.refused:
            some = [f"{cause} ({count})" if count > 1 else cause for cause, count in largest.refused.most_common(SOME)]
            more = "; ..." if len(largest.refused) > SOME else ""
            self.tell(f"no image holds all of it: the largest one refuses {counted(largest.refused.total(), 'line')}: {'; '.join(some)}{more}; "
                      "--newest N takes the newest files")
        elif limits := smallest(need, self.version):
            self.tell(f"an empty image has room for it from these limits on: {' '.join(limits.make())}")


def most_words(taken: Taken) -> int:
    """The most words that become known by a file, those that it is given with their heads and those derived from it."""
    return 2 * len(taken.words) + BY_NAME + (MAX_DERIVED + HEADS_BY_BYTES if derived.has_many(taken.name) else 0)


class Session(NamedTuple):
    """A session that runs, and what sends commands to it."""

    program: Program
    sender: Sender


class Largest:
    """An image with room for all that can be in one, if the program is built: `known` is how many words it knows at the end, those derived from files
    among them, and `refused` how many lines it refused. `why` says why these can't be counted."""

    def __init__(self, folder: str, taken: Sequence[Taken]) -> None:
        # A block that is not written takes no room, and files may grow until they are read.
        sizes = [file.found.size or 0 for file in taken]
        most = Need(len(taken), sum(map(most_words, taken)), 2 * sum(map(blocks_of, sizes)), max(sizes, default=0))
        self.known, self._limits = 0, roomy(most)
        # How many lines it refused for each cause, and the words that it has declared.
        self.refused: collections.Counter[str] = collections.Counter()
        self._declared: set[bytes] = set()
        self.why: str | None = None
        self._image = os.path.join(folder, "image")
        self._session: Session | None = None
        if os.path.exists(PROGRAM):
            self._try(self._begin)
        else:
            self.why = "the program is not built"

    def take(self, words: Words, payload: bytes | None) -> None:
        if self._session:
            sender = self._session.sender
            self._try(lambda: sender.start(self._job(words, payload)))

    def end(self) -> None:
        if self._session:
            session = self._session
            self._try(lambda: self._sum_up(session))

    def _try(self, call: Callable[[], None]) -> None:
        try:
            if not self.why:
                call()
        except (Ended, NotAReply, OSError) as error:
            self.why = str(error)

    def _begin(self) -> None:
        Program([PROGRAM, "make", self._image, *self._limits.make()]).close()
        program = Program([PROGRAM, session_word(), self._image])
        self._session = Session(program, Sender(program))

    def _job(self, words: Words, payload: bytes | None) -> Job:
        refusal = yield Step(ROOT, words, payload)
        if refusal is not None:
            self.refused[cause_of(refusal, self._declared)] += 1
        elif words[0] == b"mkdir":
            self._declared.add(words[1])

    def _sum_up(self, session: Session) -> None:
        session.sender.finish()
        self.known = counts_in(session.program.stat().body)["known"]
        session.program.close()


@quiet
def main() -> int:
    parser = argparse.ArgumentParser(usage=__doc__.split("usage: ", 1)[1])
    parser.add_argument("--word", action="append", default=[])
    parser.add_argument("--by-folder", action="store_true")
    parser.add_argument("--without", action="append", default=[])
    parser.add_argument("--since", type=day)
    parser.add_argument("--newest", type=at_least_one)
    parser.add_argument("--threads", action="store_true")
    parser.add_argument("--v2", action="store_true")
    parser.add_argument("--v3", action="store_true")
    parser.add_argument("--verbose", action="store_true")
    parser.add_argument("folder")
    words = parser.parse_args(namespace=Options())
    given = list(dict.fromkeys(map(os.fsencode, words.word)))
    for word in given:
        if not is_assignable(word):
            parser.error(f"{harmless(word)} can't be given to a file")
    if len(given) > MAX_ASSIGNED:
        parser.error(f"a file is given {MAX_ASSIGNED} words at most")
    if fault := folder_fault(words.folder):
        write_line(sys.stderr, f"import: {fault}")
        return 2
    taking = Import(given, words.by_folder, 3 if words.v3 else 2 if words.v2 else 1, Telling("import", sys.stderr, words.verbose))
    stop_at_signals()
    try:
        taking.read(words)
        import tempfile
        with tempfile.TemporaryDirectory() as folder:
            largest = Largest(folder, taking.files)
            taking.carry(sys.stdout.buffer, largest)
            largest.end()
    except (KeyboardInterrupt, Stopped):
        taking.tell("stopped: the session is cut off")
        return 1
    taking.report(largest)
    return 1 if taking.telling.not_taken else 0
