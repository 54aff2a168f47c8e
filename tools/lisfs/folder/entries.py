"""The files of a folder as an image should have them: each with its names, its size and its words. No bytes of files are kept."""
import dataclasses
import hashlib
import os
import time
from collections.abc import Callable, Sequence
from typing import NamedTuple

from lisfs import derived
from lisfs.folder import cache, mails, music, names, threads, walk
from lisfs.folder.report import counted
from lisfs.progress import Line, Progress
from lisfs.words import head_of

# The kinds of records.
MAIL, MUSIC = "mail", "music"
DAY = 86_400


class MailRecord(NamedTuple):
    """What is read from a mail: the digest of its bytes, or None if they are too many, its Message-ID or None, those of the mails that it answers,
    its subject, its words, how many words the program would derive from it, and when it was sent or None."""

    digest: str | None
    message_id: str | None
    ancestors: list[str]
    subject: str
    words: list[str]
    derived: int
    sent: int | None


class MusicRecord(NamedTuple):
    """What is read from a piece of music: the digest of its bytes, and its words, or None if its tags can't be read."""

    digest: str
    words: list[str] | None


@dataclasses.dataclass(slots=True, eq=False)
class Entry:
    """A file of a folder. `words` come from its folders, its header or its tags, the most important first; words of the heads in `unread` may be
    missing. `digest` is that of its bytes, or None if they were not read. `ident` is what its name is made from."""

    found: walk.Found
    subject: str = ""
    ident: tuple[bytes, ...] = ()
    digest: bytes | None = None
    words: tuple[bytes, ...] = ()
    unread: tuple[bytes, ...] = ()
    # How many words the program would derive from its bytes, if they were read and it derives some.
    derived: int = 0
    # When it was sent, or else changed, in seconds since 1970; and whether it is older than wanted.
    date: float = 0.0
    is_older: bool = False
    # Its names, which are needed several times, and what they are made from.
    _made: tuple[tuple[bytes, ...], tuple[bytes, ...]] = (), ()

    def read_from(self, content: bytes) -> bytes:
        """Notes what is read from its bytes. Returns their digest."""
        digest = hashlib.sha256(content).digest()
        # The words of a mail were counted when its header was read.
        if digest != self.digest:
            name = b"x.eml" if self.is_mail else os.fsencode(self.found.parts[-1])
            self.digest, self.derived = digest, len(derived.derived_words(name, content)) if derived.has_many(name) else 0
        return digest

    @property
    def is_mail(self) -> bool:
        """Whether it is a mail of a maildir, so that its name is not that of a file."""
        return self.found.base is not None

    def names(self, marker: bytes, is_lean: bool) -> list[bytes]:
        """The names that it may have in an image; the first is used if it is free. For a lean name the program derives fewer words."""
        full = self._full_names(marker)
        if not derived.has_many(full[0]):
            return full
        lean = [names.lean(name, self.is_mail) for name in full]
        return lean + full if is_lean else full + lean

    def _full_names(self, marker: bytes) -> list[bytes]:
        parts = marker, *self.ident
        if self._made[0] != parts:
            other = names.digest_of(*parts)
            if self.is_mail:
                made = [names.of_mail(self.subject, digest) for digest in (names.digest_of(*self.ident), other)]
            else:
                made = [names.of_path(self.found.key), names.digested(self.found.key, other)]
            self._made = parts, tuple(made)
        return list(self._made[1])


def newest_first(entry: Entry) -> tuple[float, str]:
    """The sort key of the order in which files come in."""
    return -entry.date, entry.found.key


class Entries:
    """Looks at the files of a folder. `largest` is the most bytes of a file; `folder_words` returns the words for the names of folders, and `leave`
    is called for what can't be taken. How far it is, `line` shows. Files that `without` and `passed` describe are skipped. `tagless` counts the pieces of
    music whose tags could not be read, and `is_deaf` says that the reader of tags is missing. What mails and music gave is first looked up in
    `remembered`. If `has_threads`, the mails of each thread get a word."""

    def __init__(self, top: str, largest: int, folder_words: Callable[[walk.Parts], list[bytes]], leave: walk.Leave, line: Line,
                 without: Sequence[str] = (), passed: Sequence[os.stat_result] = (), remembered: cache.Cache | None = None,
                 has_threads: bool = False) -> None:
        self.walk, self.largest, self.folder_words, self._line = walk.Walk(top, leave, without, passed), largest, folder_words, line
        self.all: list[Entry] = []
        self.tagless, self.is_deaf = 0, False
        self._reader: music.Mutagen | None = None
        self._words: dict[bytes, bytes] = {}
        # A Date later than tomorrow is ignored, since such a mail would always be the newest.
        self.latest = time.time() + DAY
        self._remembered: cache.Cache = remembered or cache.Nothing()
        # The mails with what says of which thread they are, if that is wanted.
        self._letters: list[tuple[Entry, threads.Letter]] | None = [] if has_threads else None

    def read(self) -> None:
        files = self._walked()
        with Progress(self._line, "reading", len(files), sum(found.size or 0 for found in files)) as work:
            for found in files:
                size = found.size or 0
                self.all.append(self.entry(found))
                work.add(1, size)
        self._tell_apart()
        self._give_threads()

    def _walked(self) -> list[walk.Found]:
        """The files, before any is read, so that it is known how many there are."""
        files: list[walk.Found] = []
        with Progress(self._line, "looking") as work:
            for found in self.walk.files():
                files.append(found)
                work.add(1, found.size or 0)
        return files

    def entry(self, found: walk.Found) -> Entry:
        entry = Entry(found, date=found.kind.st_mtime if found.kind else 0.0)
        if found.size is not None and found.size > self.largest:
            found.problem = f"{found.size} bytes; a file has at most {self.largest}"
        given = self.folder_words(found.folders)
        if entry.is_mail or found.path.lower().endswith(".eml"):
            given += self._mail(entry)
        elif music.is_music(found.path) and not found.problem:
            given += self._music(entry)
        entry.words = tuple(self._words.setdefault(word, word) for word in dict.fromkeys(given))
        return entry

    def _mail(self, entry: Entry) -> list[bytes]:
        """The words of a mail, even of one that is too large, since it keeps its name."""
        found = entry.found
        record = self._remembered.record(found, MAIL, MailRecord)
        if record is None or record.digest is None and not found.problem:
            record = self._read_mail(found)
        if record is None:
            # It may still exist, under a name that is not known.
            self.walk.is_blind = self.walk.is_blind or entry.is_mail
            return []
        entry.derived = record.derived
        if record.sent is not None and record.sent <= self.latest:
            entry.date = float(record.sent)
        if entry.is_mail:
            entry.subject = record.subject
        if entry.is_mail and record.message_id:
            entry.ident = b"mail", record.message_id.encode(errors="surrogateescape")
        if record.digest and not found.problem:
            entry.digest = bytes.fromhex(record.digest)
        if self._letters is not None:
            letter = threads.Letter(record.message_id, record.ancestors, record.subject, entry.date, found.key, not found.problem)
            self._letters.append((entry, letter))
        return [word.encode() for word in record.words]

    def _read_mail(self, found: walk.Found) -> MailRecord | None:
        """What is read from a mail, or None if it can't be read."""
        try:
            content, times = cache.read(found, mails.HEADER if found.problem else self.largest)
        except OSError as error:
            found.problem = found.problem or error.strerror or str(error)
            return None
        if len(content) > self.largest and not found.problem:
            found.problem = f"more than {self.largest} bytes; a file has no more"
        mail, digest, count = mails.Mail(content), None, 0
        if not found.problem:
            found.size, digest, count = len(content), hashlib.sha256(content).hexdigest(), len(derived.derived_words(b"x.eml", content))
        record = MailRecord(digest, mail.message_id, mail.ancestors, mail.subject, [word.decode() for word in mail.words()], count, mail.sent())
        self._remembered.keep(found, times, MAIL, record)
        return record

    def _music(self, entry: Entry) -> list[bytes]:
        if self._reader is None and not self.is_deaf:
            self._reader = music.reader()
            self.is_deaf = self._reader is None
        record = self._read_music(self._reader, entry.found) if self._reader else None
        if record is None or record.words is None:
            self.tagless += 1
            entry.unread = tuple(head + b":" for head in music.HEADS) if self.is_deaf else ()
        if record is None:
            return []
        entry.digest = bytes.fromhex(record.digest)
        return [word.encode() for word in record.words or ()]

    def _read_music(self, reader: music.Mutagen, found: walk.Found) -> MusicRecord | None:
        """What is read from a piece of music, or None if it can't be read."""
        rules = f"{MUSIC} {reader.version_string}"
        if record := self._remembered.record(found, rules, MusicRecord):
            return record
        try:
            content, times = cache.read(found, self.largest)
        except OSError:
            return None
        given = music.words(reader, found.path, content)
        record = MusicRecord(hashlib.sha256(content).hexdigest(), None if given is None else [word.decode() for word in given])
        self._remembered.keep(found, times, rules, record)
        return record

    def choose(self, since: float | None, newest: int | None) -> None:
        """Notes which files are older than wanted: those before a time, and those beyond a number."""
        taken = sorted((entry for entry in self.all if not entry.found.problem), key=newest_first)
        for place, entry in enumerate(taken):
            entry.is_older = newest is not None and place >= newest or since is not None and entry.date < since

    def tell_tags(self, tell: Callable[[str], None]) -> None:
        """Reports in a line what is wrong with the tags of music."""
        if self.tagless:
            pieces = counted(self.tagless, "piece")
            tell(f"{pieces} of music without the words of tags: python3-mutagen is not there" if self.is_deaf else
                 f"{pieces} of music whose tags can't be read")

    def _give_threads(self) -> None:
        """Gives the mails of each thread its word, before the words of people and subjects, of which a mail may have more than a file is given."""
        letters = self._letters or []
        for (entry, _), word in zip(letters, threads.words_of([letter for _, letter in letters])):
            if word is not None:
                at = next((at for at, other in enumerate(entry.words) if head_of(other) in (b"who:", b"about:")), len(entry.words))
                entry.words = *entry.words[:at], self._words.setdefault(word, word), *entry.words[at:]

    def _tell_apart(self) -> None:
        """Sets what each name is made from. Of several mails with one Message-ID all but one are identified by their bytes too, and those with the
        same bytes by their number; so this doesn't depend on which were found first."""
        same: dict[tuple[bytes, ...], list[Entry]] = {}
        for entry in self.all:
            if entry.ident:
                same.setdefault(entry.ident, []).append(entry)
            else:
                entry.ident = b"path", os.fsencode(entry.found.key)
        for ident, entries in same.items():
            entries.sort(key=lambda entry: (entry.digest or b"", entry.found.key))
            seen: dict[bytes | None, int] = {}
            for entry in entries:
                seen[entry.digest] = number = seen.get(entry.digest, -1) + 1
                if entry is not entries[0]:
                    entry.ident = *ident, entry.digest or b"", b"%d" % number
