"""What is new, changed or gone in a folder, and what was changed in the image, compared with what earlier runs brought in.

A folder's own files in an image have its marker, a word `sync:NAME`. On these files, values of the heads in `HEADS` are the folder's too, and with
words of threads those in `THREADS`: somebody gave them all their other words, which stay. The records of `memory` say what was brought in: what
changed only in the folder is brought in, what changed only in the image stays, and what changed on both sides is a conflict, which is left.
"""
import enum
import hashlib
import os
from collections.abc import Callable, Iterable, Mapping, Sequence, Set
from types import MappingProxyType
from typing import NamedTuple, TypeAlias

from lisfs import derived
from lisfs.constants import MAX_ASSIGNED, MAX_DERIVED, MAX_WORD
from lisfs.dumps import Dump
from lisfs.folder import mails, music, threads, walk
from lisfs.folder.entries import Entry, newest_first
from lisfs.folder.forms import folder_value
from lisfs.folder.memory import REMOVAL, Record, Records, settled
from lisfs.progress import Look, no_look
from lisfs.words import head_of, stem_of

MARKER, FOLDER = b"sync", b"in"
HEADS = frozenset(head + b":" for head in (FOLDER, *mails.HEADS, *music.HEADS))
THREADS = HEADS | {threads.HEAD + b":"}
# How much more the common bytes of two files count than a common word of the folder, or suffix, as evidence that the files are one; and the part of
# it for unknown bytes.
SHARED, UNKNOWN_PART = 4, 0.3
# The digest of no bytes, and a value that is no digest.
NO_BYTES, NOTHING = hashlib.sha256().hexdigest(), ""

# The causes of conflicts.
BOTH, GONE = "changed in the folder and in the image", "gone from the folder, and changed in the image"
UNKNOWN, UNKNOWN_GONE = "not the same in the folder and in the image", "not in the folder"


class Done(enum.Enum):
    """What was done with a file. `SAME` means nothing, since there was no room for further words."""

    NEW = "new"
    CHANGED = "changed"
    MOVED = "moved"
    WORDS = "words"
    GONE = "gone"
    OLD = "removed as older"
    SAME = "same"


class Change(NamedTuple):
    """The wanted state of a file: the key of its record, its name, its name in the image if that differs, its entry, the words that it loses and
    gains, whether it is new, whether it gets the folder's bytes, and whether it was found again elsewhere in the folder."""

    key: str
    name: bytes
    was: bytes | None
    entry: Entry
    loses: tuple[bytes, ...]
    gains: tuple[bytes, ...]
    is_new: bool
    has_other_bytes: bool
    is_moved: bool


class Side(enum.Enum):
    """Which side settles a conflict: the image, or the folder."""

    OURS = "ours"
    THEIRS = "theirs"


class Wishes(NamedTuple):
    """Which side settles conflicts that must not be left: all of them, and those of named files. Whether files that were removed from the image are
    restored, and whether mails get words of their threads."""

    side: Side | None = None
    named: Mapping[str, Side] = MappingProxyType({})
    restore: bool = False
    threads: bool = False


class Conflict(NamedTuple):
    """The file in conflict, and why."""

    text: str
    why: str


class Renamed(NamedTuple):
    """A file that somebody gave another name in the image."""

    was: str
    name: str


# The files of a folder, each with the key of its record.
Keyed: TypeAlias = list[tuple[str, Entry]]


def folder_words(folders: Sequence[str]) -> list[bytes]:
    """The words for the folders that contain a file."""
    values = [folder_value(name)[:MAX_WORD - len(FOLDER) - 1] for name in folders]
    return [FOLDER + b":" + value for value in values if value]


def key_of(entry: Entry, marker: bytes) -> str:
    """The key of a file's record."""
    return "mail:" + entry.names(marker, False)[0].decode() if entry.is_mail else "file:" + entry.found.key


def path_of(entry: Entry) -> str:
    """The path of a file in the folder."""
    return os.path.join(*entry.found.parts)


def gone_path(key: str | None) -> str | None:
    """The path of a file that is gone, from the key of its record. The key of a mail of a maildir does not have it."""
    kind, _, path = (key or "").partition(":")
    return path if kind == "file" else None


def base_of(key: str) -> str:
    """The last part of the path in a key."""
    return os.path.basename(key.partition(":")[2])


class Changes:
    """`changes` are those of files that the folder has, `gone` the names of files that it no longer has, and `same` counts the others. Entries that
    can't be taken are `refused`: what the image holds of them stays. `beyond` counts the words that are too many for a file, and `beyond_files` the
    files that they belong to.

    `conflicts` are left, `settled` has the names in `wishes.named` that settled one, `edited` are the names of files that stay as the image has them,
    `away` the paths of files that stay out of the image, and `renamed` are those that have another name in the image. `unseen` counts files that are
    not removed, since not all of the folder was seen. `older` counts files that are older than wanted and don't come in, `out` has the names of those
    in `gone` that are removed only for this reason, and `staying` counts those that stay nevertheless, since somebody changed them in the image.
    `records` describe the state before any change, and after it what was done. `bytes_of` returns the bytes of a file of the image, `top` is the
    path of the folder, and `look` is called for each file that was compared."""

    def __init__(self, entries: Iterable[Entry], dump: Dump, marker: bytes, is_lean: bool = False, records: Records | None = None,
                 wishes: Wishes = Wishes(), is_blind: bool = False, bytes_of: Callable[[bytes], bytes] | None = None, top: str = "",
                 look: Look = no_look) -> None:
        self.marker, self.dump, self.is_lean, self.wishes, self.is_blind, self.top = marker, dump, is_lean, wishes, is_blind, top
        # The heads of words that are the folder's.
        self.owned = THREADS if wishes.threads else HEADS
        self.changes: list[Change] = []
        self.gone: list[bytes] = []
        self.refused: list[Entry] = []
        self.conflicts: list[Conflict] = []
        self.settled: set[str] = set()
        self.edited: list[str] = []
        self.away: list[str] = []
        self.renamed: list[Renamed] = []
        self.out: set[bytes] = set()
        self.same = self.beyond = self.beyond_files = self.unseen = self.older = self.staying = 0
        self.own_names = {name for name, (_, words) in dump.files.items() if marker in words}
        self.own = len(self.own_names)
        # Names in the image that belong to a file of the folder, and those that no new file can have.
        self.kept: set[bytes] = set()
        self.taken = set(dump.files)
        # The key of the record of each file that is gone, or None.
        self.gone_keys: dict[bytes, str | None] = {}
        self.records = settled(records or {}, self._digest)
        self.keyed = keyed = [(key_of(entry, marker), entry) for entry in entries]
        self.paths = {path_of(entry) for _, entry in keyed}
        self._find_renamed()
        self.waiting: set[str] = set()
        self.moved = self._find_moved(keyed)
        self._find_edited(dict(keyed), bytes_of)
        self._tell_mails_apart(keyed)
        # The records of files that were only seen are no longer needed.
        self.records = {key: record for key, record in self.records.items() if (record.folder, record.image) != (None, None)}
        # A name of a file that the folder has or had belongs to its record alone.
        self.claimed = {record.name for record in self.records.values() if record.folder is not None}
        for key, entry in [(key, entry) for key, entry in keyed if not self._compared(key, entry, look)]:
            self._fresh(key, entry)
        self._left({key for key, _ in keyed})
        self.gone.sort()
        self.changes.sort(key=lambda change: newest_first(change.entry))

    def _digest(self, name: str) -> str | None:
        """The digest of one of the folder's files in the image, or None if it is missing."""
        return self.dump.digests[name.encode()].hex() if name.encode() in self.own_names else None

    # Files with another name than before.

    def _find_renamed(self) -> None:
        """Finds files that somebody renamed in the image by their bytes: those of the last run, or of before."""
        free: dict[str | None, list[str]] = {}
        for name in sorted(self._unnamed()):
            free.setdefault(self._digest(name), []).append(name)
        for key, record in sorted(self.records.items()):
            digests = [digest for digest in (record.seen, record.image, record.folder) if free.get(digest)]
            if self._digest(record.name) is None and digests:
                self._rename(key, free[digests[0]].pop(0))

    def _unnamed(self) -> set[str]:
        """The names of the folder's files in the image that are in no record."""
        return {name.decode() for name in self.own_names} - {record.name for record in self.records.values()}

    def _find_edited(self, entries: dict[str, Entry], bytes_of: Callable[[bytes], bytes] | None) -> None:
        """Finds files that somebody edited and renamed in the image by what they have in common with before. Each file with the folder's word was one
        of its files, so a file in no record is one of those that were lost since the last run."""
        lost = {key for key, record in self.records.items() if record.image is not None and self._digest(record.name) is None}
        left = self._unnamed() - self._expected(entries) if lost else set()
        parts, parts_in = dict[str, set[bytes]](), dict[str, set[bytes]]()
        if bytes_of and len(lost) * len(left) > 1:
            parts_in = {name: parts_of(bytes_of(name.encode())) for name in left}
            parts = {key: parts_of(content_of(entries[key])) for key in lost if key in entries}
        alike = [(shared(parts.get(key), parts_in.get(name)) + self._likeness(key, entries.get(key), name), key, name) for key in lost for name in left]
        for _, key, name in sorted(alike, key=lambda pair: (-pair[0], *pair[1:])):
            if key in lost and name in left:
                lost.remove(key)
                left.remove(name)
                self._rename(key, name)

    def _expected(self, entries: dict[str, Entry]) -> set[str]:
        """The names that those files of the folder would have that did not come in, as far as is known. A run that was stopped may have brought them
        in."""
        new = [entry for key, entry in entries.items() if (record := self.records.get(key)) is None or (record.folder, record.image) == (None, None)]
        return {name.decode() for entry in new for name in entry.names(self.marker, True)}

    def _rename(self, key: str, name: str) -> None:
        self.renamed.append(Renamed(self.records[key].name, name))
        self.records[key] = self.records[key]._replace(name=name)

    def _likeness(self, key: str, entry: Entry | None, name: str) -> float:
        """How likely a file of the image, with other bytes and another name, is the file of a record, apart from its bytes: by the words that the
        folder gave it, by its suffix, and by what the two names have in common."""
        was, words = self.records[key].name, {word for word in self.dump.files[name.encode()].words if head_of(word) in self.owned}
        alike = len(words & set(entry.words)) - len(words ^ set(entry.words)) / 2 if entry else 0.0
        ends = os.path.splitext(was)[1] == os.path.splitext(name)[1]
        common = len(os.path.commonprefix([was, name])) + len(os.path.commonprefix([was[::-1], name[::-1]]))
        return alike + ends + common / (len(was) + len(name))

    def _find_moved(self, keyed: Keyed) -> dict[str, str]:
        """Finds files that were renamed or moved in the folder by their bytes: first those with the same base name, and then all others that are not
        empty. Returns their new keys, each with the old one."""
        present = {key for key, _ in keyed}
        lost: dict[str, list[str]] = {}
        for key, record in sorted(self.records.items()):
            if key not in present and record.folder is not None:
                lost.setdefault(record.folder, []).append(key)
        new = [(key, entry) for key, entry in keyed if key not in self.records and not entry.found.problem] if lost else []
        found: dict[str, str] = {}
        for is_same_name in (True, False):
            for key, entry in sorted(new, key=lambda pair: pair[0]):
                digest = self._folder_digest(entry)
                if digest is None:
                    continue
                fits = [old for old in lost.get(digest, ()) if base_of(old) == base_of(key) or not is_same_name and digest != NO_BYTES]
                if fits and key not in found:
                    found[key] = fits[0]
                    lost[digest].remove(fits[0])
        # A file that can't be read may have been moved.
        self.is_blind = self.is_blind or any(entry.found.problem for _, entry in new)
        if self.is_blind:
            # The file may be a copy with the same bytes. The next run that sees all can tell which it is.
            self.waiting = set(found)
            return {}
        entries = dict(keyed)
        for key, old in found.items():
            record = self.records.pop(old)
            if self._digest(record.name) is None:
                # A run that was stopped may already have renamed it.
                others = {other.name for other in self.records.values()}
                fits = [name.decode() for name in entries[key].names(self.marker, self.is_lean)]
                record = record._replace(name=next((name for name in fits if self._digest(name) and name not in others), record.name))
            self.records[key] = record
        return found

    def _tell_mails_apart(self, keyed: Keyed) -> None:
        """If several mails have one Message-ID, a mail that comes or goes changes the keys of others: each whose bytes are those of another's record
        gets that record."""
        digests = {key: entry.digest.hex() for key, entry in keyed if entry.is_mail and entry.digest is not None}
        lost: dict[str, list[str]] = {}
        found: dict[str, str] = {}
        for key, record in sorted(self.records.items()):
            if key.startswith("mail:") and record.folder and digests.get(key) != record.folder:
                lost.setdefault(record.folder, []).append(key)
        for key, digest in sorted(digests.items()):
            if lost.get(digest) and (key not in self.records or self.records[key].folder != digest):
                found[key] = lost[digest].pop(0)
        had = {key: self.records.pop(key) for key in {*found, *found.values()} if key in self.records}
        for key, old in found.items():
            self.records[key] = had.pop(old)
        # The former records of these keys belong to mails that are gone, or that have other bytes and no record.
        free = [key for key in found.values() if key not in self.records]
        for key, record in sorted(had.items()):
            self.records[free.pop(0)] = record

    # Files of the folder.

    def _compared(self, key: str, entry: Entry, look: Look) -> bool:
        """The same as `_held`, counted."""
        size = unread(entry)
        is_held = self._held(key, entry)
        look(1, size - unread(entry))
        return is_held

    def _held(self, key: str, entry: Entry) -> bool:
        """Judges a file that was brought in, or that the image has without a record. Returns whether it is such a file."""
        record, name = self.records.get(key), self._name_in_image(key, entry)
        if name is not None:
            self.kept.add(name.encode())
        if record is None and name is None:
            return False
        folder = None if entry.found.problem else self._folder_digest(entry)
        if folder is None:
            self.refused.append(entry)
        elif name is None:
            return self._stays_away(key, entry, folder)
        elif not self._is_out(key, entry, name, folder):
            self._judge(key, entry, name, folder)
        return True

    def _is_out(self, key: str, entry: Entry, name: str, folder: str) -> bool:
        """Whether a file is removed since it is older than wanted. One that somebody edited, renamed or gave words to stays."""
        if not entry.is_older:
            return False
        record, image, words = self.records.get(key), self._digest(name), self.dump.files[name.encode()].words
        is_named = record.name == record.made if record else name.encode() in entry.names(self.marker, False)
        is_read = image == folder or record is not None and image == record.image
        if not (is_named and is_read and all(word == self.marker or head_of(word) in self.owned for word in words)):
            self.staying += 1
        elif self.is_blind:
            # Newer files may not have been seen, or some may be gone.
            self.unseen += 1
        else:
            self.gone.append(name.encode())
            self.gone_keys[name.encode()] = key
            self.out.add(name.encode())
            return True
        return False

    def _name_in_image(self, key: str, entry: Entry) -> str | None:
        """The name of a file in the image: that of its record, or else the first of its possible names."""
        if record := self.records.get(key):
            return record.name if self._digest(record.name) else None
        names = [name.decode() for name in entry.names(self.marker, self.is_lean)]
        return next((name for name in names if self._digest(name) and name.encode() not in self.kept and name not in self.claimed), None)

    def _folder_digest(self, entry: Entry) -> str | None:
        """The digest of a file of the folder, or None if it can't be read, which becomes its problem."""
        try:
            return digest_of(entry).hex()
        except OSError as error:
            entry.found.problem = error.strerror or str(error)
            return None

    def _stays_away(self, key: str, entry: Entry, folder: str) -> bool:
        """Whether a file that somebody removed from the image stays out of it: until it changes, or is wanted again."""
        if self.records[key].folder != folder or self.wishes.restore:
            del self.records[key]
            return False
        # A file that the image gets later is a different one.
        self.records[key] = self.records[key]._replace(image=None, seen=None)
        self.away.append(entry.found.path)
        return True

    def _judge(self, key: str, entry: Entry, name: str, folder: str) -> None:
        record, image = self._looked_at(key, name), self._digest(name)
        made = record.made if record else name
        if record is None:
            self.records.pop("image:" + name, None)
        if folder == image:
            self.records[key] = Record(name, made, folder, folder)
            self._change(key, entry, name, is_same=True)
        elif record and record.folder == folder:
            self.edited.append(name)
            self._change(key, entry, name)
        elif record and record.image == image or self._side(path_of(entry), name) is Side.THEIRS:
            self._change(key, entry, name, has_other_bytes=True)
        else:
            if self._side(path_of(entry), name) is Side.OURS:
                # The change in the folder is noted, and the image still has other bytes than were brought in.
                self.records[key] = Record(name, made, folder, NOTHING, seen=image)
                self.edited.append(name)
            else:
                self.conflicts.append(Conflict(f"{name}: {entry.found.path}", BOTH if record else UNKNOWN))
            self._change(key, entry, name)

    def _side(self, path: str | None, name: str) -> Side | None:
        """Which side settles the conflict of a file, or None if it is left. A file is named by its path in the folder, or, if no file has that path,
        by its name in the image."""
        for named in (path, None if name in self.paths else name):
            if named is not None and named in self.wishes.named:
                self.settled.add(named)
                return self.wishes.named[named]
        return self.wishes.side

    def _looked_at(self, key: str | None, name: str) -> Record | None:
        """The record of a file, which then has the digest of the file's bytes in the image, if these differ from what was brought in."""
        if key is None or key not in self.records:
            return None
        record, image = self.records[key], self._digest(name)
        self.records[key] = record = record._replace(seen=None if image == record.image else image)
        return record

    def _change(self, key: str, entry: Entry, name: str, has_other_bytes: bool = False, is_same: bool = False) -> None:
        """Notes the changes of a file that is in the image: bytes, words, and a name if it moved in the folder and nobody renamed it."""
        words = self.dump.files[name.encode()][1]
        theirs = {word for word in words if word != self.marker and (head_of(word) not in self.owned or head_of(word) in entry.unread)}
        wanted = self._fitting(entry, MAX_ASSIGNED - 1 - len(theirs))
        loses = tuple(sorted(words - theirs - set(wanted) - {self.marker}))
        gains = tuple(word for word in wanted if word not in words)
        other, is_moved = self._name_after_move(key, entry), key in self.moved
        if has_other_bytes or loses or gains or is_moved:
            was = name.encode() if other else None
            self.changes.append(Change(key, other or name.encode(), was, entry, loses, gains, False, has_other_bytes, is_moved))
        else:
            self.same += is_same

    def _name_after_move(self, key: str, entry: Entry) -> bytes | None:
        """The new name of a file that moved in the folder, or None if it keeps its name."""
        record = self.records.get(key)
        if record is None or key not in self.moved or record.name != record.made:
            return None
        all_names = entry.names(self.marker, True)
        # A lean name stays lean, since the program may have no room for the words.
        names = entry.names(self.marker, self.is_lean or derived.has_many(all_names[-1]) and not derived.has_many(record.made.encode()))
        if record.made.encode() in names:
            return None
        other = next((name for name in names[:2] if name not in self.taken), None)
        if other is not None:
            self.taken.add(other)
        return other

    def _fresh(self, key: str, entry: Entry) -> None:
        if entry.found.problem:
            self.refused.append(entry)
            return
        if key in self.waiting:
            entry.found.problem = "it may have moved, and not all of the folder could be read"
            self.refused.append(entry)
            return
        if entry.is_older:
            self.older += 1
            return
        all_names = entry.names(self.marker, self.is_lean)
        name = next((name for name in all_names[:2] if name not in self.taken), None)
        if name is None:
            # Two digests are equal, or somebody has taken both names.
            entry.found.problem = f"the name {all_names[1].decode()} is taken"
            self.refused.append(entry)
            return
        self.taken.add(name)
        self.changes.append(Change(key, name, None, entry, (), self._fitting(entry, MAX_ASSIGNED - 1), True, True, False))

    def _fitting(self, entry: Entry, most: int) -> tuple[bytes, ...]:
        """The words that a file is given, at most `most`."""
        most = max(most, 0)
        if len(entry.words) > most:
            self.beyond += len(entry.words) - most
            self.beyond_files += 1
        return entry.words[:most]

    # Files that are no longer in the folder.

    def _left(self, present: Set[str]) -> None:
        if self.is_blind:
            # They may be in a part that was not seen, so their records stay.
            self.unseen += len(self.own_names - self.kept)
            return
        keys = {record.name: key for key, record in self.records.items() if key not in present}
        for name in sorted(self.own_names - self.kept):
            self._judge_left(keys.get(name.decode()), name.decode())
        for key in [key for key, record in self.records.items() if key not in present and self._digest(record.name) is None]:
            del self.records[key]

    def _judge_left(self, key: str | None, name: str) -> None:
        record = self._looked_at(key, name)
        if record and record.folder is None:
            self.edited.append(name)
        elif record and record.image == self._digest(name) or self._side(gone_path(key), name) is Side.THEIRS:
            self.gone.append(name.encode())
            self.gone_keys[name.encode()] = key
        elif self._side(gone_path(key), name) is Side.OURS:
            # If it is not known what was brought in, no bytes match.
            self.records[key or "image:" + name] = Record(name, name, None, record.image if record else NOTHING, seen=self._digest(name))
            self.edited.append(name)
        else:
            self.conflicts.append(Conflict(name, GONE if record else UNKNOWN_GONE))

    def cut(self) -> list[tuple[str, int]]:
        """The files that have the folder's bytes and would have more derived words than the program keeps: each name, with the number of words."""
        found = [(self.records[key], entry.derived) for key, entry in self.keyed if key in self.records and entry.derived > MAX_DERIVED]
        return [(record.name, count) for record, count in found
                if record.folder is not None and record.folder == record.image and derived.has_many(record.name.encode())]

    # What is done.

    def is_nothing(self) -> bool:
        return not self.changes and not self.gone

    def size(self) -> int:
        """How many bytes of the folder come into the image."""
        return sum(change.entry.found.size or 0 for change in self.changes if change.has_other_bytes)

    def coming(self) -> Records:
        """The records before the changes, with the digest that is coming to each file."""
        found = self.seen()
        # A moved file keeps its old key until it has its new name and words.
        for key, old in self.moved.items():
            if key in found:
                found[old] = found.pop(key)
        for change in self.changes:
            # A new file that was not read yet is not read just for this: if it comes in, the next run finds both sides alike.
            if change.has_other_bytes and change.entry.digest is not None:
                name = (change.was or change.name).decode()
                before = self.records.get(change.key, Record(name, name, None, None))
                found[change.key] = before._replace(coming=change.entry.digest.hex())
        for gone, gone_key in self.gone_keys.items():
            known = found.get(gone_key) if gone_key else None
            found[gone_key or "image:" + gone.decode()] = (known or Record(gone.decode(), gone.decode(), None, None))._replace(coming=REMOVAL)
        return found

    def seen(self) -> Records:
        """The records, and those of files that are in the folder and not in the image. Such a file does not count as moved when there is room for
        it."""
        found = dict(self.records)
        for key, entry in self.keyed:
            if entry.found.problem:
                # It may turn out to be a moved file.
                continue
            name = entry.names(self.marker, False)[0].decode()
            found.setdefault(key, Record(name, name, None, None))
        return found

    def done(self, change: Change, name: bytes) -> None:
        """Notes that a change was made, and that the file has this name now."""
        before, read = self.records.get(change.key), change.entry.digest if change.has_other_bytes else None
        digest = None if read is None else read.hex()
        if before is not None:
            is_made = before.name == before.made or name in change.entry.names(self.marker, self.is_lean)
            made = name.decode() if is_made else before.made
            self.records[change.key] = before._replace(name=name.decode(), made=made)
            if digest is not None:
                self.records[change.key] = Record(name.decode(), made, digest, digest)
        elif digest is not None:
            self.records[change.key] = Record(name.decode(), name.decode(), digest, digest)
        # Otherwise only words changed, of a file in conflict of which nothing is known.

    def removed(self, name: bytes) -> None:
        if key := self.gone_keys[name]:
            self.records.pop(key, None)

    def path_of_gone(self, name: bytes) -> str:
        """The path of a file that is gone, if it is known."""
        path = gone_path(self.gone_keys[name])
        return os.path.join(self.top, path) if path else ""

    def heads(self) -> list[bytes]:
        """The heads that must be declared, the most important first."""
        wanted = dict.fromkeys(stem_of(word) for change in self.changes for word in change.gains)
        return [head for head in [MARKER, *wanted] if head + b":" not in self.dump.declared] if self.changes else []


def parts_of(content: bytes) -> set[bytes]:
    """The parts of a content that can be found again after an edit: the pieces between blanks."""
    return set(content.split())


def shared(some: Set[bytes] | None, others: Set[bytes] | None) -> float:
    """How much two contents have in common. If one is unknown, the result is less than for similar contents, and more than for different ones."""
    if some is None or others is None:
        return SHARED * UNKNOWN_PART
    return SHARED * len(some & others) / len(some | others) if some and others else 0.0


def content_of(entry: Entry) -> bytes:
    """The bytes of a file of the folder, or none if it can't be read."""
    try:
        return walk.content(entry.found, entry.found.size or 0)
    except OSError:
        return b""


def unread(entry: Entry) -> int:
    """How many bytes of a file were not read yet."""
    return 0 if entry.digest is not None else entry.found.size or 0


def digest_of(entry: Entry) -> bytes:
    """The digest of a file's bytes, which are read now if they were not read before."""
    if entry.digest is not None:
        return entry.digest
    return entry.read_from(walk.content(entry.found, entry.found.size or 0))
