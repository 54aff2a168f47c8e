"""What earlier runs brought into an image, so that the next run can distinguish a change of the image from a change of the folder.

1. Each file of a folder has a record: its key, its name in the image, the name that `tools/sync` made for it, and two digests.
2. The key is the path below the folder; of a mail of a maildir, which may move, it is the name that its Message-ID gives it.
3. `folder` is the digest of the bytes that the folder had when both sides were last settled, and `image` that of the bytes which were brought in.
   None says that there was no file; if both are None, a file was seen in the folder and did not come in. A side has changed if its bytes differ from
   the digest, or if it lost or gained the file. `seen` is the digest of the bytes that the image had at the last run, if these are others than were
   brought in.
4. Words that somebody gave are only in the image. They stay on the file, even if it is renamed, so no record has them.
5. A file that somebody removed from the image keeps its record, and so it stays out. If both sides are gone, the record is removed.
6. All records of a folder are one memory: a text, named after its own digest, in `$XDG_STATE_HOME/lisfs`, or in `~/.local/state/lisfs`.
7. The image has a plain word `synced-NAME-DIGEST` with the first digits of that digest. So a memory belongs to one state of an image, wherever the
   image is: a copy and an older backup find their own, and an image that was made again finds none.
8. A memory is written before the first change of a run, with the digest that is `coming` to each file, and again after the last. So a run that was
   stopped leaves files with the old bytes or the coming ones, and the next run can see which.
9. Without its memory, as after a run of an older `tools/sync`, nothing is overwritten and nothing is removed: what is the same on both sides is
   recorded, and each difference is a conflict.
10. If a memory can't be written, or the image has no room for its word, the run says so; the next run then has no memory.
11. Besides the memories there is a list for each image and folder, named after the path of the image. It names the memory that the last run left and
   those of earlier runs, which copies and backups of the image may name. A run adds to the list of its own image alone.
12. A memory is removed in two cases: `KEPT` later ones are in each list that has it, or it was not used for a year and is in no list of an
   image that is still at its path. So a run over one image never removes the memory of another one.
"""
import contextlib
import hashlib
import json
import os
import re
import time
from collections.abc import Callable, Sequence, Set
from typing import NamedTuple, TypeAlias

from lisfs.constants import MAX_WORD
from lisfs.own import read_own, state_folder, write_whole

FORM, WORD, DIGITS = 1, b"synced-", 20
# How many memories of an image and a folder are kept: the one that a run writes, and those of earlier runs, which copies and backups may name.
KEPT = 16
# How long a memory is kept without use if no image is known to name it, in seconds.
YEAR = 366 * 86_400
NAMED, LIST = re.compile(r"synced-[0-9a-f]{64}\.json"), re.compile(r"image-[0-9a-f]{32}\.json")
# The coming digest of a file that will be removed. No digest is empty.
REMOVAL = ""


class Record(NamedTuple):
    """What is known of one file: see above."""

    name: str
    made: str
    folder: str | None
    image: str | None
    coming: str | None = None
    seen: str | None = None


# By the keys of the files.
Records: TypeAlias = dict[str, Record]


def begin_of_word(marker: bytes) -> bytes:
    """The prefix of the word of a memory, for the folder of this marker."""
    name, room = marker.partition(b":")[2], MAX_WORD - len(WORD) - 1 - DIGITS
    if len(name) > room:
        name = name[:room - 9] + b"." + hashlib.sha256(name).hexdigest()[:8].encode()
    return WORD + name + b"-"


def words_of_memories(marker: bytes, declared: Set[bytes]) -> list[bytes]:
    """The words of an image that name a memory of this folder: one, or two if a run was stopped between them."""
    begin = begin_of_word(marker)
    return sorted(word for word in declared if word.startswith(begin) and re.fullmatch(rb"[0-9a-f]{%d}" % DIGITS, word[len(begin):]))


class Listed(NamedTuple):
    """The list of an image and a folder: the path of the image, and the names of memories, the latest last."""

    image: str
    memories: list[str]


class Memory:
    """The memories of one folder, by its marker, in one image, by its path."""

    def __init__(self, marker: bytes, image: str) -> None:
        self.marker, self.image, self.top = marker, os.path.realpath(image), state_folder()
        digest = hashlib.sha256(os.fsencode(self.image) + b"\0" + marker).hexdigest()[:32]
        self.list = os.path.join(self.top, f"image-{digest}.json")

    def read(self, declared: Set[bytes]) -> Records | None:
        """The records that belong to an image with these words, or None if they are not known."""
        found = [records for word in words_of_memories(self.marker, declared) if (records := self._read(word)) is not None]
        # Of two memories, the one with nothing coming was written after all changes of its run.
        return min(found, key=lambda records: any(record.coming is not None for record in records.values())) if found else None

    def word(self, records: Records) -> bytes:
        """The word by which an image names records."""
        return begin_of_word(self.marker) + hashlib.sha256(self._body(records)).hexdigest()[:DIGITS].encode()

    def write(self, records: Records) -> bytes:
        """Writes records, and returns the word by which an image names them. Raises `OSError`."""
        body = self._body(records)
        name = f"synced-{hashlib.sha256(body).hexdigest()}.json"
        write_whole(os.path.join(self.top, name), body, is_kept=True)
        memories = [*(other for other in read_list(self.list).memories if other != name), name]
        self._write_list(memories[-KEPT:])
        self._clean(memories[:-KEPT])
        return self.word(records)

    def forget(self, word: bytes) -> None:
        """Removes the memory of this word, which no image names any more."""
        with contextlib.suppress(OSError):
            forgotten = [name for name in os.listdir(self.top) if NAMED.fullmatch(name) and name.startswith(f"synced-{word[-DIGITS:].decode()}")]
            self._write_list([name for name in read_list(self.list).memories if name not in forgotten])
            self._clean(forgotten)

    def _body(self, records: Records) -> bytes:
        files = {key: [*record[:4], *filter_end(record[4:])] for key, record in records.items()}
        # Equal records give the same text, and so the same word.
        return json.dumps({"form": FORM, "marker": self.marker.decode(), "files": files}, sort_keys=True).encode()

    def _read(self, word: bytes) -> Records | None:
        digits = word[-DIGITS:].decode()
        with contextlib.suppress(OSError, ValueError, LookupError, TypeError, RecursionError):
            for name in sorted(os.listdir(self.top)):
                if NAMED.fullmatch(name) and name.startswith(f"synced-{digits}"):
                    return self._records(name)
        return None

    def _records(self, name: str) -> Records | None:
        path = os.path.join(self.top, name)
        body = read_own(path)
        given = json.loads(body)
        if f"synced-{hashlib.sha256(body).hexdigest()}.json" != name or (given["form"], given["marker"]) != (FORM, self.marker.decode()):
            return None
        with contextlib.suppress(OSError):
            os.utime(path)
        return {key: Record(*record) for key, record in given["files"].items()}

    def _write_list(self, memories: list[str]) -> None:
        body = json.dumps({"form": FORM, "image": self.image, "marker": self.marker.decode(), "memories": memories})
        write_whole(self.list, body.encode(), is_kept=True)

    def _clean(self, dropped: list[str]) -> None:
        """Removes those of some memories that no list names, and all that rule 12 above allows."""
        with contextlib.suppress(OSError):
            names, listed = os.listdir(self.top), set()
            for name in filter(LIST.fullmatch, names):
                path = os.path.join(self.top, name)
                found = read_list(path)
                if path == self.list or is_there(found.image) or any(not self._is_old(memory) for memory in (name, *found.memories)):
                    listed.update(found.memories)
                else:
                    os.unlink(path)
            for name in filter(NAMED.fullmatch, names):
                if name not in listed and (name in dropped or self._is_old(name)):
                    os.unlink(os.path.join(self.top, name))

    def _is_old(self, name: str) -> bool:
        """Whether a file was not used for a year, or is missing."""
        try:
            return os.lstat(os.path.join(self.top, name)).st_mtime < time.time() - YEAR
        except FileNotFoundError:
            return True


def filter_end(parts: Sequence[str | None]) -> Sequence[str | None]:
    """Parts of a record up to the last one that is not None."""
    return parts if not parts or parts[-1] is not None else filter_end(parts[:-1])


def read_list(path: str) -> Listed:
    """A list of memories. A list that can't be read names none."""
    with contextlib.suppress(OSError, ValueError, LookupError, TypeError, RecursionError):
        given = json.loads(read_own(path))
        if given["form"] == FORM:
            return Listed(str(given["image"]), [str(name) for name in given["memories"]])
    return Listed("", [])


def is_there(path: str) -> bool:
    """Whether a file is at a path, or may be: a path that can't be looked at may have one."""
    try:
        os.lstat(path)
    except (FileNotFoundError, NotADirectoryError):
        return False
    except OSError:
        pass
    return True


def settled(records: Records, digest_in: Callable[[str], str | None]) -> Records:
    """Records without anything coming, after the changes that a stopped run made are recorded as done. `digest_in` returns the digest of a file of
    the image by its name, or None."""
    found = {}
    for key, record in records.items():
        now = digest_in(record.name)
        if record.coming is None:
            found[key] = record
        elif (now or REMOVAL) != record.coming:
            # The change was not made.
            found[key] = record._replace(coming=None)
        elif now:
            found[key] = Record(record.name, record.made, now, now)
    return found
