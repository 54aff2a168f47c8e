"""The last change of an earlier shell, which `undo` of the next shell finds in a file of the person who made it.

1. The file has the line of the change, what undoes it, and a digest of the image's state at the end of that shell. It is written at that end, whole
   or not at all.
2. A change is undone only if the image is in this state again, or still: the same declared words, axioms and files with their sizes and the words
   that they were given, and the same bytes of a file that would be removed. So no later work is lost, whoever did it.
3. Bytes of files are not kept: removed or overwritten bytes would be outside the image. For such a change the file has only the line.
4. For a served image nothing is kept, since others change it meanwhile.
"""
from __future__ import annotations

import contextlib
import json
import os
from collections.abc import Iterable

from lisfs.client import Refused, Retag
from lisfs.own import read_own, state_folder, write_whole
from lisfs.shell.session import ROOT, NoWayBack, Session
from lisfs.shell.undoing import Change, Command

FORM = 1


NO_BYTES = "bytes that it removed or wrote over are not kept after a shell ends"
CHANGED = "the image has changed since, so it is not undone"


class NotUndone(Exception):
    """The change of a line is not undone, and why."""

    def __init__(self, line: bytes, why: str) -> None:
        super().__init__(why)
        self.line, self.why = line, why


class Earlier:
    def __init__(self, image: str, session: Session) -> None:
        self.image, self.session = image, session
        # Whether the change was requested and found.
        self.is_taken = False

    def keep(self) -> None:
        """Keeps the last change of this shell, if it has made one. If the file can't be written, none is kept."""
        if self.session.program.is_shared or not self.session.changes:
            return
        with contextlib.suppress(OSError):
            if body := self._body():
                write_whole(self._path(), body, is_kept=True)
            else:
                os.unlink(self._path())

    def change(self) -> Change | None:
        """The change that was kept, or None. Raises `NotUndone`."""
        if self.session.program.is_shared or self.is_taken:
            return None
        try:
            form, line, state, commands, retags = json.loads(read_own(self._path()))
            if form != FORM:
                return None
            change = Change(of(line), tuple(Command(words(given)) for given in commands or ()),
                            tuple(Retag(of(name), words(gains), words(loses)) for name, gains, loses in retags))
        except (OSError, ValueError, TypeError):
            return None
        if commands is None:
            raise NotUndone(change.line, NO_BYTES)
        if state != self._state(change):
            raise NotUndone(change.line, CHANGED)
        self.is_taken = True
        return change

    def _path(self) -> str:
        return os.path.join(state_folder(), f"undo-{digest(os.fsencode(os.path.realpath(self.image)))[:32]}.json")

    def _body(self) -> bytes | None:
        """The contents of the file for the last change that is kept, or None if there is none."""
        if not self.session.kept:
            return None
        change = self.session.kept[-1]
        if any(command.payload is not None for command in change.commands):
            return json.dumps((FORM, text(change.line), None, None, [])).encode()
        if (state := self._state(change)) is None:
            return None
        retags = [(text(name), texts(gains), texts(loses)) for name, gains, loses in change.retags]
        return json.dumps((FORM, text(change.line), state, [texts(command.words) for command in change.commands], retags)).encode()

    def _state(self, change: Change) -> str | None:
        """A digest of the image's state, as far as this change needs it; None if it can't be read at this place."""
        session, removed = self.session, [command.words[1] for command in change.commands if command.words[0] == b"rm"]
        try:
            with session.away(ROOT):
                contents = [session.content(name) for name in removed]
        except (NoWayBack, Refused):
            return None
        files = sorted((file.name, file.size, sorted(file.given)) for file in session.index.files.values())
        return digest(repr((sorted(session.declared), sorted(session.axioms), files, contents)).encode())


def digest(data: bytes) -> str:
    # OpenSSL is slow to load, and most sessions change nothing.
    import hashlib
    return hashlib.sha256(data).hexdigest()


def text(data: bytes) -> str:
    return data.decode("latin-1")


def texts(some: Iterable[bytes]) -> list[str]:
    return list(map(text, some))


def of(given: str) -> bytes:
    return given.encode("latin-1")


def words(given: Iterable[str]) -> tuple[bytes, ...]:
    return tuple(map(of, given))
