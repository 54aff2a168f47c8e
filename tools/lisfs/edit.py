"""Lets an editor change the lines of a file of which a formula holds, and leaves all other lines as they are.

usage: tools/edit IMAGE NAME F

The editor is the command in `$VISUAL`, otherwise in `$EDITOR`, otherwise `vi`. It opens a file with what `lisfs view IMAGE NAME F` shows;
the name of that file ends with NAME. If the file was changed when the editor ends, `lisfs put IMAGE NAME F` writes it. While the editor is
open the image is not locked. So `edit` looks at the view once more before it writes. If the view differs by then, nothing is written. If the
image is served (`tools/serve IMAGE`), `edit` is a client of its server.

The status is 0 if the file was written, or if nothing was changed, which one line says. The status is 1 if something is wrong, which one line
on standard error says: the editor failed, the view has changed in the meantime, it is refused, the image is in use. If the editor leaves an
empty file, or something other than a plain file, nothing is written. `lisfs put IMAGE NAME F < /dev/null` removes all shown lines.

The editor's file stays if an editor was started, the status is 1 and the editor has not removed it; the line then names it. Otherwise it
is removed, even if the editor has returned at once and still shows it: nothing was changed by then, and what it stores later is in no file.

SIGTERM and SIGHUP end `edit` with status 1, and an editor that still runs goes on. But a write that has begun is finished first, and the
status is that of the write.
"""
from __future__ import annotations

import contextlib
import os
import shlex
import shutil
import signal
import stat
import subprocess
import sys
from collections.abc import Callable
from types import FrameType
from typing import TypeVar

from lisfs.client import Ended, Locked, NotAReply, Refused, missing
from lisfs.constants import BAD_FORMULA, MAX_VIEW
from lisfs.endings import NotJoined, quiet
from lisfs.limits import full, limits_of
from lisfs.parts import Changed, put, view
from lisfs.refusals import without_blanks
from lisfs.showing import harmless

# The exit statuses after which the program has certainly written nothing, besides that of a locked image: wrong words, no image, an input error, no
# memory, and a view that is too long.
WRITES_NOTHING = (1, 2, 4, 6, 7)

T = TypeVar("T")


class Failed(Exception):
    """What is wrong, in one line."""


class Stopped(Exception):
    """The tool must end, and has written nothing."""


class Stops:
    """Signals that end the tool. They are noted, and reported when the tool checks for them; or the first of them at once, while `heed` runs. So none
    comes between a change and the line that reports it."""

    def __init__(self) -> None:
        self.number: int | None = None
        self.is_heeded = False
        for number in (signal.SIGTERM, signal.SIGHUP):
            # A signal that is ignored, as by `nohup`, stays ignored.
            if signal.getsignal(number) == signal.SIG_DFL:
                signal.signal(number, self._come)

    def _come(self, number: int, _: FrameType | None) -> None:
        self.number = self.number or number
        if self.is_heeded:
            self.ask()

    def ask(self) -> None:
        if self.number:
            self.is_heeded = False
            raise Stopped(f"ended by signal {self.number}")

    def heed(self, call: Callable[[], T]) -> T:
        """The result of a call that can take long."""
        self.is_heeded = True
        try:
            self.ask()
            return call()
        finally:
            self.is_heeded = False


def tell(line: str) -> None:
    print(f"edit: {harmless(line)}", file=sys.stderr)


def wrong_word(*words: str) -> str:
    """Which of its words the program rejects, if their number is right."""
    for what, word in zip(("IMAGE", "NAME", "F"), map(os.fsencode, words)):
        try:
            word.decode()
        except UnicodeDecodeError:
            return f"{what} is no UTF-8: {word!r}"
    return f"{words[1]}: no file name"


def cause_of(error: Exception, image: str, name: str, formula: str) -> str:
    """What an error of the program means, in one line."""
    if isinstance(error, Refused):
        hint = without_blanks(os.fsencode(formula).split()) if error.number == BAD_FORMULA else told_full(error, image)
        return f"{name}: {hint or error}"
    if isinstance(error, Locked):
        return f"{image}: in use by another lisfs"
    if isinstance(error, NotJoined):
        return str(error)
    if isinstance(error, Ended) and error.status == 1:
        return wrong_word(image, name, formula) if "lisfs view " in error.text else "the program has no word `view`: build it again"
    if isinstance(error, Ended):
        return ": ".join(error.text.splitlines()) or str(error)
    if isinstance(error, OSError):
        return f"{error.filename}: {error.strerror}" if error.filename else error.strerror or str(error)
    return str(error)


def told_full(refused: Refused, image: str) -> str | None:
    """What a refusal of a full image says, with what helps; None for another one."""
    with contextlib.suppress(OSError):
        if found := full(refused.number, limits_of(image)):
            return f"{refused}: the image has {found.most}, and {found.helps}"
    return None


def editor() -> list[str]:
    """The editor's command."""
    for text in (os.environ.get("VISUAL", ""), os.environ.get("EDITOR", "")):
        try:
            if command := shlex.split(text):
                return command
        except ValueError as error:
            raise Failed(f"the editor {text}: {error}") from None
    return ["vi"]


def draft_of(name: str, shown: bytes) -> str:
    """A file with this view, in its own folder: so that an editor can put files beside it, and so that no name means anything to an editor or to
    another user. It ends with the suffix of the name, by which editors choose how to show it."""
    import tempfile
    folder = None
    try:
        folder = tempfile.mkdtemp(prefix="edit-")
        path = os.path.join(folder, f"view-{name}")
        with open(path, "xb", opener=lambda at, flags: os.open(at, flags, 0o600)) as file:
            file.write(shown)
    except OSError as error:
        if folder:
            shutil.rmtree(folder, ignore_errors=True)
        raise Failed(f"a file for the view: {error.strerror}") from None
    return path


def started(command: list[str], path: str) -> subprocess.Popen[bytes]:
    """The editor."""
    try:
        return subprocess.Popen([*command, path])
    except OSError as error:
        raise Failed(f"the editor {command[0]}: {error.strerror}") from None


def edited(stops: Stops, editing: subprocess.Popen[bytes], path: str) -> bytes:
    """What the editor leaves in its file."""
    if status := stops.heed(editing.wait):
        raise Failed(f"the editor ended with {status}" if status > 0 else f"the editor was killed by signal {-status}")
    try:
        return content_of(path)
    except OSError as error:
        raise Failed(f"what the editor left: {error.strerror}") from None


def content_of(path: str) -> bytes:
    """The bytes of a plain file; of one larger than any edited view, one byte more than the limit. A pipe could deliver bytes without end, and a link
    could lead to any file."""
    if not stat.S_ISREG(os.lstat(path).st_mode):
        raise Failed("what the editor left: no plain file")
    with open(path, "rb", opener=lambda at, flags: os.open(at, flags | os.O_NONBLOCK | os.O_NOFOLLOW)) as file:
        return file.read(MAX_VIEW + 1)


def what_is_left(path: str) -> str:
    """What is now at the path of the editor's file."""
    if os.path.isfile(path) and not os.path.islink(path):
        return f"the edited text is in {path}"
    return f"what the editor left is at {path}" if os.path.lexists(path) else "the edited text is gone"


def written(stops: Stops, image: str, name: str, formula: str, shown: bytes, text: bytes) -> None:
    """Writes the edited text, if the view is still the one that was shown."""
    try:
        if stops.heed(lambda: view(image, name, formula)) != shown:
            raise Failed(f"{name}: its view has changed in the meantime")
    except (Refused, Ended, NotAReply, OSError) as error:
        raise Failed(cause_of(error, image, name, formula)) from None
    stops.ask()
    try:
        put(image, name, formula, shown, text)
    except Changed:
        raise Failed(f"{name}: its view has changed in the meantime") from None


def was_maybe_written(error: Exception) -> bool:
    """Whether the file may have been written despite an error."""
    if isinstance(error, Ended):
        return not isinstance(error, Locked) and error.status not in WRITES_NOTHING
    return isinstance(error, NotAReply)


def edit(stops: Stops, image: str, name: str, formula: str) -> None:
    command, shown = editor(), stops.heed(lambda: view(image, name, formula))
    for number in (signal.SIGINT, signal.SIGQUIT):
        # From now on a signal from the terminal is for the editor alone. A started program does not inherit a handler, as it would inherit an ignored
        # signal.
        signal.signal(number, lambda *_: None)
    path, editing, has_begun = draft_of(name, shown), None, False
    try:
        stops.ask()
        editing = started(command, path)
        text = edited(stops, editing, path)
        if text == shown:
            tell(f"{name}: nothing was changed")
        elif not text:
            raise Failed(f"{name}: the editor left an empty file, and only `lisfs put` removes all shown lines")
        else:
            stops.ask()
            has_begun = True
            written(stops, image, name, formula, shown, text)
    except (Failed, Stopped, Refused, Ended, NotAReply, OSError) as error:
        cause = cause_of(error, image, name, formula)
        if not editing:
            shutil.rmtree(os.path.dirname(path), ignore_errors=True)
            raise Failed(cause) from None
        done = "it is not known whether it was written" if has_begun and was_maybe_written(error) else "nothing was written"
        raise Failed(f"{cause}: {done}, and {what_is_left(path)}") from None
    shutil.rmtree(os.path.dirname(path), ignore_errors=True)


@quiet
def main() -> int:
    if len(sys.argv) != 4:
        hint = without_blanks([os.fsencode(word) for word in sys.argv[3:]])
        sys.exit(f"edit: {hint}" if hint else __doc__)
    if what := missing():
        sys.exit(f"edit: {what}")
    words = sys.argv[1:]
    try:
        edit(Stops(), *words)
    except (Failed, Stopped, Refused, Ended, NotAReply, OSError) as error:
        tell(cause_of(error, *words))
        return 1
    except KeyboardInterrupt:
        tell("stopped before the editor began")
        return 1
    return 0
