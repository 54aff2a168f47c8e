"""What undoes each command: other commands, all of them for the root, and words that files are given or that are taken from them."""
import re
from collections.abc import Callable, Mapping, Sequence
from typing import NamedTuple, TypeAlias

from lisfs.client import Retag
from lisfs.formulas import words_in
from lisfs.index import File
from lisfs.words import is_built_in, is_head

ROOT = b"/"
# How many changes are kept. Each may hold all bytes of a file.
UNDOABLE = 32
# The most words of an `add` line, so that it is not too long.
IN_A_LINE = 8
# Signs that a place of words does not have.
NO_WORDS = re.compile(rb"[|!<>]")


class Command(NamedTuple):
    """The words of a line, and the bytes after it."""

    words: tuple[bytes, ...]
    payload: bytes | None = None


class Change(NamedTuple):
    """A line that changed the image, what undoes it at the root, and the changes of words that must be undone after that."""

    line: bytes
    commands: tuple[Command, ...] = ()
    retags: tuple[Retag, ...] = ()


# The two parts that undo a change.
Undoing: TypeAlias = tuple[tuple[Command, ...], tuple[Retag, ...]]
Files: TypeAlias = Mapping[bytes, File]
NOTHING: Undoing = (), ()


def undoing(words: Sequence[bytes], place: bytes, files: Files, content: Callable[[bytes], bytes]) -> Undoing:
    """What will undo a command at a place. Errors of `content` pass through."""
    match list(words):
        case [b"mkdir", word]:
            return of_words(*((b"unaxiom", word, other) for other in words_in(place)), (b"rmdir", word))
        case [b"rmdir", word]:
            return of_words((b"mkdir", word))
        case [b"axiom", left, right]:
            return of_words((b"unaxiom", left, right))
        case [b"unaxiom", left, right]:
            return of_words((b"axiom", left, right))
        case [b"create" | b"add", name, *_]:
            return of_words((b"rm", name))
        case [b"rename", name, other]:
            return of_words((b"rename", other, name))
        case [b"write", name, _]:
            old = content(name)
            return (Command((b"write", name, b"%d" % len(old)), old),), ()
        case [b"rm", name] if name in files:
            return removed(files[name], content(name))
        case [b"mv", name, formula] if change := moving(name, place, formula, files):
            return (), (change,) if change.gains or change.loses else ()
    return NOTHING


def of_words(*commands: tuple[bytes, ...]) -> Undoing:
    return tuple(Command(words) for words in commands), ()


def removed(file: File, content: bytes) -> Undoing:
    """What makes a removed file again."""
    words = sorted(file.given)
    add = Command((b"add", file.name, b"%d" % len(content), *words[:IN_A_LINE]), content)
    return (add,), (Retag(file.name, loses=tuple(words[IN_A_LINE:])),) if words[IN_A_LINE:] else ()


def moving(name: bytes, place: bytes, formula: bytes, files: Files) -> Retag | None:
    """What `mv` does to a file, or None if it is refused, since there is no such file or one of the two places is not a place of words."""
    here, there = tags_of(place), tags_of(place_after(place, formula))
    if name not in files or here is None or there is None:
        return None
    given = files[name].given
    now = given - here | there
    return Retag(name, tuple(sorted(now - given)), tuple(sorted(given - now)))


def tags_of(place: bytes) -> set[bytes] | None:
    """The words that a file is given at a place, or None if it is not a place of words."""
    return None if NO_WORDS.search(place) else {word for word in words_in(place) if not is_head(word) and not is_built_in(word)}


def place_after(place: bytes, formula: bytes) -> bytes:
    """The place to which a formula leads."""
    if formula == b"..":
        return without_last_step(place)
    if formula.startswith(b"/"):
        return formula.removeprefix(b"/") or ROOT
    return formula if place == ROOT else place + b"/" + formula


def without_last_step(place: bytes) -> bytes:
    depth = 0
    for at in reversed(range(len(place))):
        depth += (place[at] == ord(")")) - (place[at] == ord("("))
        if place[at] == ord("/") and depth == 0:
            return place[:at] or ROOT
    return ROOT
