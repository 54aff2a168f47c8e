"""What refusals mean: one row each, with the text of each tool. `constants` has their numbers, and the words that the program shows.

- `means` is a clause, after "it is refused if": help has a list of them.
- `sentence` is a whole sentence, for a page, and `error` the error of a file system. Refusals of `put` alone have none, since no session meets them.
- `cause` is a short cause, for a report of many files.
"""
import errno
from collections.abc import Container, Sequence
from typing import NamedTuple, Protocol

from lisfs.constants import (
    ALREADY_DECLARED, AXIOM_THERE, BAD_FORMULA, BAD_LINE, BUILT_IN, BUILT_IN_HEADS, CUT_PAYLOAD, CYCLE, IN_USE, LARGE_DESCRIPTION, LARGE_FILE,
    LARGE_FORMULA, LONG_LINE, MAX_ASSIGNED, MAX_DESCRIPTION, MAX_FILE, MAX_FORMULA, MAX_LARGE_FILE, MAX_LINE, MAX_NODES, NAME_TAKEN, NO_AXIOM,
    NO_AXIOM_ROOM, NO_FILE_HERE, NO_FILE_ROOM, NO_PROPERTY_ROOM, NO_SPACE, NOT_A_PLACE, NOT_ASSIGNABLE, NOT_DECLARED, NOT_IN_FORM, OTHER_MARKS,
    PAYLOAD_END, TOO_MANY_ASSIGNED, UNKNOWN_PROPERTY, V3_MAX_FILE)
from lisfs.formulas import Instead, joined, words_in
from lisfs.words import NAME_FORM, head_of, is_file_name, is_plain, is_test, is_word


class Refusal(NamedTuple):
    """What a refusal means. A field is None if no tool needs it."""

    means: str
    sentence: str | None = None
    error: int | None = None
    cause: str | None = None


class Numbered(Protocol):
    """A refusal of the program, as `client.Refused` is: of this command, with the words after its name."""

    number: int
    command: str
    given: tuple[bytes, ...]


class OfCommand(NamedTuple):
    """What it means for one command. None means the same as for all."""

    means: str | None
    sentence: str | None = None


# The number with which a server refuses to change a file that another client has changed. The program has no such number.
CHANGED = 0
*HEADS, LAST_HEAD = (head.decode() for head in BUILT_IN_HEADS)
NO_WORDS = "has `|`, `!` or a test in it, and so no words of its own"
REFUSALS = {
    BAD_LINE: Refusal(
        "the line is not in the form of the command",
        f"A name has {NAME_FORM}. So has a word, which does not begin with a full stop and may have one colon.", errno.EINVAL),
    LONG_LINE: Refusal(
        f"the line has more than {MAX_LINE:,} bytes", f"This is longer than a line may be, which has {MAX_LINE:,} bytes.", errno.ENAMETOOLONG),
    CUT_PAYLOAD: Refusal("the input ends within the bytes of a file", "The bytes of the file were cut off.", errno.EIO),
    PAYLOAD_END: Refusal(
        "something other than the end of a line follows the bytes of a file, so their count is wrong",
        "The bytes of the file do not end where they should.", errno.EIO),
    BAD_FORMULA: Refusal(
        "FORMULA is no formula",
        "This is no formula. Words stand alone or are joined by / for and, | for or, ! for not, with parentheses, as in music/!(live|year:1999).",
        errno.EINVAL),
    UNKNOWN_PROPERTY: Refusal(
        "a word is not known", "A word in it is not known here: no file has it, and nobody has declared it.", errno.ENOENT),
    LARGE_FORMULA: Refusal(
        f"FORMULA has more than {MAX_FORMULA:,} bytes, or the place would have more than {MAX_NODES} words and signs",
        f"The place would be too large: it has at most {MAX_NODES} parts and {MAX_FORMULA:,} bytes.", errno.ENAMETOOLONG),
    NOT_A_PLACE: Refusal(
        f"the place {NO_WORDS}", "That is not a place of words alone, so a file or a word can't be put there.", errno.EPERM),
    NAME_TAKEN: Refusal("a file has this name already", "A file has this name already.", errno.EEXIST, "the name is taken"),
    NO_FILE_HERE: Refusal("no file of this name is here", "There is no file of this name here.", errno.ENOENT, "it is not there any more"),
    ALREADY_DECLARED: Refusal("the word is declared already", "The word is declared already.", errno.EEXIST),
    NOT_DECLARED: Refusal("no such word is declared", "The word is not declared.", errno.ENOENT),
    IN_USE: Refusal(
        "the word is in use: a file has it, or an axiom names it", "The word is in use: a file has it, or an axiom names it.", errno.ENOTEMPTY),
    NOT_ASSIGNABLE: Refusal(
        "a word is of the wrong kind",
        "This word can't be given to a file: a head needs a value, as in year:2003, and a test is met by a file's size alone.", errno.EPERM),
    CYCLE: Refusal(
        "RIGHT entails LEFT already: this would be a circle", "That would close a circle: the right word entails the left one already.",
        errno.EINVAL),
    AXIOM_THERE: Refusal("there is this axiom already", "This axiom is there already.", errno.EEXIST),
    NO_AXIOM: Refusal("there is no such axiom", "There is no such axiom.", errno.ENOENT),
    TOO_MANY_ASSIGNED: Refusal(
        f"the file would be given more than {MAX_ASSIGNED} words", f"A file has at most {MAX_ASSIGNED} words that it was given.", errno.EMLINK),
    LARGE_DESCRIPTION: Refusal(
        f"a file would have more than {MAX_DESCRIPTION} words, with all that they entail",
        f"Some file would have more than {MAX_DESCRIPTION} words, those that others entail counted.", errno.EMLINK,
        "more words than a file may have"),
    LARGE_FILE: Refusal(
        f"the file has too many bytes: at most {MAX_FILE:,}, {MAX_LARGE_FILE:,} in an image of version 2, or {V3_MAX_FILE:,} in one of version 3",
        "The file is too large for this image.", errno.EFBIG, "it is too large for this image"),
    NO_FILE_ROOM: Refusal(
        "the image has no room for another file", "The image is full: it can hold no more files.", errno.ENOSPC, "no room for more files"),
    NO_PROPERTY_ROOM: Refusal(
        "the image has no room for more words", "The image is full: it can know no more words.", errno.ENOSPC, "no room for more words"),
    NO_AXIOM_ROOM: Refusal("the image has no room for another axiom", "The image is full: it can hold no more axioms.", errno.ENOSPC),
    NO_SPACE: Refusal(
        "the image has no room for the bytes", "The image is full: its blocks have no room for so many bytes.", errno.ENOSPC,
        "no room for its bytes"),
    BUILT_IN: Refusal(
        f"a word is one that files have on their own, as those of {' and '.join(HEADS[:2])}",
        f"The words of {', '.join(HEADS)} and {LAST_HEAD} come from a file itself, and nobody declares or gives them.", errno.EPERM),
    NOT_IN_FORM: Refusal("what was edited is no view of a file"),
    OTHER_MARKS: Refusal("the marks of hidden lines are not those of the view"),
}
# Refusals with a more exact meaning for some commands.
OF_COMMANDS: dict[tuple[str, int], OfCommand] = {
    ("mkdir", NOT_A_PLACE): OfCommand(
        "the place is neither the root nor made of plain words alone", "A word is declared at the root, or at a place of plain words alone."),
    ("mkdir", UNKNOWN_PROPERTY): OfCommand(
        "a word of the place is not declared any more", "A word of this place is not declared, so nothing can be declared under it."),
    ("mkdir", NOT_ASSIGNABLE): OfCommand(
        "WORD has a value: only heads are declared, as `mkdir year:`",
        "A word with a value is not declared: declare its head, as year: for year:2003."),
    ("rmdir", NOT_ASSIGNABLE): OfCommand(
        "WORD has a value, which goes with the last file that has it", "A word with a value is not declared, and so it can't be taken back."),
    ("axiom", NOT_ASSIGNABLE): OfCommand(
        "RIGHT is not plain: nothing entails a head, a value or a test", "The right side of an axiom is a plain word, as music."),
    ("axiom", UNKNOWN_PROPERTY): OfCommand(
        "RIGHT is not declared, or LEFT neither declared nor a value of a head", "The right word is not declared, or the left one is not known."),
    ("add", UNKNOWN_PROPERTY): OfCommand(None, "A word is not declared: declare it first, or for year:2003 its head year:."),
    ("mv", UNKNOWN_PROPERTY): OfCommand(None, "The word is not declared: declare it first, or for year:2003 its head year:."),
    ("mv", NOT_A_PLACE): OfCommand(f"this place or the other one {NO_WORDS}"),
    ("mv", NOT_ASSIGNABLE): OfCommand("FORMULA has a head: a file is given a value of it, as `year:2003`"),
    ("rename", NAME_TAKEN): OfCommand("a file has the name OTHER already"),
    **{(name, NOT_ASSIGNABLE): OfCommand("a WORD is a head, of which a file is given a value, or a test, which is not given")
       for name in ("create", "add", "put")},
}
OF_ALL = OfCommand(None)


def of_command(number: int, command: str | None) -> OfCommand:
    return OF_COMMANDS.get((command, number), OF_ALL) if command else OF_ALL


def meaning(number: int, command: str | None = None) -> str:
    """What a refusal of a command means, as a clause."""
    return of_command(number, command).means or REFUSALS[number].means


def sentence(number: int, command: str | None = None) -> str:
    """The same as a sentence. A number that is not known here is that of a later program."""
    return (of_command(number, command).sentence or number in REFUSALS and REFUSALS[number].sentence
            or f"The program refuses it, by number {number}.")


# How many words that may have been meant are named.
MEANT = 5
# How many words after these commands are names of files, and how many more are not words of files.
NAMES = {"create": 1, "add": 1, "write": 1, "cat": 1, "mv": 1, "rename": 2, "rm": 1, "props": 1, "way": 1}
OTHERS = {"add": 1, "write": 1}
FORMULAS = ("cd", "mv")


def about(refusal: Numbered, known: Container[bytes]) -> list[bytes]:
    """The words of a command that a refusal as `no 01` or `no 06` is about; none for another refusal. `known` has the declared words, and for `cd`
    all known words. If these don't show which word it is, all are returned."""
    names = NAMES.get(refusal.command, 0)
    behind = list(refusal.given[names + OTHERS.get(refusal.command, 0):])
    if refusal.number == BAD_LINE:
        bad = [word for word in behind if not is_word(word) and not is_test(word) and refusal.command not in FORMULAS]
        return [word for word in refusal.given[:names] if not is_file_name(word)] + bad
    if refusal.number != UNKNOWN_PROPERTY:
        return []
    if refusal.command in FORMULAS:
        behind = words_in(behind[0])
    elif refusal.command == "axiom":
        # The right side is checked first.
        behind = [word for word in behind[1:] if word not in known] or behind[:1]
    unknown = [word for word in behind if word not in known and (refusal.command == "cd" or not is_value_of(word, known))]
    return unknown or behind


def is_value_of(word: bytes, known: Container[bytes]) -> bool:
    """Whether a word is a value of a known head."""
    head = head_of(word)
    return head is not None and head != word and head in known


def named(refusal: Numbered, known: Container[bytes] = frozenset()) -> str:
    """A refusal as it is shown, with the words that it is about."""
    words = about(refusal, known)
    return f"{refusal}: {said(words)}" if words else str(refusal)


def said(words: Sequence[bytes]) -> str:
    """Several words as a list in a text."""
    return ", ".join(word.decode(errors="backslashreplace") for word in words)


def sentence_about(number: int, command: str | None, words: Sequence[bytes]) -> str:
    """The sentence of a refusal, which names the words that it is about."""
    if not words or number not in (BAD_LINE, UNKNOWN_PROPERTY):
        return sentence(number, command)
    this, are, them = ("this word", "is", "it") if len(words) == 1 else ("these words", "are", "them")
    if number == BAD_LINE:
        return f"{said(words)}: {'no word or name' if len(words) == 1 else 'no words or names'}. {sentence(number, command)}"
    if command == "mkdir":
        return f"{said(words)}: {this} of the place {are} not declared, so nothing can be declared under {them}."
    if command in ("create", "add", "mv"):
        needed = list(dict.fromkeys(word if is_plain(word) else head_of(word) or word for word in words))
        return f"{said(words)}: not declared. Declare {said(needed)} first."
    return f"{said(words)}: not known here. No file has {them}, and nobody has declared {them}."


def left_out(instead: Instead) -> str:
    """A clause for words that no file has, and that are left out of a formula."""
    return f"{said(instead.unused)}: no file has {'this word' if len(instead.unused) == 1 else 'these words'}, so the formula is `{said([instead.formula])}`"


def without_blanks(words: Sequence[bytes], before: str = "", after: str = "") -> str | None:
    """Says that several words should be one formula, and shows that formula in its line, between two texts; None if they make no formula."""
    found = joined(words)
    return f"a formula has no blanks, and `/` joins its words: `{before}{said([found])}{after}`" if found else None


def error_of(number: int) -> int:
    """The error of a file system for a refusal."""
    return number in REFUSALS and REFUSALS[number].error or errno.EIO


def cause_of(refusal: Numbered, known: Container[bytes] = frozenset()) -> str:
    """The cause in a few words, or else the refusal as it is shown, with the words that it is about."""
    if refusal.number == CHANGED:
        return "another client has changed it meanwhile"
    row = REFUSALS.get(refusal.number)
    return row and row.cause or named(refusal, known)
