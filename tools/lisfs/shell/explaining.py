"""Refusals of the program, as a sentence for a person, with the word or the name that each is about.

The program returns a number. Which of several words it is about is found out here, from what is known of the image and by asking the program; if that
is impossible, the sentence names the words of the line.
"""
import difflib
import shlex
from collections.abc import Callable, Iterable, Sequence
from typing import TypeAlias

from lisfs import constants
from lisfs.client import Refused, words_of
from lisfs.constants import MAX_ASSIGNED, MAX_DESCRIPTION, MAX_DIGITS, MAX_FORMULA, MAX_NODES, V3_MAX_FILE
from lisfs.formulas import words_in
from lisfs.limits import blocks_of, full
from lisfs.refusals import MEANT, meaning, without_blanks
from lisfs.shell.commands import COMMANDS, FILES, WORDS, Part, most_of_line
from lisfs.shell.session import Session
from lisfs.showing import harmless
from lisfs.words import NAME_FORM, head_of, is_built_in, is_file_name, is_head, is_plain, is_test, is_word


class Failed(Exception):
    """What is wrong with a line, in a sentence."""


# The words after a command.
Words: TypeAlias = list[bytes]
# Makes a sentence from a command, its words and the session.
Explanation: TypeAlias = Callable[[str, Words, Session], str]


def said(*words: bytes) -> str:
    """Words of a line, as a sentence names them."""
    return ", ".join(map(harmless, words))


def of_files(count: int) -> str:
    return "1 file" if count == 1 else f"{count:,} files"


def meant(word: bytes, among: Iterable[bytes]) -> str:
    """A question for the word that may have been meant."""
    near = difflib.get_close_matches(harmless(word), map(harmless, among), 1, 0.75)
    return f"; is it `{near[0]}`?" if near else ""


def values_meant(words: Sequence[bytes], session: Session) -> str:
    """A question for the words that may have been meant: those that begin as a value does, or else a similar one."""
    for word in filter(head_of, words):
        if found := session.beginning(word):
            named = ", ".join(f"`{harmless(value)}`" for value in found[:MEANT])
            return f"; did you mean {named}{', ..' if len(found) > MEANT else ''}?"
    return meant(words[0], [value for value in session.known() if head_of(value) == head_of(words[0]) and not is_head(value)])


def sentence(refused: Refused, line: bytes, session: Session) -> str:
    """What a refusal of a line means. If the session has ended, `Ended` may be raised."""
    words = words_of(line)
    command, given = words[0].decode(errors="replace"), words[1:]
    explain = SENTENCES.get(refused.number)
    # A number that is not known here is that of a later program.
    return explain(command, given, session) if explain else f"{harmless(line)}: {refused.words}"


def bad_line(command: str, given: Words, _: object) -> str:
    if command not in COMMANDS:
        near = meant(command.encode(), [name.encode() for name in COMMANDS])
        return f"{harmless(command.encode())}: there is no such command{near or '; `help` lists all'}"
    form, parts = COMMANDS[command], COMMANDS[command].parts
    if len(given) > len(parts) and not form.repeats:
        hint = with_blanks(command, given, len(parts) - 1) if parts[-1:] == (Part.FORMULA,) else None
        return hint or f"{harmless(given[len(parts)])}: one word too many: usage: {form.form}"
    if len(given) >= form.needed:
        for word, part in zip(given, parts + parts[-1:] * len(given)):
            if part in FILES and not is_file_name(word):
                return f"{harmless(word)}: no name of a file, which has {NAME_FORM}"
            if part is Part.COUNT and not (word.isdigit() and len(word) <= MAX_DIGITS):
                return f"{harmless(word)}: no count of bytes"
            if part in WORDS and not is_word(word) and not is_test(word):
                return f"{harmless(word)}: no word: `music`, `year:`, `year:2003` or a test, as `size>=1000`; a part has {NAME_FORM}"
    return f"{command}: usage: {form.form}"


def with_blanks(command: str, given: Words, at: int, after: int = 0) -> str | None:
    """A sentence for a line whose formula begins at word `at` and has blanks, followed by `after` more words; None if its words make no formula."""
    end = len(given) - after
    first, last = ([shlex.quote(harmless(word)) for word in words] for words in (given[:at], given[end:]))
    hint = without_blanks(given[at:end], " ".join([command, *first, ""]), " ".join(["", *last]))
    # In a line of `grep` it may be the text that has blanks.
    return hint and f"{command}: {'a text with blanks needs quotes; ' if command == 'grep' else ''}{hint}"


def long_line(command: str, given: Words, session: Session) -> str:
    return f"{harmless(command.encode())[:60]}: the line has more than {most_of_line(command.encode()):,} bytes"


def cut_payload(command: str, given: Words, session: Session) -> str:
    return f"{said(*given[:1])}: the input ends within its {said(*given[1:2])} bytes"


def payload_end(command: str, given: Words, session: Session) -> str:
    return f"{said(*given[:1])}: no line ends after its {said(*given[1:2])} bytes, so their count is wrong; the rest of that line is dropped"


def formula(command: str, given: Words, session: Session) -> str:
    hint = without_blanks(given[-1].split())
    return f"{said(given[-1])}: {hint or 'no formula: words with `/` (and), `|` (or), `!` (not) and parentheses, without blanks'}"


def unknown(command: str, given: Words, session: Session) -> str:
    if command in ("cd", "find"):
        words = session.unknown(given[-1])
    elif command == "mkdir":
        words = [word for word in words_in(session.place) if word not in session.declared]
        return f"{said(*words or given)}: this word of the place is not declared any more; `cd /` first"
    elif command == "axiom":
        words = [given[1]] if given[1] not in session.declared else [given[0]]
    else:
        place = words_in(session.place) if command != "mv" or not given[1].startswith(b"/") else []
        words = [word for word in dict.fromkeys(words_given(command, given) + place)
                 if is_word(word) and not is_head(word) and not is_built_in(word) and not session.is_assignable(word)]
    if not words:
        return f"{said(*given[-1:])}: some word of it is not known"
    first = words[0]
    is_value = not is_plain(first) and not is_head(first) and not is_test(first)
    if is_built_in(first) or is_value and head_of(first) in session.declared:
        return f"{said(*words)}: no file has {'it' if len(words) == 1 else 'them'}{values_meant(words, session)}"
    needed = is_value and head_of(first) or first
    if first in session.names:
        return f"{said(first)}: this is the name of a file, and no word"
    near = meant(first, session.known() if command in ("cd", "find") else session.declared)
    if len(words) > 1:
        return f"{said(*words)}: these words are not known{near}"
    return f"{said(first)}: this word is not known{near or f'; `mkdir {harmless(needed)}` declares it'}"


def words_given(command: str, given: Words) -> Words:
    """The words of a line that a file would be given."""
    return words_in(given[1]) if command == "mv" else given[2:] if command == "add" else given[1:]


def large_formula(command: str, given: Words, session: Session) -> str:
    return f"{said(*given[-1:])}: too large: a place has at most {MAX_NODES} words and signs, and {MAX_FORMULA:,} bytes"


def not_a_place(command: str, given: Words, session: Session) -> str:
    place = harmless(session.place)
    if command == "mkdir":
        return f"{said(*given)}: a word is declared at the root or at a place of plain words, and not at {place}"
    if command == "mv":
        return f"{said(*given[:1])}: not from {place} to {said(given[1])}: one of them has `|`, `!` or a test in it, and so no words of its own"
    return f"{said(*given[:1])}: no file is made at {place}, which has `|`, `!` or a test in it, and so no words to give it"


def name_taken(command: str, given: Words, session: Session) -> str:
    return f"{said(given[1] if command == 'rename' else given[0])}: there is a file of this name already"


def no_such_file(command: str, given: Words, session: Session) -> str:
    name = given[0]
    if name in session.names:
        return f"{said(name)}: this file is not here, but elsewhere; all files are at `/`"
    hint = f"; it is a word: `cd {said(name)}`" if name in session.declared else meant(name, session.names)
    return f"{said(name)}: there is no file of this name{hint}"


def declared(command: str, given: Words, session: Session) -> str:
    return f"{said(*given)}: this word is declared already"


def not_declared(command: str, given: Words, session: Session) -> str:
    return f"{said(*given)}: no such word is declared{meant(given[0], session.declared)}"


def in_use(command: str, given: Words, session: Session) -> str:
    axioms = [pair for pair in sorted(session.axioms) if given[0] in pair or head_of(pair[0]) == given[0]]
    if axioms:
        return f"{said(*given)}: an axiom names it: {said(axioms[0][0])} entails {said(axioms[0][1])}"
    return f"{said(*given)}: a file has this word: `find /{said(*given)}`"


def not_assignable(command: str, given: Words, session: Session) -> str:
    if command == "mkdir":
        return f"{said(*given)}: a value is not declared, but its head is: `mkdir {said(head_of(given[0]) or given[0])}`"
    if command == "rmdir":
        return f"{said(*given)}: a value is not declared; it goes with the last file that has it"
    if command == "axiom":
        return f"{said(given[1])}: only a plain word can be entailed, and no head, value or test"
    words = words_given(command, given)
    if tests := [word for word in words if is_test(word)]:
        return f"{said(tests[0])}: a file has this by its size, and is not given it"
    heads = [word for word in words if is_head(word)] or words
    return f"{said(heads[0])}: a file is given a value of this head, as `{said(heads[0])}x`"


def cycle(command: str, given: Words, session: Session) -> str:
    left, right = map(harmless, given)
    return f"{left}: a word entails itself" if left == right else f"{left}, {right}: {right} entails {left} already, and this would be a circle"


def axiom_there(command: str, given: Words, session: Session) -> str:
    return f"{said(*given)}: there is this axiom already"


def no_such_axiom(command: str, given: Words, session: Session) -> str:
    return f"{said(*given)}: there is no axiom that {said(given[0])} entails {said(given[1])}"


def too_many_given(command: str, given: Words, session: Session) -> str:
    return f"{said(*given[:1])}: a file is given at most {MAX_ASSIGNED} words, those of the place counted"


def too_many_had(command: str, given: Words, session: Session) -> str:
    whose = "some file" if command in ("mkdir", "axiom") else "it"
    return f"{said(*given[:1])}: {whose} would have more than {MAX_DESCRIPTION} words, with all that they entail"


def file_too_large(command: str, given: Words, session: Session) -> str:
    count = int(given[1])
    # A count that is too large for a line has no number.
    many = f"{count:,}" if count <= V3_MAX_FILE else f"more than {V3_MAX_FILE:,}"
    return f"{said(*given[:1])}: it has {many} bytes, and a file of this image at most {session.limits.file_bytes:,}"


def no_room(number: int, room: str, way: str) -> Explanation:
    """The explanation for a full image: what it has no room for, and a way to make room in it."""
    def explain(command: str, given: Words, session: Session) -> str:
        about = given if command == "axiom" else given[:1]
        more = blocks_of(int(given[1])) if number == constants.NO_SPACE and command in ("add", "write") else 0
        found = full(number, session.limits, more)
        assert found
        return f"{said(*about)}: the image has no room for {room} ({found.most}): {way}; or {found.helps}"
    return explain


def built_in(command: str, given: Words, session: Session) -> str:
    words = given if command in ("mkdir", "rmdir") else words_given(command, given)
    words = [word for word in words if is_built_in(word)] or given
    return f"{said(*words)}: files have such words on their own, and nobody gives or declares them"


def of_put(number: int) -> Explanation:
    return lambda command, given, session: f"{said(*given[:1])}: {meaning(number)}"


SENTENCES: dict[int, Explanation] = {
    constants.BAD_LINE: bad_line,
    constants.LONG_LINE: long_line,
    constants.CUT_PAYLOAD: cut_payload,
    constants.PAYLOAD_END: payload_end,
    constants.BAD_FORMULA: formula,
    constants.UNKNOWN_PROPERTY: unknown,
    constants.LARGE_FORMULA: large_formula,
    constants.NOT_A_PLACE: not_a_place,
    constants.NAME_TAKEN: name_taken,
    constants.NO_FILE_HERE: no_such_file,
    constants.ALREADY_DECLARED: declared,
    constants.NOT_DECLARED: not_declared,
    constants.IN_USE: in_use,
    constants.NOT_ASSIGNABLE: not_assignable,
    constants.CYCLE: cycle,
    constants.AXIOM_THERE: axiom_there,
    constants.NO_AXIOM: no_such_axiom,
    constants.TOO_MANY_ASSIGNED: too_many_given,
    constants.LARGE_DESCRIPTION: too_many_had,
    constants.LARGE_FILE: file_too_large,
    constants.NO_FILE_ROOM: no_room(constants.NO_FILE_ROOM, "another file", "`rm` one"),
    constants.NO_PROPERTY_ROOM: no_room(constants.NO_PROPERTY_ROOM, "more words", "take some back"),
    constants.NO_AXIOM_ROOM: no_room(constants.NO_AXIOM_ROOM, "another axiom", "take one back"),
    constants.NO_SPACE: no_room(constants.NO_SPACE, "its bytes", "`rm` files with bytes"),
    constants.BUILT_IN: built_in,
    constants.NOT_IN_FORM: of_put(constants.NOT_IN_FORM),
    constants.OTHER_MARKS: of_put(constants.OTHER_MARKS),
}
