"""The shell's own commands that change words of files, and `undo`."""
import contextlib
from collections.abc import Iterator, Sequence
from typing import NamedTuple

from lisfs.client import Refused, Retag, Retagged, counts_in, gains_of, losses_of
from lisfs.constants import BUILT_IN, LARGE_DESCRIPTION, MAX_ASSIGNED, NO_PROPERTY_ROOM, NOT_ASSIGNABLE, REFUSAL_WORDS, TOO_MANY_ASSIGNED, UNKNOWN_PROPERTY
from lisfs.index import File
from lisfs.shell.commands import ASKED
from lisfs.shell.earlier import Earlier, NotUndone
from lisfs.shell.explaining import Failed, bad_line, of_files, said, sentence, with_blanks
from lisfs.shell.looking import elsewhere
from lisfs.shell.session import NothingKept, NoWayBack, Session
from lisfs.shell.terminal import Screen
from lisfs.shell.undoing import moving
from lisfs.words import is_built_in, is_head, is_test, is_word

# How many refusals of one command are shown.
SHOWN = 5
# Refusals that concern one file, so that another one may still be changed.
OF_ONE_FILE = (TOO_MANY_ASSIGNED, LARGE_DESCRIPTION)
NO_WAY_BACK = "there is no way back to this place, which is too long for a line: `cd` elsewhere first"


class Wanted(NamedTuple):
    """Files, and words that they should be given or lose."""

    files: list[File]
    words: list[bytes]


class Tagging:
    def __init__(self, session: Session, screen: Screen, earlier: Earlier | None = None) -> None:
        self.session, self.screen, self.earlier = session, screen, earlier

    # Words of several files.

    def tag(self, line: bytes, given: Sequence[bytes]) -> None:
        files, words = self.wanted("tag", given)
        self.judge(words)
        changes = gains_of({file.name: file.given for file in files}, words)
        fitting = [change for change in changes if len(self.session.index.files[change.name].given) + len(change.gains) <= MAX_ASSIGNED]
        if fitting:
            self.judge_room(words)
        self.change(line, changes, len(files), f"give {said(*words)} to", len(fitting))

    def untag(self, line: bytes, given: Sequence[bytes]) -> None:
        files, words = self.wanted("untag", given)
        known = self.session.known()
        for word in words:
            if word not in known:
                raise Failed(sentence(refusal_of(UNKNOWN_PROPERTY), b"cd " + word, self.session))
        changes = losses_of({file.name: file.given for file in files}, words)
        self.change(line, changes, len(files), f"take {said(*words)} from", len(changes))
        self.session.described()
        if still := sum(not file.words.isdisjoint(words) for file in files):
            self.screen.lines([f"{said(*words)}: {of_files(still)} kept it: another word entails it, or the file has it on its own"])

    def wanted(self, command: str, given: Sequence[bytes]) -> Wanted:
        """Finds which arguments are files, and which are words: the name of a file of the place is a file, and anything else is a word. `WORD in
        FORMULA` is a word and the files of another place."""
        if len(given) == 3 and given[1] == b"in":
            words = [given[0]]
            with elsewhere(self.session, self.screen, command, given[2]):
                files = self.session.files()
        else:
            names = {word: None for word in dict.fromkeys(given) if self.session.is_here(word)}
            words = [word for word in dict.fromkeys(given) if word not in names]
            files = [self.session.index.files[name] for name in names]
            if not files or not words:
                raise Failed(self.lacking(command, given, bool(files)))
        for word in words:
            if is_test(word):
                raise Failed(sentence(refusal_of(NOT_ASSIGNABLE), b"create x " + word, self.session))
            if not is_word(word):
                raise Failed(bad_line("create", [b"x", word], self.session))
        return Wanted(files, words)

    def judge(self, words: Sequence[bytes]) -> None:
        """Refuses words that no file can be given, as the program would, before the person is asked. Raises `Failed`."""
        for word in words:
            if is_built_in(word):
                raise Failed(sentence(refusal_of(BUILT_IN), b"mv x /" + word, self.session))
            if is_head(word):
                raise Failed(sentence(refusal_of(NOT_ASSIGNABLE), b"mv x /" + word, self.session))
            if not self.session.is_assignable(word):
                raise Failed(sentence(refusal_of(UNKNOWN_PROPERTY), b"mv x /" + word, self.session))

    def judge_room(self, words: Sequence[bytes]) -> None:
        """The same for new words, if the image has no room for them."""
        known = self.session.known()
        new = [word for word in words if word not in known]
        if new and counts_in(self.session.program.stat().body)["known"] + len(new) > self.session.limits.words:
            raise Failed(sentence(refusal_of(NO_PROPERTY_ROOM), b"tag " + new[0], self.session))

    def lacking(self, command: str, given: Sequence[bytes], has_files: bool) -> str:
        usage = f"usage: {command} FILE.. WORD.., or {command} WORD in FORMULA"
        if given[1:2] == [b"in"] and len(given) > 3 and (hint := with_blanks(command, list(given), 2)):
            return hint
        if not given:
            return f"{command}: {usage}"
        if has_files:
            return f"{said(*given)}: no word is among these, since each is the name of a file here: {usage}"
        return f"{said(*given)}: no file of this place is among these: {usage}"

    def change(self, line: bytes, changes: Sequence[Retag], count: int, question: str, fitting: int) -> None:
        """Changes some of `count` files. `fitting` of them have room for the words."""
        if fitting > ASKED and self.screen.asks and not self.screen.says_yes(f"{question} {of_files(fitting)}?"):
            raise Failed("nothing was changed")
        with self.staying(said(line.split()[0])):
            found = self.session.retag(line, changes, self.goes_on)
        changed = len({change.name for change in found.done})
        if changed or not found.refused:
            self.screen.lines([f"{changed:,} of {of_files(count)} changed"])
        self.tell_refusals(found)

    def goes_on(self, found: Retagged) -> bool:
        return not self.screen.interrupts.has_come and (not found.refused or found.refused[-1][1].number in OF_ONE_FILE)

    def tell_refusals(self, found: Retagged) -> None:
        """A sentence for each file that was refused, up to a number."""
        told = [sentence(refused, b"mv %b /%b" % (change.name, b"/".join(change.gains)), self.session) for change, refused in found.refused[:SHOWN]]
        if len(found.refused) > SHOWN:
            told.append(f"and {of_files(len(found.refused) - SHOWN)} more")
        for line in told[:-1]:
            self.screen.complain(line)
        if told:
            raise Failed(told[-1])

    # One file.

    def asks_to_move(self, given: Sequence[bytes]) -> None:
        """On a terminal, shows which words `mv` takes and gives, and asks. A command that the program refuses causes no question."""
        if not self.screen.asks or len(given) != 2 or not self.session.is_here(given[0]):
            return
        change = moving(given[0], self.session.place, given[1], self.session.index.files)
        if change is None or not all(map(self.session.is_assignable, change.gains)) or not (change.gains or change.loses):
            return
        parts = [f"{verb} {said(*words)}" for verb, words in (("loses", change.loses), ("gains", change.gains)) if words]
        if not self.screen.says_yes(f"{said(given[0])} {' and '.join(parts)}: move it?"):
            raise Failed(f"{said(given[0])}: it was not moved")

    # The last change.

    def undo(self, given: Sequence[bytes]) -> None:
        if given:
            raise Failed(bad_line("undo", list(given), self.session))
        is_earlier = not self.session.kept and self.find_earlier()
        last = self.session.kept[-1].line if self.session.kept else b""
        try:
            with self.staying("undo"):
                line = self.session.undo(self.goes_on)
        except NothingKept:
            raise Failed("undo: there is nothing to undo: no change of this shell is kept any more, or none was made") from None
        except Refused as refused:
            raise Failed(f"undo: {said(last)}: can't be undone now ({refused.words}); it is kept, and `undo` tries it again") from None
        self.screen.lines([f"undone: {said(line.strip())}{' (of an earlier shell)' if is_earlier else ''}"])

    def find_earlier(self) -> bool:
        """Finds whether the last change of an earlier shell should be undone; it is then among those that are kept."""
        try:
            change = self.earlier.change() if self.earlier else None
        except NotUndone as error:
            raise Failed(f"undo: {said(error.line.strip())}, of an earlier shell: {error.why}") from None
        if change:
            self.session.kept.append(change)
        return change is not None

    @contextlib.contextmanager
    def staying(self, command: str) -> Iterator[None]:
        """Changes at the root in a block, after which the place is the same; or the root, if the changes have removed a word of it."""
        place = self.session.place
        try:
            yield
        except NoWayBack:
            raise Failed(f"{command}: {NO_WAY_BACK}") from None
        finally:
            if self.session.place != place:
                self.screen.note(f"{said(place)}: a word of this place is not known any more, so the place is / now")


def refusal_of(number: int) -> Refused:
    return Refused(number, REFUSAL_WORDS[number])
