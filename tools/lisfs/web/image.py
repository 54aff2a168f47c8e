"""An open image as the pages need it: what a page asks the program, the changes, and the index, which is updated with them.

The program decides what a place is, and what it shows. The index says how many files each word leaves, and which files the place has. Each time the
two are compared: the files that no word covers must be those that the program shows, and each word must leave some files and not all.
"""
import functools
import hashlib
from collections.abc import Callable, Collection, Iterable, Mapping, Sequence
from typing import TYPE_CHECKING, NamedTuple, Protocol

from lisfs import image
from lisfs.client import Commands, Program, Refused, Retag, Retagged, as_content, as_lines, item, tag, undo, untag
from lisfs.constants import IN_USE, NO_FILE_HERE, REFUSAL_WORDS, UNKNOWN_PROPERTY
from lisfs.dumps import Axiom, Dump
from lisfs.index import File
from lisfs.formulas import Instead, replaced, without, words_in
from lisfs.limits import Limits, full
from lisfs.refusals import MEANT, about, sentence_about
from lisfs.web.places import Place
from lisfs.words import head_of, is_head, is_plain, is_test, is_word

if TYPE_CHECKING:
    from lisfs.served import News


# How often a place is read again, while others change what it shows.
TRIES = 20
# How many words of a file surely fit the line that makes it.
FEW = 8


class View(NamedTuple):
    """A place, its files as a row of bits, the words of its listing with the number of files that each leaves, and the files that no word covers."""
    place: Place
    here: int
    words: list[tuple[bytes, int]]
    locals: list[File]


class Differs(Exception):
    """The index and the program disagree about a place, even though the index was just made."""


class WrongWord(ValueError):
    """What was typed can't be one word of a command, or is not a word that a file can be given."""


class NothingToUndo(Exception):
    """No change was made, or the last one was undone."""


class OtherBytes(Exception):
    """A file has other bytes than when it was uploaded."""


class Undo(NamedTuple):
    """What a change did, and the function that undoes it."""

    told: str
    call: Callable[[], None]


class Retagging(Protocol):
    """The type of `client.tag` and `client.untag`."""

    def __call__(self, program: Commands, given: Mapping[bytes, Collection[bytes]], words: Iterable[bytes]) -> Retagged: ...


def text(data: bytes) -> str:
    """A word or a name as text. They have only ASCII bytes."""
    return data.decode(errors="replace")


class Image(image.Image[File]):
    def __init__(self, program: Program, dump: Dump, limits: Limits) -> None:
        super().__init__(program, dump, limits)
        self.axioms = set(dump.axioms)
        self.last: Undo | None = None
        self.describe(self.index.files.values())

    def _take_axioms(self, news: "News") -> None:
        self.axioms = set(news.axioms) if news.whole else self.axioms - news.unaxioms | news.axioms

    # Questions.

    def look(self, formula: bytes) -> View:
        """A place and what it shows. Raises `Refused` if the formula leads to none."""
        is_anew = False
        for _ in range(TRIES):
            _, printed, listing, _ = self.told((b"cd", formula), (b"pwd",), (b"ls",), (b"cd", b"/"))
            place = Place(printed[0][1])
            here = place.files(self.index)
            words = [(text, (self.index.having(text) & here).bit_count()) for letter, text in listing if letter == b"d"]
            shown = [text for letter, text in listing if letter == b"f"]
            if self._agrees(here, words, shown):
                return View(place, here, words, [self.index.files[name] for name in shown])
            # Another client may have changed something in between. If none has, the words of all files are asked for again.
            if not self.catch_up():
                if is_anew:
                    break
                self.describe(self.index.files.values())
                is_anew = True
        raise Differs(formula)

    def found(self, formula: bytes) -> tuple[View, Instead | None]:
        """The same. If no file has a word on one side of `|`, it is the place of the formula without that side, which is returned too."""
        try:
            return self.look(formula), None
        except Refused as refused:
            instead = without(formula, self._unknown(formula)) if refused.number == UNKNOWN_PROPERTY else None
            if instead is None:
                raise
            return self.look(instead.formula), instead

    def _unknown(self, formula: bytes) -> list[bytes]:
        """The words of a formula that the program does not know."""
        words = words_in(formula)
        answers = self._answers([*((b"cd", image.ROOT + word) for word in words), (b"cd", image.ROOT)])
        return [word for word, answer in zip(words, answers) if isinstance(answer, Refused) and answer.number == UNKNOWN_PROPERTY]

    def _agrees(self, here: int, words: list[tuple[bytes, int]], shown: list[bytes]) -> bool:
        whole, covered = here.bit_count(), 0
        for word, count in words:
            if not 0 < count < whole:
                return False
            covered |= self.index.having(word)
        return [file.name for file in self.index.of(here & ~covered)] == shown

    def is_assignable(self, word: bytes) -> bool:
        """Whether a file may be given this word."""
        return word in self.declared if is_plain(word) else not is_head(word) and head_of(word) in self.declared

    def about(self, refused: Refused) -> list[bytes]:
        """The words that a refusal is about, if any."""
        lefts = {left for left, _ in self.axioms}
        known = {word for word in (*self.index.words(), *self.declared, *lefts, *map(head_of, lefts)) if word}
        return about(refused, known if refused.command == "cd" else self.declared)

    def sentence(self, refused: Refused, command: str | None) -> str:
        """The sentence of a refusal of a command, with the words that it is about, and what helps if the image is full."""
        told, filled = sentence_about(refused.number, command, self.about(refused)), full(refused.number, self.limits)
        return f"{told} It has {filled.most}: {filled.helps}." if filled else told

    def meant(self, refused: Refused, formula: bytes) -> list[bytes]:
        """If no file has a value of a formula: the formulas with values that begin with it, which may have been meant."""
        for word in self.about(refused):
            if head_of(word) and (found := self.index.beginning(word)):
                return [replaced(formula, word, value) for value in found[:MEANT]]
        return []

    def file(self, name: bytes) -> tuple[File, list[bytes], bytes]:
        """A file of the index, the words of a route to it and its bytes."""
        way, content = self.asked((b"way", name), (b"cat", name))
        return self._file(name), [text for _, text in as_lines(way).body], as_content(content).body

    # Changes. Each is one command, and a refusal changes nothing. For the last one, what undoes it is kept.

    def _change(self, *command: bytes, at: bytes = image.ROOT) -> None:
        item(command, None, self.program.longest)
        with self.at(at):
            self.told(command)

    def _file(self, name: bytes) -> File:
        """The file of a name. If there is none, the program says so."""
        if name not in self.index.files:
            self.told((b"props", name))
            # The program has such a file, which another client has just made.
            self.catch_up()
        if name not in self.index.files:
            raise Refused(NO_FILE_HERE, REFUSAL_WORDS[NO_FILE_HERE])
        return self.index.files[name]

    def _can_undo(self, told: str, call: Callable[[], None]) -> None:
        self.last = Undo(told, call)

    def undo(self) -> None:
        """Undoes the last change. If that is refused, it stays the last one."""
        if not self.last:
            raise NothingToUndo
        self.last.call()
        self.last = None

    def give(self, name: bytes, word: bytes) -> bool:
        """Gives a file a word. Returns whether it had it already, automatically or by another word."""
        file = self._file(name)
        had = word in file.words
        self._retag(tag(self.program, {name: file.given}, self._words(word)), f"{text(word)} given to {text(name)}")
        return had

    def take(self, name: bytes, word: bytes) -> bool:
        """Takes a word from a file. Returns whether it still has it, since another word entails it."""
        file = self._file(name)
        self._retag(untag(self.program, {name: file.given}, self._words(word)), f"{text(word)} taken from {text(name)}")
        return word in file.words

    def give_all(self, names: Sequence[bytes], word: bytes) -> Retagged:
        """Gives several files a word. Returns what was changed, and what was refused."""
        return self._several(tag, names, word, "given to")

    def take_all(self, names: Sequence[bytes], word: bytes) -> Retagged:
        """Takes a word from those of several files that were given it."""
        return self._several(untag, names, word, "taken from")

    def _several(self, call: Retagging, names: Sequence[bytes], word: bytes, done: str) -> Retagged:
        given = {name: self._file(name).given for name in names}
        made = call(self.program, given, self._words(word))
        return self._take_in(made, f"{text(word)} {done} {len(made.done):,} files" if len(made.done) != 1 else
                             f"{text(word)} {done} {text(made.done[0].name)}")

    def _words(self, word: bytes) -> list[bytes]:
        if not is_word(word):
            raise WrongWord(word)
        return [word]

    def _retag(self, made: Retagged, told: str) -> None:
        """Applies what was changed. Raises the first refusal."""
        self._take_in(made, told)
        for _, refused in made.refused:
            raise refused

    def _take_in(self, made: Retagged, told: str) -> Retagged:
        """Applies changes of the words that files were given, and keeps what undoes them, if `told` says what they did."""
        for change, refused in made.refused:
            refused.command, refused.given = "mv", (change.name, b"/" + b"/".join(change.gains))
        changed = [self.index.files[change.name] for change in made.done]
        for file, change in zip(changed, made.done):
            file.given = file.given - set(change.loses) | set(change.gains)
        self.describe(changed)
        if made.done and told:
            self._can_undo(told, functools.partial(self._undo_words, made.done))
        return made

    def _undo_words(self, done: Sequence[Retag]) -> None:
        is_there = [change for change in done if change.name in self.index.files]
        self._retag(undo(self.program, is_there), "")

    def rename(self, name: bytes, other: bytes) -> None:
        self._rename(name, other)
        self._can_undo(f"{text(name)} renamed to {text(other)}", functools.partial(self._rename, other, name))

    def _rename(self, name: bytes, other: bytes) -> None:
        file = self._file(name)
        self._change(b"rename", name, other)
        self.index.rename(file, other)
        self.describe([file])

    def remove(self, name: bytes) -> None:
        file = self._file(name)
        content = as_content(self.asked((b"cat", name))[0]).body
        self._remove(name)
        self._can_undo(f"{text(name)} removed", functools.partial(self._add_again, name, content, sorted(file.given)))

    def _remove(self, name: bytes) -> None:
        file = self._file(name)
        self._change(b"rm", name)
        self.index.drop(file)

    def add(self, name: bytes, content: bytes, words: Sequence[bytes]) -> None:
        self._add(name, content, words)
        digest = hashlib.sha256(content).digest()
        self._can_undo(f"{text(name)} uploaded", functools.partial(self._remove_if, name, digest))

    def _add(self, name: bytes, content: bytes, words: Sequence[bytes]) -> None:
        try:
            self.program.add(name, content, *words)
        except Refused as refused:
            refused.command, refused.given = "add", (name, b"%d" % len(content), *words)
            raise
        self.describe([self.index.add(name, len(content), words)])

    def _add_again(self, name: bytes, content: bytes, words: Sequence[bytes]) -> None:
        """Makes a file again, with its words, for which one line may be too short."""
        self._add(name, content, words[:FEW])
        if words[FEW:]:
            self._retag(tag(self.program, {name: words[:FEW]}, words[FEW:]), "")

    def _remove_if(self, name: bytes, digest: bytes) -> None:
        """Removes a file that has the same bytes as when it was uploaded, since other bytes could not be restored."""
        if hashlib.sha256(as_content(self.asked((b"cat", name))[0]).body).digest() != digest:
            raise OtherBytes(name)
        self._remove(name)

    def declare(self, word: bytes, place: Place) -> None:
        """Declares a word under those of a place."""
        words = place.words or ()
        try:
            self._change(b"mkdir", word, at=place.text)
        except Refused as refused:
            if refused.number == UNKNOWN_PROPERTY:
                # The refusal is about the place.
                refused.given = words
            raise
        self.declared.add(word)
        self.axioms |= {Axiom(word, right) for right in words}
        if is_test(word):
            self.describe(self.index.files.values())
        self._can_undo(f"{text(word)} declared", functools.partial(self._undeclare, word, words))

    def _undeclare(self, word: bytes, words: Sequence[bytes]) -> None:
        """Removes the declaration of a word, and the axioms that came with it, unless it is in use by now."""
        others = self.axioms - {Axiom(word, right) for right in words}
        if not is_test(word) and self.index.having(word) or any(word in axiom or head_of(axiom.left) == word for axiom in others):
            raise Refused(IN_USE, REFUSAL_WORDS[IN_USE])
        for right in words:
            if Axiom(word, right) in self.axioms:
                self._unaxiom(word, right)
        self._take_back(word)

    def take_back(self, word: bytes) -> None:
        """Removes the declaration of a word."""
        self._take_back(word)
        self._can_undo(f"{text(word)} declared no more", functools.partial(self.declare, word, Place(b"/")))

    def _take_back(self, word: bytes) -> None:
        files = self.index.of(self.index.having(word))
        self._change(b"rmdir", word)
        self.declared.discard(word)
        self.describe(files)

    def axiom(self, left: bytes, right: bytes) -> None:
        self._axiom(left, right)
        self._can_undo(f"{text(left)} brings {text(right)}", functools.partial(self._unaxiom, left, right))

    def _axiom(self, left: bytes, right: bytes) -> None:
        self._change(b"axiom", left, right)
        self.axioms.add(Axiom(left, right))
        self.describe(self.index.of(self.index.having(left)))

    def unaxiom(self, left: bytes, right: bytes) -> None:
        self._unaxiom(left, right)
        self._can_undo(f"{text(left)} brings {text(right)} no more", functools.partial(self._axiom, left, right))

    def _unaxiom(self, left: bytes, right: bytes) -> None:
        files = self.index.of(self.index.having(left))
        self._change(b"unaxiom", left, right)
        self.axioms.discard(Axiom(left, right))
        self.describe(files)
