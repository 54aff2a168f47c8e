"""An open image as a mount needs it: what folders show, what is in files, and the commands that change them.

Each change is one command of the program, and is applied here once its `ok` has come. The words of a changed file are asked for when they are needed,
those of many files at once, and so are the derived words of files that existed at the start.

A new file that is being written is known here earlier: it waits for its bytes, so that one `add` makes it whole, since `create` and `write` would be
two changes. It waits only if nothing can keep the program from making it, and until anything else must be changed or asked.
"""
import collections
import errno
import functools
from collections.abc import Iterable
from typing import TYPE_CHECKING, NamedTuple

from lisfs import image
from lisfs.client import NotSent, Program, Refused
from lisfs.constants import MAX_ASSIGNED, MAX_DESCRIPTION, MAX_LINE, MAX_WORD
from lisfs.dumps import Dump
from lisfs.formulas import Place
from lisfs.limits import Limits
from lisfs.mount.nodes import File
from lisfs.words import TEST, head_of, is_head, is_plain, is_test, is_word

if TYPE_CHECKING:
    from lisfs.served import News

# How many bytes of files are kept in memory, the most recently used ones.
KEPT = 32 * 1_048_576


class Listing(NamedTuple):
    """The words, and the files, that a place shows."""

    words: list[bytes]
    files: list[File]


def is_stronger(test: bytes, other: bytes) -> bool:
    """Whether a word is a test that entails another one, and differs from it."""
    one, two = TEST.fullmatch(test), TEST.fullmatch(other)
    if not one or not two or one[1] != two[1]:
        return False
    return int(one[2]) > int(two[2]) if one[1] == b">=" else int(one[2]) < int(two[2])


class Image(image.Image[File]):
    def __init__(self, program: Program, dump: Dump, limits: Limits) -> None:
        super().__init__(program, dump, limits, File)
        self.files, self.numbers = self.index.files, 0
        for file in self.files.values():
            self._number(file)
        # What axioms entail: the right sides of each left side, and the left sides of each right side.
        self.axioms: dict[bytes, set[bytes]] = {}
        self.lefts: dict[bytes, set[bytes]] = {}
        for left, right in dump.axioms:
            self.axioms.setdefault(left, set()).add(right)
            self.lefts.setdefault(right, set()).add(left)
        # The files whose words are not known since they were changed, and the files of which only the words that come from given ones are known.
        self.stale, self.unasked = set(self.files.values()), set[File]()
        self._know_given()
        # The declared words that lost their last file and were in no listing since.
        self.unseen: set[bytes] = set()
        self.contents: collections.OrderedDict[File, bytes] = collections.OrderedDict()
        self.content_bytes = 0
        # The file that waits, or None.
        self.waiting: File | None = None
        # The files that another client has made, until their attributes are set.
        self.fresh: list[File] = []
        # How many words a new file may bring, by the words of its place and its suffix, and how many more there surely is room for.
        self.brought: dict[tuple[tuple[bytes, ...] | None, bytes], int] = {}
        self.spare = 0

    def _know_given(self) -> None:
        """At first only the words that come from given ones are known, since asking for all takes long, and most folders need no derived words. All
        are asked for if a test, or an axiom over a derived word, may give a file a declared word."""
        if any(map(is_test, self.declared)) or any(map(self.is_derived, self.axioms)):
            return
        entailed = functools.cache(lambda word: frozenset(self.entailed([word])))
        for file in self.stale:
            self.index.describe(file, frozenset().union(*map(entailed, file.given)))
        self.stale, self.unasked = self.unasked, self.stale

    def _number(self, file: File) -> None:
        self.numbers += 1
        file.number = self.numbers

    def _take(self, name: bytes, size: int, given: Iterable[bytes]) -> File:
        file = self.index.add(name, size, given)
        self._number(file)
        self.stale.add(file)
        return file

    # What others change.

    def _is_there(self, name: bytes, size: int, words: frozenset[bytes]) -> File:
        if name in self.files:
            return super()._is_there(name, size, words)
        file = self._take(name, size, words)
        self.fresh.append(file)
        return file

    def _is_removed(self, file: File) -> None:
        self._forget(file)
        file.is_lost = True

    def _take_axioms(self, news: "News") -> None:
        if news.whole:
            self.axioms.clear()
        for left, right in news.axioms:
            self.axioms.setdefault(left, set()).add(right)
        for left, right in news.unaxioms:
            self.axioms.get(left, set()).discard(right)
        self.lefts.clear()
        for left, rights in self.axioms.items():
            for right in rights:
                self.lefts.setdefault(right, set()).add(left)
        self.brought.clear()

    def _is_stale(self, files: set[File]) -> None:
        if any(map(is_test, self.declared)) or any(map(self.is_derived, self.axioms)):
            # A derived word, or a size, may bring a declared one.
            files = files | self.unasked
        self.stale |= files
        self.unasked -= files

    def catch_up(self) -> "News | None":
        if news := super().catch_up():
            for name in self.files.keys() if news.whole else news.written & self.files.keys():
                self._drop(self.files[name])
        return news

    # What is known of words.

    def is_derived(self, word: bytes) -> bool:
        """Whether nobody gives a file such a word: it comes from the name, the size or the bytes. Its head can't be declared."""
        head = head_of(word)
        return head is not None and head not in self.declared

    def is_known(self, word: bytes) -> bool:
        """Whether a formula may contain it."""
        if is_plain(word) or word in self.declared:
            return word in self.declared
        self._refresh([word])
        return word in self.index.words() or word in self.axioms or any(head_of(left) == word for left in self.axioms)

    def entailed(self, words: Iterable[bytes]) -> set[bytes]:
        """These words, and all that they entail."""
        found: set[bytes] = set()
        left = list(words)
        while left:
            word = left.pop()
            if word not in found:
                found.add(word)
                left += self.axioms.get(word, ())
                left += self._by_itself(word)
        return found

    def _by_itself(self, word: bytes) -> list[bytes]:
        """What a word entails without an axiom: a value its head, and a declared test the weaker ones."""
        if is_test(word):
            return [other for other in self.declared if is_stronger(word, other)]
        head = head_of(word)
        return [head] if head else []

    def _entailing(self, word: bytes) -> Iterable[bytes]:
        """The words that entail this one directly: the left sides of its axioms, the values of a head that files have, and the stronger ones of a
        declared test."""
        if is_head(word):
            return [value for value in self.index.words() if value.startswith(word) and value != word]
        if is_test(word):
            return [other for other in self.declared if is_stronger(other, word)]
        return self.lefts.get(word, ())

    # What is known of files.

    def _refresh(self, words: Iterable[bytes] | None = None) -> None:
        """Asks for the words of the files that were changed. Without `words`, or if one of them is derived, all words of all files are known
        afterwards."""
        self.settle()
        asked = self.stale
        if self.unasked and (words is None or any(map(self.is_derived, words))):
            asked = self.stale | self.unasked
        if asked:
            self.unseen |= self.describe(asked) & self.declared
            self.unasked -= asked
            self.stale.clear()

    def extension(self, place: Place) -> int:
        """The files of a place, as a row."""
        self._refresh(place.named)
        return place.row(self.index)

    def is_here(self, file: File, place: Place) -> bool:
        if place.words is not None and file.given.issuperset(place.words):
            return True
        self._refresh(place.named)
        return place.meets(file)

    def listing(self, place: Place, with_derived: bool = False) -> Listing:
        """The words and the files that a place shows: the words of the program's listing, or those of them that files were given; the
        declared words that no file has, where they belong; and the files that none of the shown words covers."""
        here = self._extension(place, with_derived)
        return self._listing(place, here, self._increments(place, here), with_derived)

    def below(self, place: Place, word: bytes, with_derived: bool = False) -> Listing:
        """The same with only those words that entail `word`, which all files of the place have: the most general ones that narrow it. The program is
        not asked."""
        here = self._extension(place, with_derived)
        return self._listing(place, here, self._narrower(word, here), with_derived)

    def _extension(self, place: Place, with_derived: bool) -> int:
        if with_derived:
            self._refresh()
        return self.extension(place)

    def _listing(self, place: Place, here: int, found: list[bytes], with_derived: bool) -> Listing:
        words = [word for word in found if with_derived or not self.is_derived(word)]
        covered = 0
        for word in words:
            covered |= self.index.having(word)
        # A word's folder hides a file of the same name, which `:all` shows.
        files = [file for file in self.index.of(here & ~covered) if file.name not in self.declared]
        unused = self._unused_at(place, found)
        self.unseen.difference_update(unused)
        return Listing(sorted(words + unused), files)

    def _narrower(self, word: bytes, here: int) -> list[bytes]:
        """The most general of the words that entail this one and that some of these files have and some lack."""
        found: set[bytes] = set()
        left, seen = list(self._entailing(word)), set()
        while left:
            other = left.pop()
            row = here & self.index.having(other)
            if other in seen or not row:
                continue
            seen.add(other)
            if row == here:
                left += self._entailing(other)
            else:
                found.add(other)
        return [other for other in found if found.isdisjoint(self.entailed([other]) - {other})]

    def _increments(self, place: Place, here: int) -> list[bytes]:
        if not here:
            return []
        if not place.steps:
            listing = self.told((b"ls",))[0]
        else:
            listing = self.told((b"cd", place.text), (b"ls",), (b"cd", b"/"))[1]
        return [text for letter, text in listing if letter == b"d"]

    def _unused_at(self, place: Place, shown: Iterable[bytes]) -> list[bytes]:
        """The declared words that no file has and that belong to a place of words: they entail its words, and no other word that is shown there. So a
        listing would show them if a file had each, and steps along listings lead to each."""
        if place.words is None:
            return []
        said, unused = self.entailed(place.words), self._unused(place.words)
        entailed = {word: self.entailed([word]) for word in unused - said}
        found = {word for word, entails in entailed.items() if entails.issuperset(place.words)}
        covers = found.union(shown)
        return [word for word in found if entailed[word].isdisjoint(covers - {word})]

    def _unused(self, words: tuple[bytes, ...]) -> set[bytes]:
        """The declared words that no file has; if there are `words`, only those that entail the last one."""
        found = self._declared_entailing(words[-1]) if words else self.declared
        return {word for word in found if not self.index.having(word)}

    def _declared_entailing(self, word: bytes) -> set[bytes]:
        """The declared words that entail this one."""
        found: set[bytes] = set()
        left = [word]
        while left:
            word = left.pop()
            # No declared word entails a value or a head: the right side of an axiom is plain.
            more = set() if head_of(word) else set(self._entailing(word)) - found
            found |= more
            left += more
        return found & self.declared

    def counts(self) -> dict[str, int]:
        self.settle()
        return super().counts()

    def content(self, file: File) -> bytes:
        if file is self.waiting:
            return b""
        content = self.contents.get(file)
        if content is None:
            content = self.program.cat(file.name).body
            self._keep(file, content)
        else:
            self.contents.move_to_end(file)
        return content

    def _keep(self, file: File, content: bytes) -> None:
        self._drop(file)
        self.contents[file] = content
        self.content_bytes += len(content)
        # The newest stays, however large it is: a program reads a file in many pieces.
        while self.content_bytes > KEPT and len(self.contents) > 1:
            self._drop(next(iter(self.contents)))

    def _drop(self, file: File) -> None:
        self.content_bytes -= len(self.contents.pop(file, b""))

    # Changes.

    def _begin_change(self) -> None:
        """Prepares a change. It brings at most as many words as a file can have."""
        self.settle()
        self.spare -= MAX_DESCRIPTION

    def _words_given(self, place: Place) -> list[bytes]:
        """The words that a file gets when it is made here."""
        if place.words is None:
            raise OSError(errno.EPERM, "not a place of words")
        return [word for word in place.words if not is_head(word) and not self.is_derived(word)]

    def begin(self, name: bytes, place: Place) -> File:
        """A new file at a place, which will be written."""
        self.settle()
        given = self._words_given(place)
        if not self._is_sure(name, place, given):
            return self.create(name, place)
        # The room that it may need is not available to others.
        self.spare -= self._most_brought(place, given, name)
        self.waiting = self._take(name, 0, given)
        return self.waiting

    def settle(self) -> None:
        """Makes the file that waits, without bytes. If the program has ended, the file still waits, so that no later call takes it for made."""
        if file := self.waiting:
            try:
                self.program.create(file.name, *sorted(file.given))
            except Refused as refused:
                self.waiting, file.refusal = None, refused
                self._forget(file)
                raise
            self.waiting = None

    def _is_sure(self, name: bytes, place: Place, given: list[bytes]) -> bool:
        """Whether the program would certainly make an empty file with these words, by `create` or by `add`."""
        if name in self.files or len(self.files) >= self.limits.files or not len(place.words or ()) == len(given) <= MAX_ASSIGNED:
            return False
        if self.program.is_shared:
            # Another client may make a file of this name, or use the room.
            return False
        if len(b" ".join((b"add", name, b"%d" % self.limits.file_bytes, *given))) > MAX_LINE:
            return False
        count = self._most_brought(place, given, name)
        if self.spare < count:
            self.spare = self.limits.words - self.counts()["known"]
        return count <= min(MAX_DESCRIPTION, self.spare)

    def _most_brought(self, place: Place, given: list[bytes], name: bytes) -> int:
        """The most words that a new file with these words and this name can have, as long as nothing is declared."""
        ending = b"ext:" + name.rpartition(b".")[2]
        key = place.words, ending if ending in self.axioms else b"ext:?"
        if key not in self.brought:
            tests = [word for word in self.declared if not is_plain(word) and not head_of(word)]
            is_declared = all(word in self.declared or head_of(word) in self.declared for word in given)
            words = [*given, *tests, b"size:empty", key[1]]
            self.brought[key] = len(self.entailed(words)) if is_declared else MAX_DESCRIPTION + 1
        return self.brought[key]

    def create(self, name: bytes, place: Place) -> File:
        """Makes an empty file at a place."""
        self._begin_change()
        given = self._words_given(place)
        try:
            self.program.create(name, *given)
        except NotSent:
            # The line would be too long; at the place the name alone is enough.
            with self.at(place.text):
                self.program.create(name)
        file = self._take(name, 0, given)
        # A head, or a word that comes from the file itself, is not given: so the file may not be at this place.
        if len(given) < len(place.words or ()) and not self.is_here(file, place):
            self.remove(file)
            raise OSError(errno.EPERM, "a file that is made here would not be here")
        return file

    def write(self, file: File, content: bytes) -> None:
        is_new = file is self.waiting
        if is_new and content:
            self._add(file, content)
        else:
            self._begin_change()
            if not is_new:
                self.program.write(file.name, content)
        file.size = len(content)
        self.stale.add(file)
        self._keep(file, content)

    def _add(self, file: File, content: bytes) -> None:
        self.spare -= MAX_DESCRIPTION
        try:
            self.program.add(file.name, content, *sorted(file.given))
        except Refused:
            # The file exists, as was acknowledged, but without what was written.
            self.settle()
            raise
        self.waiting = None

    def remove(self, file: File) -> None:
        self._begin_change()
        self.program.rm(file.name)
        self._forget(file)

    def _forget(self, file: File) -> None:
        self.unseen |= self.index.drop(file) & self.declared
        self._drop(file)
        self.stale.discard(file)
        self.unasked.discard(file)
        file.is_gone = True

    def rename(self, file: File, name: bytes) -> None:
        self._begin_change()
        self.program.rename(file.name, name)
        self.index.rename(file, name)
        self.stale.add(file)

    def replace(self, file: File, content: bytes, other: File) -> None:
        """`other` gets these bytes, and `file` takes its name and words; `other` itself is gone. If it is stopped in between, the new bytes are
        there, and the old name too."""
        self._begin_change()
        self.program.write(other.name, content)
        self.program.rm(file.name)
        name = other.name
        self._forget(other)
        self.index.rename(file, name)
        file.size, file.given = len(content), other.given
        self.stale.add(file)
        self._keep(file, content)

    def move(self, file: File, source: Place, target: Place) -> None:
        """The file loses the words of one place, and gains those of the other."""
        self._begin_change()
        with self.at(source.text):
            self.program.mv(file.name, target.text)
        file.given = frozenset()
        self.stale.add(file)

    def declare(self, word: bytes, place: Place) -> None:
        if len(word) > MAX_WORD:
            raise OSError(errno.ENAMETOOLONG, "a word is as long as a name")
        if not is_word(word):
            raise OSError(errno.EINVAL, "no word")
        if place.words is None or not all(is_plain(word) for word in place.words):
            raise OSError(errno.EPERM, "not a place of plain words")
        # Otherwise a name would mean two things.
        if word in self.files:
            raise OSError(errno.EEXIST, "a file has this name")
        self._begin_change()
        with self.at(place.text):
            self.program.mkdir(word)
        self.declared.add(word)
        self.brought.clear()
        if place.words:
            self.axioms[word] = set(place.words)
            for right in place.words:
                self.lefts.setdefault(right, set()).add(word)

    def take_back(self, word: bytes, place: Place) -> None:
        """Removes the declaration of a word that no file has, and that belongs to a place. Another word that nothing here has is left as it is.

        Words below it are removed too if they lost their last file and were in no listing since: while all files of a folder had such a word, it
        narrowed nothing, so whoever removed these files never saw it.
        """
        inner = place.step(word)
        if self.extension(inner):
            raise OSError(errno.ENOTEMPTY, "files are here")
        below = self._unused_at(inner, ())
        if not self.unseen.issuperset(below):
            raise OSError(errno.ENOTEMPTY, "words are here")
        if word not in self._unused_at(place, ()):
            return
        for other in below:
            self.take_back(other, inner)
        self._begin_change()
        if any(word in rights or left != word and head_of(left) == word for left, rights in self.axioms.items()):
            raise OSError(errno.ENOTEMPTY, "an axiom names it")
        for right in sorted(self.axioms.get(word, ())):
            self.program.unaxiom(word, right)
            self.axioms[word].discard(right)
            self.lefts[right].discard(word)
        self.program.rmdir(word)
        self.axioms.pop(word, None)
        self.declared.discard(word)
        self.brought.clear()
