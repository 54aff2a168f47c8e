"""An open image: the session that runs over it, and what is known of it, updated with each command that ran.

The image is locked by the session, so nobody else changes it; or it is served, and then `catch_up` applies what others have changed. Between two
calls the session's place is the root, where all files are.
"""
import contextlib
from collections.abc import Iterable, Iterator, Sequence
from typing import TYPE_CHECKING, Generic, TypeAlias, cast, overload

from lisfs.client import BodyLine, Program, Refused, Reply, as_lines, counts_in, item
from lisfs.constants import NO_FILE_HERE
from lisfs.dumps import Dump
from lisfs.index import F, File, Index, Kind
from lisfs.limits import Limits
from lisfs.words import is_test

if TYPE_CHECKING:
    from lisfs.served import News

ROOT = b"/"

# The words of a command.
Words: TypeAlias = Sequence[bytes]


class Following(Generic[F]):
    """What is known of an image over which a session runs: `index` has the files, each with the words that were last asked for."""

    program: Program
    index: Index[F]
    declared: set[bytes]

    def catch_up(self) -> "News | None":
        """Applies what other clients of a served image have changed since the last call, and returns it, or None if there is nothing."""
        if news := self.program.news():
            self._take_names(news)
            self._take_words(news)
        return news

    def _take_names(self, news: "News") -> None:
        for old, new in news.renamed:
            if file := self.index.files.get(old):
                if new in self.index.files:
                    self._is_removed(self.index.files[new])
                self.index.rename(file, new)
        gone = self.index.files.keys() - news.files.keys() if news.whole else self.index.files.keys() & news.gone
        for name in gone:
            self._is_removed(self.index.files[name])

    def _take_words(self, news: "News") -> None:
        """Applies changes of the words that files were given, the declared words and the axioms. All words that these may affect are asked for
        again."""
        stale = {self._is_there(name, size, words) for name, (size, words) in news.files.items()}
        if news.whole or any(map(is_test, news.declared | news.undeclared)):
            stale.update(self.index.files.values())
        for left, _ in news.axioms | news.unaxioms:
            stale.update(self.index.of(self.index.having(left)))
        self.declared = set(news.declared) if news.whole else self.declared - news.undeclared | news.declared
        self._take_axioms(news)
        self._is_stale(stale)

    def _is_there(self, name: bytes, size: int, words: frozenset[bytes]) -> F:
        """Applies that another client has made, or changed, a file."""
        file = self.index.files.get(name)
        if file is None:
            return self.index.add(name, size, words)
        file.size, file.given = size, words
        return file

    def _is_removed(self, file: F) -> None:
        """Applies that another client has removed a file."""
        self.index.drop(file)

    def _take_axioms(self, news: "News") -> None:
        """Applies the axioms that others have added and removed."""

    def _is_stale(self, files: set[F]) -> None:
        """The words of these files may differ from those that are known."""
        raise NotImplementedError


class Image(Following[F]):
    @overload
    def __init__(self: "Image[File]", program: Program, dump: Dump, limits: Limits) -> None: ...

    @overload
    def __init__(self, program: Program, dump: Dump, limits: Limits, kind: Kind[F]) -> None: ...

    def __init__(self, program: Program, dump: Dump, limits: Limits, kind: Kind[File] = File) -> None:
        self.program, self.limits, self.declared = program, limits, set(dump.declared)
        # Without a `kind`, F is `File`.
        self.index = Index(cast(Kind[F], kind))
        for name, (size, words) in dump.files.items():
            self.index.add(name, size, words)

    def told(self, *commands: Words) -> list[list[BodyLine]]:
        """As `asked`, for commands whose replies have lines: these lines."""
        return [as_lines(reply).body for reply in self.asked(*commands)]

    def asked(self, *commands: Words) -> list[Reply]:
        """The replies to commands that don't change the place, or go to one and back, sent ahead of their replies. Raises the first refusal."""
        found = self._answers(commands)
        for answer in found:
            if isinstance(answer, Refused):
                raise answer
        return [answer for answer in found if not isinstance(answer, Refused)]

    def _answers(self, commands: Sequence[Words]) -> list[Reply | Refused]:
        """The replies and the refusals, in order."""
        for command in commands:
            # If one of them can't be sent, none is.
            item(command, None, self.program.longest)
        for command in commands:
            self.program.send(*command)
        found: list[Reply | Refused] = []
        for command in commands:
            try:
                found.append(self.program.receive())
            except Refused as refused:
                refused.command, refused.given = command[0].decode(), tuple(command[1:])
                found.append(refused)
        return found

    def describe(self, files: Iterable[F]) -> set[bytes]:
        """Asks for the words of files. Returns the words that no file has any more."""
        files, lost = list(files), set()
        for file, answer in zip(files, self._answers([(b"props", file.name) for file in files])):
            if not isinstance(answer, Refused):
                lost |= self.index.describe(file, frozenset(text for _, text in as_lines(answer).body))
            elif not (self.program.is_shared and answer.number == NO_FILE_HERE):
                raise answer
            # Otherwise another client has just removed or renamed it, which the next news say.
        return {word for word in lost if not self.index.having(word)}

    def _is_stale(self, files: set[F]) -> None:
        self.describe(files)

    def counts(self) -> dict[str, int]:
        """The counts of `stat`, by name."""
        return counts_in(self.told((b"stat",))[0])

    @contextlib.contextmanager
    def at(self, place: bytes) -> Iterator[None]:
        """Goes to a place, and back to the root. Nothing is sent before the reply to `cd`: if it is refused, a command after it would run at
        the root."""
        if place != ROOT:
            self.told((b"cd", place))
        try:
            yield
        finally:
            if place != ROOT:
                self.told((b"cd", ROOT))
