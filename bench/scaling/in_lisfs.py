"""A collection in an image. It is asked as at the prompt: by the session of `tools/shell`, in this process, over the program."""
import os
import sys
import time
from collections.abc import Sequence

import support
from lisfs import dumps
from lisfs.client import PROGRAM, Program, Retag, always, missing
from lisfs.limits import limits_of
from lisfs.shell.session import Session
from measuring import Ran, ran
from scaling.facts import NAME, Fact, Version
from scaling.systems import MEANT, TAG, Counts, Names, Place, System, Term, Wrong, checked

# The system's clock of the processor time of a process has a number that is made of the process's own.
CLOCK_OF_ALL_THREADS = 2


class Running(Program):
    """A program whose costs can be asked."""

    def process(self) -> int:
        return self._child.pid

    def processor(self) -> float:
        """Seconds of processor time so far."""
        return time.clock_gettime(~self.process() << 3 | CLOCK_OF_ALL_THREADS)


class Lisfs(System):
    name = "LISFS"
    told = "the session of `tools/shell` over `lisfs run`, held open; the image keeps the bytes of the files"

    def __init__(self, top: str) -> None:
        super().__init__(top)
        self.image = os.path.join(self.top, "files.lis")
        self._opened: tuple[Running, Session] | None = None

    def lacks(self) -> str | None:
        return missing()

    def bring(self, folder: str, facts: Sequence[Fact], version: Version) -> Ran:
        self.emptied()
        Program([PROGRAM, "make", self.image, *version.make()]).close()
        environment = {**os.environ, "XDG_STATE_HOME": os.path.join(self.top, "state")}
        command = [sys.executable, support.tool("sync"), "--no-cache", "--reserve", "0", "--as", NAME, self.image, folder]
        return checked(ran(command, environment=environment, is_watched=True), "tools/sync")

    def open(self, facts: Sequence[Fact]) -> None:
        dump, program = dumps.dumped(self.image), Running([PROGRAM, "run", self.image])
        session = Session(program, dump, limits_of(self.image))
        self._opened = program, session
        for word in (TAG, MEANT):
            if word not in session.declared:
                session.carry_out(b"mkdir " + word)
        if session.names != {fact.name for fact in facts}:
            raise Wrong(f"LISFS: the image has {len(session.names):,} files, and not the {len(facts):,} of the folder")

    def close(self) -> None:
        if self._opened:
            self._opened[0].close()
            self._opened = None

    @property
    def session(self) -> Session:
        assert self._opened
        return self._opened[1]

    def processor(self) -> float:
        assert self._opened
        return super().processor() + self._opened[0].processor()

    def find(self, place: Place) -> Names:
        with self.session.away(formula(place)):
            return {file.name for file in self.session.files()}

    def refine(self, place: Place) -> Counts:
        with self.session.away(formula(place)):
            return dict(self.session.counted().words)

    def words(self, name: bytes) -> Names:
        return {text for _, text in self.session.program.props(name).body}

    def counts(self, head: bytes) -> Counts:
        index = self.session.index
        return {word: index.having(word).bit_count() for word in self.session.known() if word.startswith(head) and word != head and index.having(word)}

    def tag(self, place: Place, names: Sequence[bytes]) -> bool:
        return self._retag([Retag(name, gains=(TAG,)) for name in names])

    def untag(self, names: Sequence[bytes]) -> bool:
        return self._retag([Retag(name, loses=(TAG,)) for name in names])

    def _retag(self, changes: Sequence[Retag]) -> bool:
        if refused := self.session.retag(b"tag", changes, always).refused:
            raise Wrong(f"LISFS: {refused[0][0]}: {refused[0][1]}")
        return True

    def mean(self, word: bytes) -> bool:
        self.session.carry_out(b"axiom %b %b" % (word, MEANT))
        return True

    def unmean(self, word: bytes) -> bool:
        self.session.carry_out(b"unaxiom %b %b" % (word, MEANT))
        return True

    def asked_once(self, word: bytes) -> Ran:
        return checked(ran([sys.executable, support.tool("shell"), self.image], b"find %b\n" % word, is_watched=True), "tools/shell")


def formula(place: Place) -> bytes:
    """The formula of a place, from the root."""
    return b"/" + b"/".join(map(formula_of, place))


def formula_of(term: Term) -> bytes:
    if term.least is not None:
        return b"size>=%d" % term.least
    return b"/".join(b"!" + word for word in term.words) if term.is_not else b"|".join(term.words)
