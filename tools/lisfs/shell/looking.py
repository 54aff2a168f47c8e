"""The shell's own commands that show something: listings, files of a place, and lines of them."""
from __future__ import annotations

import contextlib
from collections.abc import Callable, Iterable, Iterator, Sequence

from lisfs.client import NotSent, Refused
from lisfs.constants import UNKNOWN_PROPERTY
from lisfs.listings import TITLES, Count, groups_of, within
from lisfs.refusals import left_out
from lisfs.shell.commands import COMMANDS, SOME
from lisfs.shell.explaining import Failed, bad_line, sentence, values_meant
from lisfs.shell.explaining import formula as no_formula
from lisfs.shell.session import Counted, NoWayBack, Session
from lisfs.shell.terminal import WORD as WORD_COLOUR
from lisfs.shell.terminal import Screen, as_text, in_columns
from lisfs.showing import harmless

# How many characters of a matching line are shown on a terminal.
LONGEST = 500


@contextlib.contextmanager
def elsewhere(session: Session, screen: Screen, command: str, formula: bytes | None) -> Iterator[None]:
    """Runs the block at the place to which a formula leads, or here."""
    try:
        with contextlib.ExitStack() as stack:
            if formula is not None:
                go(session, screen, formula, lambda to: stack.enter_context(session.away(to)))
            yield
    except NoWayBack:
        raise Failed(f"{command}: there is no way back to this place, which is too long or has a word that nothing has any more: "
                     "say a formula that goes on from here, or `cd` elsewhere first") from None
    except NotSent:
        # It has a blank, or is empty.
        raise Failed(no_formula(command, [formula or b""], session)) from None
    except Refused as refused:
        raise Failed(sentence(refused, b"cd %b" % (formula or b"/"), session)) from None


def go(session: Session, screen: Screen, formula: bytes, call: Callable[[bytes], object]) -> None:
    """Goes to the place of a formula by a function. If no file has a word on one side of `|`, that side is left out, and a line says so."""
    try:
        call(formula)
    except Refused as refused:
        instead = session.instead_of(formula) if refused.number == UNKNOWN_PROPERTY else None
        if instead is None:
            raise
        call(instead.formula)
        screen.note(left_out(instead) + values_meant(instead.unused, session))


class Looking:
    def __init__(self, session: Session, screen: Screen) -> None:
        self.session, self.screen = session, screen

    # Places.

    def cd(self, line: bytes, formula: bytes) -> None:
        """Goes to a place."""
        go(self.session, self.screen, formula, lambda to: self.session.carry_out(line if to == formula else b"cd " + to))

    # Listings.

    def ls(self, given: Sequence[bytes]) -> None:
        """A listing of this place, or of another one."""
        flags = [word for word in given if word in COMMANDS["ls"].flags]
        formulas = [word for word in given if word not in flags]
        if len(formulas) > 1 or given[:len(flags)] != flags:
            raise Failed(bad_line("ls", formulas, self.session))
        with elsewhere(self.session, self.screen, "ls", formulas[0] if formulas else None):
            if b"-c" in flags:
                lines = self.with_counts(self.session.counted())
            elif self.screen.asks:
                lines = self.by_heads(self.session.counted(), b"-a" in flags)
            else:
                words, files = self.session.listing()
                lines = [self.row(b"d", harmless(word), True) for word in words] + [self.row(b"f", harmless(name), False) for name in files]
        self.screen.many(lines)

    def row(self, letter: bytes, text: str, is_word: bool, before: str = "") -> str:
        return f"{letter.decode()} {before}{self.screen.coloured(text, WORD_COLOUR) if is_word and letter == b'd' else text}"

    def with_counts(self, found: Counted) -> list[str]:
        """A line for each word and file."""
        width = max((len(str(count)) for _, count in found.words), default=0)
        return ([self.row(b"d", harmless(word), True, f"{count:>{width}} ") for word, count in found.words]
                + [self.row(b"f", harmless(name), False, " " * (width + 1) if found.words else "") for name in found.files])

    def by_heads(self, found: Counted, has_all: bool) -> list[str]:
        """Columns of the words of each head, and of the files."""
        lines = []
        for group, words in groups_of(found.words):
            title = TITLES.get(group) or harmless(group)
            lines += [f"{title} ({len(words):,})", *self.columns(group, words if has_all else words[:SOME])]
            if len(words) > SOME and not has_all:
                lines.append(f"  and {len(words) - SOME:,} more: `ls -a`")
        if found.files:
            lines += [f"Files ({len(found.files):,})", *indented([harmless(name) for name in found.files])]
        return lines

    def columns(self, group: bytes, words: Iterable[Count]) -> list[str]:
        def painted(text: str) -> str:
            word, blank, count = text.rpartition(" ")
            return self.screen.coloured(word, WORD_COLOUR) + blank + count

        texts = [f"{harmless(within(group, word) or word)} {count:,}" for word, count in words]
        return ["  " + line for line in in_columns(texts, max(map(len, texts)) + 2, painted)]

    # Files.

    def find(self, given: list[bytes]) -> None:
        if len(given) > 1:
            raise Failed(bad_line("find", given, self.session))
        with elsewhere(self.session, self.screen, "find", given[0] if given else None):
            names = [file.name for file in self.session.files()]
        self.screen.many([harmless(name) for name in names])

    def grep(self, given: list[bytes]) -> None:
        is_small = given[:1] == [b"-i"]
        given = given[is_small:]
        if not 1 <= len(given) <= 2 or not given[0]:
            raise Failed(bad_line("grep", given, self.session))
        found: list[bytes] = []
        with elsewhere(self.session, self.screen, "grep", given[1] if len(given) > 1 else None):
            for file, content in self.session.contents(self.session.files()):
                found += matches(file.name, content, given[0], is_small)
        if self.screen.is_terminal:
            self.screen.many([shortened(harmless(line.removesuffix(b"\r"), "\t")) for line in found])
        else:
            self.screen.put(b"".join(line + b"\n" for line in found))

    def less(self, given: list[bytes]) -> None:
        if len(given) != 1:
            raise Failed(bad_line("less", given, self.session))
        content = self.session.content(given[0])
        if not self.screen.page(as_text(content), always=True):
            self.screen.content(content)


def indented(texts: Sequence[str]) -> list[str]:
    return ["  " + line for line in in_columns(texts, max(map(len, texts)) + 2)]


def matches(name: bytes, content: bytes, text: bytes, is_small: bool) -> list[bytes]:
    """The lines of a file that contain a text, as they are shown. With `is_small` case is ignored."""
    def simple(data: bytes) -> bytes:
        return data.lower() if is_small else data

    text = simple(text)
    if text not in simple(content):
        return []
    if b"\0" in content:
        return [name + b": the text is in it, and it has a NUL byte"]
    lines = content.removesuffix(b"\n").split(b"\n")
    return [b"%b:%d:%b" % (name, number, line) for number, line in enumerate(lines, 1) if text in simple(line)]


def shortened(line: str) -> str:
    return line if len(line) <= LONGEST else line[:LONGEST - 2] + ".."
