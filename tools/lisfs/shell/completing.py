"""What Tab completes: commands, the words that the place offers and others that are known, files of the place, and paths of the system."""
import os
import re
from collections.abc import Iterable, Sequence
from typing import NamedTuple

from lisfs.client import Ended, NotAReply, NotSent
from lisfs.listings import by_rank
from lisfs.shell.commands import COMMANDS, Part
from lisfs.shell.session import Session
from lisfs.shell.terminal import HAS_READLINE, Screen, Stopped, in_columns
from lisfs.showing import harmless
from lisfs.words import is_file_name

if HAS_READLINE:
    import readline

BLANKS = b" \t\n"
# The most candidates that are shown.
SHOWN = 120
# What follows `get in`, and `in` itself.
GET_IN = (Part.TEXT, Part.FORMULA, Part.PATH)
# A word of a line, in which a backslash can precede a blank.
PIECE = re.compile(rb"(?:\\.|[^\\ \t\n])*\\?", re.S)
ESCAPED = re.compile(rb"([\\ \t\n'\"])")


class Piece(NamedTuple):
    """A word of a line as it was typed, and where it begins."""

    at: int
    text: bytes


def unescaped(piece: bytes) -> bytes:
    return re.sub(rb"\\(.)", rb"\1", piece, flags=re.S)


def pieces(line: bytes) -> list[Piece]:
    """The words of a line, in which a backslash can precede a blank. The last one is being typed, and may be empty."""
    found: list[Piece] = []
    at = 0
    while True:
        while line[at:at + 1] and line[at:at + 1] in BLANKS:
            at += 1
        piece = PIECE.match(line, at)
        # It may be empty.
        assert piece
        found.append(Piece(at, piece[0]))
        if piece.end() >= len(line):
            return found
        at = piece.end()


class Completer:
    """`complete` and `show` are what Python's `readline` calls."""

    def __init__(self, session: Session, screen: Screen) -> None:
        self.session, self.screen, self.interrupts = session, screen, screen.interrupts
        self.found: list[str] = []

    def install(self) -> None:
        if HAS_READLINE:
            readline.set_completer(self.complete)
            readline.set_completion_display_matches_hook(self.show)
            readline.set_completer_delims(BLANKS.decode())
            readline.parse_and_bind("tab: complete")

    def complete(self, _: str, state: int) -> str | None:
        if state == 0:
            line = os.fsencode(readline.get_line_buffer())
            with self.interrupts.working():
                try:
                    self.session.catch_up()
                    found = self.candidates(line[:readline.get_endidx()], readline.get_begidx())
                except (Stopped, Ended, NotAReply, NotSent, OSError):
                    # The next command says what it is.
                    found = []
            self.found = [os.fsdecode(one) for one in found]
        return self.found[state] if state < len(self.found) else None

    def show(self, begun: str, found: Sequence[str], _: int) -> None:
        """Shows the candidates that fit the screen, the more useful heads first, and the line again. For a formula or a path only the last word is
        shown."""
        at = max(map(begun.rfind, "/|!(")) + 1
        texts = [harmless(one.rstrip()) for one in by_rank(os.fsencode(one[at:]) for one in found)[:SHOWN]]
        lines = in_columns(texts, max(map(len, texts)) + 2) + ([f"and {len(found) - SHOWN:,} more"] if len(found) > SHOWN else [])
        line = readline.get_line_buffer()
        self.screen.again(lines, line, len(os.fsencode(line)[readline.get_endidx():].decode(errors="replace")))

    def candidates(self, line: bytes, begin: int) -> list[bytes]:
        """What can replace the end of the line from `begin` on, in byte order. The line ends at the cursor."""
        typed = pieces(line)
        start, piece = typed[-1]
        found = self._whole(typed[:-1], piece)
        # A word with an escaped blank may begin before the text to be replaced.
        return sorted({one[max(0, begin - start):] for one in found if one.startswith(piece)})

    def _whole(self, before: Sequence[Piece], piece: bytes) -> Iterable[bytes]:
        if not before:
            return [name.encode() + (b" " if command.parts else b"") for name, command in COMMANDS.items()]
        command = COMMANDS.get(before[0].text.decode(errors="replace"))
        given = [one for _, one in before[1:]]
        if command is None or not command.parts:
            return []
        while given[:1] and given[0] in command.flags:
            given = given[1:]
        parts = GET_IN if before[0].text == b"get" and given[:1] == [b"in"] else command.parts
        if len(given) >= len(parts) and not command.repeats:
            return []
        part = parts[min(len(given), len(parts) - 1)]
        if part is Part.FILE_OR_WORD and given[1:] == [b"in"]:
            part = Part.FORMULA
        has_more = command.repeats or len(given) + 1 < len(parts)
        return self._of(part, piece, given, b" " if has_more else b"")

    def _of(self, part: Part, piece: bytes, given: list[bytes], behind: bytes) -> Iterable[bytes]:
        if part is Part.FORMULA:
            return self._formulas(piece)
        if part is Part.PATH:
            return paths(piece, behind)
        if part is Part.FILE:
            return [name + behind for name in self.session.names_here(piece)]
        if part is Part.COMMAND:
            return [name.encode() for name in COMMANDS]
        if part is Part.FILE_OR_WORD:
            return [name + b" " for name in self.session.names_here(piece)] + self._given(piece)
        if part is Part.NEW_FILE:
            # The name of the file that is copied in.
            name = os.path.basename(unescaped(given[0])) if given else b""
            return [name + behind] if is_file_name(name) else []
        if part is Part.GIVEN:
            return self._given(piece)
        if part is Part.KNOWN:
            return [word + behind for word in self._words(piece)]
        return [word + behind for word in self.session.declared] if part is Part.DECLARED else []

    def _given(self, stem: bytes) -> list[bytes]:
        return [word + b" " for word in self._words(stem) if self.session.is_assignable(word)]

    def _words(self, stem: bytes, formula: bytes = b"") -> Iterable[bytes]:
        """The words that a place offers, and after some letters any word that is known."""
        offered = self.session.offered(formula)
        return {*offered, *self.session.known()} if stem else offered

    def _formulas(self, text: bytes) -> list[bytes]:
        """The last word of a formula: what is offered at the place to which the steps before it lead, without those in parentheses."""
        at = max(map(text.rfind, (b"/", b"|", b"!", b"("))) + 1
        base, stem, depth, step = text[:at], text[at:], 0, 0
        for k, byte in enumerate(base):
            depth += (byte == ord("(")) - (byte == ord(")"))
            if byte == ord("/") and depth == 0:
                step = k
        # A single slash at the beginning is the root itself.
        context = base[:step] or (b"/" if base.startswith(b"/") else b"")
        return [base + word for word in self._words(stem, context)] + ([b".."] if b"..".startswith(text) and text else [])


def paths(piece: bytes, behind: bytes) -> list[bytes]:
    """The paths of the system that begin with a text: each as it would be typed, a folder with a slash after it."""
    folder, slash, stem = piece.rpartition(b"/")
    found = []
    try:
        names = sorted(os.listdir(os.path.expanduser(unescaped(folder + slash)) or b"."))
    except OSError:
        return []
    for name in names:
        if name.startswith(b".") and not stem.startswith(b"."):
            continue
        path = os.path.join(os.path.expanduser(unescaped(folder + slash)), name)
        found.append(folder + slash + ESCAPED.sub(rb"\\\1", name) + (b"/" if os.path.isdir(path) else behind))
    return found
