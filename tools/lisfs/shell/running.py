"""Runs the lines of a person at a terminal, or of a script: those of the program, and those of the shell itself."""
import os
from collections.abc import Callable, Iterator, Sequence

from lisfs import derived
from lisfs.client import CONTENT, LINES, Item, Items, NotSent, Refused, Reply, words_of
from lisfs.constants import MAX_LINE
from lisfs.formulas import words_in
from lisfs.shell.commands import COMMANDS, LONGEST, all_in_lines, most_of_line, told
from lisfs.shell.copying import Copying, in_quotes
from lisfs.shell.earlier import Earlier
from lisfs.shell.explaining import Failed, bad_line, sentence
from lisfs.shell.looking import Looking
from lisfs.shell.session import Session
from lisfs.shell.tagging import Tagging
from lisfs.shell.terminal import INPUT, History, Interrupts, Screen, Stopped
from lisfs.showing import harmless
from lisfs.words import head_of

PIECE = 65_536


class Over(Exception):
    """No more lines are read."""


class Shell:
    def __init__(self, session: Session, screen: Screen, earlier: Earlier | None = None) -> None:
        self.session, self.screen, self.interrupts, self.has_told_misses = session, screen, screen.interrupts, False
        self.looking, self.tagging, self.copying = Looking(session, screen), Tagging(session, screen, earlier), Copying(session, screen)
        self.own: dict[bytes, Callable[[bytes, list[bytes]], None]] = {
            b"put": self.copying.put, b"get": self.copying.get, b"help": self.help, b"exit": self.exit, b"quit": self.exit,
            b"find": lambda _, given: self.looking.find(given), b"grep": lambda line, _: self.looking.grep(in_quotes(line)),
            b"less": lambda _, given: self.looking.less(given), b"tag": self.tagging.tag, b"untag": self.tagging.untag,
            b"undo": lambda _, given: self.tagging.undo(given)}

    # Lines.

    def carry_out(self, line: bytes, payload: bytes = b"") -> None:
        """Raises `Failed` if a line is refused or something is wrong, `Stopped` at Ctrl-C, and `Over` after the last line."""
        words = words_of(line)
        if not words:
            return
        try:
            self.session.catch_up()
            self.run(line, words, payload)
        except Refused as refused:
            self.tell_misses(words)
            raise Failed(sentence(refused, line, self.session)) from None
        except NotSent as error:
            raise Failed(f"{harmless(words[0])}: {error}") from None
        except Failed:
            self.tell_misses(words)
            raise
        self.tell_misses(words)
        self.interrupts.ask()

    def run(self, line: bytes, words: list[bytes], payload: bytes) -> None:
        is_short = len(line) <= most_of_line(words[0])
        if words[0] == b"ls" and is_short and (len(words) > 1 or self.screen.asks):
            self.looking.ls(words[1:])
        elif words[0] == b"cd" and len(words) == 2 and is_short and self.screen.asks:
            # In a script `cd` is the program's.
            self.looking.cd(line, words[1])
        elif words[0] in self.own and is_short:
            self.own[words[0]](line, words[1:])
        else:
            if words[0] == b"mv" and is_short:
                self.tagging.asks_to_move(words[1:])
            reply = self.session.carry_out(line, payload)
            self.show(words[0], reply)
            self.tell_cut(words, reply)

    def show(self, command: bytes, reply: Reply) -> None:
        if reply.kind is CONTENT:
            self.screen.content(reply.body)
        else:
            has_words = command in (b"ls", b"way")
            self.screen.many([self.looking.row(letter, harmless(text), has_words) for letter, text in reply.body])

    def tell_cut(self, words: Sequence[bytes], reply: Reply) -> None:
        """After the words of a file that has as many as it can have, says so, and how many it would have if that is known."""
        if words[0] != b"props" or reply.kind is not LINES:
            return
        name, had = words[1], [text for _, text in reply.body]
        cut = derived.told_of_cut(name, self.session.content(name)) if derived.is_full(had) else None
        for limit in filter(None, (cut, derived.told_of_no_room(self.session.index.files[name].given, had))):
            self.screen.note(f"{harmless(name)}: {limit}")

    def tell_misses(self, words: Sequence[bytes]) -> None:
        """Says once that a search can miss a file whose words are cut, even if it finds none."""
        searched = words_in(formula_of(words)) if not self.has_told_misses else []
        # Only if a word comes from bytes, it is worth looking at all files.
        files = self.session.described() if any(head_of(word) in derived.HEADS for word in searched) else self.session.index.files.values()
        cut = derived.told_of_misses(searched, ((file.name, file.words) for file in files))
        left_out = derived.told_of_left_out(filter(self.session.is_assignable, searched), ((file.given, file.words) for file in files))
        for limit in filter(None, (cut, left_out)):
            self.has_told_misses = True
            self.screen.note(limit)

    # The shell's own commands.

    def help(self, _: bytes, given: list[bytes]) -> None:
        if not given:
            self.screen.many(all_in_lines())
            return
        name = given[0].decode(errors="replace")
        if len(given) > 1 or name not in COMMANDS:
            raise Failed(bad_line("help" if len(given) > 1 else name, given, self.session))
        self.screen.lines(told(name))

    def exit(self, line: bytes, given: list[bytes]) -> None:
        if given:
            raise Failed(bad_line(words_of(line)[0].decode(), given, self.session))
        raise Over


def formula_of(words: Sequence[bytes]) -> bytes:
    """The formula of a line that searches, or none."""
    command, *given = words
    if command in (b"tag", b"untag"):
        return given[2] if len(given) == 3 and given[1] == b"in" else b""
    if command == b"get":
        # The path after it may have blanks.
        return given[1] if len(given) >= 3 and given[0] == b"in" else b""
    if command not in (b"cd", b"find", b"ls", b"grep"):
        return b""
    given = [word for word in given if word not in COMMANDS[command.decode()].flags]
    first = 1 if command == b"grep" else 0
    return given[-1] if len(given) == first + 1 else b""


def at_a_prompt(shell: Shell, history: History) -> None:
    """Runs until Ctrl-D, `exit` or `quit`."""
    while True:
        try:
            text = shell.screen.typed(shell.screen.prompt(shell.session.place))
        except EOFError:
            shell.screen.lines([""])
            return
        except (KeyboardInterrupt, Stopped):
            shell.interrupts.forget()
            shell.screen.lines([""])
            continue
        try:
            # Pasted text may be several lines.
            for line in text.split(b"\n"):
                history.add(line)
                words = words_of(line)
                if words[:1] in ([b"add"], [b"write"]):
                    raise Failed(f"{words[0].decode()}: bytes can't be typed here: `put FILE {harmless(b' '.join(words[1:2])) or 'NAME'}` takes "
                                 "those of a file, and `create` makes an empty one")
                shell.carry_out(line)
        except Failed as failed:
            shell.screen.fault(str(failed))
        except Stopped:
            shell.interrupts.forget()
            shell.screen.lines([""])
        except Over:
            return


def from_input() -> bytes:
    return os.read(INPUT, PIECE)


def commands(read: Callable[[], bytes], interrupts: Interrupts) -> Iterator[Item | None]:
    """The commands of the input, each a line without its line feed and the bytes after it, and `None` at the end if these are cut off."""
    items = Items(MAX_LINE, LONGEST)
    data: bytes | None = None
    # A last line, and last bytes, may lack their line feed.
    while data != b"" or items.lacks_feed():
        if data == b"":
            items.feed(b"\n")
        else:
            with interrupts.typing():
                data = read()
            items.feed(data)
        while taken := items.take():
            yield Item(taken.line[:-1], taken.payload)
    if items.is_cut():
        yield None


def as_a_script(shell: Shell, read: Callable[[], bytes] = from_input) -> bool:
    """Runs the lines of the input, with bytes after them as `lisfs run` reads them. Returns whether none was refused."""
    is_fine = True
    for taken in commands(read, shell.interrupts):
        try:
            if taken is None:
                raise Failed("the input ends within the bytes of a file")
            shell.carry_out(*taken)
        except Failed as failed:
            is_fine = False
            shell.screen.fault(f"shell: {failed}")
        except Over:
            break
    return is_fine
