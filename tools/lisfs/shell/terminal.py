"""What a person at a terminal sees and types: output, colours, a pager, Ctrl-C, and the history of lines."""
import contextlib
import os
import re
import shutil
import signal
import subprocess
import sys
from collections.abc import Callable, Iterable, Iterator, Sequence

from lisfs.own import state_folder
from lisfs.showing import harmless

try:
    import readline
    HAS_READLINE = True
except ImportError:
    # A Python without readline: lines are typed as the terminal allows.
    HAS_READLINE = False

INPUT, OUTPUT, ERRORS = 0, 1, 2
# How many lines of the history are kept.
REMEMBERED = 2_000
# How many characters of a text are shown before the next check for Ctrl-C.
PIECE = 4_096
WORD, PLACE, FAULT = "1;34", "1;32", "31"
# The escape sequence of a colour, which takes no room on a terminal.
COLOUR = re.compile(r"\x1b\[[0-9;]*m")
# The options of `less`, unless `$LESS` is set: end if it all fits, show colours, and leave the screen as it is.
LESS = "FRX"
# The statuses with which a system's shell says that it has not started a program.
NOT_STARTED = (126, 127)


def in_columns(texts: Sequence[str], width: int, painted: Callable[[str], str] = str) -> list[str]:
    """Lines of texts in columns, in order from top to bottom, each text padded to a number of characters."""
    columns = max(1, shutil.get_terminal_size().columns // width)
    rows = -(-len(texts) // columns)
    lines = []
    for row in range(rows):
        *before, last = texts[row::rows]
        lines.append("".join(painted(text) + " " * (width - len(text)) for text in before) + painted(last))
    return lines


def as_text(data: bytes) -> str:
    """The bytes of a file as a terminal shows them: harmless, and with a line feed at the end."""
    text = harmless(data, "\n\t")
    return text if text.endswith("\n") or not text else text + "\n"


class Stopped(Exception):
    """Ctrl-C has come: the line ends."""


class Interrupts:
    """Ctrl-C. While a line is typed it interrupts the typing. Otherwise it is noted, and reported at the next check: so no command is interrupted in
    its middle, and the session goes on."""

    def __init__(self) -> None:
        self.has_come = self._is_typing = False
        if signal.getsignal(signal.SIGINT) != signal.SIG_IGN:
            signal.signal(signal.SIGINT, self._come)

    def _come(self, *_: object) -> None:
        if self._is_typing:
            self._is_typing = False
            raise KeyboardInterrupt
        self.has_come = True

    def ask(self) -> None:
        if self.has_come:
            raise Stopped

    def forget(self) -> None:
        self.has_come = False

    @contextlib.contextmanager
    def typing(self) -> Iterator[None]:
        """In the block `KeyboardInterrupt` may be raised; or `Stopped`, if Ctrl-C has come before."""
        self._is_typing = True
        try:
            self.ask()
            yield
        finally:
            self._is_typing = False

    @contextlib.contextmanager
    def working(self) -> Iterator[None]:
        """A part of the typing that must not be interrupted, for example while the program is asked for words."""
        was_typing, self._is_typing = self._is_typing, False
        try:
            yield
        finally:
            self.has_come, self._is_typing = False, was_typing


class Screen:
    """Where the shell shows its output."""

    def __init__(self, interrupts: Interrupts) -> None:
        self.interrupts = interrupts
        self.is_terminal, self.asks = os.isatty(OUTPUT), os.isatty(INPUT) and os.isatty(OUTPUT)
        may_be = not os.environ.get("NO_COLOR") and os.environ.get("TERM", "dumb") != "dumb"
        self._has_colours = {stream: may_be and os.isatty(stream) for stream in (OUTPUT, ERRORS)}
        self.encoding, self._prompt = sys.stdout.encoding or "utf-8", ""

    def coloured(self, text: str, colour: str, stream: int = OUTPUT) -> str:
        return f"\x1b[{colour}m{text}\x1b[0m" if self._has_colours[stream] else text

    def put(self, data: bytes, stream: int = OUTPUT) -> None:
        """Shows bytes as they are."""
        left = memoryview(data)
        while left:
            left = left[os.write(stream, left[:65_536]):]
            self.interrupts.ask()

    def lines(self, lines: Iterable[str]) -> None:
        self.put("".join(line + "\n" for line in lines).encode(self.encoding, "backslashreplace"))

    def many(self, lines: Sequence[str]) -> None:
        """Shows lines in a pager, if they don't fit the terminal; else a hundred at a time, so that Ctrl-C ends them."""
        if not self.page("".join(line + "\n" for line in lines)):
            for at in range(0, len(lines), 100):
                self.lines(lines[at:at + 100])

    def page(self, text: str, always: bool = False) -> bool:
        """Shows a text in a pager, if it doesn't fit the terminal, or always. Returns whether it did."""
        size, command = shutil.get_terminal_size(), pager() if self.asks else None
        rows = sum(max(1, -(-len(COLOUR.sub("", line)) // size.columns)) for line in text.split("\n"))
        if not command or rows <= size.lines and not always:
            return False
        # A person who has seen enough ends the pager, which then reads no more.
        with contextlib.suppress(BrokenPipeError), subprocess.Popen(["/bin/sh", "-c", command], stdin=subprocess.PIPE,
                                                                    env={"LESS": LESS, **os.environ}) as shown:
            assert shown.stdin
            with contextlib.suppress(BrokenPipeError):
                shown.stdin.write(text.encode(self.encoding, "backslashreplace"))
        # Ctrl-C was for the pager.
        self.interrupts.forget()
        return shown.wait() not in NOT_STARTED

    def content(self, data: bytes) -> None:
        """Shows the bytes of a file: on a terminal harmless, and with a line feed at the end."""
        if not self.is_terminal:
            self.put(data)
            return
        text = as_text(data)
        for at in range(0, len(text), PIECE):
            self.put(text[at:at + PIECE].encode(self.encoding, "backslashreplace"))

    def fault(self, line: str) -> None:
        """Says on standard error what is wrong."""
        with contextlib.suppress(OSError):
            text = self.coloured(harmless(line), FAULT, ERRORS) + "\n"
            os.write(ERRORS, text.encode(self.encoding, "backslashreplace"))

    def complain(self, line: str) -> None:
        """The same for the shell's own work; in a script the line begins with the name of the tool."""
        self.fault(line if self.asks else f"shell: {line}")

    def note(self, line: str) -> None:
        """Says something besides the requested output. In a script this goes to standard error, so that the output is that of the program."""
        if self.asks:
            self.lines([line])
        else:
            self.complain(line)

    def prompt(self, place: bytes) -> str:
        """The prompt, or its end if it is long. What a terminal does not show is marked, so that the line's length is known."""
        text, most = harmless(place if place.startswith(b"/") else b"/" + place), max(20, shutil.get_terminal_size().columns // 2)
        text = text if len(text) <= most else ".." + text[-most + 2:]
        shown = f"\1\x1b[{PLACE}m\2{text}\1\x1b[0m\2" if HAS_READLINE and self._has_colours[OUTPUT] else text
        return shown + "> "

    def again(self, lines: Iterable[str], typed: str, behind: int) -> None:
        """Shows lines below the one that is being typed, and then that one again, with the cursor `behind` characters before its end."""
        prompt = self._prompt.replace("\1", "").replace("\2", "")
        text = "\n" + "".join(line + "\n" for line in lines) + prompt + harmless(os.fsencode(typed)) + "\b" * behind
        with self.interrupts.working(), contextlib.suppress(Stopped):
            self.put(text.encode(self.encoding, "backslashreplace"))

    def typed(self, prompt: str) -> bytes:
        """A line that is typed, as bytes; several lines if they were pasted. Raises `EOFError` at Ctrl-D and `KeyboardInterrupt` at Ctrl-C."""
        self._prompt = prompt
        self.interrupts.forget()
        with self.interrupts.typing():
            return os.fsencode(input(prompt))

    def says_yes(self, question: str) -> bool:
        """Whether the answer to a question is yes. Without a terminal it is no."""
        if not self.asks:
            return False
        try:
            return self.typed(f"{question} [y/N] ").strip().lower() in (b"y", b"yes")
        except (EOFError, KeyboardInterrupt, Stopped):
            self.lines([""])
            return False


def pager() -> str | None:
    """The command that shows a long text, or None: `$PAGER`, which turns it off if it is empty or `cat`, or else `less`."""
    command = os.environ.get("PAGER", "less" if shutil.which("less") else "").strip()
    return command if command not in ("", "cat") and os.environ.get("TERM", "dumb") != "dumb" else None


def history_path() -> str:
    """The path of the history file."""
    return os.path.join(state_folder(), "shell_history")


class History:
    """The history of lines, in a file that only its owner reads. If it can't be read or written, it has only the lines of this shell."""

    def __init__(self, path: str) -> None:
        self.path = path
        self.last: bytes | None = None
        if HAS_READLINE:
            readline.set_auto_history(False)
            readline.clear_history()
            # Pasted text is looked at before it runs.
            readline.parse_and_bind("set enable-bracketed-paste on")
            with contextlib.suppress(OSError, ValueError):
                self._begin()

    def _begin(self) -> None:
        with contextlib.suppress(FileNotFoundError):
            with open(self.path, "rb") as file:
                lines = file.read().splitlines()
            for line in lines[-REMEMBERED:]:
                readline.add_history(os.fsdecode(line))
            if len(lines) > 2 * REMEMBERED:
                self._write(lines[-REMEMBERED:], os.O_TRUNC)

    def _write(self, lines: Iterable[bytes], flags: int) -> None:
        os.makedirs(os.path.dirname(self.path), 0o700, exist_ok=True)
        descriptor = os.open(self.path, os.O_WRONLY | os.O_CREAT | os.O_CLOEXEC | flags, 0o600)
        with open(descriptor, "wb") as file:
            os.fchmod(descriptor, 0o600)
            file.write(b"".join(line + b"\n" for line in lines))

    def add(self, line: bytes) -> None:
        """Keeps a line as soon as it comes, so that none is lost if the terminal goes away."""
        if not HAS_READLINE or not line.strip() or line == self.last:
            return
        self.last = line
        with contextlib.suppress(OSError, ValueError):
            readline.add_history(os.fsdecode(line))
            self._write([line], os.O_APPEND)
