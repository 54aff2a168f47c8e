"""A program at a terminal, and a person at a real one (`tmux`). Only for tests."""
import contextlib
import fcntl
import os
import pty
import select
import signal
import struct
import subprocess
import termios
from typing import Self

from support.waiting import LONG, rest, stop, until

# Variables that would make a terminal differ from that of another machine.
OTHERS = ("NO_COLOR", "INPUTRC", "COLUMNS", "LINES", "TMUX", "PAGER", "LESS")
ROWS, COLUMNS = 30, 100
KEYS = ("Enter", "Tab", "Up", "C-a", "C-c", "C-d")


def environment(**more: str) -> dict[str, str]:
    return {key: value for key, value in os.environ.items() if key not in OTHERS} | {"INPUTRC": "/dev/null"} | more


class Terminal:
    """A program at a terminal, in a `with` block, at whose end it has ended. What it shows is kept."""

    def __init__(self, command: list[str], **more: str) -> None:
        self.shown, self._at = b"", 0
        self.status: int | None = None
        words = environment(**{"TERM": "xterm", "XDG_STATE_HOME": os.path.abspath("state")} | more)
        self.process, self._side = pty.fork()
        if not self.process:
            with contextlib.suppress(OSError):
                os.execve(command[0], command, words)
            os._exit(127)
        fcntl.ioctl(self._side, termios.TIOCSWINSZ, struct.pack("HHHH", ROWS, COLUMNS, 0, 0))

    def __enter__(self) -> Self:
        return self

    def __exit__(self, *_: object) -> None:
        if self.status is None:
            os.kill(self.process, signal.SIGKILL)
            os.waitpid(self.process, 0)
        os.close(self._side)

    def types(self, text: bytes) -> Self:
        os.write(self._side, text)
        return self

    def _read(self) -> bool:
        """Reads what is shown, after waiting for it. Returns whether there was more than the end."""
        if not select.select([self._side], [], [], LONG)[0]:
            return False
        try:
            data = os.read(self._side, 65_536)
        except OSError:
            return False
        self.shown += data
        return bool(data)

    def sees(self, text: bytes) -> bytes | None:
        """What is shown up to a text, after the last one that was waited for. None if it does not come."""
        while (found := self.shown.find(text, self._at)) < 0:
            if not self._read():
                return None
        begin, self._at = self._at, found + len(text)
        return self.shown[begin:self._at]

    def _has_ended(self) -> int:
        number, ended = os.waitpid(self.process, os.WNOHANG)
        if number:
            self.status = os.waitstatus_to_exitcode(ended)
        return number

    def ends(self) -> int | None:
        """The status with which it ends, or None if it does not end."""
        while self._read():
            pass
        until(self._has_ended)
        return self.status

    def interrupts(self, line: bytes, waited_for: int) -> None:
        """Types a line while the process that the program then waits for is stopped, and then Ctrl-C. The process goes on."""
        stop(waited_for)
        self.types(line).sees(b"\r\n")
        rest(self.process)
        self.types(b"\x03").sees(b"^C")
        rest(self.process)
        os.kill(waited_for, signal.SIGCONT)


class Person:
    """A person at a real terminal, in a `with` block. The server of `tmux` is a separate one, and ends with it."""

    def __init__(self, command: str) -> None:
        with open("tmux.conf", "w", encoding="ascii") as file:
            file.write("set -s escape-time 0\nset -s exit-empty off\n")
        self._socket = os.path.abspath("tmux.socket")
        words = environment(XDG_STATE_HOME=os.path.abspath("state"), SHELL="/bin/sh", LC_ALL="C.UTF-8")
        try:
            subprocess.run([*self._words("-f", "tmux.conf", "new-session"), "-d", "-x", str(COLUMNS), "-y", str(ROWS), command],
                           env=words, timeout=LONG, check=True)
        except BaseException:
            self._end()
            raise

    def _words(self, *words: str) -> list[str]:
        return ["tmux", "-u", "-S", self._socket, *words]

    def __enter__(self) -> Self:
        return self

    def __exit__(self, *_: object) -> None:
        self._end()

    def _end(self) -> None:
        subprocess.run(self._words("kill-server"), stderr=subprocess.DEVNULL, timeout=LONG, check=False)

    def asks(self, *words: str) -> str:
        """The result of a command of `tmux` itself."""
        return subprocess.run(self._words(*words), stdout=subprocess.PIPE, timeout=LONG, check=True).stdout.decode()

    def types(self, *keys: str) -> None:
        """Types texts, or keys by name."""
        for key in keys:
            self.asks("send-keys", *(() if key in KEYS else ("-l",)), key)

    def pastes(self, text: str) -> None:
        self.asks("set-buffer", text)
        self.asks("paste-buffer", "-p")

    def screen(self) -> str:
        """The lines of the screen, without blanks at their ends, and a line feed before each."""
        return "".join("\n" + line for line in self.asks("capture-pane", "-p").rstrip().splitlines())

    def sees(self, text: str) -> bool:
        """Waits until the screen ends with a text. Returns False if it does not."""
        return until(lambda: self.screen().endswith(text))
