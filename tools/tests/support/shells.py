"""The prompt with scripts, as a program and within this process. Only for its tests."""
import contextlib
import signal
from collections.abc import Iterator
from typing import Any

from lisfs.dumps import opened
from lisfs.limits import limits_of
from lisfs.shell.running import Shell, as_a_script
from lisfs.shell.session import Session
from lisfs.shell.terminal import OUTPUT, Interrupts, Screen
from support import tool
from support.running import Told, told

SHELL = tool("shell")


def shell(script: bytes, image: str = "image", **more: Any) -> Told:
    return told([SHELL, image], script, **more)


class Kept(Screen):
    """Keeps what is shown and what is said."""

    def __init__(self) -> None:
        before = signal.getsignal(signal.SIGINT)
        super().__init__(Interrupts())
        # Ctrl-C is for the test.
        signal.signal(signal.SIGINT, before)
        self.is_terminal = self.asks = False
        self.shown, self.said = b"", ""

    def coloured(self, text: str, *_: object) -> str:
        return text

    def put(self, data: bytes, stream: int = OUTPUT) -> None:
        self.shown += data

    def fault(self, line: str) -> None:
        self.said += line + "\n"


class Within:
    """A shell in this process. Calling it returns the answer to a script, as `shell` does."""

    def __init__(self, session: Session) -> None:
        self.screen, self.session = Kept(), session
        self._shell = Shell(session, self.screen)

    def __call__(self, script: bytes) -> Told:
        self.screen.shown, self.screen.said, pieces = b"", "", [script[:5], script[5:], b""]
        is_fine = as_a_script(self._shell, lambda: pieces.pop(0) if len(pieces) > 1 else b"")
        return Told(0 if is_fine else 1, self.screen.shown, self.screen.said)


@contextlib.contextmanager
def within(image: str = "image") -> Iterator[Within]:
    program, dump = opened(image)
    with program:
        yield Within(Session(program, dump, limits_of(image)))
