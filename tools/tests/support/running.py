"""A tool that runs during a test: how it is started, how it ends, and what it said. Only for tests and measurements."""
from __future__ import annotations

import contextlib
import os
import signal
import subprocess
import tempfile
from collections.abc import Iterator, Sequence
from typing import Any, NamedTuple, Self

from lisfs.client import PROGRAM, End
from support.waiting import LONG, children


class Told(NamedTuple):
    """The status of a tool that has ended, what it showed and what it said."""

    status: int
    shown: bytes
    said: str


def told(command: Sequence[str], data: bytes, **more: Any) -> Told:
    """What a tool does with an input."""
    ran = subprocess.run(command, input=data, capture_output=True, timeout=LONG, check=False, **more)
    return Told(ran.returncode, ran.stdout, ran.stderr.decode())


# Processes that were started and not certainly ended.
STARTED: list[subprocess.Popen[bytes]] = []


class Running:
    """A tool that runs, in a `with` block, at whose end it is ended. It waits for others as long as the test does. Its output goes to `output`;
    `more` is for `Popen`."""

    def __init__(self, command: Sequence[str], program: str = PROGRAM, patience: float | str = LONG, output: int = subprocess.DEVNULL,
                 **more: Any) -> None:
        self.said = tempfile.TemporaryFile()
        words = {**os.environ, "REAL": PROGRAM, "LISFS_PROGRAM": program, "LISFS_PATIENCE": str(patience)}
        self.process: subprocess.Popen[bytes] = subprocess.Popen(command, stdin=subprocess.DEVNULL, stdout=output, stderr=self.said, env=words, **more)
        STARTED.append(self.process)

    def __enter__(self) -> Self:
        return self

    def __exit__(self, *_: object) -> None:
        self.end()

    def end(self, number: int = signal.SIGTERM) -> End:
        """Ends it by a signal."""
        if self.process.poll() is None:
            self.process.send_signal(number)
        return self.ended()

    def ended(self) -> End:
        """The same for a tool that ends on its own."""
        status = self.process.wait(LONG)
        if self.process.stdout:
            self.process.stdout.close()
        self.said.seek(0)
        return End(status, self.said.read().decode())

    def program(self) -> int:
        """The process id of the program."""
        return children(self.process.pid)[0]

    def memory(self) -> int:
        """The most MiB that it has used."""
        with open(f"/proc/{self.process.pid}/status", encoding="ascii") as lines:
            return next(int(line.split()[1]) for line in lines if line.startswith("VmHWM")) // 1_024


@contextlib.contextmanager
def none_left() -> Iterator[None]:
    """What is started in the block has ended after it, even if the block was interrupted."""
    before = len(STARTED)
    try:
        yield
    finally:
        for process in STARTED[before:]:
            process.kill()
            process.wait()
        del STARTED[before:]
