"""A server that listens at a Unix socket (`tools/serve`), its clients, and their random commands. Only for tests."""
from __future__ import annotations

import os
import random
import select
import signal
import socket
import time
from collections.abc import Callable, Sequence
from typing import IO, Any, NamedTuple

from lisfs.client import PROGRAM, End, Replies, shown_by
from lisfs.constants import MAX_LARGE_FILE
from support import images, tool
from support.running import Running, Told, told
from support.waiting import LONG, is_running, stop, until

SERVE, TALK = tool("serve"), tool("talk")
LIMITS = ("1024", "512", "2048", "v2")
# What `pwd` shows to a client at the root, and what a talk says if there was no reply.
PWD = b"w /\nok\n"
ENDED = "talk: socket: the server ended before all was replied to\n"


def make(image: str = "image", limits: Sequence[str] = LIMITS) -> str:
    """Makes an image for a server. Returns its name."""
    return images.make(image, limits)


def ran(image: str, data: bytes) -> bytes:
    """What `run` shows."""
    return shown_by([PROGRAM, "run", image], data)


def written(name: str, data: bytes) -> IO[bytes]:
    """A file of these bytes, opened."""
    return open(images.written(name, data), "rb")


def script(name: str, text: str) -> str:
    """The path of a script that runs the program, which is its `$REAL`."""
    return os.path.abspath(images.written(name, text, 0o700))


def answers(path: str) -> bool:
    """Whether a server listens. It is tried with a connection, which is closed again."""
    try:
        connected(path).close()
        return True
    except OSError:
        return False


def connected(path: str = "socket") -> socket.socket:
    connection = socket.socket(socket.AF_UNIX)
    connection.connect(path)
    connection.settimeout(LONG)
    return connection


class Peer:
    """A client that sends these bytes in pieces, and then ends, or if `ends` is false waits for the server to do so."""

    def __init__(self, data: bytes, path: str = "socket", ends: bool = True, piece: int = 65_536) -> None:
        self.connection, self.left, self.ends, self.piece, self.got, self.is_over = connected(path), data, ends, piece, b"", False
        self.connection.setblocking(False)
        if not data and ends:
            self.connection.shutdown(socket.SHUT_WR)

    def fileno(self) -> int:
        return self.connection.fileno()

    def send(self) -> None:
        try:
            self.left = self.left[self.connection.send(self.left[:self.piece]):]
            if not self.left and self.ends:
                self.connection.shutdown(socket.SHUT_WR)
        except BlockingIOError:
            pass
        except OSError:
            self.left = b""

    def read(self) -> None:
        try:
            data = self.connection.recv(self.piece)
        except BlockingIOError:
            return
        except OSError:
            data = b""
        self.got += data
        self.is_over = not data

    def close(self) -> None:
        self.is_over = True
        self.connection.close()


def drive(peers: Sequence[Peer], is_enough: Callable[[], bool] = lambda: False) -> list[bytes]:
    """Lets clients send and read until the server closes their connections, or it is enough. Returns what each of them got."""
    limit = time.monotonic() + LONG
    while (open_ones := [peer for peer in peers if not peer.is_over]) and not is_enough():
        if time.monotonic() > limit:
            raise TimeoutError("clients that were not served")
        readable, writable, _ = select.select(open_ones, [peer for peer in open_ones if peer.left], [], 0.01)
        for peer in writable:
            peer.send()
        for peer in readable:
            peer.read()
    return [peer.got for peer in peers]


class Shown(NamedTuple):
    """The complete replies in some bytes, in order, and whether nothing else is there."""

    replies: list[bytes]
    is_all: bool


def replies_in(shown: bytes) -> Shown:
    cut, found = Replies(), []
    cut.shown += shown
    while taken := cut.take():
        found.append(taken[0])
    return Shown(found, not cut.shown)


def asked(connection: socket.socket, data: bytes, wanted: int) -> bytes:
    """Sends bytes and reads as many as are wanted, or fewer if the server closes."""
    connection.sendall(data)
    got = b""
    while len(got) < wanted and (more := connection.recv(wanted - len(got))):
        got += more
    return got


def talked(data: bytes, path: str = "socket", **more: Any) -> Told:
    return told([TALK, path], data, **more)


class Served(Running):
    """`tools/serve` over an image, at a socket: without a path it is the one beside the image."""

    def __init__(self, image: str = "image", path: str | None = "socket", wait: bool = True, patience: float | str = LONG, program: str = PROGRAM,
                 command: Sequence[str] = (SERVE,), **more: Any) -> None:
        super().__init__([*command, image, *([path] if path else [])], program, patience, **more)
        at = path or f"{image}.socket"
        if wait and not until(lambda: answers(at) or self.process.poll() is not None):
            raise TimeoutError("no server")

    def finds(self, number: int) -> None:
        """Sends a signal to it, and to its program as a terminal does, which is handled before all that comes from now on."""
        stop(self.process.pid)
        os.killpg(self.process.pid, number)
        self.process.send_signal(signal.SIGCONT)

    def killed(self) -> bool:
        """Kills it, and waits until its program has noticed that too, and no longer has the image."""
        program = self.program()
        self.end(signal.SIGKILL)
        return until(lambda: not is_running(program))


def refusing(image: str, path: str = "socket", **more: Any) -> End:
    """The status of a server that does not start, and what it says."""
    return Served(image, path, wait=False, **more).ended()


# Lines, for a file N; lines with a payload of S bytes, and what follows it; and what may be at the end of an input.
LINES = (b"ls", b"cd w", b"cd /", b"cd ..\r", b"cd ..\r\r", b"pwd", b"pwd\r\r", b"add N 3\r\r", b"write N 2\r\r\r", b"stat", b"mkdir w",
         b"mkdir " + b"w" * 60, b"cat N", b"cat N\r", b"rm N", b"create N w",
         b"props N", b"add N 0000000000001", b"add N 0\n", b"add N 0\nls", b"", b" \t ", b"\r", b"\r\r", b"\0\xff\x0b", b"\x0c", b"x" * 1_021,
         b"x" * 1_025, b"y" * 70_000, b" " * 1_021, b" " * 1_025, b"@1 ls", b"@-", b"ok")
WITH_PAYLOAD = (b"add N S w", b"add N S", b" write\tN 000S\r", b"write N S x", b"add . S", b"add N S" + b" w1 w2 w3" * 6)
BEHIND = (b"\n",) * 6 + (b"\r\n", b"yz\n", b"wrong\0end\r\n")
AT_THE_END = (b"", b"", b"ls", b" ", b"add N 0", b"add N 0\n", b"add N 3\nab", b"add N 3", b"add N 3\nabc", b"add N 2\nabc", b"add N 1048578\nab",
              b"rm N", b"x" * 1_025, b"\r")


def random_bytes(chance: random.Random, sizes: Sequence[int] = (0, 1, 2, 5, 40, 300, 5_000, 70_000)) -> bytes:
    size = chance.choice(sizes)
    return chance.choice((chance.randbytes(size), b"ok\n" * (size // 3), b"\n" * size, b"\r\nls\n" * (size // 5)))


def random_input(chance: random.Random, ends: Sequence[bytes]) -> bytes:
    """Lines, some of them with payloads, and one of these ends."""
    def line(forms: Sequence[bytes]) -> bytes:
        return chance.choice(forms).replace(b"N", b"n%d" % chance.randrange(9))

    def part() -> bytes:
        if chance.random() < 0.5:
            return line(LINES) + b"\n"
        content = bytes(MAX_LARGE_FILE + chance.randrange(3)) if chance.random() < 0.1 else random_bytes(chance)
        return line(WITH_PAYLOAD).replace(b"S", b"%d" % len(content)) + b"\n" + content + chance.choice(BEHIND)

    return b"".join(part() for _ in range(chance.randrange(12))) + line(ends)


def random_session(chance: random.Random, own: bytes, length: int) -> bytes:
    """The commands of a client that has separate words and files, below a separate place."""
    words = [own + b"a", own + b"b", own + b"c", own + b"y:1", own + b"y:2"]
    begin = b"mkdir %b\ncd %b\n" % (own, own) + b"".join(b"mkdir %b%b\n" % (own, word) for word in (b"a", b"b", b"c", b"y:"))

    def command() -> bytes:
        one, two = (own + b"f%d.%b" % (chance.randrange(12), own) for _ in range(2))
        some = b" ".join(chance.sample(words, chance.randrange(3)))
        content = random_bytes(chance, (0, 1, 30, 2_000, 9_000))
        size = b"%d" % len(content)
        place = b"/".join([b"/" + own] + [chance.choice((b"", b"!")) + word for word in chance.sample(words, chance.randrange(2))])
        pair = b"%b %b" % (chance.choice(words), chance.choice(words[:3]))
        return b" ".join(chance.choice((
            (b"create", one, some), (b"add", one, size, some + b"\n" + content), (b"write", one, size + b"\n" + content), (b"cat", one), (b"ls",),
            (b"ls",), (b"cd", place), (b"cd", place + b"\r"), (b"pwd",), (b"rm", one), (b"props", one), (b"way", one), (b"rename", one, two),
            (b"mv", one, place), (b"axiom", pair), (b"unaxiom", pair), (b"cd", b"/" + own), (b"add", one, size + b"\n" + content + b"x"),
            (b"x" * chance.choice((1_021, 1_025)),), (b"",), (b"frob",)))) + b"\n"

    return begin + b"".join(command() for _ in range(length))
