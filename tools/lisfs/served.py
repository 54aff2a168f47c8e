"""A client of a served image: a session at the socket that `tools/serve IMAGE` has beside the image.

It is used like a program that has the image alone. Others change the image too: `news` returns what they have changed since the last call, so that
what is known of the image stays true (`history` has the lines), and after `guard` a change of a file that another client has changed is refused.
"""
import contextlib
import os
import socket
import struct
import threading
from collections.abc import Callable
from typing import NamedTuple

from lisfs.client import FULL, ROOM_LINE, BodyLine, End, Ended, NotAReply, Program, Refused, Replies, socket_of
from lisfs.dumps import Axiom, Dump, Stored
from lisfs.endings import NotJoined

PIECE = 65_536
# The system's credentials of the listener: the process, the user and the group.
PEER = struct.Struct("3i")


class Identity(NamedTuple):
    """Which file an image is."""

    device: int
    inode: int


class News:
    """What others have changed. It is `whole` if it is all that the image holds, so that nothing else exists."""

    def __init__(self) -> None:
        self.number = 0
        self.whole: Identity | None = None
        self.renamed: list[tuple[bytes, bytes]] = []
        self.files: dict[bytes, Stored] = {}
        self.written: set[bytes] = set()
        self.gone: set[bytes] = set()
        self.declared: set[bytes] = set()
        self.undeclared: set[bytes] = set()
        self.axioms: set[Axiom] = set()
        self.unaxioms: set[Axiom] = set()


def news_of(body: list[BodyLine]) -> News:
    """The parsed lines of a reply. Raises `NotAReply`."""
    news = News()
    takes: dict[bytes, Callable[[list[bytes]], object]] = {
        b"r": lambda words: news.renamed.append((words[0], words[1])), b"c": lambda words: news.written.add(words[0]),
        b"g": lambda words: news.gone.add(words[0]), b"d": lambda words: news.declared.add(words[0]),
        b"u": lambda words: news.undeclared.add(words[0]), b"a": lambda words: news.axioms.add(Axiom(*words)),
        b"x": lambda words: news.unaxioms.add(Axiom(*words))}
    try:
        for letter, text in body:
            words = text.split()
            if letter == b"n":
                news.number = int(words[0])
            elif letter == b"i":
                news.whole = Identity(int(words[0]), int(words[1]))
            elif letter == b"f":
                news.files[words[0]] = Stored(int(words[1]), frozenset(words[2:]))
            else:
                takes[letter](words)
    except (LookupError, ValueError, TypeError):
        raise NotAReply(f"{text[:80]!r} says nothing of an image") from None
    return news


class Joined(Program):
    """A client of a served image."""

    is_shared = True

    def __init__(self, connection: socket.socket, image: str) -> None:
        self._connection, self._image, self._is_closing = connection, image, False
        self._begin(connection, connection, ROOM_LINE)
        # The last change that this client knows of.
        self._known = 0

    def whole(self) -> News:
        """What the image holds."""
        news = news_of(self.lines(b":all").body)
        self._known = news.number
        return news

    def news(self) -> News | None:
        """What others have changed since the last call, or None if nothing."""
        body = self.lines(b":since", b"%d" % self._known).body
        news = news_of(body)
        self._known = news.number
        return news if len(body) > 1 else None

    def changes(self) -> int:
        """How many changes there were, all of which the image has by now: the program runs commands in sequence."""
        self.pwd()
        return news_of(self.lines(b":since", b"%d" % self._known).body).number

    def guard(self) -> None:
        """From now on a change of a file that another client has changed since the last known change is refused as `CHANGED`."""
        self.lines(b":guard", b"%d" % self._known)

    def close(self) -> None:
        self._is_closing = True
        super().close()

    def kill(self) -> None:
        """Ends the connection at once."""
        with contextlib.suppress(OSError):
            self._connection.shutdown(socket.SHUT_RDWR)
        self._ending()

    def kill_after(self, seconds: float) -> None:
        timer = threading.Timer(seconds, self._connection.shutdown, [socket.SHUT_RDWR])
        timer.daemon = True
        timer.start()

    def _write(self, data: bytes | memoryview) -> int:
        return self._connection.send(data, socket.MSG_DONTWAIT)

    def _read(self) -> bool:
        try:
            data = self._connection.recv(PIECE)
        except OSError:
            # The server is gone.
            return False
        self._replies.shown += data
        return bool(data)

    def _finished(self) -> End:
        with contextlib.suppress(OSError):
            self._connection.shutdown(socket.SHUT_WR)
        while self._read():
            pass
        self._connection.close()
        if self._is_closing and self._is_answered():
            return End(0, "")
        return End(1, f"{self._image}: the server has ended; what was replied to is kept\n")

    def _is_answered(self) -> bool:
        """Whether each command has its reply, also if nobody has received it."""
        left, count = Replies(), 0
        left.shown += self._replies.shown
        with contextlib.suppress(NotAReply):
            while left.take():
                count += 1
        return count >= len(self._awaited)

    def begins_full(self) -> bool:
        """Whether the server has said that it has no room for another client."""
        return self._replies.shown.startswith(FULL)


class Digests(dict[bytes, bytes]):
    """The digests of files, each computed when it is needed. That of a file that is gone is empty."""

    def __init__(self, program: Program) -> None:
        super().__init__()
        self._program = program

    def __missing__(self, name: bytes) -> bytes:
        import hashlib
        try:
            self[name] = hashlib.sha256(self._program.cat(name).body).digest()
        except Refused:
            self[name] = b""
        return self[name]


def connected(image: str) -> socket.socket | None:
    """A connection to the server of an image, or None if there is none. Raises `NotJoined` if the listener is of another user who
    does not own the image either, and who is not root."""
    path = socket_of(image)
    connection = socket.socket(socket.AF_UNIX)
    try:
        connection.connect(path)
        _, user, _ = PEER.unpack(connection.getsockopt(socket.SOL_SOCKET, socket.SO_PEERCRED, PEER.size))
        if user not in (os.geteuid(), 0, os.stat(image).st_uid):
            raise NotJoined(f"{path}: the socket of another user")
    except OSError:
        connection.close()
        return None
    except NotJoined:
        connection.close()
        raise
    return connection


class Session(NamedTuple):
    """A session over a served image, and what the image holds."""

    program: Joined
    dump: Dump


def joined(image: str) -> Session | None:
    """A client of the server of an image, or None if there is none, or it has another file open. Raises `NotJoined`."""
    connection = connected(image)
    if connection is None:
        return None
    program = Joined(connection, image)
    try:
        news = program.whole()
    except (NotAReply, Refused, Ended):
        is_full = program.begins_full()
        program.kill()
        raise NotJoined(f"{socket_of(image)}: " + ("eight clients are here" if is_full else "no server that this tool can use")) from None
    found = os.stat(image)
    if news.whole != Identity(found.st_dev, found.st_ino):
        program.kill()
        return None
    dump = Dump()
    dump.declared, dump.axioms, dump.files, dump.digests = news.declared, news.axioms, news.files, Digests(program)
    return Session(program, dump)
