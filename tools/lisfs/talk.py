"""Gives standard input to a server (`tools/serve`), and shows its replies, as `lisfs run` does with an image.

usage: tools/talk IMAGE < session
       tools/talk SOCKET < session

Given an image, it goes to the socket that `tools/serve IMAGE` has beside it. It exits with 0 when its input has ended and all replies were
shown. A last line may lack its line feed, and so may a last payload. If there is no server, if it already has eight clients, or if it ends early,
a line on standard error says so, and the status is 1. On a terminal, what is not text is shown as `^X`, `\\xNN` or `\\uNNNN`; elsewhere replies
are written as they are.
"""
import os
import select
import signal
import socket
import stat
import sys
from typing import NoReturn

from lisfs.client import FULL, ROOM_LINE, Items, NotAReply, Replies, socket_of
from lisfs.endings import quiet
from lisfs.showing import harmless

INPUT, OUTPUT, PIECE = 0, 1, 65_536


def fail(path: str, cause: object) -> NoReturn:
    sys.exit(harmless(f"talk: {path}: {cause}"))


class Talk:
    def __init__(self, connection: socket.socket) -> None:
        self.is_terminal = os.isatty(OUTPUT)
        self.connection, self.items, self.replies = connection, Items(ROOM_LINE), Replies()
        self.unsent, self.has_ended, self.asked, self.answered = memoryview(b""), False, 0, 0

    def run(self) -> bool:
        """Runs until the server closes the connection. Returns whether all was replied to."""
        while True:
            reading = [self.connection] + ([] if self.has_ended or self.unsent else [INPUT])
            readable, writable, _ = select.select(reading, [self.connection] if self.unsent else [], [])
            if self.connection in readable and not self.show():
                return self.has_ended and self.asked == self.answered
            if self.connection in writable:
                self.send()
            if INPUT in readable:
                self.read()

    def read(self) -> None:
        """Reads a piece of the input. At the end of the input the last line is ended."""
        data = os.read(INPUT, PIECE)
        if data:
            self.take(data)
        else:
            self.has_ended = True
            while self.items.lacks_feed():
                self.take(b"\n")
            # The server reports a payload that is cut off.
            self.asked += self.items.is_cut()
        self.send()

    def take(self, data: bytes) -> None:
        self.unsent = memoryview(bytes(self.unsent) + data)
        self.items.feed(data)
        while self.items.take():
            self.asked += 1

    def send(self) -> None:
        """Sends as much as the server reads now, and after the last of it the end."""
        try:
            if self.unsent:
                self.unsent = self.unsent[self.connection.send(self.unsent):]
            if self.has_ended and not self.unsent:
                self.connection.shutdown(socket.SHUT_WR)
        except BlockingIOError:
            pass
        except OSError:
            # The server reads no more. Its last replies can be read, and then its end.
            self.unsent = memoryview(b"")

    def show(self) -> bool:
        """Shows the replies that are complete. Returns whether more can come."""
        try:
            data = self.connection.recv(PIECE)
        except BlockingIOError:
            return True
        except ConnectionResetError:
            return False
        self.replies.shown += data
        while taken := self.replies.take():
            self.answered += 1
            left = self.shown(taken[0])
            while left:
                left = left[os.write(OUTPUT, left):]
        return bool(data)

    def shown(self, reply: bytes) -> bytes:
        """The bytes of a reply as they are shown: on a terminal harmlessly, since a file may have any bytes."""
        return harmless(reply, "\n\t").encode(sys.stdout.encoding, "backslashreplace") if self.is_terminal else reply


def is_file(path: str) -> bool:
    """Whether there is a file that can be an image."""
    try:
        kind = os.stat(path).st_mode
    except OSError:
        return False
    return stat.S_ISREG(kind) or stat.S_ISBLK(kind)


def talk(path: str) -> None:
    path = socket_of(path) if is_file(path) else path
    connection = socket.socket(socket.AF_UNIX)
    try:
        connection.connect(path)
    except OSError as error:
        fail(path, f"no server is there: {error.strerror or error}")
    connection.setblocking(False)
    talking = Talk(connection)
    try:
        if not talking.run():
            fail(path, "the server ended before all was replied to")
    except NotAReply as error:
        fail(path, FULL.decode().rstrip() if talking.replies.shown == FULL else error)


@quiet
def main() -> int:
    if len(sys.argv) != 2 or sys.argv[1].startswith("-"):
        sys.exit(__doc__)
    signal.signal(signal.SIGINT, signal.SIG_DFL)
    try:
        talk(sys.argv[1])
    except BrokenPipeError:
        raise
    except OSError as error:
        sys.exit(f"talk: {error.strerror or error}")
    return 0
