"""Many clients at once, in one thread: none of them, however slow or large, delays another one or takes more than its share.

A connection has one request and one answer. The head of a request has a bounded length; its body is read only if the site has admitted the head, and
has the length that the head says. A request that is not complete after some seconds is closed. If too many connections are open, one makes room for a
new one: first one without an admitted request, so that a client that only connects keeps nobody out. A request is answered whole before the next one:
the program runs one command after the other.
"""
import contextlib
import email.utils
import http
import os
import selectors
import socket
import sys
import time
from collections.abc import Callable
from typing import Protocol

from lisfs.endings import say_fault
from lisfs.showing import harmless
from lisfs.web.site import HEAD, POLICY, Answer, Request, Wrong

READ, WRITE = selectors.EVENT_READ, selectors.EVENT_WRITE
# The most open connections, the most that wait to be opened, how many bytes are read at once, and how many more of a refused request, so that its
# sender sees the answer.
MOST, WAITING = 200, 128
PIECE, PASSED_OVER = 65_536, 16_777_216


def patience(seconds: float) -> float:
    """How long something may take: this many seconds, or as many as the environment says."""
    text = os.environ.get("LISFS_PATIENCE") or str(seconds)
    with contextlib.suppress(ValueError):
        if 0 < (wanted := float(text)) <= 1_000_000:
            return wanted
    sys.exit(f"browse: LISFS_PATIENCE: no number of seconds: {harmless(text)}")


# A request, an answer, and the end of a connection.
REQUEST, ANSWER, END = patience(20), patience(60), patience(5)


def spelled(answer: Answer, can_write: bool) -> bytes:
    """The bytes of an answer. Each has all headers that keep a browser from taking it for something else, or showing it elsewhere."""
    # With `no-referrer` a browser would send no origin with a form, as a foreign page could make it do too.
    rows = [f"HTTP/1.1 {answer.status} {http.HTTPStatus(answer.status).phrase}", f"Date: {email.utils.formatdate(usegmt=True)}",
            f"Content-Type: {answer.kind}", f"Content-Length: {len(answer.body)}", "Connection: close", "Cache-Control: no-store",
            f"Content-Security-Policy: {POLICY}", "X-Content-Type-Options: nosniff",
            f"Referrer-Policy: {'same-origin' if can_write else 'no-referrer'}",
            "X-Frame-Options: DENY", "Cross-Origin-Resource-Policy: same-origin", "Cross-Origin-Opener-Policy: same-origin"]
    rows += [f"{name}: {value}" for name, value in answer.headers]
    if any("\r" in row or "\n" in row for row in rows):
        raise ValueError("a header of two lines")
    return "\r\n".join(rows).encode("latin-1") + b"\r\n\r\n" + answer.body


class Site(Protocol):
    """The object that answers: `site.Site`."""
    can_write: bool

    def admitted(self, head: bytes) -> tuple[Request, int]: ...

    def answer(self, request: Request, body: bytes) -> Answer: ...

    def refused(self, wrong: Wrong) -> Answer: ...


class Connection:
    def __init__(self, client: socket.socket) -> None:
        self.socket, self.given, self.length, self.unsent, self.passed = client, bytearray(), 0, memoryview(b""), 0
        # The request, once it is admitted.
        self.request: Request | None = None
        # Whether it waits for a request, and when it is closed.
        self.is_asking, self.until = True, time.monotonic() + REQUEST


class Connections:
    """Serves a site at a listening socket until it must end."""

    def __init__(self, site: Site, listener: socket.socket) -> None:
        self.site, self.listener, self.is_ending = site, listener, False
        # By descriptor.
        self.open: dict[int, Connection] = {}
        listener.setblocking(False)
        self.selector = selectors.DefaultSelector()
        self.selector.register(listener, READ, self._take)

    def watch(self, file: int, call: Callable[[], None]) -> None:
        self.selector.register(file, READ, call)

    def end(self, come: int) -> None:
        """Answers nothing more, since a signal has come."""
        os.read(come, PIECE)
        self.is_ending = True

    def serve(self) -> None:
        while not self.is_ending:
            now = time.monotonic()
            for connection in [connection for connection in self.open.values() if connection.until <= now]:
                self._close(connection)
            soonest = min((connection.until for connection in self.open.values()), default=None)
            for key, _ in self.selector.select(None if soonest is None else max(0, soonest - now)):
                # An earlier call may have closed this one.
                if key.fileobj is self.listener or key.fd not in self.open or self.open[key.fd].socket is key.fileobj:
                    key.data()
        for connection in list(self.open.values()):
            self._close(connection)

    def _take(self) -> None:
        with contextlib.suppress(OSError):
            client, _ = self.listener.accept()
            client.setblocking(False)
            if len(self.open) >= MOST and not self._make_room():
                client.close()
                return
            connection = self.open[client.fileno()] = Connection(client)
            self.selector.register(client, READ, lambda: self._serve(connection))

    def _make_room(self) -> bool:
        """Closes a connection that is not being answered: one without an admitted request, or else one that has its answer, or else one whose request
        is not complete; among these the one that has waited longest. Returns whether there was one."""
        waiting = [connection for connection in self.open.values() if connection.request is None or not connection.unsent]
        if waiting:
            self._close(min(waiting, key=lambda connection: (connection.request is not None, connection.is_asking, connection.until)))
        return bool(waiting)

    def _close(self, connection: Connection) -> None:
        if self.open.get(connection.socket.fileno()) is connection:
            del self.open[connection.socket.fileno()]
            self.selector.unregister(connection.socket)
            connection.socket.close()

    def _serve(self, connection: Connection) -> None:
        try:
            if connection.unsent:
                self._send(connection)
            elif connection.is_asking:
                self._read(connection)
            else:
                self._pass_over(connection)
        except BlockingIOError:
            pass
        except OSError:
            self._close(connection)
        except Exception:
            # An error of the parser of requests ends only one of them.
            say_fault()
            self._close(connection)

    def _read(self, connection: Connection) -> None:
        data = connection.socket.recv(PIECE)
        if not data:
            self._close(connection)
            return
        connection.given += data
        try:
            request = connection.request or self._admit(connection)
        except Wrong as wrong:
            self._answer(connection, self.site.refused(wrong))
            return
        if request is not None and len(connection.given) >= connection.length:
            self._answer(connection, self.site.answer(request, bytes(connection.given[:connection.length])))

    def _admit(self, connection: Connection) -> Request | None:
        """The request, once its head is complete."""
        end = connection.given.find(b"\r\n\r\n", 0, HEAD)
        if end < 0:
            if len(connection.given) >= HEAD:
                raise Wrong(431, "The request is too large.")
            return None
        head = bytes(connection.given[:end + 4])
        del connection.given[:end + 4]
        connection.request, connection.length = self.site.admitted(head)
        return connection.request

    def _answer(self, connection: Connection, answer: Answer) -> None:
        connection.unsent, connection.given = memoryview(spelled(answer, self.site.can_write)), bytearray()
        connection.is_asking, connection.until = False, time.monotonic() + ANSWER
        with contextlib.suppress(BlockingIOError):
            self._send(connection)
        if connection.unsent:
            self.selector.modify(connection.socket, WRITE, self.selector.get_key(connection.socket).data)

    def _send(self, connection: Connection) -> None:
        connection.unsent = connection.unsent[connection.socket.send(connection.unsent):]
        if not connection.unsent:
            # Unread bytes would make the system discard the answer, so the other side is read until it closes too.
            connection.socket.shutdown(1)
            connection.until = time.monotonic() + END
            self.selector.modify(connection.socket, READ, self.selector.get_key(connection.socket).data)

    def _pass_over(self, connection: Connection) -> None:
        data = connection.socket.recv(PIECE)
        connection.passed += len(data)
        if not data or connection.passed > PASSED_OVER:
            self._close(connection)
