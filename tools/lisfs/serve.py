"""Serves an image to up to eight clients at a time over a Unix socket, each as if it had `lisfs run IMAGE` for itself.

usage: tools/serve IMAGE [SOCKET]
       tools/talk IMAGE < session

Without SOCKET the socket is IMAGE.socket, beside the image. There `tools/shell`, `tools/sync`, `tools/browse`, `tools/mount`, `tools/edit` and
`tools/talk` find it: given IMAGE, they are clients of the server, and each sees what the others change.

A client is a connection to the socket. It sends what it would give to `run`, and gets the replies of `run`. It begins at the root and has
its own place; the files are the same for all. It differs from `run` in three things:

- A line has at most 1,021 bytes before its line feed. A longer one is refused as 2.
- A command runs when it is complete, with its line feeds. If a client ends, its half command does nothing. If the client was cut off within
  a payload and still reads, it gets `no 03 cut payload`; a last line without a line feed has no reply.
- Lines that begin with `:` are for the server: by them the tools learn what others have changed (`lisfs/history.py` has them).

Of each client one command runs at a time, and the server looks at the next one when the reply has gone out. So a client waits for at most
seven others, and one that does not read delays nobody. A ninth client gets one line that says so, and its connection is closed.

Only its owner may use the socket. If a server is gone, its socket is replaced. SIGTERM, SIGINT and SIGHUP end the server in order: the
commands that are under way run and are replied to, the connections are closed, the socket is removed, and the status is 0. If the program
ends, the server sends the replies that there are, closes the connections, and exits with the status of the program and what it said.

It waits at most 5 seconds, or the seconds in `$LISFS_PATIENCE`, in three cases:

- At its start, for the lock of the file SOCKET.lock, if another server that starts at the same socket has it.
- After a signal, for the program. If the program has not ended by then, it is killed: the status is 137, and what was replied to is kept.
- At its end, for clients that do not read.

The lock file is there only while a server starts.
"""
import collections
import contextlib
import fcntl
import functools
import os
import select
import selectors
import signal
import socket
import stat
import sys
import time
from collections.abc import Callable, Iterator, Sequence
from typing import NamedTuple, NoReturn, Protocol, TypeAlias

from lisfs.client import FULL, ROOM_LINE, Ended, Item, Items, NotAReply, Program, item, missing, socket_of, words_of
from lisfs.constants import CUT_PAYLOAD, REFUSAL_WORDS, ROOMS
from lisfs.dumps import STOPS, NotADump, dumped, opened_by, started
from lisfs.endings import quiet
from lisfs.history import OK, PLACED, History
from lisfs.limits import limits_of
from lisfs.opening import waiting
from lisfs.showing import harmless

READ, WRITE = selectors.EVENT_READ, selectors.EVENT_WRITE
ROOT, PLACE = item([b"cd", b"/"]), item([b"pwd"])
# What `run` shows if its input ends within a payload. The program can't see such an end, since its own input goes on.
CUT = f"no {CUT_PAYLOAD:02} {REFUSAL_WORDS[CUT_PAYLOAD]}\n".encode()
# How many bytes are read at once.
PIECE = 65_536
# The most bytes of a socket's path.
PATH = 107


def fail(cause: object) -> NoReturn:
    """Ends the server with status 1, and says why."""
    sys.exit(harmless(f"serve: {cause}"))


def patience(text: str) -> float:
    """How many seconds a start waits for another server that starts at the same socket, and an end for the program and for clients."""
    with contextlib.suppress(ValueError):
        if 0 <= (seconds := float(text)) <= 1_000_000:
            return seconds
    fail(f"LISFS_PATIENCE: no number of seconds: {text}")


PATIENCE = patience(os.environ.get("LISFS_PATIENCE") or "5")


class Signals:
    """The signals that end the server, whatever it waits for: when one has come, a byte can be read, and the program has `PATIENCE` seconds to
    end."""

    def __init__(self) -> None:
        self.has_come = False
        self._kill_after: Callable[[float], None] | None = None
        self._come, sent = os.pipe()
        os.set_blocking(sent, False)
        signal.set_wakeup_fd(sent, warn_on_full_buffer=False)
        for number in STOPS:
            # A signal that is ignored, as by `nohup`, stays ignored.
            if signal.getsignal(number) != signal.SIG_IGN:
                signal.signal(number, self._hear)

    def fileno(self) -> int:
        return self._come

    def _hear(self, *_: object) -> None:
        if self._kill_after and not self.has_come:
            self._kill_after(PATIENCE)
        self.has_come = True

    def end(self, kill_after: Callable[[float], None]) -> None:
        """From now on they end the program too, by this function."""
        self._kill_after = kill_after
        if self.has_come:
            kill_after(PATIENCE)

    def wait(self, seconds: float) -> None:
        """Waits up to this many seconds for a signal, and exits if one has come."""
        if select.select([self], [], [], seconds)[0]:
            sys.exit(0)


class Client:
    """A connection, with the input that did not run yet, and what must be sent. No other client ever has its number."""

    def __init__(self, connection: socket.socket, number: int, most: int) -> None:
        self.connection, self.items, self.unsent, self.has_ended = connection, Items(ROOM_LINE, most=most), memoryview(b""), False
        self.number = number

    def send(self) -> bool:
        """Sends as much as the client takes now. Returns whether it is still there."""
        try:
            self.unsent = self.unsent[self.connection.send(self.unsent):]
        except BlockingIOError:
            pass
        except OSError:
            return False
        return True

    def is_gone(self) -> bool:
        """Whether it has closed its connection, also for reading."""
        poll = select.poll()
        poll.register(self.connection, 0)
        return bool(poll.poll(0))


class Room:
    """A room of the program. It is fresh once it is at the root for its client, and awaits the reply to at most one command."""

    def __init__(self, number: int) -> None:
        self.number, self.is_fresh, self.is_awaiting = number, True, False
        self.client: Client | None = None
        # Its place, if it is known, and a command that waits until it is.
        self.place: bytes | None = None
        self.held: Item | None = None


class Awaited(NamedTuple):
    """The room of a command that was sent and not replied to; its client, or None if the reply goes to nobody; its words, and the place at which it
    runs, if that matters."""

    room: Room
    client: Client | None
    words: Sequence[bytes]
    place: bytes


class HasFileno(Protocol):
    def fileno(self) -> int: ...


# A descriptor to watch, or an object with one.
Watched: TypeAlias = int | HasFileno


class Server:
    """`most` is how many bytes a file of the image may have: of more it keeps none."""

    def __init__(self, program: Program, listener: socket.socket, history: History, most: int) -> None:
        self.program, self.listener, self.history, self.is_ending, self.has_more = program, listener, history, False, False
        self.clients, self.most = 0, most
        self.rooms = [Room(number) for number in range(ROOMS)]
        # In the order of the commands.
        self.awaited: collections.deque[Awaited] = collections.deque()
        self.selector = selectors.DefaultSelector()
        self.watch(program, READ, self.take_replies)
        self.watch(listener, READ, self.take_client)

    def watch(self, file: Watched, events: int, call: Callable[[], None] | None) -> None:
        """From now on these events of a file call this function, or none do."""
        if file not in self.selector.get_map():
            if events:
                self.selector.register(file, events, call)
        elif events:
            self.selector.modify(file, events, call)
        else:
            self.selector.unregister(file)

    def serve(self) -> None:
        """Runs until `end` was called and everything under way has its reply. Raises `Ended` if the program ends before."""
        while not self.is_ending or self.awaited:
            for key, _ in self.selector.select(0 if self.has_more else None):
                key.data()
            if self.has_more:
                self.take_replies()

    def end(self, signals: Signals) -> None:
        """Reads no more commands, since a signal has come."""
        os.read(signals.fileno(), PIECE)
        self.is_ending = True
        self.watch(self.listener, 0, None)
        for room in self.rooms:
            self.go_on(room)

    def take_client(self) -> None:
        free = [room for room in self.rooms if not room.client]
        if not free and any(room.client and room.client.is_gone() for room in self.rooms):
            # It leaves its room soon, when something is read from it or sent. Until then new clients wait.
            self.watch(self.listener, 0, None)
            return
        try:
            connection, _ = self.listener.accept()
        except OSError:
            # It is already gone.
            return
        connection.setblocking(False)
        if free:
            room = min(free, key=lambda room: room.is_awaiting)
            self.clients += 1
            room.client, room.is_fresh, room.held = Client(connection, self.clients, self.most), False, None
            self.go_on(room)
        else:
            with contextlib.suppress(OSError):
                connection.send(FULL)
            connection.close()

    def leave(self, room: Room, client: Client) -> None:
        """Closes the connection of a room. A reply that it awaits goes to nobody."""
        self.watch(client.connection, 0, None)
        client.connection.close()
        self.history.leave(client.number)
        room.client = None
        if not self.is_ending:
            self.watch(self.listener, READ, self.take_client)

    def read(self, room: Room, client: Client) -> None:
        """Reads what a client sends."""
        try:
            data = client.connection.recv(PIECE)
        except BlockingIOError:
            return
        except OSError:
            self.leave(room, client)
            return
        client.items.feed(data)
        if not data:
            client.has_ended = True
            client.unsent = memoryview(CUT if client.items.is_cut() else b"")
        self.go_on(room)

    def take_replies(self) -> None:
        """Passes on replies that have come, at most `ROOMS` of them, so that everything else has its turn before the next ones."""
        for _ in range(ROOMS):
            reply = self.program.receive_bytes(wait=False)
            self.has_more = reply is not None
            if reply is None:
                return
            awaited = self.awaited.popleft()
            room, client = awaited.room, awaited.client
            room.is_awaiting = False
            self.note(awaited, reply)
            if client and room.client is client:
                client.unsent = memoryview(reply)
            self.go_on(room)

    def note(self, awaited: Awaited, reply: bytes) -> None:
        """Records what a command has changed."""
        room, client, words, place = awaited
        if client is None:
            # The server's own command: going to the root, or asking for the place.
            room.place = b"/" if reply == OK else reply.partition(b"\n")[0].removeprefix(b"w ")
        elif reply == OK and words[0] == b"cd":
            room.place = None
        elif reply == OK:
            self.history.note(client.number, place, words)

    def go_on(self, room: Room) -> None:
        """Does what can be done in a room: sends what is unsent, then starts the next command, and closes it after the last one."""
        client = room.client
        if client is None:
            return
        if client.unsent and not client.send():
            self.leave(room, client)
        elif not client.unsent and not room.is_awaiting and not self.is_ending:
            self.begin_next(room, client)
        if room.client:
            wanted = WRITE if client.unsent else READ if not (room.is_awaiting or self.is_ending) else 0
            self.watch(client.connection, wanted, functools.partial(self.on_client, room, client))

    def on_client(self, room: Room, client: Client) -> None:
        # An earlier call may have closed it.
        if room.client is client:
            if client.unsent:
                self.go_on(room)
            else:
                self.read(room, client)

    def begin_next(self, room: Room, client: Client) -> None:
        if not room.is_fresh:
            room.is_fresh = True
            self.ask(room, None, ROOT)
        elif taken := room.held or client.items.take():
            room.held = None
            self.begin(room, client, taken)
        elif client.has_ended:
            self.leave(room, client)

    def begin(self, room: Room, client: Client, taken: Item) -> None:
        """Starts a command: it is for the server itself, or for the program."""
        # A line that is too long is refused, whatever it contains.
        words = words_of(taken.line[:-1]) if len(taken.line) <= ROOM_LINE + 1 else []
        if words and (reply := self.history.answer(client.number, words)) is not None:
            client.unsent = memoryview(reply)
        elif words and words[0] in PLACED and room.place is None:
            room.held = taken
            self.ask(room, None, PLACE)
        else:
            self.ask(room, client, taken, words)

    def ask(self, room: Room, client: Client | None, taken: Item, words: Sequence[bytes] = ()) -> None:
        self.program.send_bytes(*taken, room.number, wait=False)
        room.is_awaiting = True
        self.awaited.append(Awaited(room, client, words, room.place or b"/"))
        self.push()

    def push(self) -> None:
        """Sends the program as much as it reads, and goes on when it reads more."""
        self.watch(self.program.input_fileno(), WRITE if self.program.push() else 0, self.push)

    def close(self) -> None:
        """Sends the replies that have come to clients that read them soon, and closes all connections."""
        self.is_ending = True
        # After the program has ended, complete replies may be left.
        with contextlib.suppress(Ended, NotAReply):
            self.take_replies()
        until = time.monotonic() + PATIENCE
        with selectors.DefaultSelector() as selector:
            for room in self.rooms:
                if room.client and room.client.unsent:
                    selector.register(room.client.connection, WRITE, room.client)
            while selector.get_map() and (left := until - time.monotonic()) > 0:
                for key, _ in selector.select(left):
                    if not key.data.send() or not key.data.unsent:
                        selector.unregister(key.fileobj)
        for room in self.rooms:
            if room.client:
                self.leave(room, room.client)


@contextlib.contextmanager
def lock_held(path: str, signals: Signals) -> Iterator[None]:
    """Holds the lock of a socket's own lock file while the block runs, so that if two servers start at once, one finds the other. No other program
    has a reason to lock this file, as it might lock a folder. Its name is removed with the lock: a server that has waited for a file without a name
    tries again."""
    at, until = f"{path}.lock", time.monotonic() + PATIENCE
    while not (lock := tried_lock(at)):
        if time.monotonic() > until:
            fail(f"{path}: another server is starting there: it has the lock of {at}")
        signals.wait(0.05)
    try:
        yield
    finally:
        if has_name(lock, at):
            os.unlink(at)
        os.close(lock)


def tried_lock(at: str) -> int | None:
    """The lock file, which exists and is locked, or None if another server has the lock. Exits if the file is something else."""
    lock = os.open(at, os.O_RDWR | os.O_CREAT | os.O_NOFOLLOW | os.O_NONBLOCK | os.O_CLOEXEC, 0o600)
    found = os.fstat(lock)
    if not stat.S_ISREG(found.st_mode) or found.st_uid != os.geteuid() or found.st_size:
        fail(f"{at}: it is there, and no lock file of yours")
    with contextlib.suppress(BlockingIOError):
        fcntl.flock(lock, fcntl.LOCK_EX | fcntl.LOCK_NB)
        if has_name(lock, at):
            return lock
    os.close(lock)
    return None


def has_name(lock: int, at: str) -> bool:
    with contextlib.suppress(FileNotFoundError):
        return os.path.samestat(os.fstat(lock), os.lstat(at))
    return False


def is_served(path: str) -> bool:
    """Whether a process listens at a socket."""
    with socket.socket(socket.AF_UNIX) as probe:
        probe.setblocking(False)
        try:
            probe.connect(path)
        except ConnectionRefusedError:
            return False
        except BlockingIOError:
            # The queue of waiting connections is full.
            return True
    return True


def clear(path: str) -> None:
    """Removes the socket of a server that is gone. Exits if the path is something else."""
    try:
        kind = os.lstat(path).st_mode
    except FileNotFoundError:
        return
    if not stat.S_ISSOCK(kind):
        fail(f"{path}: it is there, and no socket")
    if is_served(path):
        fail(f"{path}: a server is there")
    os.unlink(path)


def bound(listener: socket.socket, path: str) -> None:
    """Makes the socket, which only its owner may ever use. It is made under another name, so that when it is at its path, the server already
    listens."""
    aside = f"{path}.{os.getpid()}"
    if len(os.fsencode(aside)) > PATH:
        aside = path
    for at in (path, aside):
        clear(at)
    mask = os.umask(0o177)
    try:
        listener.bind(aside)
    finally:
        os.umask(mask)
    with contextlib.ExitStack() as made:
        made.callback(os.unlink, aside)
        listener.listen()
        if aside == path:
            made.pop_all()
        else:
            give_name(aside, path)


def give_name(aside: str, path: str) -> None:
    """Links the socket to its path too. A file that was made there meanwhile stays, except the socket of a server that is gone."""
    while True:
        try:
            os.link(aside, path)
            return
        except FileExistsError:
            clear(path)


@contextlib.contextmanager
def listening(path: str, signals: Signals) -> Iterator[socket.socket]:
    """Listens at a socket, which is there while the block runs."""
    listener = socket.socket(socket.AF_UNIX)
    with lock_held(path, signals):
        bound(listener, path)
        made = os.lstat(path)
    listener.setblocking(False)
    try:
        yield listener
    finally:
        with contextlib.suppress(FileNotFoundError):
            if os.path.samestat(made, os.lstat(path)):
                os.unlink(path)
        listener.close()


def opened(image: str, signals: Signals) -> tuple[Program, History]:
    """The program that serves an image, once that is open, and what the image holds. It gets none of the signals, even if a terminal sends them to
    all: it ends with its input."""
    def start() -> Program:
        program = started(image, "rooms")
        signals.end(program.kill_after)
        return program

    with waiting("serve", image) as work:
        program, dump = opened_by(lambda: dumped(image, False, STOPS, signals.end, work.add), start, image)
    return program, History(dump, image)


def serve(image: str, path: str, signals: Signals) -> None:
    program, history = opened(image, signals)
    with program:
        with listening(path, signals) as listener:
            server = Server(program, listener, history, limits_of(image).file_bytes)
            server.watch(signals, READ, functools.partial(server.end, signals))
            try:
                server.serve()
                # Before the clients, which the end may wait for as long.
                program.close()
            except NotAReply:
                program.kill()
                raise
            finally:
                server.close()


def cause_of(end: Ended, image: str, signals: Signals) -> str:
    """The message for the end of the program."""
    if signals.has_come and end.status == -signal.SIGKILL:
        return f"serve: {image}: the program had not ended {PATIENCE:g} seconds after a signal, and was killed; what was replied to is kept\n"
    return end.text or f"serve: {end}\n"


@quiet
def main() -> int:
    if len(sys.argv) not in (2, 3) or sys.argv[1].startswith("-"):
        sys.exit(__doc__)
    if what := missing():
        fail(what)
    image, path = sys.argv[1], (sys.argv[2:] or [socket_of(sys.argv[1])])[0]
    signals = Signals()
    try:
        serve(image, path, signals)
    except Ended as end:
        sys.stderr.write(harmless(cause_of(end, image, signals), "\n"))
        return end.status if end.status >= 0 else 128 - end.status
    except NotAReply as error:
        fail(f"the program does not reply as lisfs does: {error}")
    except NotADump as error:
        fail(error)
    except OSError as error:
        fail(f"{error.filename or path}: {error.strerror or error}")
    return 0
