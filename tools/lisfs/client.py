"""Runs a program that runs sessions, as `lisfs run IMAGE` and `lisfs rooms IMAGE` do: it sends commands and receives replies.

    with Program([PROGRAM, "run", "files.lis"]) as program:
        program.mkdir(b"music")
        program.add(b"song", b"la la\n", b"music")
        print(program.cat(b"song").body)

    with Program([PROGRAM, "rooms", "files.lis"], rooms=True) as program:
        first, second = program.room(0), program.room(1)
        first.cd(b"music")
        print(second.pwd().body)

The protocol. A command is a line of words separated by blanks, of at most 1,024 bytes. After an `add` or `write` line whose third word is a count N
follow its payload, N arbitrary bytes, and a line feed. Each command has one reply, and replies come in the order of the commands. A reply is body
lines and then the line `ok`, or the single line `no NN WORDS`: a refusal, which changed nothing. A body line is a letter, a blank and a text. The
reply of `cat` is the line `b N`, the N bytes, a line feed and `ok`. A command whose reply `run` has begun is durable. The program exits with status 0
at the end of its input. After a fault, for example if it can't open its image, it exits with another status, at any point, and says why on standard
error. `rooms` runs the sessions of eight rooms, each with its own place, as one. A line begins with the tag of its room, `@` and a digit from 0 to 7,
and a blank, which count among its bytes, and the line of the tag follows its reply. A line of more bytes, or without a tag, belongs to no room: it is
refused, has no payload, and the line `@-` follows its reply.

- A reply is returned only when it is complete. A refusal is raised as `Refused`, with its number. The end of the program is raised as `Ended`, with
  its status and what it said; as `Locked`, a subclass of `Ended`, if another program has the image's lock.
- Bytes that would be another command than the one that was meant are not sent: `NotSent` is raised before the first byte is written.
- A line is written whole or not at all, even if this process is killed, since a half line at the end of the input is a line. The program ignores a
  cut payload.
- Any number of commands can be sent ahead (`send`) before a reply is received (`receive`): while the program reads no more input, its replies are
  read and kept in memory. `ask`, and the method of each command, send one and receive its reply.
- A `Program` is for one thread at a time.
- A caller that forwards the input of others, as a server does, cuts it into commands (`Items`), and forwards bytes.
- `view` and `put` run the words of these names, and return, or write, a whole view.
- `tag` and `untag` give words to several files, or take them back, and `undo` undoes their changes.
"""
import collections
import contextlib
import enum
import fcntl
import functools
import os
import re
import select
import signal
import subprocess
import threading
from collections.abc import Callable, Collection, Iterable, Iterator, Mapping, Sequence
from typing import IO, TYPE_CHECKING, Literal, NamedTuple, Protocol, TypeAlias, overload

from lisfs.constants import MAX_DIGITS, MAX_LINE, ROOMS, V3_MAX_FILE
from lisfs.words import is_word

if TYPE_CHECKING:
    from lisfs.served import News

# The checkout, if this module lies in one.
CHECKOUT = os.path.dirname(os.path.dirname(os.path.dirname(os.path.abspath(__file__))))
# The program that the caller names, or the one that the checkout builds.
PROGRAM = os.environ.get("LISFS_PROGRAM") or os.path.join(CHECKOUT, "crates/lisfs/out/lisfs")
# The most bytes of a line of a room without its tag.
ROOM_LINE = MAX_LINE - len(b"@0 ")
# What `tools/serve` says to one client too many.
FULL = b"full: eight clients are here\n"
# What follows the name of an image in the name of the socket of its server.
SOCKET = ".socket"
# Every line of a reply is shorter.
SHOWN = 2_048
# How long a program that has closed its output may take to end, in seconds.
PATIENCE = 60
COUNT = re.compile(rb"[0-9]{1,%d}" % MAX_DIGITS)
WORD = re.compile(rb"[^ \t]+")
NO_WORD = re.compile(rb"[ \t\r\n]")
# The form of a view. Few tools look at one, so it is not compiled here.
VIEW = rb"(?:\+[^\n]*\n|@[1-9][0-9]* [1-9][0-9]*\n)*(?:!\n)?"
BODY_LINE = re.compile(rb"([a-z]) (.*)")
CONTENT_LINE = re.compile(rb"b (0|[1-9][0-9]{0,7})")
REFUSAL_LINE = re.compile(rb"no ([0-9]{2}) (.+)")
# The line of a tag, and each prefix of it.
TAG_LINE = re.compile(rb"(@([0-7-]\n?)?)?")
TAG_SIZE = len(b"@0\n")


# A word of a system command: a path, or an argument.
Word: TypeAlias = str | bytes
# The letter and the text of a body line. It is a plain pair, since there are thousands of them.
BodyLine: TypeAlias = tuple[bytes, bytes]
# The bytes of a whole reply, and the tag that follows it, if the program has tags. It is a plain pair too.
Tagged: TypeAlias = tuple[bytes, bytes | None]


class Kind(enum.Enum):
    """What the body of a reply is."""

    LINES = "lines"
    CONTENT = "content"


LINES: Literal[Kind.LINES] = Kind.LINES
CONTENT: Literal[Kind.CONTENT] = Kind.CONTENT


class Lines(NamedTuple):
    """A reply of body lines, or of none."""

    kind: Literal[Kind.LINES]
    body: list[BodyLine]


class Content(NamedTuple):
    """A reply with the bytes of a file."""

    kind: Literal[Kind.CONTENT]
    body: bytes


Reply: TypeAlias = Lines | Content


class Item(NamedTuple):
    """The bytes of a command: its line, and its payload, each with its line feed. Without a payload these bytes are empty."""

    line: bytes
    payload: bytes


class End(NamedTuple):
    """How a program has ended: its status, and what it said on standard error."""

    status: int
    text: str


def socket_of(image: str) -> str:
    """The socket of an image's server, if there is one: beside the file, also if a link leads to the file."""
    return (os.path.realpath(image) if os.path.islink(image) else image) + SOCKET


def missing() -> str | None:
    """What to do if the program is missing, else None."""
    if os.path.exists(PROGRAM):
        return None
    if os.path.exists(os.path.join(CHECKOUT, "crates.txt")):
        return "build the program first: ./lisfs try 64 64 8 </dev/null"
    return "set LISFS_PROGRAM to the path of the program lisfs, which is not " + (f"at {PROGRAM}" if "LISFS_PROGRAM" in os.environ else "known here")


class Refused(Exception):
    """The program refused a command, and changed nothing."""

    def __init__(self, number: int, words: str) -> None:
        super().__init__(f"no {number:02} {words}")
        # `command`, and the words of the command, are set if several commands were sent ahead of their replies.
        self.number, self.words, self.command = number, words, ""
        self.given: tuple[bytes, ...] = ()


class Ended(Exception):
    """The program has ended: with this status, or by a signal, whose number is then negative, and with this text on standard error."""

    def __init__(self, status: int, text: str) -> None:
        super().__init__(": ".join([f"the program ended with {status}"] + text.splitlines()))
        self.status, self.text = status, text


class Locked(Ended):
    """The program has ended, or a lock could not be taken, since another program has the lock of the image."""


def ended(status: int, text: str) -> Ended:
    """The error of a program that has ended."""
    return (Locked if status == 3 and text.endswith(": in use by another lisfs\n") else Ended)(status, text)


class NotSent(ValueError):
    """Nothing was sent: it would not have been the command that was meant."""


class NotAReply(Exception):
    """What the program showed is no reply, so this is no program of that kind. No later reply can be recognized."""


def words_of(line: bytes) -> list[bytes]:
    """The words of a line, which is given without its line feed. A CR at its end is not part of them."""
    return WORD.findall(line.removesuffix(b"\r"))


def count_of(words: Sequence[bytes]) -> bytes | None:
    """The word of a line that counts the bytes of the payload after it, or None if no payload follows."""
    return words[2] if len(words) > 2 and words[0] in (b"add", b"write") and COUNT.fullmatch(words[2]) else None


def item(words: Sequence[bytes], payload: bytes | None = None, longest: int = MAX_LINE) -> Item:
    """The bytes of a command: its line, and its payload, each with its line feed."""
    for word in words:
        if not word or NO_WORD.search(word):
            raise NotSent(f"{word!r} is not one word of a line")
    line = b" ".join(words)
    if not 0 < len(line) <= longest:
        raise NotSent(f"a line has 1 to {longest} bytes, and this one {len(line)}")
    size = count_of(words)
    if payload is None and size is None:
        return Item(line + b"\n", b"")
    if payload is None or size is None:
        raise NotSent(f"`{line.decode(errors='backslashreplace')}` {'takes no' if size is None else 'needs a'} payload")
    if int(size) != len(payload) or len(payload) > V3_MAX_FILE:
        raise NotSent(f"the line says {int(size)} bytes, and the payload has {len(payload)}; it has at most {V3_MAX_FILE}")
    return Item(line + b"\n", payload + b"\n")


class Items:
    """Cuts an input into commands as `lisfs run` does, whose lines have at most `longest` bytes. A line without words is no command. A line is
    measured without a CR at its end, and passed on with it: the program drops one CR itself, so if one were dropped before, it would judge another
    line. What is kept of a command has the same reply as all of it: the first bytes of a line that is too long, the smallest payload that is too
    large instead of a larger one, and one byte of what follows a payload instead of a line feed. For a caller that runs longer lines itself, lines of
    up to `whole` bytes are passed on whole. `most` is how many bytes a file may have."""

    def __init__(self, longest: int = MAX_LINE, whole: int = 0, most: int = V3_MAX_FILE) -> None:
        # What was not taken, without the line that a payload follows, which is kept separately.
        self._longest, self._whole, self._most, self._given = longest, max(longest, whole), most, bytearray()
        self._line: bytes | None = None
        # How many bytes of this payload are kept, how many are still to be dropped, and the bytes that replace these.
        self._kept, self._dropped, self._in_place = 0, 0, b""

    def feed(self, data: bytes) -> None:
        self._given += data

    def take(self) -> Item | None:
        """The line and the payload of the first command, each with its line feed, or None if it is not complete."""
        while self._line is None:
            if (end := self._given.find(b"\n")) < 0:
                # These bytes are enough to see that a line is too long.
                del self._given[self._whole + 1:]
                return None
            line = bytes(self._given[:min(end, self._whole + 1)])
            del self._given[:end + 1]
            if len(line) > self._longest:
                return Item(line + b"\n", b"")
            words = words_of(line)
            if count := count_of(words):
                self._await_payload(line, int(count))
            elif words:
                return Item(line + b"\n", b"")
        return self._with_payload(self._line)

    def is_cut(self) -> bool:
        """If no command can be taken: whether the input, if it ends here, ends within a payload."""
        return self._line is not None and (self._dropped > 0 or len(self._given) < self._kept)

    def lacks_feed(self) -> bool:
        """If no command can be taken: whether the input, if it ends here, lacks a line feed and nothing else."""
        return bool(self._given) if self._line is None else not self.is_cut()

    def _await_payload(self, line: bytes, count: int) -> None:
        self._line, self._kept, self._dropped, self._in_place = line, count, 0, b""
        if count > self._most:
            begin, end = [word.span() for word in WORD.finditer(line.removesuffix(b"\r"))][2]
            self._line = line[:begin] + b"%d" % (self._most + 1) + line[end:]
            self._kept, self._dropped, self._in_place = 0, count, bytes(self._most + 1)

    def _with_payload(self, line: bytes) -> Item | None:
        dropped = min(self._dropped, len(self._given))
        del self._given[:dropped]
        self._dropped -= dropped
        if self.is_cut():
            return None
        if (end := self._given.find(b"\n", self._kept)) < 0:
            # After a wrong byte all is dropped up to a line feed.
            del self._given[self._kept + 1:]
            return None
        payload = self._in_place + self._given[:min(end, self._kept + 1)]
        del self._given[:end + 1]
        self._line = None
        return Item(line + b"\n", payload + b"\n")


class Replies:
    """Cuts what a program shows into replies. If it has tags, the line of a tag follows each."""

    def __init__(self, has_tags: bool = False) -> None:
        # What was not taken, and how many of its bytes are complete lines of the first reply.
        self.shown, self.at, self._has_tags = bytearray(), 0, has_tags

    def take(self) -> Tagged | None:
        """The first reply and its tag, or None if they are not complete."""
        while (end := self.shown.find(b"\n", self.at)) >= 0:
            line, end = bytes(self.shown[self.at:end]), end + 1
            if line == b"ok" or self.at == 0 and REFUSAL_LINE.fullmatch(line):
                return self._cut(end)
            if size := CONTENT_LINE.fullmatch(line) if self.at == 0 else None:
                return self._content(end, int(size[1]))
            if line.startswith(b"b ") or not BODY_LINE.fullmatch(line):
                raise NotAReply(f"{line[:80]!r} is no line of a reply here")
            self.at = end
        if len(self.shown) - self.at >= SHOWN:
            raise NotAReply(f"a line without an end: {bytes(self.shown[self.at:self.at + 80])!r}")
        return None

    def _content(self, begin: int, size: int) -> Tagged | None:
        end = begin + size + len(b"\nok\n")
        if size > V3_MAX_FILE:
            raise NotAReply(f"a content of {size} bytes")
        if len(self.shown) < end:
            return None
        if self.shown[begin + size:end] != b"\nok\n":
            raise NotAReply(f"{bytes(self.shown[begin + size:end])!r} after a content")
        return self._cut(end)

    def _cut(self, end: int) -> Tagged | None:
        tag = bytes(self.shown[end:end + TAG_SIZE]) if self._has_tags else b""
        if not TAG_LINE.fullmatch(tag):
            raise NotAReply(f"{tag!r} is no tag after a reply")
        if self._has_tags and len(tag) < TAG_SIZE:
            return None
        whole = bytes(self.shown[:end])
        del self.shown[:end + len(tag)]
        self.at = 0
        return whole, tag[:-1] or None


def reply_of(whole: bytes) -> Reply:
    """What the bytes of a whole reply say. Raises `Refused` for a refusal."""
    first, _, rest = whole.partition(b"\n")
    if refusal := REFUSAL_LINE.fullmatch(first):
        raise Refused(int(refusal[1]), refusal[2].decode(errors="backslashreplace"))
    if CONTENT_LINE.fullmatch(first):
        return Content(CONTENT, rest[:-len(b"\nok\n")])
    # `Replies` has judged the form of the lines.
    return Lines(LINES, [(line[:1], line[2:]) for line in whole.split(b"\n")[:-2]])


def as_lines(reply: Reply) -> Lines:
    """A reply to a command whose reply has lines."""
    if reply.kind is not LINES:
        raise NotAReply("a content instead of lines")
    return reply


def as_content(reply: Reply) -> Content:
    """A reply to `cat`."""
    if reply.kind is not CONTENT:
        raise NotAReply("lines instead of a content")
    return reply


def counts_in(body: list[BodyLine]) -> dict[str, int]:
    """The counts that `stat` shows, by their names."""
    return {name.decode(): int(count) for name, count in (text.split() for _, text in body)}


class Commands:
    """An object that runs commands, with a method for each. The words are bytes, and so is a content."""

    def ask(self, *words: bytes, payload: bytes | None = None) -> Reply:
        """Sends a command and receives its reply."""
        raise NotImplementedError

    def lines(self, *words: bytes, payload: bytes | None = None) -> Lines:
        """The same for a command whose reply has lines."""
        return as_lines(self.ask(*words, payload=payload))

    def mkdir(self, word: bytes) -> Lines: return self.lines(b"mkdir", word)
    def rmdir(self, word: bytes) -> Lines: return self.lines(b"rmdir", word)
    def axiom(self, left: bytes, right: bytes) -> Lines: return self.lines(b"axiom", left, right)
    def unaxiom(self, left: bytes, right: bytes) -> Lines: return self.lines(b"unaxiom", left, right)
    def create(self, name: bytes, *words: bytes) -> Lines: return self.lines(b"create", name, *words)
    def add(self, name: bytes, content: bytes, *words: bytes) -> Lines: return self.lines(b"add", name, b"%d" % len(content), *words, payload=content)
    def write(self, name: bytes, content: bytes) -> Lines: return self.lines(b"write", name, b"%d" % len(content), payload=content)

    def cat(self, name: bytes) -> Content:
        return as_content(self.ask(b"cat", name))

    def mv(self, name: bytes, formula: bytes) -> Lines: return self.lines(b"mv", name, formula)
    def rename(self, name: bytes, other: bytes) -> Lines: return self.lines(b"rename", name, other)
    def rm(self, name: bytes) -> Lines: return self.lines(b"rm", name)
    def cd(self, formula: bytes) -> Lines: return self.lines(b"cd", formula)
    def pwd(self) -> Lines: return self.lines(b"pwd")
    def ls(self) -> Lines: return self.lines(b"ls")
    def props(self, name: bytes) -> Lines: return self.lines(b"props", name)
    def way(self, name: bytes) -> Lines: return self.lines(b"way", name)
    def stat(self) -> Lines: return self.lines(b"stat")


def unnamed_file() -> IO[bytes]:
    """A file in memory, which is gone once it is closed."""
    return open(os.memfd_create("lisfs"), "w+b")


class Stream(Protocol):
    """Where commands are written, or where replies are read."""

    def fileno(self) -> int: ...
    def close(self) -> None: ...


def begun(command: Sequence[Word], given: int, said: IO[bytes], unheard: Collection[signal.Signals], buffer: int) -> subprocess.Popen[bytes]:
    """A program that was started. Its standard error goes to a file, which never fills up as a pipe would. The signals `unheard` never reach it."""
    # They are blocked while it starts, so that no signal for this process is lost, as it would be if they were ignored meanwhile.
    before = signal.pthread_sigmask(signal.SIG_BLOCK, unheard)

    def begin() -> None:
        for number in unheard:
            signal.signal(number, signal.SIG_IGN)
        signal.pthread_sigmask(signal.SIG_SETMASK, before)

    try:
        return subprocess.Popen(command, stdin=given, stdout=subprocess.PIPE, stderr=said, bufsize=buffer, preexec_fn=begin if unheard else None)
    finally:
        signal.pthread_sigmask(signal.SIG_SETMASK, before)


class Program(Commands):
    """A program that runs. `command` is its path and its words, and `rooms` says that it serves rooms. The signals `unheard` never reach it, so that
    a caller that gets them too, as from a terminal, can let it finish. If it can't be started, the `OSError` is raised.

    At the end of a `with` block it is closed. A program that is no session, as `lisfs make`, is run by `Program(command).close()`.
    """

    # Whether others change the image too, as when a server runs the program (`served.Joined`).
    is_shared = False

    def __init__(self, command: Sequence[Word], rooms: bool = False, unheard: Collection[signal.Signals] = ()) -> None:
        self._said = unnamed_file()
        self._child = begun(command, subprocess.PIPE, self._said, unheard, 0)
        assert self._child.stdin and self._child.stdout
        os.set_blocking(self._child.stdin.fileno(), False)
        self._begin(self._child.stdin, self._child.stdout, ROOM_LINE if rooms else MAX_LINE, rooms)

    def _begin(self, given: Stream, shown: Stream, longest: int, rooms: bool = False) -> None:
        """Nothing was sent, and nothing has come. `longest` is how many bytes a line may have."""
        self._input, self._output, self.longest = given, shown, longest
        self._has_rooms, self._replies, self._is_cut = rooms, Replies(rooms), False
        self._end: End | None = None
        # The parts that were not written yet, and the expected tag of each reply that was not received.
        self._unsent: collections.deque[bytes | memoryview] = collections.deque()
        self._awaited: collections.deque[bytes | None] = collections.deque()

    def __enter__(self) -> "Program":
        return self

    def __exit__(self, kind: type[BaseException] | None, *_: object) -> None:
        # The end of the program does not hide an error of the block.
        with contextlib.suppress(Ended) if kind else contextlib.nullcontext():
            self.close()

    def news(self) -> "News | None":
        """What others have changed since the last call, or None if nothing, as for an image that no server shares."""
        return None

    def guard(self) -> None:
        """From now on a change of a file that another client has changed since the last known change is refused. If no server shares the image, there
        is no other client."""

    def room(self, number: int) -> "Room":
        """The room of this number, which can run commands."""
        return Room(self, number)

    def first(self) -> Commands:
        """What can run commands: this, or the first of its rooms."""
        return self.room(0) if self._has_rooms else self

    def ask(self, *words: bytes, payload: bytes | None = None, room: int | None = None) -> Reply:
        """Sends a command and receives its reply. The words are bytes, and so is the payload."""
        if self._awaited and not self._end:
            raise RuntimeError("the replies of earlier commands come first: receive them")
        self.send(*words, payload=payload, room=room)
        return self.receive()

    def send(self, *words: bytes, payload: bytes | None = None, room: int | None = None) -> None:
        """Sends a command ahead. Its reply is received later, after those of all commands before it, in any room."""
        if self._has_rooms and room is None:
            raise NotSent("a command of no room")
        self.send_bytes(*item(words, payload, self.longest), room)

    def receive(self) -> Reply:
        """Waits for the next reply. Raises `Refused` if it is a refusal."""
        return reply_of(self.receive_bytes())

    def received_lines(self) -> Lines:
        """The same for a reply that has lines."""
        return as_lines(self.receive())

    def send_bytes(self, line: bytes, payload: bytes = b"", room: int | None = None, wait: bool = True) -> None:
        """Sends bytes as they are: one command that has one reply, with its line feeds, after the tag of a room if one is given. Even if this raises
        `Ended`, earlier replies can still be received. Without `wait`, what the program doesn't read now is kept in memory, and `push` sends it."""
        if room is not None and not (self._has_rooms and room in range(ROOMS)):
            raise NotSent(f"there is no room {room}")
        if self._end:
            raise self._ending()
        if self._is_cut:
            raise NotSent("a command before was cut off, and this one would be a part of it")
        tag = b"@-" if room is None or len(line) > ROOM_LINE + 1 else b"@%d" % room
        line = line if room is None else b"@%d " % room + line
        self._is_cut = True
        # A pipe takes at most this many bytes whole or not at all.
        self._unsent += [line + payload] if len(line) + len(payload) <= select.PIPE_BUF else [line, payload]
        while self.push() and wait:
            self._make_way()
        self._awaited.append(tag if self._has_rooms else None)
        self._is_cut = False

    def push(self) -> bool:
        """Sends as much of what was kept as the program reads now. Returns whether something is left."""
        if self._end:
            raise self._ending()
        while self._unsent:
            try:
                taken = self._write(self._unsent[0])
            except BlockingIOError:
                return True
            except (BrokenPipeError, ConnectionResetError):
                raise self._ending() from None
            if taken < len(self._unsent[0]):
                self._unsent[0] = memoryview(self._unsent[0])[taken:]
            else:
                self._unsent.popleft()
        return False

    @overload
    def receive_bytes(self) -> bytes: ...

    @overload
    def receive_bytes(self, wait: bool) -> bytes | None: ...

    def receive_bytes(self, wait: bool = True) -> bytes | None:
        """The bytes of the next reply, also of a refusal, without its tag. Without `wait`, None if it is not complete now."""
        while (taken := self._replies.take()) is None:
            if not self._end and not self._awaited and wait:
                raise RuntimeError("no command waits for a reply")
            if not self._end and not wait and not self._is_readable(0):
                return None
            if self._end or not self._read():
                raise self._ending()
        whole, tag = taken
        if not self._awaited:
            raise NotAReply(f"a reply to no command: {whole[:80]!r}")
        if tag != (awaited := self._awaited.popleft()):
            raise NotAReply(f"{tag!r} after the reply to a command of {awaited!r}")
        return whole

    def fileno(self) -> int:
        """The descriptor of the replies, for `select`. A reply may have been read before: `receive_bytes(wait=False)` returns it."""
        return self._output.fileno()

    def input_fileno(self) -> int:
        """The descriptor of the commands, to wait by `select` until `push` can send more."""
        return self._input.fileno()

    def close(self) -> None:
        """Ends the input, and waits until the program has run all that was sent. Raises `Ended` if its status is not 0. Replies that were not
        received can still be received."""
        while not self._end and not self._is_cut and self.push():
            self._make_way()
        end = self._ending()
        if end.status:
            raise end

    def kill(self) -> None:
        """Kills the program at once, at any point. The commands that it has replied to are durable."""
        self._child.kill()
        self._ending()

    def kill_after(self, seconds: float) -> None:
        """From now on the program has this many seconds to end, whatever is waited for meanwhile, and is then killed. The commands that it has
        replied to are durable."""
        kill_after(self._child, seconds)

    def _make_way(self) -> None:
        """Waits until the program reads more. It may do so only when somebody reads what it shows."""
        if self._is_readable(None, or_writable=True) and not self._read():
            raise self._ending()

    def _is_readable(self, seconds: float | None, or_writable: bool = False) -> bool:
        """Whether there is something to read, or the end. Waits for it up to the given time, or until something can be written."""
        poll, given, shown = select.poll(), self._input.fileno(), self._output.fileno()
        if or_writable:
            poll.register(given, select.POLLOUT)
        # They may be one.
        poll.register(shown, select.POLLIN | (select.POLLOUT if or_writable and given == shown else 0))
        return bool(dict(poll.poll(None if seconds is None else seconds * 1_000)).get(shown, 0) & ~select.POLLOUT)

    def _write(self, data: bytes | memoryview) -> int:
        """Writes as much as is taken now. Returns how many bytes that is."""
        return os.write(self._input.fileno(), data)

    def _read(self) -> bool:
        """Reads what is shown, after waiting for it. Returns whether there was more than the end."""
        data = os.read(self._output.fileno(), 65_536)
        self._replies.shown += data
        return bool(data)

    def _ending(self) -> Ended:
        """The error for the end of the program, after waiting for it if necessary."""
        if not self._end:
            self._end = self._finished()
        return ended(*self._end)

    def _finished(self) -> End:
        """Ends the input, and waits for the end."""
        self._input.close()
        while self._read():
            pass
        try:
            self._child.wait(PATIENCE)
        except subprocess.TimeoutExpired:
            self._child.kill()
        self._said.seek(0)
        end = End(self._child.wait(), self._said.read().decode(errors="backslashreplace"))
        self._output.close()
        self._said.close()
        return end


class Room(Commands):
    """A room of a program that serves rooms. The replies to what is sent ahead in all rooms are received from the program, in order."""

    def __init__(self, program: Program, number: int) -> None:
        self._program, self.number = program, number

    def ask(self, *words: bytes, payload: bytes | None = None) -> Reply:
        return self._program.ask(*words, payload=payload, room=self.number)

    def send(self, *words: bytes, payload: bytes | None = None) -> None:
        self._program.send(*words, payload=payload, room=self.number)


# Words of several files.

class Retag(NamedTuple):
    """A change of the words that a file was given."""

    name: bytes
    gains: tuple[bytes, ...] = ()
    loses: tuple[bytes, ...] = ()

    def inverse(self) -> "Retag":
        return Retag(self.name, self.loses, self.gains)


class Retagged(NamedTuple):
    """The changes that were made, and those that were refused, each with its refusal."""

    done: list[Retag]
    refused: list[tuple[Retag, Refused]]


# Called after each change: whether to go on.
GoOn: TypeAlias = Callable[[Retagged], bool]


def always(_: Retagged) -> bool:
    return True


def tag(program: Commands, given: Mapping[bytes, Collection[bytes]], words: Iterable[bytes], go_on: GoOn = always) -> Retagged:
    """Gives files words: `given` has the words that each file was given, and a file that already has all the words is not changed. It begins and ends
    at the root."""
    return retag(program, gains_of(given, words), go_on)


def untag(program: Commands, given: Mapping[bytes, Collection[bytes]], words: Iterable[bytes], go_on: GoOn = always) -> Retagged:
    """Takes words back from those of the files that were given them, in the same way. A file can still have such a word by another one."""
    return retag(program, losses_of(given, words), go_on)


def undo(program: Commands, done: Sequence[Retag], go_on: GoOn = always) -> Retagged:
    """Undoes changes that were made, the last one first, if nothing else has changed these files since."""
    return retag(program, [change.inverse() for change in reversed(done)], go_on)


def gains_of(given: Mapping[bytes, Collection[bytes]], words: Iterable[bytes]) -> list[Retag]:
    """The changes of `tag`."""
    wanted = dict.fromkeys(words)
    changes = [Retag(name, gains=tuple(word for word in wanted if word not in had)) for name, had in given.items()]
    return [change for change in changes if change.gains]


def losses_of(given: Mapping[bytes, Collection[bytes]], words: Iterable[bytes]) -> list[Retag]:
    """The changes of `untag`."""
    wanted = dict.fromkeys(words)
    changes = [Retag(name, loses=tuple(word for word in wanted if word in had)) for name, had in given.items()]
    return [change for change in changes if change.loses]


def retag(program: Commands, changes: Iterable[Retag], go_on: GoOn = always) -> Retagged:
    """Makes changes, each by one `mv` from the place of the words that the file loses, so that if it is stopped, each file is as before or as after
    its change. After a refusal it goes on as long as `go_on` returns true."""
    changes = [part for change in changes for part in parts_of(change)]
    for word in (word for change in changes for word in change.gains + change.loses):
        if not is_word(word):
            raise NotSent(f"{word!r} is no word")
    found, at = Retagged([], []), b"/"
    try:
        for change in changes:
            try:
                if (place := b"/" + b"/".join(change.loses)) != at:
                    program.cd(place)
                    at = place
                program.mv(change.name, b"/" + b"/".join(change.gains))
                found.done.append(change)
            except Refused as refused:
                found.refused.append((change, refused))
            if not go_on(found):
                break
    finally:
        if at != b"/":
            program.cd(b"/")
    return found


def parts_of(change: Retag) -> list[Retag]:
    """A change as it is, or as two if its line would be too long."""
    half = len(change.gains) // 2
    if len(b"mv  ") + len(change.name) + sum(len(word) + 1 for word in change.gains) <= ROOM_LINE:
        return [change]
    return [change._replace(gains=change.gains[:half]), Retag(change.name, gains=change.gains[half:])]


def shown_by(command: Sequence[Word], data: bytes = b"") -> bytes:
    """What a program shows that reads this input and ends. Raises `Ended` if its status is not 0."""
    with unnamed_file() as given:
        # If this process is killed, a pipe would end early, and the program would take a part for the whole.
        given.write(data)
        given.seek(0)
        ran = subprocess.run(command, stdin=given, capture_output=True, check=False)
    if ran.returncode:
        raise ended(ran.returncode, ran.stderr.decode(errors="backslashreplace"))
    return ran.stdout


def view(image: Word, name: Word, formula: Word) -> bytes:
    """The view of a file's lines that satisfy a formula, as `lisfs view` shows it. Raises `Refused` if it is refused."""
    shown = shown_by([PROGRAM, "view", image, name, formula])
    if not re.fullmatch(VIEW, shown):
        only_reply(shown)
        raise NotAReply(f"{shown[:80]!r} is no view")
    return shown


def put(image: Word, name: Word, formula: Word, edited: bytes) -> None:
    """Writes a file by an edited view of it, as `lisfs put` does. Raises `Refused` if it is refused."""
    only_reply(shown_by([PROGRAM, "put", image, name, formula], edited))


def only_reply(shown: bytes) -> Reply:
    """The single reply in some bytes."""
    replies = Replies()
    replies.shown += shown
    if not (taken := replies.take()) or replies.shown:
        raise NotAReply(f"{shown[:80]!r} is not one reply")
    return reply_of(taken[0])


@contextlib.contextmanager
def held(image: str) -> Iterator[int]:
    """Holds the lock of an image while the block runs, so that no program writes it in the meantime: by this descriptor. Raises `Locked` if another
    program has it."""
    with open(image, "rb") as file:
        try:
            fcntl.flock(file, fcntl.LOCK_EX | fcntl.LOCK_NB)
        except BlockingIOError:
            raise Locked(3, f"lisfs: disk fault\n{image}: in use by another lisfs\n") from None
        yield file.fileno()


def kill_after(child: subprocess.Popen[bytes], seconds: float) -> None:
    """From now on a program has this many seconds to end, whatever is waited for meanwhile, and is then killed."""
    timer = threading.Timer(seconds, child.kill)
    timer.daemon = True
    timer.start()


# Called with a function that gives the started program a number of seconds to end.
Heed: TypeAlias = Callable[[Callable[[float], None]], None]


def no_heed(_: Callable[[float], None]) -> None:
    pass


@contextlib.contextmanager
def shown(command: Sequence[Word], unheard: Collection[signal.Signals] = (), heed: Heed = no_heed) -> Iterator[IO[bytes]]:
    """What a program shows that takes no commands, as `lisfs dump IMAGE`: a binary stream, to be read in the block. Raises `Ended` if its status is
    not 0, also instead of an error of the block, since what was shown is then cut off."""
    with unnamed_file() as said, begun(command, subprocess.DEVNULL, said, unheard, -1) as child:
        assert child.stdout
        heed(functools.partial(kill_after, child))
        try:
            yield child.stdout
        finally:
            while child.stdout.read(65_536):
                pass
            if status := child.wait():
                said.seek(0)
                raise ended(status, said.read().decode(errors="backslashreplace"))
