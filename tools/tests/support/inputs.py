"""Random inputs of sessions, and how the client and the program differ for one. Only for tests.

The replies to an input show where it is cut: `cat` shows bytes, `ls` names, and what is no command is refused.
"""
import itertools
import random
import re
import shutil
from collections.abc import Iterator
from typing import TypeAlias

import runs
import sessions
from lisfs.client import PROGRAM, ROOM_LINE, Ended, Item, Items, NotAReply, Program, Replies, shown_by, words_of
from lisfs.constants import MAX_LARGE_FILE, MAX_LINE
from lisfs.limits import limits_of

# What was received for each command: its reply, or at the end what was no reply.
Got: TypeAlias = list[bytes | NotAReply]
NAMES, WORDS = (b"a", b"b", b"c.txt"), (b"w", b"v", b"y:1")
COMMANDS = (b"ls", b"pwd", b"cat N", b"cat N", b"props N", b"rm N", b"create N W", b"cd W", b"cd /", b"cd ..", b"mkdir W", b"rename N N", b"stat",
            b"frob", b"add", b"write N", b"ok", b"@1 ls", b"no 01 bad line", b"\0", b"\xff\xfe", b"")
# Lines that a payload of S bytes follows, even if the line is refused; and lines that no payload follows.
WITH_PAYLOAD = (b"add N S W", b"add N S W", b"add N S", b"write N S", b"write N S W", b"add . S", b"write N/ S", b"add N S" + b" w v" * 9)
WITHOUT = (b"Add N S", b"rm N S", b"add S N", b"add  S", b"\0add N S", b"add\0 N S", b"add\r N S", b"add\x0b N S", b"xadd N S")
# Texts that are no count, made from a count S.
NO_COUNTS = (b"S" + b"0" * 12, b"0" * 13, b"-S", b"+S", b"Sx", b"0xS", b"S.", b"\0S", b"S\0", b"\xffS", b"S,0", b"1e1")
# What may follow a payload; only the first is right.
BEHIND = (b"\n",) * 9 + (b"\r\n", b"\r\r\n", b"x\n", b" \n", b"ls", b"wrong\0end\r\n", b"y" * 1_100 + b"\n")
SIZES = (0, 0, 1, 2, 3, 7, 40, 300, 5_000)
LARGE = (65_536, 65_537, MAX_LARGE_FILE, MAX_LARGE_FILE + 1, MAX_LARGE_FILE + 2, MAX_LARGE_FILE + 70_000)


def filled(chance: random.Random, form: bytes, said: bytes = b"") -> bytes:
    """A form with a name for each `N`, a word for each `W`, and this instead of `S`."""
    form = re.sub(rb"\bN\b", lambda _: chance.choice(NAMES), form)
    form = re.sub(rb"\bW\b", lambda _: chance.choice(WORDS), form)
    return form.replace(b"S", said)


def spaced(chance: random.Random, line: bytes) -> bytes:
    """The same words with other blanks between and around them, and with CRs at the end, one of which is not part of the line."""
    if chance.random() < 0.3:
        between = chance.choice((b"\t", b"  ", b" \t ", b"\t\t"))
        line = chance.choice((b"", b" ", b"\t")) + line.replace(b" ", between) + chance.choice((b"", b" ", b"\t"))
    return line + chance.choice((b"",) * 6 + (b"\r", b"\r", b"\r", b"\r\r", b"\r\r\r", b" \r", b"\r ", b"\r\0"))


def lengthened(chance: random.Random, line: bytes) -> bytes:
    """A line of about as many bytes as allowed, made longer by blanks or by a word, and with a CR or without one."""
    size = chance.choice((MAX_LINE, ROOM_LINE)) + chance.randrange(-2, 4)
    end = chance.choice((b"", b"\r", b"\r\r", b" x"))
    fill = chance.choice((b" ", b"\t", b" x", b" w", b"\0"))
    return line + (fill * size)[:max(0, size - len(line) - len(end))] + end


def random_content(chance: random.Random, size: int) -> bytes:
    """Random bytes, some of which look like lines of a session or of a reply."""
    pieces = chance.choice((b"\0", b"\n", b"\r\n", b"\r", b"ok\n", b"ls\nrm a\n", b"add b 3\r\r\n", b"\xff\xc3x", chance.randbytes(max(1, size))))
    return (pieces * (size // len(pieces) + 1))[:size]


def with_payload(chance: random.Random) -> bytes:
    """A line that requires a payload, or nearly does, and bytes after it: the right number of them, or others."""
    size = chance.choice(SIZES) if chance.random() < 0.98 else chance.choice(LARGE)
    said = chance.choice((b"%d", b"%d", b"%d", b"0%d", b"%012d")) % size
    if chance.random() < 0.1:
        said = chance.choice(NO_COUNTS).replace(b"S", said)
    line = filled(chance, chance.choice(WITH_PAYLOAD if chance.random() < 0.85 else WITHOUT), said)
    line = lengthened(chance, line) if chance.random() < 0.1 else spaced(chance, line)
    content = random_content(chance, max(0, size + chance.choice((0,) * 12 + (-1, 1, 5))))
    return line + b"\n" + content + chance.choice(BEHIND)


def random_part(chance: random.Random) -> bytes:
    if chance.random() < 0.45:
        return with_payload(chance)
    line = filled(chance, chance.choice(COMMANDS))
    return (lengthened(chance, line) if chance.random() < 0.15 else spaced(chance, line)) + b"\n"


def random_input(chance: random.Random) -> bytes:
    """An input of some lines and payloads, which may end anywhere in the last one."""
    parts = [random_part(chance) for _ in range(chance.randrange(1, 25))]
    if chance.random() < 0.4:
        parts[-1] = parts[-1][:chance.randrange(len(parts[-1]) + 1)]
    return b"".join(parts)


# The commands that ran on an image before a random session.
BEFORE = b"mkdir w\nmkdir v\nmkdir y:\nadd a 5 w\nfirst\ncreate b v y:1\n"
CUT = b"no 03 cut payload\n"
# The rooms of the commands of a random session, in turn.
ROOMS_BY_TURNS = (0, 0, 5, 2)


def differences(number: int) -> list[tuple[object, ...]]:
    """How the client and the program differ over the session of this number. It makes its images in the current folder."""
    chance, limits = random.Random(number), (("64", "64", "8"), ("64", "64", "40", "v2"), ("64", "64", "40", "v3"))[number % 3]
    Program([PROGRAM, "make", "image", *limits]).close()
    shown_by([PROGRAM, "run", "image"], BEFORE)
    data = random_input(chance)
    found: list[tuple[object, ...]] = []
    for name, by_the_client, by_itself in (("run", in_commands, as_it_is), ("rooms", in_rooms, tagged)):
        images = [shutil.copy("image", f"{name}{k}") for k in range(2)]
        got, wanted = by_the_client(images[0], data, chance), by_itself(images[1], data)
        if got != wanted:
            at = next((k for k, pair in enumerate(zip(got, wanted)) if pair[0] != pair[1]), min(len(got), len(wanted)))
            found.append((name, "replies", at, got[at:at + 3], wanted[at:at + 3]))
        if len({runs.content(image) for image in images}) > 1 and len({shown_by([PROGRAM, "dump", image]) for image in images}) > 1:
            found.append((name, "dumps"))
    return found


def taken_in_pieces(items: Items, data: bytes, chance: random.Random) -> Iterator[Item]:
    """The commands of an input that comes in pieces."""
    most = chance.choice((5, 1_000, 70_000)) if len(data) < 20_000 else 300_000
    while data:
        size = chance.randrange(1, most)
        items.feed(data[:size])
        data = data[size:]
        while taken := items.take():
            yield taken


def as_it_is(image: str, data: bytes) -> Got:
    return list(sessions.replies_of(shown_by([PROGRAM, "run", image], data)))


def in_commands(image: str, data: bytes, chance: random.Random) -> Got:
    """The replies to what the client makes of an input, whose last line and last payload may lack their line feeds."""
    with Program([PROGRAM, "run", image]) as program:
        items = Items(MAX_LINE, most=limits_of(image).file_bytes)
        for taken in itertools.chain(taken_in_pieces(items, data, chance), at_the_end(items)):
            program.send_bytes(*taken)
    return [*received(program), *[CUT] * items.is_cut()]


def received(program: Program) -> Got:
    """All replies of a program that has ended. If it read other commands than were sent, there are fewer, or others, or more."""
    replies: Got = []
    try:
        while True:
            replies.append(program.receive_bytes())
    except Ended:
        return replies
    except NotAReply as error:
        return [*replies, error]


def at_the_end(items: Items) -> Iterator[Item]:
    while items.lacks_feed():
        items.feed(b"\n")
        while taken := items.take():
            yield taken


def in_rooms(image: str, data: bytes, chance: random.Random) -> Got:
    """The replies to the complete commands, in alternating rooms."""
    with Program([PROGRAM, "rooms", image], rooms=True) as program:
        for taken, room in zip(taken_in_pieces(Items(ROOM_LINE, most=limits_of(image).file_bytes), data, chance), itertools.cycle(ROOMS_BY_TURNS)):
            program.send_bytes(*taken, room)
    return received(program)


def tagged(image: str, data: bytes) -> Got:
    """The same from a program that gets the input as it is, except lines without words, and with a tag before each command."""
    ends, given = sessions.ends_of(data, ROOM_LINE), b""
    for (begin, end), room in zip(itertools.pairwise([0, *ends]), itertools.cycle(ROOMS_BY_TURNS)):
        while (feed := data.index(b"\n", begin)) - begin <= ROOM_LINE and not words_of(data[begin:feed]):
            begin = feed + 1
        given += b"@%d " % room + data[begin:end]
    replies = Replies(has_tags=True)
    found: Got = []
    replies.shown += shown_by([PROGRAM, "rooms", image], given)
    while taken := replies.take():
        found.append(taken[0])
    return found
