"""`lisfs.client` over the built program."""
import os
import signal

import pytest

import runs
from lisfs.client import CONTENT, LINES, PROGRAM, Ended, Locked, Program, Refused, held
from lisfs.constants import MAX_LARGE_FILE, V3_MAX_FILE
from support import images, inputs
from support.replies import CONTENTS, DONE, told_by
from support.waiting import unread, until


# Each command once, in one session over an empty image of 64 64 8, with its reply.
def table(program):
    return [
        (program.mkdir, (b"music",), DONE),
        (program.mkdir, (b"year:",), DONE),
        (program.mkdir, (b"sound",), DONE),
        (program.mkdir, (b"size>=5",), DONE),
        (program.axiom, (b"music", b"sound"), DONE),
        (program.create, (b"todo",), DONE),
        (program.create, (b"gig", b"music", b"year:2003"), DONE),
        (program.add, (b"song", b"la la", b"music"), DONE),
        (program.cat, (b"song",), (CONTENT, b"la la")),
        (program.write, (b"song", b"ok\n"), DONE),
        (program.cat, (b"song",), (CONTENT, b"ok\n")),
        (program.props, (b"song",), (LINES, [(b"p", word) for word in (b"music", b"size:", b"size:small", b"sound")])),
        (program.ls, (), (LINES, [(b"d", word) for word in (b"size:empty", b"size:small", b"sound", b"year:")])),
        (program.way, (b"gig",), (LINES, [(b"d", b"size:empty"), (b"d", b"sound")])),
        (program.cd, (b"music/!year:",), DONE),
        (program.pwd, (), (LINES, [(b"w", b"music/!year:")])),
        (program.ls, (), (LINES, [(b"f", b"song")])),
        (program.rename, (b"song", b"tune"), DONE),
        (program.cd, (b"/music",), DONE),
        (program.mv, (b"tune", b"/"), DONE),
        (program.cat, (b"tune",), (Refused, 10, "no such file here")),
        (program.cd, (b"/",), DONE),
        (program.rm, (b"gig",), DONE),
        (program.rm, (b"gig",), (Refused, 10, "no such file here")),
        (program.unaxiom, (b"music", b"sound"), DONE),
        (program.rmdir, (b"sound",), DONE),
        (program.stat, (), (LINES, [(b"s", b"files 2"), (b"s", b"known 6"), (b"s", b"axioms 0"), (b"s", b"free 7")])),
    ]


def test_commands(image):
    with images.session(image) as program:
        for number, (call, words, wanted) in enumerate(table(program)):
            assert told_by(call, *words) == wanted, f"row {number}: {call.__name__}{words}"
    with images.session() as program:
        assert told_by(program.cat, b"tune") == (CONTENT, b"ok\n"), "a second run"
        for name, content in CONTENTS.items():
            if len(content) <= 4096:
                assert told_by(program.write, b"tune", content) == DONE, f"write: {name}"
                assert told_by(program.cat, b"tune") == (CONTENT, content), f"cat: {name}"


@pytest.mark.limits("64", "64", "300", "v2")
def test_large_contents(image):
    with images.session(image) as program:
        for number, (name, content) in enumerate(CONTENTS.items()):
            assert told_by(program.add, b"%d" % number, content) == DONE, f"add: {name}"
            assert told_by(program.cat, b"%d" % number) == (CONTENT, content), f"cat: {name}"
            assert told_by(program.rm, b"%d" % number) == DONE, "rm"


@pytest.mark.limits("64", "192", "8")
def test_refusals(image):
    """Each refusal by its number."""
    with images.session(image) as program:
        words = [b"w%03d" % number for number in range(130)]
        for word in words + [b"year:"]:
            program.mkdir(word)
        for left, right in zip(words, words[1:]):
            program.axiom(left, right)
        program.create(b"here", words[-1])
        program.send_bytes(b"x" * 1_025 + b"\n")
        assert told_by(program.receive) == (Refused, 2, "long line"), "refusal 2"
        program.send_bytes(b"add a 1\n", b"xyz\n")
        assert told_by(program.receive) == (Refused, 4, "payload end"), "refusal 4"
        for number, said, call, *given in (
                (1, "bad line", program.ask, b"frob"), (1, "bad line", program.add, b".", b"x"), (5, "formula", program.cd, b"a//b"),
                (6, "unknown property", program.cd, b"nosuch"), (7, "formula too large", program.cd, b"/".join([b"w000"] * 65)),
                (9, "name taken", program.create, b"here"), (10, "no such file here", program.rm, b"nosuch"),
                (11, "already declared", program.mkdir, b"w000"), (12, "not declared", program.rmdir, b"nosuch"),
                (13, "in use", program.rmdir, b"w000"), (14, "not assignable", program.create, b"x", b"year:"),
                (15, "cycle", program.axiom, b"w001", b"w000"), (16, "axiom there", program.axiom, b"w000", b"w001"),
                (17, "no such axiom", program.unaxiom, b"w000", b"w002"), (18, "too many assigned", program.create, b"x", *words[-17:]),
                (19, "description too large", program.create, b"x", b"w000"), (20, "file too large", program.add, b"x", b"x" * 65_537),
                (24, "no space", program.add, b"x", b"x" * 65_536), (25, "built-in attribute", program.mkdir, b"size:")):
            assert told_by(call, *given) == (Refused, number, said), f"refusal {number}"
        program.cd(b"!year:")
        assert told_by(program.create, b"x") == (Refused, 8, "not a place"), "refusal 8"
        program.cd(b"/")
        for number in range(63):
            program.create(b"n%d" % number)
        assert told_by(program.create, b"x") == (Refused, 21, "no file room"), "refusal 21"
        # Unlinked pairs, up to the most axioms.
        for k in range(192 - 129):
            program.axiom(words[k], words[k + 2])
        assert told_by(program.axiom, words[0], words[9]) == (Refused, 23, "no axiom room"), "refusal 23"
        full = [told_by(program.mkdir, b"v%d" % k) for k in range(70)]
        assert full[0] == DONE and full[-1] == (Refused, 22, "no property room"), ("refusal 22", full[-1])
        program.send_bytes(b"add a 5\n", b"xyz")
    assert told_by(program.receive) == (Refused, 3, "cut payload"), "refusal 3"


def test_no_image(program):
    assert told_by(images.session("nosuch").ls) == (Ended, 3, "lisfs: disk fault\nnosuch: No such file or directory\n"), "no image"


def test_wrong_use(program):
    assert told_by(lambda: told_by(Program([PROGRAM, "run"]).ls)[1]) == 1, "wrong use"


def test_a_damaged_image(image):
    with open(image, "r+b") as file:
        file.seek(585 * 4096)
        file.write(b"\2")
    assert told_by(images.session(image).ls) == (Ended, 2, "lisfs: not an image\nimage: bitmap bit 1\n"), "a damaged image"


def test_a_short_image(program):
    images.written("short", b"short")
    assert told_by(images.session("short").ls) == (Ended, 2, "lisfs: image too short\nshort: 5 bytes of 4096\n"), "a short image"


def test_a_locked_image(image):
    locked = (Locked, 3, "lisfs: disk fault\nimage: in use by another lisfs\n")
    with images.session(image) as first:
        first.create(b"x")
        assert told_by(images.session(image).ls) == locked, "a locked image"
        assert told_by(lambda: held(image).__enter__()) == locked, "a lock that is not had"
        assert told_by(first.ls) == (LINES, [(b"f", b"x")]), "the first run goes on"
    with held(image):
        assert told_by(images.session(image).ls) == locked, "an image that is held"
    with images.session(image) as program:
        assert told_by(program.ls) == (LINES, [(b"f", b"x")]), "the lock is gone"


@pytest.mark.limits("64", "64", "300", "v2")
def test_kill(image):
    """The program is killed in the middle of a reply: what was replied to is durable."""
    program = images.session(image)
    content = os.urandom(MAX_LARGE_FILE)
    program.add(b"x", content)
    program.send(b"cat", b"x")
    # More than a pipe holds, so that it is in the middle of this reply.
    assert until(lambda: unread(program.fileno())), "some of it is shown"
    os.kill(program._child.pid, signal.SIGKILL)
    assert told_by(program.receive) == (Ended, -signal.SIGKILL, ""), "a kill in the middle of a reply"
    with images.session(image) as program:
        assert told_by(program.cat, b"x") == (CONTENT, content), "what was replied to is kept"


def test_ahead_of_the_program(image):
    with images.session(image) as program:
        for number in range(64):
            program.send(b"create", b"%02d" % number + b"n" * 58)
        for number in range(10_000):
            program.send(b"ls")
        assert [program.receive() for _ in range(64)] == [DONE] * 64, "files made ahead"
        lengths = {len(program.receive().body) for _ in range(10_000)}
        assert lengths == {64}, "10,000 commands ahead"


@pytest.mark.limits("64", "64", "16400", "v3")
def test_the_largest_file(image):
    content = os.urandom(V3_MAX_FILE)
    with images.session(image) as program:
        assert told_by(program.add, b"x", content) == DONE
        assert told_by(program.cat, b"x") == (CONTENT, content)
        assert told_by(program.write, b"x", content[:-1]) == (Refused, 24, "no space"), "the old blocks are not free"


@pytest.mark.limits("64", "64", "300", "v2")
def test_rooms_of_the_program(image, rooms):
    """The tables of `rooms`: each room has a separate place, and a line without a room is reported."""
    with Program([PROGRAM, "rooms", image], rooms=True) as program:
        first, second, last = program.room(0), program.room(1), program.room(7)
        for number, (call, words, wanted) in enumerate((
                (first.mkdir, (b"a",), DONE), (first.cd, (b"a",), DONE), (second.create, (b"x",), DONE), (first.create, (b"y",), DONE),
                (second.pwd, (), (LINES, [(b"w", b"/")])), (first.ls, (), (LINES, [(b"f", b"y")])),
                (second.ls, (), (LINES, [(b"d", b"a"), (b"f", b"x")])), (last.add, (b"f", b"hi"), DONE),
                (last.cat, (b"f",), (CONTENT, b"hi")), (first.cat, (b"f",), (Refused, 10, "no such file here")),
                (first.pwd, (), (LINES, [(b"w", b"a")])))):
            assert told_by(call, *words) == wanted, f"row {number} of rooms: {call.__name__}{words}"
        for line, payload, room, wanted in ((b"ls\n", b"", None, 1), (b"@8 ls\n", b"", None, 1), (b"add a 3\n", b"", None, 1),
                                            (b"x" * 1_025 + b"\n", b"", None, 2), (b"x" * 1_022 + b"\n", b"", 3, 2), (b"\n", b"", 3, 1),
                                            (b"x" * 1_021 + b"\n", b"", 3, 1), (b"add a 1\n", b"xyz\n", 3, 4), (b"add . 1\n", b"x\n", 3, 1)):
            program.send_bytes(line, payload, room)
            told = told_by(program.receive)
            assert told[:2] == (Refused, wanted), (f"{line[:10]} of room {room}", told)
        for number, (name, content) in enumerate(CONTENTS.items()):
            assert told_by(last.add, b"%d" % number, content) == DONE, f"add in a room: {name}"
            assert told_by(second.cat, b"%d" % number) == (CONTENT, content), f"cat in another: {name}"
            assert told_by(second.rm, b"%d" % number) == DONE, "rm"
        for number in range(10_000):
            program.send(b"pwd", room=number % 8)
        told = [program.receive().body[0][1] for _ in range(10_000)]
        assert told == ([b"a"] + [b"/"] * 7) * 1_250, "10,000 commands ahead in rooms"
    program = Program([PROGRAM, "rooms", image], rooms=True)
    assert told_by(program.room(0).pwd) == (LINES, [(b"w", b"/")]), "a place of the run before is gone"
    assert told_by(Program([PROGRAM, "rooms", image], rooms=True).room(1).ls) == (
        Locked, 3, "lisfs: disk fault\nimage: in use by another lisfs\n"), "a locked image"
    program.kill()
    assert told_by(program.room(1).ls) == (Ended, -signal.SIGKILL, ""), "behind a kill"


def test_differential(program, count):
    """Random sessions: what the client makes of an input has the replies of `run`, or of `rooms`, and leaves the same files."""
    for number, found in enumerate(runs.side_by_side(inputs.differences, range(count))):
        assert not found, (f"session {number}", found)
