"""`lisfs.client` with a fake program that shows what the test wants."""
import os
import select
import signal
import subprocess
import sys
import threading

import pytest

from lisfs import client
from lisfs.client import CONTENT, LINES, ROOM_LINE, Ended, Items, Locked, NotAReply, NotSent, Program, Refused, item, shown
from lisfs.constants import MAX_LARGE_FILE, V3_MAX_FILE
from support import images, with_package
from support.replies import CONTENTS, DONE, told_by
from support.waiting import children, is_full, rest, unread, until

# It keeps files in memory, and has its own commands: reply in pieces, end, or show what is no reply.
MADE_UP = r'''
import os, sys, time
files, words = {}, sys.argv[1:]

def show(data):
    while data:
        data = data[os.write(1, data):]

def said(text, status):
    os.write(2, text)
    os._exit(status)

if words == ["deaf"]:
    time.sleep(7200)
if words == ["closed"]:
    os.close(0)
    said(b"lisfs: disk fault\nx: in use by another lisfs\n", 3)
if words == ["loud"]:
    show(b"d " + b"x" * 1000 + b"\n")
    os.write(2, b"y" * 300000)
    show((b"d " + b"x" * 1000 + b"\n") * 2000 + b"ok\n")
if words[:1] == ["late"]:
    while not os.path.exists(words[1]):
        time.sleep(0.01)
while line := sys.stdin.buffer.readline():
    asked, tag = line.split(), b""
    if words == ["rooms"]:
        tag = b"@-" if len(line) > 1025 or line[:1] != b"@" else asked.pop(0)
        asked = [b"no"] if tag == b"@-" else asked
        tag += b"\n"
    if asked[0] in (b"add", b"write"):
        content = sys.stdin.buffer.read(int(asked[2]))
        sys.stdin.buffer.read(1)
        files[asked[1]] = content
        show(b"ok\n" if len(content) == int(asked[2]) else b"no 03 cut payload\n")
    elif asked[0] == b"cat":
        show(b"b %d\n%b\nok\n" % (len(files[asked[1]]), files[asked[1]]))
    elif asked[0] == b"ls":
        show(b"".join(b"f %b\n" % name for name in sorted(files)) + b"ok\n")
    elif asked[0] == b"pieces":
        for byte in b"d one\nd two\nok\nb 3\nok\n\nok\nno 10 no such file here\n":
            show(bytes([byte]))
            time.sleep(0.002)
    elif asked[0] == b"show":
        show(bytes.fromhex(asked[1].decode()[1:]))
    elif asked[0] == b"endless":
        show(b"d " + b"x" * 3000)
    elif asked[0] == b"quiet":
        continue
    elif asked[0] == b"hang":
        show(bytes.fromhex(asked[1].decode()[1:]))
        time.sleep(7200)
    elif asked[0] == b"end":
        show(bytes.fromhex(asked[2].decode()[1:]))
        said(b"lisfs: disk fault\nx: Input/output error\n", int(asked[1]))
    else:
        show(b"no 01 bad line\n")
    show(tag)
'''


def made_up(*words):
    return Program([sys.executable, "-c", MADE_UP, *words], rooms=words == ("rooms",))


def in_hexadecimal(data):
    return b"x" + data.hex().encode()


def test_replies():
    with made_up() as program:
        assert told_by(program.ls) == DONE, "nothing"
        assert told_by(program.ask, b"frob") == (Refused, 1, "bad line"), "a refusal"
        assert str(Refused(1, "bad line")) == "no 01 bad line", "a refusal's text"
        for name, content in CONTENTS.items():
            assert told_by(program.add, b"x", content) == DONE, f"add: {name}"
            assert told_by(program.cat, b"x") == (CONTENT, content), f"cat: {name}"
        assert told_by(program.ls) == (LINES, [(b"f", b"x")]), "lines"
        assert told_by(program.ask, b"show", in_hexadecimal(b"s files  1 \nw \nok\n")) == (
            LINES, [(b"s", b"files  1 "), (b"w", b"")]), "texts with blanks, and none"
        for word in (b"pieces", b"quiet", b"quiet"):
            program.send(word)
        assert told_by(program.receive) == (LINES, [(b"d", b"one"), (b"d", b"two")]), "lines in pieces"
        assert told_by(program.receive) == (CONTENT, b"ok\n"), "a content in pieces"
        assert told_by(program.receive) == (Refused, 10, "no such file here"), "a refusal in pieces"
        assert told_by(program.receive) == RuntimeError, "a receive too many"
    assert told_by(program.ls) == (Ended, 0, ""), "behind the end"


@pytest.mark.parametrize("shown", (
    b"what\n", b"o\n", b"d\n", b"D x\n", b"OK\n", b"\n", b"ok \n", b"d x\nno 01 bad line\n", b"d x\nb 1\ny\nok\n", b"b 1\nxyok\n",
    b"b 1\nx\nno\n", b"b 1\nx\nd x\nok\n", b"b 01\nx\nok\n", b"b x\nok\n", b"b 67108865\n", b"b 100000000\n", b"no 1 bad line\n", b"no 01\n"))
def test_no_reply(shown):
    with made_up() as program:
        assert told_by(program.ask, b"show", in_hexadecimal(shown)) == NotAReply, f"no reply: {shown[:30]}"
        assert told_by(program.ls) == RuntimeError, f"and none behind it: {shown[:30]}"


def test_a_line_without_an_end():
    with made_up() as program:
        assert told_by(program.ask, b"endless") == NotAReply, "a line without an end"


def test_another_kind_of_reply():
    with made_up() as program:
        assert told_by(program.lines, b"show", in_hexadecimal(b"b 1\nx\nok\n")) == NotAReply, "a content instead of lines"
        assert told_by(client.as_content, program.ask(b"show", in_hexadecimal(b"d x\nok\n"))) == NotAReply, "lines instead of a content"
        assert told_by(program.ls) == DONE, "and the next reply"


def test_two_replies():
    with made_up() as program:
        assert told_by(program.ask, b"show", in_hexadecimal(b"ok\nok\n")) == DONE, "two replies"
        assert told_by(program.receive_bytes, wait=False) == NotAReply, "the second is no reply to a command"


@pytest.fixture
def deaf():
    """A program that reads nothing."""
    program = made_up("deaf")
    yield program
    program.kill()


LONG = b"w" * 60
# Words, and the payload after them, that are no line of the program.
NOT_SENT = (((), None), ((b"",), None), ((b"mkdir", b""), None), ((b"mkdir", b"a b"), None), ((b"mkdir", b"a\nrm"), None), ((b"cd", b"a\t"), None),
            ((b"mkdir", b"a\r"), None), ((b"mkdir a",), None), ((b"x" * 1025,), None), ((b"add", b"a", b"1"), None), ((b"write", b"a", b"0"), None),
            ((b"ls",), b""), ((b"add", b"a"), b"x"), ((b"add", b"a", b"x"), b"x"), ((b"add", b"a", b"0" * 13), b""), ((b"add", b"a", b"1"), b""),
            ((b"add", b"a", b"1"), b"xy"), ((b"add", b"a", b"1") + (LONG,) * 17, b"x"),
            ((b"add", b"a", b"67108865"), bytes(V3_MAX_FILE + 1)), ((b"add", b"a", b"999999999999"), b"x"))


@pytest.mark.parametrize("number", range(len(NOT_SENT)))
def test_not_sent(deaf, number):
    words, payload = NOT_SENT[number]
    assert told_by(deaf.ask, *words, payload=payload) == NotSent, f"not sent: {words[:3]}"
    assert told_by(deaf.receive) == RuntimeError, "nothing waits"


def test_not_sent_by_a_command(deaf):
    assert told_by(deaf.add, b"a", bytes(V3_MAX_FILE + 1)) == NotSent, "a content that is too large"
    assert told_by(deaf.write, b"a 0", b"x") == NotSent, "a file of two words"
    assert told_by(deaf.receive) == RuntimeError, "nothing waits"


@pytest.mark.parametrize("words, payload, wanted", (
    ([b"x" * 1024], None, (b"x" * 1024 + b"\n", b"")), ([b"cat", b"a", b"1"], None, (b"cat a 1\n", b"")), ([b"add", b"a", b"x"], None, (b"add a x\n", b"")),
    ([b"add", b"a", b"0001"], b"\n", (b"add a 0001\n", b"\n\n"))),
    ids=("a line of 1,024 bytes", "a count in the place of another word", "no count", "leading zeros"))
def test_an_item(words, payload, wanted):
    assert item(words, *([] if payload is None else [payload])) == wanted


FAULT = "lisfs: disk fault\nx: Input/output error\n"


@pytest.mark.parametrize("shown", (b"", b"o", b"ok", b"d x\n", b"d x\no", b"no 10 no such", b"no 10 no such file here", b"b 5", b"b 5\nok\nok",
                                   b"b 3\nok\n\nok"))
def test_the_end_behind(shown):
    program = made_up()
    program.add(b"y", b"z")
    assert told_by(program.ask, b"end", b"4", in_hexadecimal(shown)) == (Ended, 4, FAULT), f"the end behind {shown}"
    assert told_by(program.ls) == (Ended, 4, FAULT), "and again"
    assert told_by(program.receive) == (Ended, 4, FAULT), "and again"
    assert told_by(program.close) == (Ended, 4, FAULT), "and at closing"


@pytest.mark.parametrize("shown", (b"d x\n", b"b 1048576\n" + b"ok\n" * 100, b"ok"), ids=("a line", "a content", "half a line"))
def test_a_kill_behind(shown):
    program = made_up()
    program.send(b"ls")
    program.send(b"hang", in_hexadecimal(shown))
    assert until(lambda: unread(program.fileno()) == len(b"ok\n" + shown)), "all is shown"
    program.kill()
    assert told_by(program.receive) == DONE, "what was replied to before a kill"
    assert told_by(program.receive) == (Ended, -signal.SIGKILL, ""), f"a kill behind {shown[:20]}"


def test_a_locked_image_is_told():
    program = made_up("closed")
    end = told_by(program.ls)
    assert end == (Locked, 3, "lisfs: disk fault\nx: in use by another lisfs\n"), "a locked image"
    assert str(Ended(3, end[2])) == "the program ended with 3: lisfs: disk fault: x: in use by another lisfs", "what it says"


def test_the_end_tells_itself():
    program = made_up()
    program.send(b"ls")
    program.send(b"end", b"5", in_hexadecimal(b""))
    told = "all were sent"
    while told == "all were sent":
        told = told_by(program.send, b"ls") or told
    assert told == (Ended, 5, FAULT), "when a command is sent"
    assert told_by(program.receive) == DONE, "what was replied to before it"
    assert told_by(program.receive) == (Ended, 5, FAULT), "and then the end"


def test_an_error_of_the_block_is_told():
    with pytest.raises(KeyError, match="mine"), made_up() as program:
        program.send(b"end", b"5", in_hexadecimal(b""))
        raise KeyError("mine")


# Programs that take no commands.

def test_a_program_that_is_no_session():
    assert told_by(Program(["true"]).close) is None, "its end"


def test_a_program_that_fails():
    assert told_by(Program(["false"]).close) == (Ended, 1, ""), "its end"


def test_no_program():
    with pytest.raises(FileNotFoundError):
        Program(["./nosuch"])


@pytest.mark.parametrize("wanted, given", (
    (b"x" * 200_000, ("head -c 200000 /dev/zero | tr '\\0' x",)), ((Ended, 7, "why\n"), ("echo cut; echo why >&2; exit 7",)),
    ((Ended, 7, ""), ("echo cut; exit 7", KeyError)),
    ((Locked, 3, "x: in use by another lisfs\n"), ("echo x: in use by another lisfs >&2; exit 3",)), (b"", ("head -c 200000 /dev/zero", None, 0))),
    ids=("what it shows", "it fails", "it fails, with an error of the block", "it is locked", "it is not read to its end"))
def test_what_is_shown(wanted, given):
    assert told_by(reading, *given) == wanted, "of a script"


def test_what_is_shown_beside_an_error_of_the_block():
    with pytest.raises(KeyError):
        reading("echo shown", KeyError)


def reading(script, error=None, size=-1):
    with shown(["sh", "-c", script]) as stream:
        read = stream.read(size)
        if error:
            raise error
    return read


def test_ahead():
    """Commands before the first read, if the program shows and says more than a pipe holds."""
    with made_up() as program:
        for number in range(100):
            program.add(b"%03d" % number + b"x" * 57, b"")
        for number in range(10_000):
            program.send(b"ls")
        assert told_by(program.ls) == RuntimeError, "a command ahead of replies"
        lengths = {len(program.receive().body) for _ in range(10_000)}
        assert lengths == {100}, "10,000 commands ahead"
        assert told_by(program.ask, b"frob") == (Refused, 1, "bad line"), "and the next"
        content = os.urandom(MAX_LARGE_FILE)
        for number in range(20):
            program.send(b"add", b"large", b"%d" % MAX_LARGE_FILE, payload=content)
            program.send(b"cat", b"large")
        got = [told_by(program.receive) for _ in range(40)]
        assert got == [DONE, (CONTENT, content)] * 20, "contents ahead"
        assert program.receive_bytes(wait=False) is None, "no reply now"
        program.send(b"ls")
        select.select([program], [], [])
        whole = None
        while whole is None:
            whole = program.receive_bytes(wait=False)
        assert whole.startswith(b"f 000x") and whole.endswith(b"x\nf large\nok\n") and whole.count(b"\n") == 102, ("a reply's bytes", whole[:80])
        program.send(b"ls")
    assert len(program.receive().body) == 101, "a reply behind the end of the block"


def test_a_program_that_shows_and_says_much():
    with made_up("loud") as program:
        content = b"\0" * MAX_LARGE_FILE
        program.send(b"add", b"x", b"%d" % MAX_LARGE_FILE, payload=content)
        program.send(b"cat", b"x")
        program.send(b"quiet")
        assert len(program.receive().body) == 2_001, "a program that shows and says much ahead"
        assert told_by(program.receive) == DONE, "and then replies"
        assert told_by(program.receive) == (CONTENT, content), "and replies"


def test_rooms():
    with made_up("rooms") as program:
        first, last = program.room(0), program.room(7)
        assert told_by(first.ls) == DONE, "a room"
        assert told_by(last.ask, b"frob") == (Refused, 1, "bad line"), "another one"
        for name, content in CONTENTS.items():
            assert told_by(first.add, b"x", content) == DONE, f"add in a room: {name}"
            assert told_by(last.cat, b"x") == (CONTENT, content), f"cat in another: {name}"
        assert told_by(program.ask, b"ls", room=3) == (LINES, [(b"f", b"x")]), "lines"
        assert told_by(first.ask, b"show", in_hexadecimal(b"ok\n")) == DONE, "a tag in pieces"
        first.send(b"ls")
        program.send(b"frob", room=4)
        program.send_bytes(b"ls\n")
        program.send_bytes(b"x" * (ROOM_LINE + 1) + b"\n", room=4)
        program.send_bytes(b"x" * ROOM_LINE + b"\n", room=4)
        assert told_by(last.ls) == RuntimeError, "a command ahead of replies"
        told = [told_by(program.receive) for _ in range(5)]
        assert told == [(LINES, [(b"f", b"x")])] + [(Refused, 1, "bad line")] * 4, "replies in order, two of them of no room"
        for number in range(10_000):
            program.send(b"ls", room=number % 8)
        lengths = {len(program.receive().body) for _ in range(10_000)}
        assert lengths == {1}, "10,000 commands ahead in rooms"
        for room in (8, -1, None):
            assert told_by(program.ask, b"ls", room=room) == NotSent, f"room {room}"
        assert told_by(first.ask, b"x" * (ROOM_LINE + 1)) == NotSent, "a line of a room that is too long"
        assert told_by(first.ask, b"x" * ROOM_LINE) == (Refused, 1, "bad line"), "the longest one"
        assert told_by(program.ask, b"ls", payload=b"x", room=1) == NotSent, "a payload that the line doesn't say"
        assert told_by(last.ls) == (LINES, [(b"f", b"x")]), "and the next"


def test_no_rooms():
    with made_up() as program:
        assert told_by(program.ask, b"ls", room=0) == NotSent, "no rooms"
        assert told_by(program.room(0).ls) == NotSent, "no rooms"
        assert told_by(program.ls) == DONE, "and the next"


@pytest.mark.parametrize("shown", (b"ok\n@2\n", b"ok\n@-\n", b"ok\n@8", b"ok\nok\n", b"ok\nx", b"b 1\nx\nok\n@2\n", b"no 01 bad line\n@a", b"ok\n\n"))
def test_no_reply_of_a_room(shown):
    with made_up("rooms") as program:
        assert told_by(program.room(1).ask, b"show", in_hexadecimal(shown)) == NotAReply, f"no reply of this room: {shown}"


@pytest.mark.parametrize("shown", (b"ok\nx", b"ok\n@x", b"b 1\nx\nok\n\n", b"no 01 bad line\n@1 "))
def test_no_tag_where_nothing_more_comes(shown):
    program = made_up("rooms")
    program.send(b"hang", in_hexadecimal(shown), room=1)
    assert until(lambda: unread(program.fileno()) == len(shown)), "all is shown"
    assert told_by(program.receive_bytes, wait=False) == NotAReply, f"no tag, where nothing more comes: {shown}"
    program.kill()


@pytest.mark.parametrize("shown", (b"ok\n", b"ok\n@", b"ok\n@1", b"b 3\nok\n\nok\n@1", b"no 10 no such file here\n"))
def test_the_end_behind_a_reply_of_a_room(shown):
    program = made_up("rooms")
    program.room(2).add(b"y", b"z")
    assert told_by(program.room(1).ask, b"end", b"4", in_hexadecimal(shown)) == (Ended, 4, FAULT), f"the end behind {shown}"
    assert told_by(program.room(2).ls) == (Ended, 4, FAULT), "and again"


def test_what_a_program_does_not_take_is_kept():
    program = made_up("deaf")
    content = os.urandom(MAX_LARGE_FILE)
    for name in (b"a", b"b"):
        program.send_bytes(*item((b"add", name, b"%d" % MAX_LARGE_FILE), content), wait=False)
    assert program.push(), "something is left"
    assert program.receive_bytes(wait=False) is None, "no reply"
    program.kill()
    assert told_by(program.push) == (Ended, -signal.SIGKILL, ""), "the end while something is left"


def test_what_is_kept_goes_out_later():
    content = os.urandom(MAX_LARGE_FILE)
    with made_up("rooms") as program:
        for name in (b"a", b"b"):
            program.send_bytes(*item((b"add", name, b"%d" % MAX_LARGE_FILE), content), room=1, wait=False)
            program.send_bytes(b"cat %b\n" % name, room=2, wait=False)
        got = []
        while len(got) < 4:
            readable, _, _ = select.select([program], [program.input_fileno()] if program.push() else [], [])
            if readable and (whole := program.receive_bytes(wait=False)):
                got.append(whole)
        assert got == [b"ok\n", b"b %d\n%b\nok\n" % (MAX_LARGE_FILE, content)] * 2, "what was kept goes out"
        program.send_bytes(*item((b"add", b"c", b"%d" % MAX_LARGE_FILE), content), room=3, wait=False)
    assert told_by(program.receive) == DONE, "and at the closing"


LARGE = bytes(MAX_LARGE_FILE + 1)
# An input, its commands, and how it ends: complete, within a line or after a payload, or within a payload.
WHOLE, LACKS_FEED, IS_CUT = (False, False), (False, True), (True, False)
INPUTS = (
    (b"", [], WHOLE), (b"ls\n", [b"ls\n"], WHOLE), (b"ls", [], LACKS_FEED), (b"\n \t\n\r\n \r\nls\n", [b"ls\n"], WHOLE), (b" ", [], LACKS_FEED),
    (b"ls\r\npwd\r\r\n\r\r\n", [b"ls\r\n", b"pwd\r\r\n", b"\r\r\n"], WHOLE), (b"\0 \xff\n\x0b\n\x0c\n", [b"\0 \xff\n", b"\x0b\n", b"\x0c\n"], WHOLE),
    (b"add a 2\nxy\nls\n", [b"add a 2\nxy\n", b"ls\n"], WHOLE), (b"write\ta  02 x y\r\n\n\n\n", [b"write\ta  02 x y\r\n\n\n\n"], WHOLE),
    (b"add a 2\nxyz\nls\n", [b"add a 2\nxyz\n", b"ls\n"], WHOLE), (b"add a 2\nxy\r\nls\n", [b"add a 2\nxy\r\n", b"ls\n"], WHOLE),
    (b"add a 2\nxyz1 2\0\r\nls\n", [b"add a 2\nxyz\n", b"ls\n"], WHOLE), (b"add a 2\nxyz12", [], LACKS_FEED), (b"add a 2\nxy", [], LACKS_FEED),
    (b"add a 2\nx", [], IS_CUT), (b"add a 2\n", [], IS_CUT), (b"add a 0\n", [], LACKS_FEED), (b"add a 0", [], LACKS_FEED),
    (b"add a 0\nls\npwd\n", [b"add a 0\nl\n", b"pwd\n"], WHOLE), (b"add a 0000000000003\nls\n", [b"add a 0000000000003\n", b"ls\n"], WHOLE),
    (b"add a 000000000003\nls\n\n", [b"add a 000000000003\nls\n\n"], WHOLE), (b"add . 1\nx\nls\n", [b"add . 1\nx\n", b"ls\n"], WHOLE),
    (b"add a -1\nadd a\nadd\nwrite a 1x\n", [b"add a -1\n", b"add a\n", b"add\n", b"write a 1x\n"], WHOLE),
    (b"rm a 1\nAdd a 1\n", [b"rm a 1\n", b"Add a 1\n"], WHOLE), (b"add a 1\r", [], LACKS_FEED),
    (b"x" * 20 + b"\n", [b"x" * 20 + b"\n"], WHOLE), (b"x" * 19 + b"\r\n", [b"x" * 19 + b"\r\n"], WHOLE),
    (b"x" * 21 + b"\n", [b"x" * 21 + b"\n"], WHOLE), (b"x" * 100_000 + b"\nls\n", [b"x" * 21 + b"\n", b"ls\n"], WHOLE),
    (b" " * 22 + b"\nls\n", [b" " * 21 + b"\n", b"ls\n"], WHOLE), (b"x" * 20 + b"\r\n", [b"x" * 20 + b"\r\n"], WHOLE),
    (b"add aaaaaaaaa 1 xxxxxx\nx\n", [b"add aaaaaaaaa 1 xxxxx\n", b"x\n"], WHOLE),
    (b"x" * 100_000, [], LACKS_FEED), (b"add a 1048576 b\n" + LARGE[:-1] + b"\n", [b"add a 1048576 b\n" + LARGE[:-1] + b"\n"], WHOLE),
    (b"add a 1048577 b\n" + b"x" * (MAX_LARGE_FILE + 1) + b"\nls\n", [b"add a 1048577 b\n" + LARGE + b"\n", b"ls\n"], WHOLE),
    (b"write  a 01048580\r\n" + b"x" * (MAX_LARGE_FILE + 4) + b"\nls\n", [b"write  a 1048577\r\n" + LARGE + b"\n", b"ls\n"], WHOLE),
    (b"add a 2\r\r\nls\n", [b"add a 2\r\r\n", b"ls\n"], WHOLE), (b"add a 2\r\nxy\nls\n", [b"add a 2\r\nxy\n", b"ls\n"], WHOLE),
    (b"add a 2 \r\r\nxy\n", [b"add a 2 \r\r\nxy\n"], WHOLE), (b"add\r\r\n\r\r\r\n", [b"add\r\r\n", b"\r\r\r\n"], WHOLE),
    (b"add a 1048578\n" + b"x" * (MAX_LARGE_FILE + 2) + b"yz\nls\n", [b"add a 1048577\n" + LARGE + b"y\n", b"ls\n"], WHOLE),
    (b"add a 999999999999\n" + LARGE, [], IS_CUT), (b"add a 1048577\n" + LARGE, [], LACKS_FEED), (b"add a 1048577\n" + LARGE[1:], [], IS_CUT),
    (b"add a 1048577\n" + LARGE + b"x", [], LACKS_FEED),
)


@pytest.mark.parametrize("piece", (None, 1, 7), ids=("whole", "bytes", "pieces"))
@pytest.mark.parametrize("number", range(len(INPUTS)))
def test_items(number, piece):
    """Inputs cut into commands, given whole, in bytes, and in pieces. A file may have as many bytes as in version 2."""
    given, wanted, end = INPUTS[number]
    size = piece or len(given) + 1
    if len(given) > 1_000 and size < 65_536:
        size = size * 9_999
    cut, got = Items(20, most=MAX_LARGE_FILE), []
    for at in range(0, len(given), size):
        cut.feed(given[at:at + size])
        while taken := cut.take():
            got.append(b"".join(taken))
    assert got == wanted, (f"input {number}, {given[:20]}, in pieces of {size}", [part[:40] for part in got])
    assert (cut.is_cut(), cut.lacks_feed()) == end, f"the end of input {number}"


@pytest.mark.parametrize("size, wanted", ((20, 20), (21, 21), (30, 30), (31, 31), (100_000, 31)))
def test_a_long_line_that_is_handed_on_whole(size, wanted):
    """It is whole up to 30 bytes, and no payload follows it."""
    cut = Items(20, 30)
    cut.feed(b"add a 2".ljust(size, b"x") + b"\nls\n")
    assert cut.take() == (b"add a 2".ljust(size, b"x")[:wanted] + b"\n", b"") and cut.take() == (b"ls\n", b"")


def test_a_payload_follows_no_long_line():
    cut = Items(20, 30)
    cut.feed(b"add aaaaaaaaaaa 2 xxx\nxy\nadd a 2\nxy\n")
    assert [cut.take(), cut.take(), cut.take()] == [(b"add aaaaaaaaaaa 2 xxx\n", b""), (b"xy\n", b""), (b"add a 2\n", b"xy\n")]


@pytest.mark.parametrize("begin, least, most", ((b"", 0, 1_999), (b"add a 999999999\n", 0, 0), (b"add a 2\nxyz", 3, 3)),
                         ids=("a line", "a payload", "a wrong end"))
def test_what_has_no_end(begin, least, most):
    """Little is kept of it."""
    cut = Items()
    cut.feed(begin)
    for _ in range(100):
        cut.feed(b"x" * 65_536)
        assert cut.take() is None, "nothing is taken"
    assert least <= len(cut._given) <= most, "little is kept"


# It shows and says what the file `told` has, and exits with its status. For `put` it keeps the input.
SHOWS = r'''#!/bin/sh
. ./told
if [ "$1" = put ]; then cat > put; fi
printf "$shown"
printf "$said" >&2
exit "$status"
'''


@pytest.fixture
def told(monkeypatch):
    """Sets what the program shows, its status, and what it says."""
    def tell(shown, status=0, said=""):
        with open("told", "w", encoding="ascii") as file:
            file.write(f"shown='{shown}'\nstatus={status}\nsaid='{said}'\n")

    images.written("shows", SHOWS, 0o700)
    monkeypatch.setattr(client, "PROGRAM", "./shows")
    return tell


@pytest.mark.parametrize("shown", ("", "!\\n", "+\\n", "+a\\n@1 2\\n+no 10 x\\n!\\n", "@1 999999\\n", "+!\\n+@\\n", "+\\000\\377\\r\\n"))
def test_a_view(told, shown):
    told(shown)
    whole = shown.encode().replace(b"\\n", b"\n").replace(b"\\r", b"\r").replace(b"\\000", b"\0").replace(b"\\377", b"\xff")
    assert told_by(client.view, "i", "n", "f") == whole, f"a view: {shown}"


@pytest.mark.parametrize("shown", ("x\\n", "+a", "!\\n+a\\n", "@1\\n", "@0 1\\n", "@1 02\\n", "+a\\nno 10 x\\n", "no 10 x\\n+a\\n", "\\n", "no 1 x\\n", "ok",
                                   "ok\\n"))
def test_no_view(told, shown):
    told(shown)
    assert told_by(client.view, "i", "n", "f") == NotAReply, f"no view: {shown}"


def test_put(told):
    told("ok\\n")
    assert told_by(client.put, "i", "n", "f", b"+a\n\0\n") is None, "written"
    with open("put", "rb") as file:
        assert file.read() == b"+a\n\0\n", "what was put"


@pytest.mark.parametrize("shown", ("", "ok", "ok\\nok\\n", "no 26 not a view", "+a\\n", "no 26 not a view\\nok\\n", "ok\\nx"))
def test_no_reply_of_put(told, shown):
    told(shown)
    assert told_by(client.put, "i", "n", "f", b"") == NotAReply, f"no reply: {shown}"


@pytest.mark.parametrize("name, more", (("view", ()), ("put", (b"+a\n",))))
@pytest.mark.parametrize("given, wanted", (
    (("no 10 no such file here\\n",), (Refused, 10, "no such file here")),
    (("", 3, "lisfs: disk fault\\ni: in use by another lisfs\\n"), (Locked, 3, "lisfs: disk fault\ni: in use by another lisfs\n")),
    (("ok\\n", 5, "lisfs: output fault\\n"), (Ended, 5, "lisfs: output fault\n"))), ids=("a refusal", "a locked image", "a fault"))
def test_an_end_of_view_and_put(told, name, more, given, wanted):
    told(*given)
    assert told_by(getattr(client, name), "i", "n", "f", *more) == wanted, name


SENDER = r'''
import os, sys
from lisfs.client import Program
program = Program(sys.argv[1:])
number = 0
while True:
    program.send(b"create", b"%07d" % number + b"n" * 53, *[b"w" * 60] * (number % 16), b"last")
    number += 1
    os.write(1, b".")
'''


def test_killed_sender():
    """A sender that is killed while the program reads no more input leaves whole lines, and no half line."""
    copier = "while [ ! -e go ]; do sleep 0.01; done; cat > got; touch done"
    sender = subprocess.Popen([sys.executable, "-c", SENDER, "sh", "-c", copier], stdout=subprocess.PIPE, env=with_package())
    taker = until(lambda: children(sender.pid))[0]
    assert until(lambda: is_full(taker)) and rest(sender.pid), "it waits until more is taken"
    sender.kill()
    sent = len(sender.communicate()[0])
    open("go", "wb").close()
    assert until(lambda: os.path.exists("done")), "all is taken"
    with open("got", "rb") as file:
        got = file.read()
    lines = got.split(b"\n")
    assert len(lines) > sent > 0, ("a killed sender left the lines that it sent", (len(lines), sent))
    assert lines[-1] == b"" and all(line.endswith(b" last") for line in lines[:-1]), ("and no half one", got[-80:])


def test_cut_off():
    """A command that was not sent to its end, as after Ctrl-C, is not completed by the next one."""
    program, interrupted = made_up("deaf"), []

    def interrupt(*_):
        if not interrupted:
            interrupted.append(True)
            raise KeyboardInterrupt

    def press():
        # In the middle of it, since all of it is never read. A signal just before a wait doesn't end the wait, so several are sent.
        until(lambda: is_full(program._child.pid))
        until(lambda: interrupted or signal.pthread_kill(threading.main_thread().ident, signal.SIGUSR1))

    before = signal.signal(signal.SIGUSR1, interrupt)
    somebody = threading.Thread(target=press)
    somebody.start()
    with pytest.raises(KeyboardInterrupt):
        program.add(b"x", b"y" * MAX_LARGE_FILE)
    somebody.join()
    signal.signal(signal.SIGUSR1, before)
    assert told_by(program.ls) == NotSent, "a command behind one that was cut off"
    program.kill()
    assert told_by(program.ls) == (Ended, -signal.SIGKILL, ""), "and behind the end"


@pytest.fixture
def heard():
    """The signals SIGUSR1 that came to this process."""
    found = []
    before = signal.signal(signal.SIGUSR1, lambda *_: found.append(True))
    yield found
    signal.signal(signal.SIGUSR1, before)


def test_unheard(heard, monkeypatch):
    """A program doesn't receive the `unheard` signals. They are for this process, even those that come while it is started."""
    start = subprocess.Popen

    def started(*words, **more):
        os.kill(os.getpid(), signal.SIGUSR1)
        child = start(*words, **more)
        assert not heard, "not in the middle of it"
        return child

    with monkeypatch.context() as patch:
        patch.setattr(subprocess, "Popen", started)
        program = Program([sys.executable, "-c", MADE_UP], unheard=[signal.SIGUSR1])
    assert heard == [True], "none is lost"
    os.kill(program._child.pid, signal.SIGUSR1)
    assert told_by(program.ls) == DONE, "it goes on"
    program.close()


def test_heard(heard):
    program = made_up()
    os.kill(program._child.pid, signal.SIGUSR1)
    assert told_by(program.ls) == (Ended, -signal.SIGUSR1, ""), "another one hears them"
