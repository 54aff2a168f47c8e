"""`tools/serve` and `tools/talk`: clients at a real socket, and what they are shown compared with what `lisfs run` shows."""
import os
import random
import subprocess

import pytest

from lisfs.client import FULL, Program, Refused
from lisfs.constants import MAX_LARGE_FILE
from support.peers import (
    AT_THE_END, LIMITS, PWD, TALK, Peer, Served, asked, connected, drive, make, ran, random_input, random_session, refusing, script, talked, written)
from support.terminals import Terminal
from support.waiting import unread, until

pytestmark = [pytest.mark.usefixtures("rooms"), pytest.mark.limits(*LIMITS)]
CUT = b"no 03 cut payload\n"


def test_as_run():
    """Clients in sequence are shown what `run` shows, on a twin of the image."""
    chance = random.Random(1)
    make("twin")
    with Served(make("image")):
        for number in range(24):
            data = random_input(chance, AT_THE_END)
            assert talked(data) == (0, ran("twin", data), ""), f"talk {number}"
        for number in range(80):
            # Half a command does not run here, where the server can't know who ended it.
            data = random_input(chance, (b"", b"add N 3\nab", b"add N 1048578\nab"))
            assert drive([Peer(data, piece=chance.choice((1_000, 4_096, 65_536)))])[0] == ran("twin", data), f"client {number}"
    assert ran("image", b"ls\nstat\n") == ran("twin", b"ls\nstat\n"), "both images show the same"


def test_bytes_one_by_one(served):
    data = b"add s 3\n\nok\ncat s\n\r\nls\r\nadd s 2\n\nok\nrm s\n" + b"x" * 1_025 + b"\npwd\n"
    make("twin")
    assert drive([Peer(data, piece=1)])[0] == ran("twin", data), "bytes one by one"


def test_a_session_in_a_file(served):
    make("twin")
    data = b"mkdir t\ncd t\nadd t1 5\n\0\r\n\xff\n\ncat t1\nls\n" * 3
    with written("session", data) as session:
        got = subprocess.run([TALK, "socket"], stdin=session, capture_output=True, check=True).stdout
    assert got == ran("twin", data), "a session in a file"


def test_a_python_program_over_talk(served):
    with Program([TALK, "socket"]) as program:
        content = os.urandom(MAX_LARGE_FILE)
        assert program.pwd().body == [(b"w", b"/")], "a Python program over talk"
        program.add(b"python", content)
        assert program.cat(b"python").body == content, "and a whole file"
        with pytest.raises(Refused) as refused:
            program.cat(b"nosuch")
        assert refused.value.number == 10, "and a refusal"
        program.rm(b"python")


def test_harmless_shows(served):
    """On a terminal the bytes of a file do nothing."""
    content = b"\x1b]0;title\x07\xc2\x9b2J\xff\ttext\r\nok\n"
    with Terminal([TALK, "socket"]) as terminal:
        assert talked(b"add x %d\n%b\n" % (len(content), content))[:2] == (0, b"ok\n"), "a file"
        terminal.types(b"cat x\n")
        assert terminal.sees(b"b 25\r\n^[]0;title^G\\x9b2J\\xff\ttext^M\r\nok\r\n\r\nok\r\n"), ("its bytes at a terminal", terminal.shown)
        terminal.types(b"\4")
        assert terminal.ends() == 0, "the end"
        assert talked(b"cat x\n")[1] == b"b %d\n%b\nok\n" % (len(content), content), "elsewhere they are as they are"


def test_harmless_messages(image):
    name = "no\x1b[2J"
    assert talked(b"", name) == (1, b"", "talk: no^[[2J: no server is there: No such file or directory\n"), "a socket with controls"
    written(name, b"").close()
    assert refusing("image", name) == (1, "serve: no^[[2J: it is there, and no socket\n"), "a path with controls"
    assert refusing("an\x1b[2J", "socket") == (3, "lisfs: disk fault\nan^[[2J: No such file or directory\n"), "an image with controls"


def test_returns():
    """A line with more than one CR at its end is judged as `run` judges it, and the next one of another client is not part of it."""
    with Served(make("image")) as served, connected() as one, connected() as other:
        bad = b"no 01 bad line\n"
        assert asked(one, b"add x 20\r\r\n", len(bad)) == bad, "a count with a CR is none"
        assert asked(other, b"mkdir secret\npwd\n", 10) == b"ok\n" + PWD, "another client's command is its own"
        assert asked(one, b"pwd\r\r\n", len(bad)) == bad, "nor is a command with one"
        assert asked(one, b"cat x\nls\r\n", 27) == b"no 10 no such file here\nok\n", "and the first one goes on"
        assert served.end() == (0, ""), "the server ends"
    assert ran(make("twin"), b"add x 20\r\r\npwd\r\r\nls\r\n") == bad * 2 + b"ok\n", "what `run` shows of it"


@pytest.mark.parametrize("number", range(2))
def test_eight(number):
    """Eight clients at once, each of which is shown what `run` shows for its commands alone."""
    chance = random.Random(number)
    sessions = [random_session(chance, b"own%d" % k, 150) for k in range(8)]
    with Served(make("image")):
        # The clients differ as much as possible in how they send and read: bytes, pieces, and all at once.
        pieces = [7, 100, 1_000, 65_536, 65_536, 65_536, 65_536, 65_536]
        got = drive([Peer(session, piece=piece) for session, piece in zip(sessions, pieces)])
        talks = [subprocess.Popen([TALK, "socket"], stdin=subprocess.PIPE, stdout=subprocess.PIPE) for _ in range(8)]
        again = [b"cd own%d\nls\ncd own%da\nls\npwd\n" % (k, k) for k in range(8)]
        shown = [talk.communicate(data)[0] for talk, data in zip(talks, again)]
    for k in range(8):
        twin = make(f"twin{k}")
        assert got[k] == ran(twin, sessions[k]), f"client {k} of eight, {number}"
        assert shown[k] == ran(twin, again[k]), f"talk {k} of eight, {number}"


TOO_LONG, BAD = b"no 02 long line\n", b"no 01 bad line\n"


@pytest.mark.parametrize("size, reply", ((1_020, BAD), (1_021, BAD), (1_022, TOO_LONG), (1_024, TOO_LONG), (1_025, TOO_LONG), (10_000_000, TOO_LONG)))
def test_a_long_line(served, size, reply):
    """A line of more than 1,021 bytes is refused as 2, and what follows it is read as lines."""
    assert drive([Peer(b"x" * size + b"\npwd\n")])[0] == reply + PWD, f"a line of {size} bytes"
    assert drive([Peer(b"x" * (size - 1) + b"\r\npwd\n")])[0] == reply + PWD, f"one with a CR, {size} bytes"
    assert drive([Peer(b" " * size + b"\npwd\n")])[0] == (b"" if reply == BAD else reply) + PWD, f"{size} blanks"


def test_a_long_line_has_no_payload(served):
    line = b"add long 3" + b" w" * 506
    assert drive([Peer(line + b"\npwd\n")])[0] == TOO_LONG + PWD, "a long line has no payload"
    assert talked(line + b"\npwd\n") == (0, TOO_LONG + PWD, ""), "as talk knows"


def test_a_long_line_is_refused_to_its_own_client(served):
    assert drive([Peer(b"pwd\n" * 99), Peer(b"x" * 1_022 + b"\n")]) == [PWD * 99, TOO_LONG], "two clients"


def test_not_reading(served):
    """A client that never reads delays nobody, and uses little memory; the client after it starts at the root."""
    content = os.urandom(MAX_LARGE_FILE)
    assert talked(b"mkdir deep\nadd large %d deep\n%b\n" % (MAX_LARGE_FILE, content))[1] == b"ok\nok\n", "a large file"
    before = served.memory()
    deaf = [Peer(b"cd deep\n" + b"cat large\n" * 100_000) for _ in range(7)]
    with connected() as other:
        beside_deaf_ones(deaf, other)
        assert served.memory() - before < 60, ("little memory", (before, served.memory()))
        for peer in deaf:
            peer.close()
        for number in range(7):
            assert drive([Peer(b"pwd\n")])[0] == PWD, f"the place behind a client that is gone, {number}"
        # A client that has ended its input keeps its room until it has read.
        late = Peer(b"cat large\n" * 3)
        while late.left:
            late.send()
        assert until(lambda: unread(late.connection)), "a reply for one that does not read"
        assert asked(other, b"pwd\n" * 9, 63) == PWD * 9, "another client meanwhile"
        assert drive([late])[0] == (b"b %d\n%b\nok\n" % (MAX_LARGE_FILE, content)) * 3, "one that reads late"
    assert served.end() == (0, ""), "the server ends"


def beside_deaf_ones(deaf, other):
    """Another client gets a hundred replies after any of these last read something: if one of them delayed it, it would wait without end."""
    count, taken = 0, []
    while count < 100:
        for peer in deaf:
            peer.send()
        assert asked(other, b"pwd\n", 7) == PWD, "another client"
        before, taken = taken, [unread(peer.connection) for peer in deaf]
        count = count + 1 if taken == before and all(size > len(b"ok\n") for size in taken) else 0


# The program, with a script before it that notes its input.
NOTING = """#!/bin/sh
tee -a notes | "$REAL" "$@"
"""


def test_busy():
    """Clients that send one command after another, and read, don't delay another one: between two of its commands at most one of each runs."""
    with Served(make("image"), program=script("noting", NOTING)):
        peers = [Peer(b"pwd\n" * 400_000) for _ in range(7)]
        other = Peer(b"", ends=False)
        drive(peers, lambda: all(peer.got for peer in peers))
        # Twenty at once, so that the next one is ready whenever it may run, until enough ran between them.
        while sum(between_those()) < 2_000:
            other.left, other.got = b"stat\n" * 20, b""
            drive(peers + [other], lambda: other.got.count(b"ok\n") == 20)
            assert other.got == b"s files 0\ns known 0\ns axioms 0\ns free 2048\nok\n" * 20, "another client"
        for peer in peers + [other]:
            peer.close()
    found = between_those()
    assert max(found) <= 7, ("few were carried out before one of another client", found)


def between_those():
    """How many commands of others ran between each two of those that came at once."""
    with open("notes", "rb") as notes:
        lines = notes.read().split(b"\n")
    # The first one is the server's own.
    places = [number for number, line in enumerate(lines) if line.endswith(b" stat")][1:]
    return [later - earlier - 1 for number, (earlier, later) in enumerate(zip(places, places[1:])) if number % 20 != 19]


def test_ninth(served):
    peers = [connected() for _ in range(8)]
    for number, peer in enumerate(peers):
        assert asked(peer, b"mkdir w%d\ncd w%d\npwd\n" % (number, number), 14) == b"ok\nok\nw w%d\nok\n" % number, f"client {number}"
    assert drive([Peer(b"", ends=False)])[0] == FULL, "the ninth"
    assert drive([Peer(b"mkdir nine\n" * 9)])[0] == FULL, "the ninth that sends at once"
    assert talked(b"mkdir nine\n") == (1, b"", f"talk: socket: {FULL.decode()}"), "the ninth, over talk"
    assert talked(b"") == (1, b"", f"talk: socket: {FULL.decode()}"), "the ninth, over talk and with nothing to say"
    for number, peer in enumerate(peers):
        assert asked(peer, b"pwd\n", 8) == b"w w%d\nok\n" % number, f"client {number} goes on"
    peers[3].close()
    assert talked(b"pwd\nls\n")[1] == PWD + b"ok\n", "a place that is free again is the root"
    peers[3] = connected()
    assert asked(peers[3], b"cd w3\n", 3) == b"ok\n", "and again"
    assert talked(b"pwd\n")[0] == 1, "it is full again"
    # Gone while a reply is under way, without reading one byte.
    peers[3].sendall(b"stat\n" * 1_000)
    peers[3].close()
    assert talked(b"pwd\n") == (0, PWD, ""), "who comes right behind"
    for number in range(200):
        with connected() as short:
            short.sendall(b"cd w1\npwd\nadd x 5\nab")
    assert talked(b"pwd\n") == (0, PWD, ""), "behind many that were short"
    for peer in peers:
        peer.close()
    assert served.end() == (0, ""), "the server ends"


def test_hang_ups():
    """The half command of a client that is gone does nothing."""
    with Served(make("image")) as served:
        assert talked(b"add a 1\na\nadd ab 1\nb\n")[1] == b"ok\nok\n", "files"
        for data, reply in ((b"rm a", b""), (b"rm ab", b""), (b"add c 5\n", CUT), (b"add c 5\nabc", CUT), (b"add c 5\nabcde", b""),
                            (b"add c 0", b""), (b"add c 0\n", b""), (b"write a 3\nxyz", b""), (b"write a 3\nxyz1", b""),
                            (b"add c 2000000\nxyz", CUT), (b"rm a" + b"b" * 2_000, b""), (b"add c 1048576\n" + b"c" * 1_000_000, CUT)):
            with connected() as peer:
                peer.sendall(data)
            reset = connected()
            reset.sendall(b"pwd\n" * 10 + data)
            # Something unread is left, so that the server finds the connection reset.
            reset.recv(1)
            reset.close()
            assert drive([Peer(data)])[0] == reply, f"{data[:20]} at the end of an input"
        look, files = b"ls\ncat a\ncat ab\n", b"f a\nf ab\nok\nb 1\na\nok\nb 1\nb\nok\n"
        assert talked(look)[1] == files, "no file was made, changed or removed"
        assert served.end() == (0, ""), "the server ends"
    assert ran("image", look) == files, "nor at the end"


def test_what_was_sent_whole_by_a_client_that_is_gone():
    with Served(make("image")) as served:
        for number in range(20):
            with connected() as peer:
                peer.sendall(b"create x%d\n" % number)
        assert until(lambda: talked(b"ls\n")[1].count(b"f x") == 20), "what came whole is done"
        assert served.end() == (0, ""), "the server ends"
    assert ran("image", b"ls\n").count(b"f x") == 20, "what came whole is there"
