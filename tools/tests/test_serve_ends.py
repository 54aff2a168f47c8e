"""`tools/serve`: how it ends: by signals, when its program ends, and when it is killed."""
import os
import random
import signal
import subprocess
import tempfile

import pytest

from lisfs.client import Locked, reply_of
from lisfs.constants import MAX_LARGE_FILE
from support import images
from support.peers import ENDED, LIMITS, PWD, TALK, Peer, Served, asked, connected, drive, make, ran, refusing, replies_in, script, talked, written
from support.waiting import LONG, children, not_taken, rest, stop, unread, until

pytestmark = [pytest.mark.usefixtures("rooms"), pytest.mark.limits(*LIMITS)]
ENDING = (signal.SIGTERM, signal.SIGINT, signal.SIGHUP)
# A program that starts when it may; and one that does not end.
LATER = """#!/bin/sh
touch begun
until [ -e go ]; do sleep 0.01; done
exec "$REAL" "$@"
"""
LASTING = """#!/bin/sh
[ "$1" = rooms ] || exec "$REAL" "$@"
"$REAL" "$@"
exec sleep 7200
"""


# The program's end ends the server, with its status and what it said, and every connection.

def test_no_image():
    assert refusing("nosuch") == (3, "lisfs: disk fault\nnosuch: No such file or directory\n"), "no image"


def test_a_short_image():
    written("short", b"short").close()
    assert refusing("short") == (2, "lisfs: image too short\nshort: 5 bytes of 4096\n"), "a short image"


def test_the_end_of_the_program():
    with Served(make("image")) as served:
        peers = [Peer(b"pwd\n", ends=False) for _ in range(3)]
        drive(peers, lambda: all(peer.got == PWD for peer in peers))
        talk = subprocess.Popen([TALK, "socket"], stdin=subprocess.PIPE, stdout=subprocess.PIPE, stderr=subprocess.PIPE)
        talk.stdin.write(b"pwd\n")
        talk.stdin.flush()
        assert talk.stdout.read(7) == PWD, "a talk"
        with connected() as other:
            # One that is read from the disk, and not from an open record.
            assert asked(other, b"add x 70000\n" + bytes(70_000) + b"\n", 3) == b"ok\n", "a file"
            os.truncate("image", 4_096)
            assert asked(other, b"cat x\n", 9) == b"", "the command at which it ends"
        assert drive(peers) == [PWD] * 3, "all connections are closed"
        assert (talk.wait(LONG), talk.stdout.read(), talk.stderr.read().decode()) == (1, b"", ENDED), "talk says so"
        assert served.ended() == (3, "lisfs: disk fault\nimage: unexpected end of file\n"), "the status and what was said"
    assert not os.path.exists("socket"), "the socket is gone"


def test_a_killed_program():
    with Served(make("image"), patience=1) as served:
        deaf = Peer(b"ls\n" * 100_000)
        for _ in range(100):
            deaf.send()
        peer = Peer(b"pwd\n", ends=False)
        drive([peer], lambda: peer.got == PWD)
        os.kill(served.program(), signal.SIGKILL)
        assert served.ended() == (137, "serve: the program ended with -9\n"), "a killed program"
        assert drive([peer])[0] == PWD, "the connection is closed"


@pytest.mark.parametrize("number", ENDING)
def test_signals(number):
    """A signal ends the server in order: what is under way is replied to, and what was acknowledged is there."""
    content = os.urandom(MAX_LARGE_FILE)
    with Served(make("image"), start_new_session=True) as served:
        assert talked(b"add large %d\n%b\n" % (MAX_LARGE_FILE, content))[1] == b"ok\n", "a large file"
        # Each has one file, so that they meet no limit, wherever they are when it comes.
        peers = [Peer(b"add k%d 5\n%05d\n" % (k, 0) + b"".join(b"write k%d 5\n%05d\n" % (k, n) for n in range(1, 20_000))) for k in range(6)]
        late = Peer(b"cat large\n" * 9)
        late.send()
        assert until(lambda: unread(late.connection)), "one that does not read yet"
        drive(peers, lambda: all(peer.got for peer in peers))
        served.finds(number)
        # The server ends its program after what was under way, and then waits for the client that has not read yet.
        assert until(lambda served=served: not children(served.process.pid)), "its program ends"
        assert rest(served.process.pid), "it waits for its clients"
        *found, (larges, is_whole) = [replies_in(got) for got in drive(peers + [late])]
        assert served.ended() == (0, ""), f"{number.name}"
        assert not os.path.exists("socket"), "the socket is gone"
        assert is_whole and set(larges) == {b"b %d\n%b\nok\n" % (MAX_LARGE_FILE, content)}, ("one that reads late", (len(larges), is_whole))
        assert all(whole and set(shown) == {b"ok\n"} for shown, whole in found), ("some were replied to, and whole", found)
    for k, (shown, _) in enumerate(found):
        assert ran("image", b"cat k%d\n" % k) == b"b 5\n%05d\nok\n" % (len(shown) - 1), "the last of them is there, and no later one"


@pytest.mark.parametrize("number", ENDING)
def test_early_signals(image, number):
    """A signal that comes before the image is open ends the server when it is."""
    with Served(wait=False, program=script("later", LATER), start_new_session=True) as served:
        assert until(lambda: os.path.exists("begun")), "its program begins"
        os.killpg(served.process.pid, number)
        written("go", b"").close()
        assert served.ended() == (0, ""), f"{number.name} ahead of the image"


def stuck_after(patience):
    """How a server ends whose program does not end within its patience."""
    return 137, f"serve: image: the program had not ended {patience:g} seconds after a signal, and was killed; what was replied to is kept\n"


# A signal ends the server whatever it waits for: a client, the lock, or a program that does not answer.

def test_the_end_while_a_payload_has_come_in_part(image):
    with Served() as served, connected() as half, connected() as other:
        half.sendall(b"add half 5\nab")
        assert asked(other, b"add whole 2\nab\n", 3) == b"ok\n", "another client"
        assert served.end() == (0, ""), "the end"
    assert ran("image", b"ls\n") == b"f whole\nok\n", "what was acknowledged is there, and no part of another file"


def test_the_end_while_the_program_opens(image):
    with Served(wait=False, patience=0.5, program=script("later", LATER)) as served:
        assert until(lambda: os.path.exists("begun")), "its program begins"
        assert served.end() == stuck_after(0.5), "the end while the program opens"


@pytest.mark.parametrize("data", (b"pwd\n", b"add large %d\n%b\n" % (MAX_LARGE_FILE, bytes(MAX_LARGE_FILE))), ids=("a command", "a payload"))
def test_the_end_while_the_program_does_not_answer(image, data):
    assert ran(image, b"create whole\n") == b"ok\n", "a file"
    with Served(patience=0.5) as served:
        program, peer = served.program(), Peer(b"pwd\n", ends=False)
        drive([peer], lambda: peer.got == PWD)
        stop(program)
        peer.left = data
        drive([peer], lambda: not peer.left)
        assert until(lambda: not_taken(program)) and rest(served.process.pid), "it is under way"
        assert served.end() == stuck_after(0.5), "the end"
        assert drive([peer])[0] == PWD, "the connection is closed"
        assert not os.path.exists("socket"), "the socket is gone"
    assert ran("image", b"ls\n") == b"f whole\nok\n", "what was acknowledged is there, and no part of another file"


def test_a_program_that_does_not_end(image):
    """It has replied to everything before."""
    with Served(patience=0.5, program=script("lasting", LASTING)) as served:
        assert talked(b"pwd\n") == (0, PWD, ""), "a reply"
        assert served.end() == stuck_after(0.5), "the end where the program does not end"


def end_beside_deaf(content, patience):
    """How a server ends that has this patience, and one client which never reads."""
    with Served(make("image"), patience=patience) as served:
        assert talked(b"add large %d\n%b\n" % (MAX_LARGE_FILE, content))[1] == b"ok\n", "a large file"
        deaf = Peer(b"cat large\n" * 9)
        deaf.send()
        assert until(lambda: unread(deaf.connection)), "one that never reads"
        return served.end()


def test_who_never_reads_is_not_waited_for_without_end():
    content = os.urandom(MAX_LARGE_FILE)
    # The server gives its program no longer than its clients, and a slow machine may need longer for that.
    for patience in (1, 20, 400):
        if (end := end_beside_deaf(content, patience)) != stuck_after(patience):
            break
    assert end == (0, ""), "the end beside it"


def test_a_talk_says_that_the_server_has_ended():
    with Served(make("image")) as served:
        talk = subprocess.Popen([TALK, "socket"], stdin=subprocess.PIPE, stdout=subprocess.PIPE, stderr=subprocess.PIPE)
        talk.stdin.write(b"pwd\n")
        talk.stdin.flush()
        assert talk.stdout.read(7) == PWD, "a talk"
        assert served.end() == (0, ""), "the end"
        assert (talk.wait(LONG), talk.stderr.read().decode()) == (1, ENDED), "talk says so"
        talk.stdin.close()


def test_a_talk_says_that_not_all_was_replied_to():
    content = os.urandom(MAX_LARGE_FILE)
    with Served(make("image"), start_new_session=True) as served, written("session", b"cat x\n" * 10_000) as session:
        assert talked(b"add x 1000\n%b\n" % content[:1_000])[1] == b"ok\n", "a file"
        # Its reply has more bytes than any buffer holds, and one byte was shown.
        talk = subprocess.Popen([TALK, "socket"], stdin=session, stdout=subprocess.PIPE, stderr=subprocess.PIPE)
        assert talk.stdout.read(1) == b"b", "a talk that has sent all"
        served.finds(signal.SIGTERM)
        said = talk.communicate()[1].decode()
        assert served.ended() == (0, ""), "the end"
        assert (talk.returncode, said) == (1, ENDED), "talk says so"


def content_of(name, size):
    return random.Random(name).randbytes(size)


def image_shows(image, names):
    """The bytes of files, or None for a missing one. A program that was left alone may have the lock for a moment."""
    def got():
        try:
            with images.session(image) as program:
                for name in names:
                    program.send(b"cat", name)
                shown = [program.receive_bytes() for _ in names]
                return [None if reply.startswith(b"no") else reply_of(reply).body for reply in shown]
        except Locked:
            return None

    return until(got)


# What is killed, in turn.
KILLED = ("the server", "the program", "both", "clients")


def writer(chance, k):
    """The commands of a client that makes files, and writes one of them again and again: what each makes of a file."""
    commands = [(b"add", b"w%d" % k, b"0")]
    for number in range(20):
        name = b"f%d-%d" % (k, number)
        commands += [(b"add", name, content_of(name, chance.choice((0, 5, 5_000, 50_000)))), (b"write", b"w%d" % k, b"%d" % (number + 1))]
    return commands


def test_kills(server_kill):
    """Servers, programs, both and clients that are killed at random points: the files of each client are those after some of its commands, no fewer
    than were acknowledged, and if its server or program was killed at most one more."""
    chance, killed = random.Random(server_kill), KILLED[server_kill % len(KILLED)]
    writers = [writer(chance, k) for k in range(8)]
    data = [b"".join(b"%b %b %d\n%b\n" % (word, name, len(content), content) for word, name, content in commands) for commands in writers]
    wanted = chance.randrange(1, sum(map(len, writers))) * len(b"ok\n")
    with Served(make("image")) as served:
        if killed == "clients":
            shown = killed_talks(data, wanted)
            assert talked(b"pwd\n") == (0, PWD, ""), "the server goes on"
            assert served.end() == (0, ""), "and ends"
        else:
            shown = killed_beside(served, killed, data, wanted)
    names = sorted({name for commands in writers for _, name, _ in commands})
    there = dict(zip(names, image_shows("image", names)))
    for k, (commands, got) in enumerate(zip(writers, shown)):
        count = len(replies_in(got)[0])
        most = len(commands) if killed == "clients" else count + 1
        assert has_prefix(there, commands, count, most), (f"what was acknowledged is there, when {killed} was killed", (k, count))


def killed_beside(served, killed, data, wanted):
    """What eight clients were shown when a server, its program or both were killed, after a number of bytes in all."""
    peers = [Peer(part) for part in data]
    drive(peers, lambda: sum(len(peer.got) for peer in peers) >= wanted)
    program = served.program()
    for process in [program] * (killed != "the server") + [served.process.pid] * (killed != "the program"):
        os.kill(process, signal.SIGKILL)
    served.process.wait(LONG)
    return drive(peers)


def has_prefix(there, commands, least, most):
    """Whether the files are those after this many commands."""
    for count in range(least, min(most, len(commands)) + 1):
        made = {name: content for _, name, content in commands[:count]}
        if all(there[name] == made.get(name) for _, name, _ in commands):
            return True
    return False


def killed_talks(data, wanted):
    """What eight clients had shown when they were killed, after a number of bytes in all."""
    shown = [tempfile.TemporaryFile() for _ in data]
    talks = []
    for number, (part, out) in enumerate(zip(data, shown)):
        with written(f"data{number}", part) as given:
            talks.append(subprocess.Popen([TALK, "socket"], stdin=given, stdout=out, stderr=subprocess.DEVNULL))
    assert until(lambda: sum(os.fstat(out.fileno()).st_size for out in shown) >= wanted), "some were replied to"
    for talk in talks:
        talk.kill()
        talk.wait()
    for out in shown:
        out.seek(0)
    return [out.read() for out in shown]
