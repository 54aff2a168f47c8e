"""What a server reports to its clients about changes of others, and what clients make of it."""
import contextlib
import os
import random
import shutil
import socket
import threading

import pytest

from lisfs import image as images, served
from lisfs.client import Ended, Program, Refused
from lisfs.dumps import Axiom, Dump, dumped, opened
from lisfs.history import History, without_last_step
from lisfs.limits import limits_of
from support.peers import LIMITS, PWD, TALK, Peer, Served, drive, random_session, talked
from support.waiting import until

pytestmark = [pytest.mark.usefixtures("rooms"), pytest.mark.limits(*LIMITS)]
# Where `tools/serve image` listens.
SOCKET = "image.socket"


@pytest.fixture
def beside(image, rooms):
    """A server at the socket beside the image."""
    with Served(image, SOCKET) as server:
        yield server


def asked(*lines, image="image"):
    """The output of a talk with these lines, none of which is refused."""
    status, shown, said = talked(b"".join(line + b"\n" for line in lines), f"{image}.socket")
    assert (status, said) == (0, "") and not shown.startswith(b"no ") and b"\nno " not in shown, (shown, said)
    return shown


def held(dump):
    """What an image holds, by a dump or a history."""
    return dump.declared, dump.axioms, dump.files


@pytest.fixture
def joined(beside):
    """A client by this module, and what the image holds."""
    session = served.joined("image")
    with contextlib.suppress(Ended), session.program:
        yield session


# The history: what a server knows of its image without asking for it.

@pytest.mark.parametrize("number", range(3))
def test_a_server_knows_what_the_image_holds(image, number):
    """After random commands of eight clients, some of them refused, at places of any kind."""
    chance = random.Random(number)
    more = (b"cd %b/((%ba))\ncreate %b+1\nmv %b+1 ..\nmv %b+1 %bb/(%bc/%ba)\ncd ..\nmv %b+1 /\nmkdir %bd\ncd /%b|%ba\ncreate %b+2\n")
    with Served(image, SOCKET) as server:
        own = [b"own%d" % k for k in range(8)]
        data = [random_session(chance, name, 150) + more.replace(b"%b", name) for name in own]
        drive([Peer(part, SOCKET) for part in data])
        with served.joined(image).program as program:
            news = program.whole()
        assert server.end() == (0, "")
    dump = dumped(image)
    assert held(news) == held(dump)
    assert len(dump.files) > 20 and dump.axioms and any(len(words) > 1 for _, words in dump.files.values()), "there was something to know"


@pytest.mark.parametrize("place, wanted", ((b"/", b"/"), (b"a", b"/"), (b"a/b", b"a"), (b"a/(b|c)", b"a"), (b"a/((b/c))", b"a"), (b"((a/b)/c)", b"/"),
                                           (b"!a/size>=7", b"!a"), (b"(a|(b/c))/d", b"(a|(b/c))")))
def test_a_place_without_its_last_step(place, wanted):
    assert without_last_step(place) == wanted


def test_a_client_keeps_in_step(joined, image):
    """An index that applies the news is that of the image, after random commands of others and of its own client."""
    chance = random.Random(7)
    kept = images.Image(joined.program, joined.dump, limits_of(image))
    kept.describe(kept.index.files.values())
    writers = [Peer(random_session(chance, b"w%d" % k, 400), SOCKET, piece=200) for k in range(3)]
    own = iter(range(1_000))
    while not all(peer.is_over for peer in writers):
        drive(writers, lambda: chance.random() < 0.2)
        kept.catch_up()
        name = b"mine%d" % next(own)
        joined.program.create(name)
        kept.describe([kept.index.add(name, 0, ())])
        kept.catch_up()
        joined.program.rm(name)
        kept.index.drop(kept.index.files[name])
    kept.catch_up()
    fresh = images.Image(*served.joined(image), limits_of(image))
    fresh.describe(fresh.index.files.values())

    def known(of):
        return {name: (file.size, file.given, file.words) for name, file in of.index.files.items()}, of.declared

    assert known(kept) == known(fresh)
    assert len(fresh.index.files) > 10


def test_news(joined):
    """What others do, and nothing of what this client does."""
    program = joined.program
    assert program.news() is None
    asked(b"mkdir music", b"mkdir rock", b"axiom rock music", b"create song rock", b"add other 3", b"abc")
    news = program.news()
    assert (news.declared, news.axioms, news.undeclared, news.unaxioms) == ({b"music", b"rock"}, {Axiom(b"rock", b"music")}, set(), set())
    assert news.files == {b"song": (0, {b"rock"}), b"other": (3, set())} and news.written == {b"song", b"other"} and not news.whole
    program.mv(b"song", b"/music")
    program.rename(b"other", b"mine")
    assert program.news() is None, "its own changes"
    asked(b"rename mine theirs", b"write theirs 1", b"x", b"rm song", b"unaxiom rock music", b"rmdir rock")
    news = program.news()
    assert (news.renamed, news.files, news.written, news.gone) == ([(b"mine", b"theirs")], {b"theirs": (1, set())}, {b"theirs"}, {b"mine", b"song"})
    assert (news.undeclared, news.unaxioms) == ({b"rock"}, {Axiom(b"rock", b"music")})
    asked(b"create song", b"rm song", b"pwd", b"ls")
    news = program.news()
    assert (news.files, news.gone) == ({}, {b"song"}), "what came and went"
    with pytest.raises(Refused):
        program.rm(b"nosuch")
    assert program.news() is None


def test_news_of_what_both_have_changed(joined):
    """What a client does to a file that it does not know yet, for example one that has just been renamed, is reported to it too."""
    program = joined.program
    asked(b"create a", b"create other")
    program.create(b"mine")
    assert set(program.news().files) == {b"a", b"other", b"mine"}
    program.create(b"more")
    assert program.news() is None
    asked(b"rename a b")
    program.rename(b"b", b"c")
    program.write(b"other", b"x")
    news = program.news()
    assert (news.renamed, news.gone) == ([(b"a", b"b"), (b"b", b"c")], {b"a", b"b"})
    assert (set(news.files), news.written) == ({b"c", b"other"}, {b"c"})
    assert program.news() is None


def test_a_place_decides_what_a_file_is_given(joined):
    asked(b"mkdir a", b"mkdir b", b"mkdir k:", b"create x", b"cd a", b"create y b", b"cd b/k:", b"create z k:1")
    assert joined.program.news().files == {b"x": (0, set()), b"y": (0, {b"a", b"b"}), b"z": (0, {b"a", b"b", b"k:1"})}
    asked(b"cd a", b"mv z /", b"cd ..", b"mv x (a/b)", b"mv y b", b"cd a/b", b"mv y ..", b"mkdir c")
    news = joined.program.news()
    assert news.files == {b"z": (0, {b"b", b"k:1"}), b"x": (0, {b"a", b"b"}), b"y": (0, {b"a"})}
    assert news.axioms == {Axiom(b"c", b"a"), Axiom(b"c", b"b")}


def test_news_of_long_ago():
    """A client that knows only changes that are no longer kept is sent the whole state."""
    with open("image", "wb"):
        history = History(Dump(), "image", kept=4)
    for number in range(3):
        history.note(1, b"/", [b"create", b"f%d" % number])
    some, every = history.answer(2, [b":since", b"2"]), history.answer(2, [b":since", b"0"])
    assert some == b"n 3\nf f2 0\nc f2\nok\n"
    assert every.startswith(b"n 3\ni ") and every.count(b"\nf ") == 3
    assert history.answer(2, [b":since", b"9"]) == every, "a number that is none"
    assert history.answer(1, [b":since", b"3"]) == b"n 3\nok\n"
    assert history.answer(1, [b"ls"]) is None and history.answer(1, [b":frob"]) == b"no 01 bad line\n"


def test_guard(joined):
    """No file is changed that another client has changed since."""
    program = joined.program
    asked(b"mkdir w", b"create one", b"create two", b"create three", b"create four")
    program.news()
    program.guard()
    asked(b"write one 1", b"x", b"mv two w", b"rename four five")
    for call in (lambda: program.write(b"one", b"mine"), lambda: program.rm(b"one"), lambda: program.mv(b"two", b"/"), lambda: program.rename(b"two", b"six"),
                 lambda: program.rm(b"five")):
        with pytest.raises(Refused) as refused:
            call()
        assert (refused.value.number, refused.value.words) == (0, "changed by another client")
    program.write(b"three", b"mine")
    program.write(b"three", b"again")
    program.create(b"new")
    program.rm(b"new")
    assert asked(b"cat one", b"cat three") == b"b 1\nx\nok\nb 5\nagain\nok\n"
    asked(b"write three 1", b"y")
    with pytest.raises(Refused):
        program.write(b"three", b"mine")
    assert program.news() and program.guard() is None
    program.write(b"three", b"mine")
    assert asked(b"cat three") == b"b 4\nmine\nok\n"


@pytest.mark.parametrize("line", (b":", b":frob", b":since", b":since x", b":since 1 2", b":all 1", b":guard -1"))
def test_lines_that_are_none(beside, line):
    assert talked(line + b"\npwd\n", SOCKET) == (0, b"no 01 bad line\n" + PWD, "")


# Clients, and tools that are none.

def test_the_end_of_the_server(joined, beside):
    assert beside.end() == (0, "")
    with pytest.raises(Ended, match="image: the server has ended; what was replied to is kept"):
        joined.program.pwd()


def test_a_full_server(beside):
    peers = [Peer(b"pwd\n", SOCKET, ends=False) for _ in range(8)]
    drive(peers, lambda: all(peer.got for peer in peers))
    with pytest.raises(served.NotJoined, match="image.socket: eight clients are here"):
        served.joined("image")


def test_no_server(image):
    assert served.joined(image) is None
    with socket.socket(socket.AF_UNIX) as left:
        left.bind(SOCKET)
    assert served.joined(image) is None, "a socket of nobody"
    program, _ = opened(image)
    program.close()


def test_a_server_of_another_file(beside, image):
    """Another file has the image's name by now, which nobody serves."""
    shutil.copy(image, "copy")
    os.rename("copy", image)
    assert served.joined(image) is None
    program, _ = opened(image)
    program.close()


def test_a_server_of_another_kind(image):
    """The listener is no server that knows what has changed."""
    with socket.socket(socket.AF_UNIX) as listener:
        listener.bind(SOCKET)
        listener.listen()

        def answer():
            connection, _ = listener.accept()
            with connection:
                connection.recv(100)
                connection.sendall(b"no 01 bad line\n")
                connection.recv(100)

        thread = threading.Thread(target=answer)
        thread.start()
        with pytest.raises(served.NotJoined, match="image.socket: no server that this tool can use"):
            served.joined(image)
        thread.join()


def test_a_socket_of_another_user(image, root):
    """A listener of a user who may not write the image is not believed."""
    child = os.fork()
    if not child:
        with socket.socket(socket.AF_UNIX) as listener:
            os.chmod(".", 0o777)
            os.setuid(65_534)
            listener.bind(SOCKET)
            listener.listen()
            listener.accept()[0].recv(1)
        os._exit(0)
    assert until(lambda: os.path.exists(SOCKET))
    try:
        with pytest.raises(served.NotJoined, match="image.socket: the socket of another user"):
            until(lambda: served.joined(image))
    finally:
        os.kill(child, 9)
        os.waitpid(child, 0)


def test_the_socket_beside_the_image(image):
    with Served(image, None) as server:
        assert talked(b"pwd\n", image) == (0, PWD, ""), "a talk finds it by the image"
        with Program([TALK, image]) as program:
            assert program.pwd().body == [(b"w", b"/")]
        assert server.end() == (0, "")
    assert not os.path.exists(SOCKET)
    assert talked(b"pwd\n", image) == (1, b"", f"talk: {SOCKET}: no server is there: No such file or directory\n")
