"""What `tools/browse` changes by its forms, how its state follows the image, and how it ends."""
import contextlib
import os
import random
import signal
import subprocess
import sys

import pytest

from lisfs.client import PROGRAM, Ended, NotAReply, NotSent, Refused, shown_by
from lisfs.dumps import opened
from lisfs.limits import limits_of
from lisfs.refusals import REFUSALS
from lisfs.web import site
from lisfs.web.image import Differs, Image
from lisfs.web.places import Place
from support import visitors
from support.visitors import Browsed, Seen
from support.waiting import LONG, children, is_running, until
from support.web import MAIL, MIXED, Visitor, adding, make

SMALL = ("64", "64", "40")
ALL = b"\r\n--edge\n\r--edg\r\n\0\xff" + bytes(range(256)) * 200


# Changes by forms.

@pytest.fixture
def small(web_folder):
    """Pages of a small image, which may change it, and a client that sends their forms."""
    with Browsed(make("image", b"mkdir music\nmkdir live\nmkdir year:\ncreate song music\ncreate todo\n", SMALL), "--write") as browsed:
        yield browsed, Visitor(browsed)


def test_forms_of_a_file(small):
    assert small[1].page("file", name="song").form("take", word="music")["name"] == "song"


# Each change by its form, in this order, with what the page after it says.
BEFORE = (
    ("give", {"name": "song", "word": "live", "at": "/music"}, "The file has the word now"),
    ("give", {"name": "song", "word": "year:2003"}, "year:2003"),
    ("give", {"name": "song", "word": "live"}, "had this word already"),
    ("take", {"name": "song", "word": "music"}, "has the word no more"),
    ("axiom", {"left": "live", "right": "music"}, "The axiom holds", "live → music"),
    ("take", {"name": "song", "word": "music"}, "still has the word"))
BETWEEN = (
    ("rename", {"name": "song", "other": "tune.c", "at": "/live"}, "another name", "ext:c"),
    ("declare", {"word": "jazz", "at": "/music"}, "The word is declared"),
    ("declare", {"word": "size>=1", "at": "/", "to": "declared"}, "size>=1"))
AFTER = (
    ("undeclare", {"word": "size>=1"}, "declared no more"), ("unaxiom", {"left": "live", "right": "music"}, "holds no more"))
# Uploaded files: the fields, the bytes, the name elsewhere, and the name that each gets.
FILES = (
    ({"words": "music"}, b"text\n", b"/tmp/a b.txt", b"a_b.txt"), ({"name": "bytes"}, ALL, b"x", b"bytes"), ({}, MAIL, b"mail.eml", b"mail.eml"),
    ({"name": "nothing", "words": " year:1999  year:1999"}, b"", b"", b"nothing"))


def test_changes(small):
    """At the end the image is as each page said."""
    browsed, visitor = small
    token = visitor.token()

    def all_of(changes):
        for page, given, *said in changes:
            visitor.does(page, {**token, **given}, True, *said)

    all_of(BEFORE)
    assert visitor.page().counts()[b"music"] == 1
    all_of(BETWEEN)
    for given, content, filename, wanted in FILES:
        answer = visitor.upload({**token, **given, "at": "/"}, content, filename)
        assert answer.status == 303 and visitor.get("bytes", name=wanted).data == content, answer.data[:300]
    assert visitor.page().counts()[b"size>=1"] == 3
    all_of(AFTER)
    assert "come back only if you undo it" in visitor.page("remove", name="todo").text and visitor.get("file", name="todo").status == 200
    visitor.does("remove", {**token, "name": "todo", "at": "/"}, True, "The file is removed")
    assert visitor.get("file", name="todo").status == 404
    assert browsed.end(signal.SIGINT)[0] == 0
    assert shown_by([PROGRAM, "dump", "image"]) == b"".join((
        b"mkdir jazz\nmkdir live\nmkdir music\nmkdir year:\n", adding(b"a_b.txt", b"text\n", b"music"), adding(b"bytes", ALL),
        adding(b"mail.eml", MAIL), adding(b"nothing", b"", b"year:1999"), adding(b"tune.c", b"", b"live", b"year:2003"), b"axiom jazz music\n"))


def test_a_full_image(small):
    _, visitor = small
    token = visitor.token()
    answers = [visitor.upload({**token, "at": "/"}, b"x" * 65_536, name) for name in (b"w", b"y", b"z")]
    assert [answer.status for answer in answers] == [303, 303, 409]
    assert b"It has at most" in answers[-1].data and b"`tools/enlarge " in answers[-1].data, "and what helps"


# Refusals, which change nothing.

@pytest.fixture(scope="module")
def refusing(web_program, tmp_path_factory):
    """Pages of an image with little room left, and a client that sends their forms; at the end the image is as before."""
    lines = (b"mkdir music\nmkdir live\nmkdir year:\ncreate song live year:2003\ncreate todo\naxiom live music\n" + adding(b"a_b.txt", b"text\n")
             + adding(b"most", b"x" * 65_536))
    image = make(str(tmp_path_factory.mktemp("refusing") / "image"), lines, SMALL)
    before = shown_by([PROGRAM, "dump", image])
    with Browsed(image, "--write") as browsed:
        yield Visitor(browsed)
    assert shown_by([PROGRAM, "dump", image]) == before


@pytest.mark.parametrize("page, given, number", (
    ("axiom", {"left": "live", "right": "music"}, 16), ("axiom", {"left": "music", "right": "live"}, 15),
    ("axiom", {"left": "live", "right": "year:"}, None), ("give", {"name": "song", "word": "year:"}, 14),
    ("give", {"name": "song", "word": "ext:c"}, 25), ("give", {"name": "song", "word": "a/b"}, 1), ("give", {"name": "song", "word": "<b>"}, 1),
    ("give", {"name": "nosuch", "word": "live"}, 10), ("rename", {"name": "song", "other": "todo"}, 9),
    ("rename", {"name": "song", "other": "<b>"}, 1), ("rename", {"name": "song", "other": "a b"}, None),
    ("rename", {"name": "song", "other": "x\ny"}, None), ("remove", {"name": "nosuch"}, 10), ("declare", {"word": "music", "at": "/"}, 11),
    ("declare", {"word": "a:b", "at": "/"}, None), ("declare", {"word": "x", "at": "/!music"}, None), ("declare", {"word": "ext:", "at": "/"}, 25),
    ("declare", {"word": "", "at": "/"}, None), ("undeclare", {"word": "music"}, 13), ("unaxiom", {"left": "a", "right": "b"}, 17),
    ("axiom", {}, None), ("take", {"name": "song"}, 1)))
def test_refused(refusing, page, given, number):
    answer = refusing.post(page, {**refusing.token(), **given})
    seen = Seen(answer.data.decode())
    assert (answer.status, seen.wrong) == (404 if number == 10 else 409, []), seen.text[:300]
    assert number is None or REFUSALS[number].sentence in seen.text


@pytest.mark.parametrize("given, content, filename, status", (
    pytest.param({}, b"x", b"a_b.txt", 409, id="a name that is taken"), pytest.param({}, b"x", b"", 409, id="no name"),
    pytest.param({"name": "<script>"}, b"x", b"x", 409, id="a wrong name"), pytest.param({"words": "nosuch"}, b"x", b"y", 409, id="an unknown word"),
    pytest.param({"words": "a|b"}, b"x", b"y", 409, id="a wrong word"), pytest.param({}, b"x" * 65_537, b"y", 409, id="too many bytes"),
    pytest.param({}, b"x" * 200_000, b"y", 413, id="far too many bytes"),
    pytest.param({"words": " ".join(f"year:{k}" for k in range(17))}, b"x", b"y", 409, id="too many words"),
    pytest.param({"name": "n" * 60, "words": " ".join(f"year:{k:055}" for k in range(16))}, b"x", b"y", 409, id="a long line"),
    pytest.param({"token": "x"}, b"x", b"x", 403, id="a wrong token")))
def test_refused_upload(refusing, given, content, filename, status):
    answer = refusing.upload({**refusing.token(), **given, "at": "/"}, content, filename)
    assert answer.status == status, answer.data[-300:]


# Following the image.

@contextlib.contextmanager
def open_image(image):
    """An open image, without pages, which is closed at the end of the block."""
    program, dump = opened(image)
    with program:
        yield Image(program, dump, limits_of(image))


CHANGED_WORDS = [b"music", b"live", b"year:1999", b"year:2050", b"jazz", b"deep"] * 3 + [
    b"size>=9", b"size>=9", b"size<4", b"ext:c", b"year:", b"new:", b"a b", b"n/o"]
CHANGED_NAMES = [b"song%d" % k for k in range(6)] + [b"x%d.c" % k for k in range(4)] + [b"part1.c", b"nosuch", b"<b>"]


def random_change(image, chance):
    """One change, which may be refused. Returns whether it was made."""
    name, other, word, right = (chance.choice(choices) for choices in (CHANGED_NAMES, CHANGED_NAMES, CHANGED_WORDS, CHANGED_WORDS))
    place = Place(chance.choice((b"/", b"music", b"music/live", b"year:1999", b"!music", b"jazz")))
    content = chance.choice((b"", b"text", b"#include <a.h>\nint f(void) { }\n" * 9))
    call, *given = chance.choice((
        (image.give, name, word), (image.give, name, word), (image.take, name, word), (image.rename, name, other), (image.remove, name),
        (image.add, name, content, [word][:chance.randrange(2)]), (image.add, name, content, list({word, right})), (image.declare, word, place),
        (image.take_back, word), (image.axiom, word, right), (image.axiom, word, right), (image.unaxiom, word, right)))
    with contextlib.suppress(Refused, NotSent, ValueError):
        if call != image.declare or place.words is not None:
            call(*given)
            return True
    return False


def words_by_program(image):
    files = list(image.index.files)
    return {name: frozenset(text for _, text in reply) for name, reply in zip(files, image.told(*((b"props", name) for name in files)))}


def test_random_changes(web_folder):
    """Some changes are refused. After each, the index has the words that the program shows for each file, and at the end the given and declared words
    and the axioms are those of the image."""
    make("image", MIXED)
    chance, done = random.Random(5), 0
    with open_image("image") as image:
        for turn in range(400):
            done += random_change(image, chance)
            held, told = {name: file.words for name, file in image.index.files.items()}, words_by_program(image)
            assert held == told, (turn, [(name, held[name], of) for name, of in told.items() if held[name] != of][:3])
            assert image.counts()["files"] == len(held), turn
            for place in (b"/", b"music|jazz", b"!live") if turn % 20 == 0 else ():
                # A word may be unknown by now.
                with contextlib.suppress(Refused):
                    image.look(place)
        assert done > 80
        given = {name: (file.size, file.given) for name, file in image.index.files.items()}
        kept = image.declared, image.axioms
    with open_image("image") as image:
        assert {name: (file.size, file.given) for name, file in image.index.files.items()} == given
        assert (image.declared, image.axioms) == kept


def test_a_wrong_index_is_made_anew(web_folder):
    with open_image(make("image", MIXED)) as image:
        view = image.look(b"/size:small")
        for file in list(image.index.files.values())[:30]:
            image.index.describe(file, frozenset())
        again = image.look(b"/size:small")
        assert (again.words, again.here) == (view.words, view.here)


def test_a_listing_of_another_program(web_folder):
    """If the program disagrees with the index that was just made, the page says so."""
    with open_image(make("image", MIXED)) as image:
        real, image.told = image.told, lambda *commands: real(*commands) if commands[0][0] != b"cd" else (
            [], real((b"pwd",))[0], [(b"d", b"music"), (b"d", b"nosuch")], [])
        with pytest.raises(Differs):
            image.look(b"/")
        image.told = real
        image.look(b"/")


# An error in a page, or below it, affects one page, and does not end the tool.

@pytest.fixture
def mistaken(web_folder):
    """An open image, its pages without a server, and a request for the first page."""
    with contextlib.suppress(Ended), open_image(make("image", MIXED)) as image:
        pages = site.Site(image, "image", True, 1)
        head = f"GET {pages.top} HTTP/1.1\r\nHost: 127.0.0.1:1\r\nCookie: lisfs={pages.cookie}\r\n\r\n".encode()
        request, length = pages.admitted(head)
        assert length == 0
        yield image, pages, request


def raising(error):
    def call(*_):
        raise error
    return call


@pytest.mark.parametrize("error, text", (
    (Differs(b"/"), "do not agree"), (KeyError("x"), "have a mistake"), (RecursionError(), "have a mistake")), ids=repr)
def test_a_mistake(mistaken, monkeypatch, error, text):
    image, pages, request = mistaken
    with monkeypatch.context() as patched:
        patched.setattr(image, "look", raising(error))
        answer = pages.answer(request, b"")
    assert answer.status == 500 and text in answer.body.decode()
    assert pages.answer(request, b"").status == 200


def running_children():
    return {child for child in children(os.getpid()) if is_running(child)}


def test_a_program_that_replies_nonsense(mistaken, monkeypatch):
    """The program is ended."""
    image, pages, request = mistaken
    before = running_children()
    monkeypatch.setattr(image, "told", raising(NotAReply("x")))
    answer = pages.answer(request, b"")
    assert answer.status == 503 and "The program has ended" in answer.body.decode()
    assert len(before - running_children()) == 1


# The ends of the tool, and of the program.

@pytest.fixture
def one_file(web_folder):
    return make("image", b"create f\n")


@pytest.mark.parametrize("number", (signal.SIGINT, signal.SIGTERM, signal.SIGHUP))
def test_ended_by_a_signal(one_file, number):
    browsed = Browsed(one_file)
    program = browsed.program()
    assert browsed.end(number) == (0, "")
    assert until(lambda: not is_running(program))


def test_killed(one_file):
    browsed = Browsed(one_file)
    program = browsed.program()
    assert browsed.end(signal.SIGKILL)[0] == -9
    assert until(lambda: not is_running(program))


def test_a_program_that_was_killed(one_file):
    """One clear page reports it."""
    with Browsed(one_file, "--write") as browsed:
        visitor = Visitor(browsed)
        token = visitor.token()
        os.kill(browsed.program(), signal.SIGKILL)
        for answer in (visitor.get(), visitor.get("file", name="f"), visitor.post("remove", {**token, "name": "f"})):
            seen = Seen(answer.data.decode())
            assert (answer.status, seen.wrong) == (503, []) and "The program has ended" in seen.text
        assert visitor.get("style.css").status == 200
        assert browsed.end() == (1, "browse: the program has ended: the program ended with -9\n")
    assert b"add f 0" in shown_by([PROGRAM, "dump", one_file])


def test_in_use(one_file):
    with Browsed(one_file) as browsed:
        assert Browsed(one_file, wait=False).ended() == (1, "browse: image: in use by another lisfs\n")
        assert Browsed(one_file, "--port", str(browsed.port), wait=False).ended() == (
            1, f"browse: port {browsed.port}: Address already in use\n")


@pytest.mark.parametrize("words, status, said", (
    pytest.param(["nosuch"], 1, "browse: lisfs: disk fault: nosuch: No such file or directory\n", id="no such image"),
    pytest.param(["file"], 1, "browse: lisfs: not an image: file: super block\n", id="no image"), pytest.param([], 2, None, id="no words"),
    pytest.param(["image", "--port", "x"], 2, None, id="no port"), pytest.param(["image", "--port", "70000"], 2, None, id="no such port")))
def test_no_start(one_file, words, status, said):
    with open("file", "wb") as file:
        file.write(b"no image" * 1_000)
    told = Browsed(*words, wait=False).ended()
    assert told[0] == status and said in (None, told[1])


def test_no_patience(one_file):
    told = subprocess.run([sys.executable, visitors.BROWSE, one_file], capture_output=True, text=True, check=False, stdin=subprocess.DEVNULL,
                          env={**os.environ, "LISFS_PATIENCE": "x"})
    assert (told.returncode, told.stderr) == (1, "browse: LISFS_PATIENCE: no number of seconds: x\n")


def test_no_program(one_file):
    assert Browsed(one_file, program="nosuch", wait=False).ended() == (
        1, "browse: build the program first: ./lisfs try 64 64 8 </dev/null\n")


def test_no_package(one_file):
    """A missing package is named as Debian's package."""
    # Without `site` Python finds only its own modules.
    told = subprocess.run([sys.executable, "-S", visitors.BROWSE, one_file], capture_output=True, text=True, check=False, stdin=subprocess.DEVNULL,
                          timeout=LONG)
    assert (told.returncode, told.stderr) == (1, "browse: jinja2 is missing: apt-get install python3-jinja2\n")
