"""`tools/browse`: many files at once, the last change undone, and refusals that name their words."""
import pytest

from lisfs.client import PROGRAM, Program, shown_by
from lisfs.constants import MAX_DERIVED
from support import images
from support.visitors import Browsed, Seen
from support.web import Visitor, adding, make

SMALL = ("256", "256", "40")
LINES = (b"mkdir music\nmkdir live\nmkdir year:\nmkdir rock\naxiom rock music\n" + b"".join(b"create f%03d\n" % k for k in range(120))
         + b"create song music year:1999\n")


@pytest.fixture
def browsed(web_folder):
    """Pages of an image with many files, which may change it."""
    with Browsed(make("image", LINES, SMALL), "--write") as running:
        yield running


@pytest.fixture
def visitor(browsed):
    return Visitor(browsed)


def dump():
    return shown_by([PROGRAM, "dump", "image"])


def given_to(visitor, *names):
    """The words that files were given, as their pages say."""
    return [sorted(form["word"] for action, form in visitor.page("file", name=name).forms if action == "take") for name in names]


# Chosen files.

def test_boxes(visitor):
    """Each page that lists files has a box for each, and one form for the chosen files."""
    for page, count, first in (("", 100, "f000"), ("files", 100, "f000"), ("rest", 100, "f000")):
        seen = visitor.page(page, at="/")
        assert len(seen.boxes) == count and seen.boxes[0] == ("chosen", first, "several"), page
        assert "tag" in [action for action, _ in seen.forms] and seen.actions == ["untag"], page
    assert [value for _, value, _ in visitor.page("files", at="/", page=2).boxes] == [f"f{k:03}" for k in range(100, 120)] + ["song"]
    assert visitor.page("", at="/music/!year:").boxes == []


def test_without_write(web_folder):
    with Browsed(make("image", LINES, SMALL)) as running:
        seen = Visitor(running).page("files", at="/")
        assert (seen.boxes, seen.actions, [action for action, _ in seen.forms if action in ("tag", "undo")]) == ([], [], [])


def test_many_at_once(browsed, visitor):
    """All files of a page, including those that already have the word."""
    token, names = visitor.token(), [f"f{k:03}" for k in range(99)]
    visitor.does("tag", {**token, "at": "/", "word": "live", "chosen": [*names, "song"]}, True, "The word was given to 100 files.")
    assert visitor.page().counts()[b"live"] == 100
    visitor.does("tag", {**token, "at": "/", "word": "live", "chosen": ["f000", "f100"]}, True, "The word was given to 1 file.")
    visitor.does("tag", {**token, "at": "/live", "word": "live", "chosen": ["f000", "f100"]}, True, "No file was changed.")
    visitor.does("untag", {**token, "at": "/live", "word": "live", "chosen": names[1:] + ["f110"]}, True, "The word was taken from 98 files.")
    assert visitor.page().counts()[b"live"] == 3 and given_to(visitor, "f000", "f001", "song") == [["live"], [], ["live", "music", "year:1999"]]
    visitor.does("tag", {**token, "at": "/", "word": "year:2003", "chosen": "song"}, True, "The word was given to 1 file.")
    assert browsed.end()[0] == 0
    assert dump().count(b"0 live") == 3 and b"add song 0 live music year:1999 year:2003\n" in dump()


@pytest.mark.parametrize("page, given, said", (
    ("tag", {"word": "live"}, "No file is chosen"), ("tag", {"word": "nosuch", "chosen": ["f000", "f001"]}, "nosuch: not declared. Declare nosuch first."),
    ("tag", {"word": "a:1", "chosen": "f000"}, "a:1: not declared. Declare a: first."), ("tag", {"word": "year:", "chosen": "f000"}, "f000"),
    ("tag", {"word": "<b>", "chosen": "f000"}, "<b>: no word or name."), ("tag", {"word": "", "chosen": "f000"}, "A name has"),
    ("untag", {"word": "a/b", "chosen": "f000"}, "a/b: no word or name."), ("tag", {"word": "live", "chosen": ["f000", "nosuch"]}, "no file of this name")))
def test_refused(visitor, page, given, said):
    """Nothing is changed, and the page names the word."""
    before = dump_of(visitor)
    answer = visitor.post(page, {**visitor.token(), "at": "/", **given})
    seen = Seen(answer.data.decode())
    assert (answer.status in (404, 409), seen.wrong) == (True, []) and said in seen.text, seen.text[-400:]
    assert dump_of(visitor) == before


def dump_of(visitor):
    """What the pages show of the root."""
    return visitor.page("files", at="/").text, visitor.page("declared").text, visitor.page().counts()


def test_some_are_refused(visitor):
    """The others are changed, and the page says so."""
    token = visitor.token()
    for k in range(16):
        visitor.does("give", {**token, "name": "f000", "word": f"year:{k}"}, True)
    answer = visitor.post("tag", {**token, "at": "/", "word": "live", "chosen": ["f000", "f001", "f002"]})
    seen = Seen(answer.data.decode())
    assert (answer.status, seen.wrong) == (409, [])
    assert "2 files changed. Refused: 1 file." in seen.text and "f000 A file has at most 16 words" in " ".join(seen.text.split())
    assert visitor.page().counts()[b"live"] == 2
    visitor.does("undo", {**token, "at": "/"}, True, "The last change is undone.")
    assert b"live" not in visitor.page().counts()


# The last change.

BYTES = bytes(range(256)) * 20
# Each change, and the words that the button shows.
CHANGES = (
    ("give", {"name": "f000", "word": "live"}, "live given to f000"), ("take", {"name": "song", "word": "music"}, "music taken from song"),
    ("rename", {"name": "song", "other": "tune.c"}, "song renamed to tune.c"), ("remove", {"name": "song"}, "song removed"),
    ("declare", {"word": "jazz", "at": "/music"}, "jazz declared"), ("declare", {"word": "size>=1", "at": "/"}, "size>=1 declared"),
    ("undeclare", {"word": "live"}, "live declared no more"), ("axiom", {"left": "live", "right": "music"}, "live brings music"),
    ("unaxiom", {"left": "rock", "right": "music"}, "rock brings music no more"),
    ("tag", {"word": "live", "chosen": ["f000", "f001", "song"], "at": "/"}, "live given to 3 files"),
    ("untag", {"word": "music", "chosen": ["f000", "song"], "at": "/"}, "music taken from song"))


@pytest.mark.parametrize("page, given, told", CHANGES, ids=[told for *_, told in CHANGES])
def test_undo(browsed, visitor, page, given, told):
    """The image is as before, and there is nothing more to undo."""
    with pytest.raises(StopIteration):
        visitor.page().form("undo")
    token = visitor.token()
    seen = visitor.does(page, {**token, **given}, True)
    assert f"Undo: {told}" in seen.text and seen.form("undo")["token"] == token["token"]
    seen = visitor.does("undo", {**token, "at": "/"}, True, "The last change is undone.")
    assert "Undo:" not in seen.text
    assert visitor.post("undo", {**token, "at": "/"}).status == 409
    counts = visitor.page().counts()
    assert browsed.end()[0] == 0
    after = dump()
    with Program([PROGRAM, "make", "twin", *SMALL]):
        pass
    shown_by([PROGRAM, "run", "twin"], LINES)
    assert after == shown_by([PROGRAM, "dump", "twin"])
    assert counts[b"music"] == 1


def test_undo_of_an_upload(visitor):
    token = visitor.token()
    assert visitor.upload({**token, "at": "/", "words": "live"}, BYTES, b"new").status == 303
    visitor.does("undo", {**token, "at": "/"}, True, "The last change is undone.")
    assert visitor.get("file", name="new").status == 404


def test_undo_of_a_removal_with_many_words(browsed, visitor):
    """The bytes and all words are restored."""
    token = visitor.token()
    words = [f"year:{k:055}" for k in range(15)]
    assert visitor.upload({**token, "at": "/", "words": "live"}, BYTES, b"n" * 60).status == 303
    for word in words:
        visitor.does("give", {**token, "name": "n" * 60, "word": word}, True)
    visitor.does("remove", {**token, "name": "n" * 60, "at": "/"}, True)
    visitor.does("undo", {**token, "at": "/"}, True)
    assert given_to(visitor, "n" * 60) == [["live", *words]] and visitor.get("bytes", name="n" * 60).data == BYTES
    browsed.end()
    assert images.bytes_of("n" * 60) == BYTES


def test_only_the_last_change_is_undone(visitor):
    token = visitor.token()
    visitor.does("give", {**token, "name": "f000", "word": "live"}, True)
    visitor.does("give", {**token, "name": "f001", "word": "live"}, True)
    visitor.does("give", {**token, "name": "f001", "word": "live"}, True, "had this word already")
    visitor.does("undo", {**token, "at": "/"}, True)
    assert given_to(visitor, "f000", "f001") == [["live"], []]


# Refusals that name their words.

@pytest.mark.parametrize("page, given, said", (
    ("give", {"name": "song", "word": "jazz"}, "jazz: not declared. Declare jazz first."),
    ("give", {"name": "song", "word": "who:x"}, "who:x: not declared. Declare who: first."),
    ("give", {"name": "song", "word": "a/b"}, "a/b: no word or name."),
    ("rename", {"name": "song", "other": "<b>"}, "<b>: no word or name."),
    ("axiom", {"left": "live", "right": "jazz"}, "jazz: not known here."), ("axiom", {"left": "jazz", "right": "live"}, "jazz: not known here."),
    ("axiom", {"left": "a:b:c", "right": "live"}, "a:b:c: no word or name."), ("declare", {"word": "a|b", "at": "/"}, "a|b: no word or name."),
    ("undeclare", {"word": "a b"}, "said in one line")))
def test_named(visitor, page, given, said):
    answer = visitor.post(page, {**visitor.token(), **given})
    assert answer.status == 409 and said in Seen(answer.data.decode()).text, Seen(answer.data.decode()).text


def test_named_at_an_upload(visitor):
    answer = visitor.upload({**visitor.token(), "at": "/", "name": "new", "words": "live jazz who:x size>=x"}, b"", b"")
    assert answer.status == 409 and "size>=x: no word or name." in Seen(answer.data.decode()).text
    answer = visitor.upload({**visitor.token(), "at": "/", "name": "new", "words": "live jazz who:x year:1"}, b"", b"")
    assert answer.status == 409 and "jazz, who:x: not declared. Declare jazz, who: first." in Seen(answer.data.decode()).text


@pytest.mark.parametrize("at, said", (
    ("/music/jazz", "jazz: not known here. No file has it, and nobody has declared it."),
    ("jazz|(who:x/!live)", "jazz, who:x: not known here. No file has them"),
    ("from:a@b", "from:a@b: not known here."), ("music//", "This is no formula.")))
def test_named_in_a_place(visitor, at, said):
    assert said in visitor.page("", at=at, status=404).text


# Words that were cut.

@pytest.fixture
def cut(web_folder):
    """Pages of an image with a mail whose words are cut, and one that has room."""
    subject = b" ".join(b"s%d" % k for k in range(200))
    lines = b"mkdir mail\n" + adding(b"long.eml", b"Subject: " + subject + b"\n\nx", b"mail") + adding(b"short.eml", b"Subject: s1\n\nx", b"mail")
    with Browsed(make("image", lines, SMALL), "--write") as running:
        yield Visitor(running)


def test_words_that_are_cut(cut):
    """The page of the file says how many, and each page of a listing says once that a search can miss it."""
    assert f"{MAX_DERIVED} of at least 202 words" in cut.page("file", name="long.eml").text
    assert "of at least" not in cut.page("file", name="short.eml").text
    miss = "can miss such a file"
    for page in ("", "files", "words"):
        assert cut.page(page, at="/subject:s1").text.count(miss) == 1, page
        assert cut.page(page, at="/mail").text.count(miss) == 0, page
    assert cut.page("", at="/subject:s199", status=404).text.count(miss) == 1
