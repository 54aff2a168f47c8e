"""`lisfs.client` gives words to several files, takes them back, and undoes that."""
import pytest

from lisfs.client import NotSent, Program, Refused, Retag, tag, undo, untag
from lisfs.constants import MAX_ASSIGNED
from lisfs.dumps import dumped
from support.images import dump, make, session
from support.shell_tables import TAKEN

GIVEN = {b"gig": {b"live", b"music", b"year:2003"}, b"album": {b"music", b"year:2003"}, b"single": {b"music", b"year:1999"}, b"notes": set()}


def given(image="image"):
    return {name: set(stored.words) for name, stored in dumped(image).files.items()}


def test_tags(program):
    make(script=TAKEN)
    before = dump()
    with session() as running:
        tagged = tag(running, GIVEN, [b"live", b"year:1999", b"live"])
        assert tagged.refused == [] and tagged.done == [
            Retag(b"gig", (b"year:1999",)), Retag(b"album", (b"live", b"year:1999")), Retag(b"single", (b"live",)), Retag(b"notes", (b"live", b"year:1999"))]
        assert running.pwd().body == [(b"w", b"/")], "at the root again"
    after = given()
    assert after == {name: words | {b"live", b"year:1999"} for name, words in GIVEN.items()}, "each file has them"
    with session() as running:
        untagged = untag(running, {name: after[name] for name in (b"notes", b"gig")}, [b"live", b"music", b"nosuch"])
        assert untagged.done == [Retag(b"notes", (), (b"live",)), Retag(b"gig", (), (b"live", b"music"))] and not untagged.refused
        assert running.pwd().body == [(b"w", b"/")], "at the root again"
    assert given()[b"gig"] == {b"year:1999", b"year:2003"} and given()[b"notes"] == {b"year:1999"}, "words were taken back"
    with session() as running:
        for done in (untagged.done, tagged.done):
            assert undo(running, done).done == [change.inverse() for change in reversed(done)]
    assert dump() == before, "all is undone"


def test_what_is_refused(program):
    """Other files are changed nevertheless, until the caller decides otherwise."""
    words = [b"w%02d" % number for number in range(MAX_ASSIGNED)]
    make(script=TAKEN + b"".join(b"mkdir %b\n" % word for word in words) + b"create full %b\n" % b" ".join(words))
    files = {b"full": set(words), b"gone": set(), **GIVEN}
    with session() as running:
        found = tag(running, files, [b"live"])
        assert [(change.name, refused.number) for change, refused in found.refused] == [(b"full", 18), (b"gone", 10)]
        assert [change.name for change in found.done] == [b"album", b"single", b"notes"]
        stopped = untag(running, GIVEN, [b"music"], go_on=lambda found: len(found.done) < 2)
        assert [change.name for change in stopped.done] == [b"gig", b"album"], "it stops where it is told to"
        assert running.pwd().body == [(b"w", b"/")], "at the root"
        missing = untag(running, {b"gig": {b"nosuch"}}, [b"nosuch"])
        assert not missing.done and isinstance(missing.refused[0][1], Refused) and missing.refused[0][1].number == 6, "a word that is not known"


@pytest.mark.parametrize("word", (b"a|b", b"/", b"", b".a", b"a b", b"size>=1"))
def test_nothing_is_sent(program, word):
    make(script=TAKEN)
    before = dump()
    with session() as running, pytest.raises(NotSent):
        tag(running, GIVEN, [b"live", word])
    assert dump() == before


def test_many_long_words(program):
    """More than fit a line."""
    words = [b"w%02d" % number + b"x" * 57 for number in range(MAX_ASSIGNED)]
    make(script=b"".join(b"mkdir %b\n" % word for word in words) + b"create %b\n" % (b"n" * 60))
    before = dump()
    with session() as running:
        found = tag(running, {b"n" * 60: ()}, words)
        assert sum(len(change.gains) for change in found.done) == MAX_ASSIGNED and len(found.done) == 2, "by two lines"
        assert len(untag(running, {b"n" * 60: words}, words).done) == 1, "and back by one"
        assert not undo(running, [Retag(b"n" * 60, (), tuple(words))]).refused
        assert not undo(running, found.done).refused
    assert dump() == before


def test_rooms(image, rooms):
    with Program([rooms, "rooms", image], rooms=True) as program:
        first, second = program.room(0), program.room(1)
        first.mkdir(b"a")
        first.create(b"x")
        second.cd(b"a")
        assert tag(first, {b"x": ()}, [b"a"]).done == [Retag(b"x", (b"a",))]
        assert second.ls().body == [(b"f", b"x")], "another room sees it, at a place of its own"
