"""`tools/shell`: words of several files, `undo`, and what `mv` asks."""
import random
import shutil

import pytest

from lisfs.constants import MAX_ASSIGNED
from lisfs.dumps import dumped
from lisfs.shell.commands import LONGEST
from lisfs.shell.undoing import UNDOABLE, place_after, tags_of
from support.images import bytes_of, dump, make, written
from support.shell_tables import TAKEN, library
from support.shells import shell, within
from support.waiting import children, rest
from test_shell import random_lines

USAGE = "usage: {0} FILE.. WORD.., or {0} WORD in FORMULA"
UNKNOWN = "shell: {0}: this word is not known; `mkdir {0}` declares it\n"
KEPT = "another word entails it, or the file has it on its own"


def given(image="image"):
    """The words that each file was given."""
    return {name.decode(): " ".join(sorted(map(bytes.decode, stored.words))) for name, stored in dumped(image).files.items()}


# With the files gig, album, single and notes: a script, the output on both streams, and the given words of the changed files.
TAGS = (
    ("one file and one word", b"tag notes live\n", b"1 of 1 file changed\n", "", {"notes": "live"}),
    ("some of each, in any order", b"tag notes live gig year:1999 album\n", b"3 of 3 files changed\n", "",
     {"notes": "live year:1999", "gig": "live music year:1999 year:2003", "album": "live music year:1999 year:2003"}),
    ("files that have it", b"tag gig single live\ntag gig live\n", b"1 of 2 files changed\n0 of 1 file changed\n", "", {"single": "live music year:1999"}),
    ("all files of a place", b"tag live in music\ncd notes|music\ncd !music\ntag music in /live\ntag music in ..\n",
     b"2 of 3 files changed\n0 of 3 files changed\n1 of 4 files changed\n", "shell: notes: this is the name of a file, and no word\n",
     {"album": "live music year:2003", "single": "live music year:1999", "notes": "music"}),
    ("words back", b"untag gig album music year:2003\nuntag music in /\n", b"2 of 2 files changed\n1 of 4 files changed\n", "",
     {"gig": "live", "album": "", "single": "year:1999"}),
    ("a word that nobody gave", b"mkdir sound\naxiom music sound\nuntag gig sound\nuntag notes sound\nuntag gig size:empty\n",
     f"0 of 1 file changed\nsound: 1 file kept it: {KEPT}\n0 of 1 file changed\n0 of 1 file changed\nsize:empty: 1 file kept it: {KEPT}\n".encode(), "", {}),
    ("an entailed word is given all the same", b"mkdir sound\naxiom music sound\ntag gig sound\n", b"1 of 1 file changed\n", "",
     {"gig": "live music sound year:2003"}),
    ("words that are none", b"tag gig nosuch\ntag gig live nosuch\nuntag gig nosuch\ntag gig ext:c\ntag gig year:\ntag gig a|b\ntag gig size>=2\n", b"",
     UNKNOWN.format("nosuch") * 3 + "shell: ext:c: files have such words on their own, and nobody gives or declares them\n"
     "shell: year:: a file is given a value of this head, as `year:x`\n"
     "shell: a|b: no word: `music`, `year:`, `year:2003` or a test, as `size>=1000`; a part has 1 to 60 letters, digits and _ - . + @\n"
     "shell: size>=2: a file has this by its size, and is not given it\n", {}),
    ("no file, or no word", b"tag\nuntag gig\ntag live music\ntag gig album\ncd live\ntag album music\n", b"",
     f"shell: tag: {USAGE.format('tag')}\nshell: gig: no word is among these, since each is the name of a file here: {USAGE.format('untag')}\n"
     f"shell: live, music: no file of this place is among these: {USAGE.format('tag')}\n"
     f"shell: gig, album: no word is among these, since each is the name of a file here: {USAGE.format('tag')}\n"
     f"shell: album, music: no file of this place is among these: {USAGE.format('tag')}\n", {}),
    ("a place that is none", b"tag live in nosuch\nuntag live in a//b\ntag live in\n", b"", UNKNOWN.format("nosuch")
     + "shell: a//b: no formula: words with `/` (and), `|` (or), `!` (not) and parentheses, without blanks\n"
     f"shell: live, in: no file of this place is among these: {USAGE.format('tag')}\n", {}),
    ("a file that has the name of a word", b"create music\ntag music gig live\nls music\n", b"1 of 2 files changed\nd live\nd year:1999\nd year:2003\n", "",
     {"music": "live"}),
    ("at a place without words", b"cd !live\ntag notes music\npwd\n", b"1 of 1 file changed\nw !live\n", "", {"notes": "music"}),
    ("at a place that is gone then", b"cd year:1999\nuntag single year:1999\npwd\n", b"1 of 1 file changed\nw /\n",
     "shell: year:1999: a word of this place is not known any more, so the place is / now\n", {"single": "music"}),
    ("at a place that was gone before", b"mkdir jazz\ncd live|year:1999\nmv single /\n", b"",
     "shell: single: not from (live|year:1999) to /: one of them has `|`, `!` or a test in it, and so no words of its own\n", {}),
)


@pytest.mark.parametrize("number", range(len(TAGS)), ids=[name for name, *_ in TAGS])
def test_tags(program, number):
    name, script, shown, told, changed = TAGS[number]
    make(script=TAKEN)
    before = given()
    with within() as answer:
        got = answer(script)
    assert got == (1 if told and "not known any more" not in told else 0, shown, told), name
    assert given() == before | changed, "the words that were given"


def test_a_place_that_nothing_leads_back_to(program):
    """It has a word that nothing has any more, so after a change the place is the root; unless the change is undone that took it."""
    make(script=TAKEN + b"mkdir jazz\n")
    gone = "shell: (live|year:1999): a word of this place is not known any more, so the place is / now\n"
    steps = b"cd live|year:1999\nrm single\n"
    assert shell(steps + b"undo\npwd\nrm single\ntag gig jazz\npwd\n") == (
        0, b"undone: rm single\nw (live|year:1999)\n1 of 1 file changed\nw /\n", gone)
    assert given() == {"gig": "jazz live music year:2003", "album": "music year:2003", "notes": ""}


def test_a_place_too_long(program):
    """No line leads back to it, so it is not left."""
    words = [b"%02d" % number * 30 for number in range(MAX_ASSIGNED)]
    make(limits=("64", "128", "8"), script=b"".join(b"mkdir %b\n" % word for word in [*words, b"n" * 44]) + b"create x %b\n" % b" ".join(words))
    with within() as answer:
        assert answer(b"".join(b"cd %b\n" % word for word in [*words, b"!" + b"n" * 44]))[0] == 0 and len(answer.session.place) == 1_021
        before = answer.session.place
        assert answer(b"tag x %b\n" % (b"n" * 44)) == (1, b"", "shell: tag: there is no way back to this place, which is too long for a line: `cd` elsewhere first\n")
        assert answer(b"undo\npwd\n")[1] == b"w %b\n" % before, "the place stays"


def test_many_words(program):
    """Words that do not fit one line, and more words than a file may have."""
    words = [b"w%02d" % number + b"x" * 57 for number in range(17)]
    make(limits=("64", "128", "64"), script=b"".join(b"mkdir %b\n" % word for word in words) + b"create a.b\ncreate c\ncreate d\nmkdir y\nmv d y\n")
    with within() as answer:
        for word in words[:15]:
            assert answer(b"tag a.b %b\n" % word)[:2] == (0, b"1 of 1 file changed\n")
        assert answer(b"tag d %b\n" % b" ".join(words[:8]))[0] == 0
        assert answer(b"tag d %b\n" % b" ".join(words[8:15]))[0] == 0, "16 words"
        assert answer(b"tag c d a.b %b\n" % words[16]) == (
            1, b"2 of 3 files changed\n", "shell: d: a file is given at most 16 words, those of the place counted\n"), "one file has no room"
        assert answer(b"undo\nundo\nrm a.b\nundo\nrm d\nundo\n")[0] == 0, "undone, also of a file with many words"
    assert given() == {"a.b": " ".join(map(bytes.decode, words[:15])), "c": "", "d": " ".join(map(bytes.decode, words[:8])) + " y"}


def test_a_line_of_many_files(program):
    """It may be longer than a line of the program: the shell makes several commands of it."""
    names = [b"%03d-" % number + b"n" * 50 for number in range(200)]
    make(limits=("256", "64", "8"), script=b"mkdir mine\nmkdir year:\n" + b"".join(b"create %b\n" % name for name in names))
    before, line = dump(), b" ".join(names[:150])
    assert len(line) > 8 * 1_024
    with within() as answer:
        assert answer(b"tag %b mine year:7\n" % line) == (0, b"150 of 150 files changed\n", "")
        assert answer(b"find mine/year:7\n")[1] == b"".join(name + b"\n" for name in names[:150])
        assert answer(b"untag mine %b\nundo\nuntag mine %b\nuntag year:7 %b\n" % (line, line, line)) == (
            0, b"150 of 150 files changed\nundone: untag mine %b\n" % line + b"150 of 150 files changed\n" * 2, "")
        assert answer(b"tag %b %b\nfrob %b\nfind mine\n" % (line, b"x" * LONGEST, line)) == (
            1, b"", f"shell: tag: the line has more than {LONGEST:,} bytes\nshell: frob: the line has more than 1,024 bytes\n")
    assert dump() == before


# Lines with these files, each of which one `undo` undoes.
CHANGES = (b"mkdir jazz", b"mkdir size>=3", b"cd music\nmkdir jazz", b"rmdir spare", b"axiom live music", b"unaxiom rock music", b"create x live",
           b"add x 3 live\nabc", b"write text 2\nhi", b"write text 0\n", b"rename text other.c", b"mv gig spare", b"cd music/year:2003\nmv gig rock",
           b"cd music/year:2003\nmv gig ..", b"cd /live\nmv gig /rock/year:1", b"rm text", b"rm gig", b"cd music\nrm gig", b"put file text2 live",
           b"put -w file text", b"tag gig album rock year:7", b"untag music in /", b"tag live in !live", b"cd year:1999\nrm single",
           b"cd year:1999\nuntag single year:1999", b"unaxiom size<9 rock")


@pytest.mark.parametrize("line", CHANGES, ids=[line.split(b"\n")[-1][:20].decode() or line[:12].decode() for line in CHANGES])
def test_undo(program, line):
    """It restores what was there before, words and bytes."""
    make(script=TAKEN + b"mkdir rock\nmkdir spare\naxiom rock music\nmkdir size<9\naxiom size<9 rock\nadd text 4 live year:3\nold\n\n")
    written("file", b"new\n")
    before = dump()
    with within() as answer:
        assert answer(line + b"\n")[0] == 0 and len(answer.session.kept) == 1, "a change"
        undone = answer(b"undo\n")
        assert undone[0] == 0 and undone[1].startswith(b"undone: "), undone
        assert answer(b"undo\n") == (1, b"", "shell: undo: there is nothing to undo: no change of this shell is kept any more, or none was made\n")
        assert answer(b"undo x\n") == (1, b"", "shell: x: one word too many: usage: undo\n")
    assert dump() == before


def test_what_undo_shows(program):
    """The lines as they were typed."""
    make(script=TAKEN)
    written("file", b"new\n")
    assert shell(b"put 'file' text live\ntag live in !live\nundo\ncd live\nmkdir  x\nundo\nundo\nfind\n") == (
        0, b"text: 4 bytes\n3 of 3 files changed\nundone: tag live in !live\nundone: mkdir  x\nundone: put 'file' text live\ngig\n", "")


def test_more_changes_than_are_kept(program):
    make(script=TAKEN)
    with within() as answer:
        assert answer(b"".join(b"create n%02d\n" % number for number in range(UNDOABLE + 5)))[0] == 0
        status, shown, told = answer(b"undo\n" * (UNDOABLE + 1))
        assert (status, shown) == (1, b"".join(b"undone: create n%02d\n" % number for number in reversed(range(5, UNDOABLE + 5)))), "as many as are kept"
        assert told == "shell: undo: there is nothing to undo: no change of this shell is kept any more, or none was made\n"
        assert answer(b"find /!music\n")[1] == b"n00\nn01\nn02\nn03\nn04\nnotes\n"


def test_what_is_refused_is_kept(program):
    """Nothing should prevent an undo; if something does, it says why, and the change is still kept."""
    make(limits=("64", "64", "3", "v2"))
    written("large", b"x" * 8_000)
    with within() as answer:
        assert answer(b"put large a\nwrite a 1\ny\nadd b 5000\n%b\n" % (b"z" * 5_000))[0] == 0
        # As if this were not a change of the shell: it takes the room.
        answer.session.kept.pop()
        assert answer(b"undo\n" * 2) == (1, b"", "shell: undo: write a 1: can't be undone now (no space); it is kept, and `undo` tries it again\n" * 2)
        assert answer(b"rm b\ncat a\n")[:2] == (0, b"y")
        answer.session.kept.pop()
        assert answer(b"undo\n") == (0, b"undone: write a 1\n", ""), "and then it is undone"
    assert bytes_of("a") == b"x" * 8_000


def random_steps(rng):
    """Lines that change something, or are refused."""
    steps = []
    for line in random_lines(rng, 400).split(b"\n"):
        if line.split()[:1] not in ([b"add"], [b"write"]):
            steps.append(line + b"\n")
        steps.append(rng.choice((b"", b"", b"tag a u v\n", b"untag u in /\n", b"tag h:1 in %b\n" % rng.choice((b"/", b"u|!v", b"!w")), b"untag a n u h:1\n",
                                 b"add n 3 u\nabc\n", b"write a 2\nhi\n", b"write n 0\n\n", b"add m.eml 13 v\nFrom: a@b\n\nhi\n", b"undo\n")))
    return steps


@pytest.mark.parametrize("seed", range(8))
def test_undo_of_any_lines(program, seed):
    """The shell's words of each file are those of the dump, and after as many `undo` as there were changes the image is as it was."""
    rng = random.Random(seed)
    make(limits=("64", "128", "64"), script=random_lines(rng, 60))
    before, steps = dump(), random_steps(rng)
    shutil.copy("image", "copy")
    with within() as answer:
        for step in steps:
            answer(step)
        known = {file.name: (file.size, file.given) for file in answer.session.index.files.values()}
    assert known == {name: (stored.size, stored.words) for name, stored in dumped("image").files.items()}, "what the shell knows"
    shutil.copy("copy", "image")
    with within() as answer:
        while steps and len(answer.session.kept) < UNDOABLE:
            answer(steps.pop(0))
        count = len(answer.session.kept)
        assert count > 10 and answer(b"undo\n" * count)[0] == 0 and not answer.session.kept, "all is undone"
        row, place = answer.session.names_here(), answer.session.place
        assert answer(b"find\n")[1] == b"".join(name + b"\n" for name in row), f"the files at {place}"
    assert dump() == before


@pytest.mark.parametrize("place, formula, wanted", (
    (b"/", b"a/b", b"a/b"), (b"a", b"b", b"a/b"), (b"a", b"/b", b"b"), (b"a/b", b"..", b"a"), (b"a", b"..", b"/"), (b"/", b"..", b"/"), (b"a", b"/", b"/"),
    (b"a/(b/c)", b"..", b"a"), (b"((a/b)/c)", b"..", b"/")))
def test_places(place, formula, wanted):
    assert place_after(place, formula) == wanted


@pytest.mark.parametrize("place, wanted", (
    (b"/", set()), (b"a/year:1", {b"a", b"year:1"}), (b"a/(b/c)", {b"a", b"b", b"c"}), (b"year:/a", {b"a"}), (b"ext:c/size:small/a", {b"a"}),
    (b"!a", None), (b"(a|b)/c", None), (b"a/size>=7", None), (b"size<7", None)))
def test_words_of_places(place, wanted):
    assert tags_of(place) == wanted


def test_most_words(program):
    """A file that was given as many words as possible is shown as such, and a search by another word says that it can miss it."""
    words = [b"w%02d" % number for number in range(MAX_ASSIGNED + 1)]
    make(script=b"".join(b"mkdir %b\n" % word for word in words) + b"create full %b\ncreate other w00\n" % b" ".join(words[:MAX_ASSIGNED]))
    assert shell(b"props other\n")[2] == "", "a file with room"
    assert shell(b"props full\n")[2] == "shell: full: 16 words that it was given, the most: if one was left out, a search for it misses the file\n"
    missed = "shell: 1 file has the most words that a file can have, 16 given ones or 128 in all: if w16 was left out, a search by it misses such a file\n"
    assert shell(b"find w00\nfind w15\ncd w16\nfind w16\n") == (0, b"full\nother\nfull\n", missed), "said once"
    assert shell(b"tag w00 in w16\n")[2] == shell(b"ls w16\n")[2] == shell(b"grep x w16\n")[2] == missed, "by each command that searches"
    assert shell(b"find nosuch\n")[2] == UNKNOWN.format("nosuch"), "an unknown word is only that"


@pytest.mark.limits("64", "256", "64")
def test_most_words_in_all(program):
    make(limits=("64", "256", "64"), script=b"mkdir w\nmkdir z\n" + b"".join(b"mkdir a%d\naxiom w a%d\n" % (k, k) for k in range(125)) + b"create x w\n")
    assert shell(b"props x\n")[2] == "shell: x: 128 words in all, of at most 128: if one was left out, a search for it misses the file\n"


# At a terminal.

def test_questions(at_terminal):
    """What `mv` shows and asks, and the question before many files are changed at once."""
    make(limits=("128", "64", "64"), script=TAKEN + b"mkdir jazz\n" + b"".join(b"create n%02d\n" % number for number in range(21)))
    with at_terminal(NO_COLOR="1") as at:
        at.sees(b"/> ")
        at.types(b"cd music/live\n").sees(b"/music/live> ")
        for answer, wanted in ((b"n\n", b"gig: it was not moved\r\n"), (b"y\n", b"/music/live> ")):
            at.types(b"mv gig /jazz/music\n")
            assert at.sees(b"gig loses live and gains jazz: move it? [y/N] ") is not None, ("mv says what it does", at.shown[-300:])
            rest(at.process)
            assert at.types(answer).sees(wanted) is not None, (answer, at.shown[-300:])
        at.types(b"cd /\nmv gig music\nmv gig nosuch\n")
        assert at.sees(b"nosuch: this word is not known; `mkdir nosuch` declares it\r\n") is not None, ("what is refused is not asked", at.shown[-300:])
        at.types(b"tag live in !music\n")
        assert at.sees(b"give live to 22 files? [y/N] ") is not None, ("many files", at.shown[-300:])
        rest(at.process)
        assert at.types(b"\n").sees(b"nothing was changed\r\n") is not None, ("no", at.shown[-300:])
        at.types(b"tag n00 n01 n02 live\n")
        assert at.sees(b"3 of 3 files changed\r\n") is not None, ("some files are not asked about", at.shown[-300:])
        at.types(b"tag jazz in !music\n").sees(b"give jazz to 22 files? [y/N] ")
        rest(at.process)
        assert at.types(b"yes\n").sees(b"22 of 22 files changed\r\n") is not None, ("yes", at.shown[-300:])
        at.types(b"undo\n").sees(b"undone: tag jazz in !music\r\n")
        at.types(b"undo\nexit\n").sees(b"undone: tag n00 n01 n02 live\r\n")
        assert at.ends() == 0, "the end"
        assert at.shown.count(b"move it?") == 2, "nothing else was asked"
    assert given()["gig"] == "jazz music year:2003" and given()["n00"] == "", "what was done"


def test_no_question_in_vain(at_terminal):
    """A word that no file can be given is refused before any question, and only files that have room for it are counted."""
    words = [b"w%02d" % number for number in range(MAX_ASSIGNED)]
    make(limits=("64", "64", "8"), script=TAKEN + b"".join(b"mkdir %b\n" % word for word in words) + b"create full %b\n" % b" ".join(words)
         + b"".join(b"create n%02d\n" % number for number in range(25)))
    known = dict(line.split()[1:] for line in shell(b"stat\n")[1].splitlines())[b"known"]
    # After that no further word can become known.
    fill = b"".join(b"tag n%02d year:%d\n" % (number % 25, number) for number in range(64 - int(known)))
    assert shell(fill)[0] == 0
    with at_terminal(NO_COLOR="1") as at:
        at.sees(b"/> ")
        for word, told in ((b"nosuch", b"nosuch: this word is not known; `mkdir nosuch` declares it"),
                           (b"year:", b"year:: a file is given a value of this head, as `year:x`"),
                           (b"ext:c", b"ext:c: files have such words on their own, and nobody gives or declares them"),
                           (b"x" * 61, b"no word: `music`, `year:`, `year:2003` or a test"),
                           (b"a,b", b"a,b: no word: `music`"),
                           (b"size>=7", b"size>=7: a file has this by its size, and is not given it"),
                           (b"year:77", b"year:77: the image has no room for more words (at most 64 known words): take some back; or `tools/enlarge image ")):
            at.types(b"tag %b in !music\n" % word)
            assert at.sees(told) is not None, (word, at.shown[-300:])
            at.sees(b"/> ")
        at.types(b"untag nosuch in /\n")
        assert at.sees(b"nosuch: this word is not known") is not None, at.shown[-300:]
        assert b"[y/N]" not in at.shown, "nobody was asked"
        at.types(b"tag live in !music\n")
        assert at.sees(b"give live to 26 files? [y/N] ") is not None, ("one file has no room", at.shown[-300:])
        rest(at.process)
        assert at.types(b"y\n").sees(b"26 of 27 files changed\r\nfull: a file is given at most 16 words") is not None, at.shown[-300:]
        at.types(b"exit\n")
        assert at.ends() == 0


def test_many_files_are_stopped(at_terminal):
    """Ctrl-C between two files: what was done is kept, and is undone."""
    make(limits=("1024", "64", "64"), script=TAKEN + b"".join(b"create n%03d\n" % number for number in range(900)))
    before = dump()
    with at_terminal(NO_COLOR="1") as at:
        at.sees(b"/> ")
        program = children(at.process)[0]
        at.types(b"tag live in !music\n").sees(b"[y/N] ")
        rest(at.process)
        at.interrupts(b"y\n", program)
        assert at.sees(b" of 901 files changed\r\n") is not None, ("how many", at.shown[-300:])
        at.sees(b"/> ")
        at.types(b"undo\n")
        assert at.sees(b"undone: tag live in !music\r\n") is not None, ("and undone", at.shown[-300:])
        at.types(b"exit\n")
        assert at.ends() == 0
    assert dump() == before


def test_a_library_by_words(program):
    """Many files of all kinds: the files of a place are those of the program, after changes too."""
    make(limits=("128", "512", "256"), script=library(60))
    with within() as answer:
        for line in (b"tag old in w1", b"untag w2 in /", b"axiom w0 old", b"unaxiom w2 w1", b"mkdir size>=9", b"untag w5 in !w1", b"undo", b"undo", b"undo"):
            assert answer(line + b"\n")[0] == 0, line
            for place in (b"/old", b"/w1", b"/w1|w2", b"/!w3/size>=9", b"/year:/!from:"):
                answer(b"cd %b\n" % place)
                here = answer.session.names_here()
                assert here == sorted(name for name in answer.session.names if answer.session.is_here(name)), (line, place)
            answer(b"cd /\n")
            if line == b"mkdir size>=9":
                assert dict(answer.session.counted().words)[b"size>=9"] == answer(b"find size>=9\n")[1].count(b"\n") > 0, "a test that is declared"
