"""`tools/shell`: listings by heads, the pager, lines of files, and the word that a refusal is about."""
import os
import re

import pytest

from lisfs.listings import groups_of, kind_of, within
from support.images import make
from support.shell_tables import FORM, NO_WORD, TAKEN
from support.shells import shell
from support.waiting import children, rest

MANY = TAKEN + b"mkdir size>=2\nmkdir tag:\nadd big 3 year:2003\nabc\n" + b"".join(
    b"create n%02d tag:%02d year:1999\n" % (number, number % 25) for number in range(30))
# What readline sends to a terminal before and after a line.
PASTES = re.compile(r"\x1b\[\?2004[hl]\r?")
PAGED = {"PAGER": "sed s/^/paged:/", "NO_COLOR": "1"}


def test_groups():
    words = [(b"year:", 3), (b"music", 2), (b"live", 2), (b"old", 9), (b"size>=2", 1), (b"from:a", 1), (b"to:b", 4), (b"to:a", 4), (b"to:c", 7)]
    assert groups_of(words) == [
        (b"words", [(b"old", 9), (b"live", 2), (b"music", 2)]), (b"heads", [(b"year:", 3)]), (b"tests", [(b"size>=2", 1)]),
        (b"to:", [(b"to:c", 7), (b"to:a", 4), (b"to:b", 4)]), (b"from:", [(b"from:a", 1)])]
    assert groups_of(words, b"LIVE") == [(b"words", [(b"live", 2)])], "those that contain a text"
    assert [kind_of(word) for word, _ in words[:2]] == [b"heads", b"words"]
    assert (within(b"to:", b"to:a"), within(b"words", b"live"), within(b"heads", b"to:")) == (b"a", b"live", b"to:")


# At a terminal: a line, and its output.
SOME_TAGS = ("tag: (25)\n  00 2  02 2  04 2  06 1  08 1  10 1  12 1  14 1  16 1  18 1\n  01 2  03 2  05 1  07 1  09 1  11 1  13 1  15 1  17 1  19 1\n"
             "  and 5 more: `ls -a`\n")
ALL_TAGS = ("tag: (25)\n  00 2  02 2  04 2  06 1  08 1  10 1  12 1  14 1  16 1  18 1  20 1  22 1  24 1\n"
            "  01 2  03 2  05 1  07 1  09 1  11 1  13 1  15 1  17 1  19 1  21 1  23 1\n")
LISTINGS = (
    ("ls", "Words (2)\n  music 3  live 1\nHeads (2)\n  year: 34  tag: 30\nSizes (1)\n  size>=2 1\nsize: (2)\n  empty 34  small 1\n"),
    ("ls music", "Words (1)\n  live 1\nyear: (2)\n  2003 2  1999 1\n"), ("ls music/live", "Files (1)\n  gig\n"),
    ("ls tag:", SOME_TAGS), ("ls -a /tag:", ALL_TAGS), ("ls -c music", "d 1 live\nd 1 year:1999\nd 2 year:2003\n"),
    ("ls nosuch", "nosuch: this word is not known; `mkdir nosuch` declares it\n"), ("pwd", "w /\n"))


def test_listings_at_a_terminal(at_terminal):
    """Words by their heads, the most frequent first."""
    make(limits=("64", "256", "64"), script=MANY)
    with at_terminal(NO_COLOR="1") as at:
        at.sees(b"/> ")
        for line, wanted in LISTINGS:
            at.types(line.encode() + b"\n").sees(line.encode() + b"\r\n")
            shown = (at.sees(b"/> ") or b"").decode()
            assert PASTES.sub("", shown).replace("\r\n", "\n") == wanted + "/> ", line
        at.types(b"quit\n")
        assert at.ends() == 0, "quit ends it"
    with at_terminal() as at:
        at.types(b"ls\n")
        assert at.sees(b"  \x1b[1;34mmusic\x1b[0m 3  \x1b[1;34mlive\x1b[0m 1\r\n") is not None, ("coloured", at.shown)
        at.types(b"quit\n").ends()


def test_a_pager(at_terminal):
    make(limits=("64", "256", "64"), script=MANY)
    with at_terminal(**PAGED) as at:
        at.sees(b"/> ")
        at.types(b"find\n")
        assert at.sees(b"paged:album\r\npaged:big\r\npaged:gig\r\npaged:n00\r\n") is not None, ("a long output", at.shown)
        at.sees(b"/> ")
        at.types(b"find music\n")
        shown = at.sees(b"album\r\ngig\r\nsingle\r\n")
        assert shown and b"paged" not in shown, ("a short one", at.shown[-300:])
        at.types(b"less big\n")
        assert at.sees(b"paged:abc\r\n") is not None, ("a file", at.shown[-300:])
        at.types(b"cat big\nless nosuch\n")
        shown = at.sees(b"abc\r\n")
        assert shown and b"paged" not in shown and at.sees(b"nosuch: there is no file of this name\r\n"), ("and no file", at.shown[-300:])
        at.types(b"exit\n")
        assert at.ends() == 0
    assert shell(b"find\nless big\n", env={**os.environ, **PAGED})[1].startswith(b"album\nbig\ngig\nn00\n"), "not in a script"


@pytest.mark.parametrize("pager, wanted", (("cat", b"album\r\nbig\r\n"), ("", b"album\r\nbig\r\n"), ("nosuch-pager", b"album\r\nbig\r\n"),
                                           ("head -n 1", b"album\r\n")), ids=("cat", "none", "not there", "one that ends early"))
def test_another_pager(at_terminal, pager, wanted):
    make(limits=("64", "256", "64"), script=MANY)
    with at_terminal(PAGER=pager, NO_COLOR="1") as at:
        at.sees(b"/> ")
        assert at.types(b"find\n").sees(wanted) is not None, ("what it shows", at.shown[-300:])
        shown = at.sees(b"/> ")
        assert shown and (b"single\r\n" in shown) == (pager != "head -n 1"), ("all of it, or as much as the pager wants", at.shown[-300:])
        at.types(b"pwd\nexit\n")
        assert at.sees(b"w /\r\n") and at.ends() == 0, "and it goes on"


def test_the_pager_that_is_there(at_terminal, needs):
    """`less` shows what fits at once, and otherwise waits. Ctrl-C is for it alone."""
    needs("less")
    make(limits=("64", "256", "64"), script=MANY)
    with at_terminal() as at:
        at.sees(b"/\x1b[0m> ")
        shown = at.types(b"less big\n").sees(b"/\x1b[0m> ")
        assert shown and b"\rabc" in shown, ("what fits", at.shown[-300:])
        assert at.types(b"find\n").sees(b"\nn24") is not None, ("the first lines", at.shown[-300:])
        for key in (b"\x03", b"q"):
            rest(at.process, *children(at.process))
            at.types(key)
        assert at.sees(b"/\x1b[0m> ") is not None, ("the prompt again", at.shown[-300:])
        assert at.types(b"pwd\nexit\n").sees(b"w /\r\n") is not None, ("and it goes on", at.shown[-300:])
        assert at.ends() == 0


TEXTS = TAKEN + b"".join(b"add %b %d %b\n%b\n" % (name, len(data), words, data) for name, data, words in (
    (b"a.txt", b"Hello\nworld\nhello again", b"live"), (b"b.txt", b"say hello\r\nHELLO", b"music"), (b"bytes", b"hello\0\nhello\n", b"live"),
    (b"odd", b"hello \xff\x1b[2J\n", b"")))
# A line, its output, and its message.
GREPS = (
    ("a text", "grep hello", b"a.txt:3:hello again\nb.txt:1:say hello\r\nbytes: the text is in it, and it has a NUL byte\nodd:1:hello \xff\x1b[2J\n", ""),
    ("any letters", "grep -i HELLO music", b"b.txt:1:say hello\r\nb.txt:2:HELLO\n", ""),
    ("a text with a blank", "grep 'hello again' /live", b"a.txt:3:hello again\n", ""), ("no file has it", "grep nosuch", b"", ""),
    ("a formula", "grep hello live/!size>=20", b"bytes: the text is in it, and it has a NUL byte\n", ""), ("a sign", "grep ..o", b"", ""),
    ("no formula", "grep hello live/", b"", "live/: no formula: words with `/` (and), `|` (or), `!` (not) and parentheses, without blanks"),
    ("a formula of two words", "grep hello 'live music'", b"",
     "live music: a formula has no blanks, and `/` joins its words: `live/music`"),
    ("an unknown word", "grep hello nosuch", b"", "nosuch: this word is not known; `mkdir nosuch` declares it"),
    ("no text", "grep", b"", "grep: usage: grep [-i] TEXT [FORMULA]"), ("an empty text", "grep ''", b"", "grep: usage: grep [-i] TEXT [FORMULA]"),
    ("too many words", "grep a live b", b"",
     "grep: a text with blanks needs quotes; a formula has no blanks, and `/` joins its words: `grep a live/b`"),
    ("a text in quotes, and too many words", "grep 'a b' live !b", b"",
     "grep: a text with blanks needs quotes; a formula has no blanks, and `/` joins its words: `grep 'a b' live/!b`"),
    ("too many words, and no formula", "grep a live/ b/", b"", "b/: one word too many: usage: grep [-i] TEXT [FORMULA]"),
    ("a quote", "grep 'a", b"", "grep 'a: a quote is not closed"))


@pytest.mark.parametrize("number", range(len(GREPS)), ids=[name for name, *_ in GREPS])
def test_grep(program, number):
    _, line, shown, told = GREPS[number]
    make(script=TEXTS)
    assert shell(f"{line}\n".encode()) == (1 if told else 0, shown, f"shell: {told}\n" if told else "")
    assert shell(f"cd year:\n{line}\npwd\n".encode())[1].endswith(b"w year:\n"), "the place stays"


def test_grep_at_a_terminal(at_terminal):
    make(script=TEXTS + b"add long 2005\nhello" + b"x" * 2_000 + b"\n")
    with at_terminal(NO_COLOR="1", PAGER="cat") as at:
        at.sees(b"/> ")
        at.types(b"grep hello\n").sees(b"\r\n")
        shown = at.sees(b"/> ")
        assert b"b.txt:1:say hello\r\n" in shown and b"odd:1:hello \\xff^[[2J\r\n" in shown, ("bytes without harm", shown)
        assert max(map(len, shown.split(b"\r\n"))) == 500 and b"x..\r\n" in shown, ("no line is longer", shown)
        at.types(b"exit\n").ends()


# Lines that are refused as 1 and as 6, and the word with which each sentence begins.
ABOUT = (
    ("frob", "frob: there is no such command"), ("cat", "cat: usage"), ("cat gig album", "album: one word too many"), ("cat .", f".: no name of a file, which has {FORM}"),
    ("rename gig a/b", "a/b: no name"), ("mkdir", "mkdir: usage"), ("mkdir a b", "b: one word too many"), ("mkdir a:b:c", f"a:b:c: {NO_WORD}"),
    ("create x live .y", f".y: {NO_WORD}"), ("add x y", "y: no count of bytes"), ("axiom live a/b", "a/b: no word"), ("mv gig", "mv: usage"),
    ("mv gig live music", "mv: a formula has no blanks, and `/` joins its words: `mv gig live/music`"), ("props gig live", "live: one word too many"),
    ("ls music live", "ls: a formula has no blanks, and `/` joins its words: `ls music/live`"),
    ("tag gig a/b", "a/b: no word"), ("untag gig .y", ".y: no word"), ("put file gig2 .y", ".y: no word"), ("less gig live", "live: one word too many"),
    ("cd nosuch", "nosuch: this word is not known"), ("cd music/(live|nosuch)/other", "nosuch, other: these words are not known"),
    ("ls music/nosuch", "nosuch: this word"), ("find !nosuch", "nosuch: this word"), ("grep x nosuch", "nosuch: this word"),
    ("create x live nosuch", "nosuch: this word"), ("add x 0 nosuch\n", "nosuch: this word"), ("mv gig live/nosuch", "nosuch: this word"),
    ("tag gig live nosuch", "nosuch: this word"), ("untag gig nosuch", "nosuch: this word"), ("tag nosuch in music", "nosuch: this word"),
    ("tag live in nosuch", "nosuch: this word"), ("axiom live nosuch", "nosuch: this word"), ("axiom nosuch live", "nosuch: this word"),
    ("put file gig2 nosuch", "nosuch: this word"), ("cd " + "/".join(["music"] * 32) + "\ncd /nosuch", "nosuch: this word"))


@pytest.mark.parametrize("line, wanted", ABOUT)
def test_the_word_that_it_is_about(program, line, wanted):
    make(script=TAKEN)
    with open("file", "wb"):
        pass
    status, shown, told = shell(line.encode() + b"\n")
    assert (status, shown) == (1, b"") and told.startswith(f"shell: {wanted}"), told
