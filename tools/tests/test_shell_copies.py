"""`tools/shell`: all files of a place are copied to a folder of the system by `get in`."""
import os
import resource
import signal

import pytest

from support.images import content, make, session, written
from support.shell_tables import TAKEN
from support.shells import shell, within
from support.waiting import children, rest, stop

BYTES = {name: name.encode() * 1_000 for name in ("a.txt", "b.txt", "c.txt", "d.txt", "e.txt", "f.txt", "g.txt")}


@pytest.fixture
def letters(program):
    """An image of these files, and a folder."""
    make(limits=("64", "64", "64"), script=b"mkdir old\nmkdir live\nmkdir date:\n" + b"".join(
        b"add %b %d old date:%d\n%b\n" % (name.encode(), len(data), number % 2, data) for number, (name, data) in enumerate(BYTES.items()))
        + b"create empty live\n")
    os.mkdir("out")


def copied(folder="out"):
    return {name: content(f"{folder}/{name}") for name in os.listdir(folder)}


def test_all_files_of_a_place(letters):
    """Bytes and names are those of the image, and a place is given as in `tag`."""
    os.mkdir("two words")
    os.mkdir("here")
    assert shell(b"get in date:0 out\npwd\ncd old\nget in date:1/!live here/\nget in /live 'two words'\npwd\nget in live two\\ words\n") == (
        0, b"out: 4 files copied, 20,000 bytes\nw /\nhere/: 3 files copied, 15,000 bytes\ntwo words: 1 file copied, 0 bytes\nw old\n"
        b"two words: 0 files copied, 0 bytes\n", "")
    names = sorted(BYTES)
    assert copied() == {name: BYTES[name] for name in names[::2]}
    assert copied("here") == {name: BYTES[name] for name in names[1::2]} and copied("two words") == {"empty": b""}


def test_what_leads_nowhere(letters):
    written("file", b"x")
    usage = "usage: get NAME [FILE]"
    assert shell(b"get in nosuch out\nget in a//b out\nget in old nosuch\nget in old file\nget in 'a b' out\nget in old\nget in a b c\nget a b c\nget\n") == (1, b"", "".join(
        f"shell: {told}\n" for told in (
            "nosuch: this word is not known; `mkdir nosuch` declares it",
            "a//b: no formula: words with `/` (and), `|` (or), `!` (not) and parentheses, without blanks",
            "nosuch: no such folder: make it first", "file: no such folder: make it first",
            "a b: a formula has no blanks, and `/` joins its words: `a/b`", "in: there is no file of this name",
            "get: a formula has no blanks, and `/` joins its words: `get in a/b c`", f"get: {usage}", f"get: {usage}")))
    assert copied() == {}


def test_a_file_of_this_name(program):
    """Two words are a file and a path, as before."""
    make(script=TAKEN + b"add in 3\nabc\n")
    os.mkdir("out")
    assert shell(b"get in out\nget in\nget in live out\n") == (0, b"out/in: 3 bytes\nin: 3 bytes\nout: 1 file copied, 0 bytes\n", "")
    assert copied() == {"in": b"abc", "gig": b""}


def test_files_that_are_there(letters):
    """In a script nothing is overwritten, which is said before anything is written."""
    written("out/f.txt", b"mine")
    assert shell(b"get in old out\n") == (1, b"", "shell: out: 1 of 7 files are there already: f.txt; nothing was copied\n")
    assert copied() == {"f.txt": b"mine"}
    for name in ("a.txt", "b.txt", "c.txt", "d.txt", "e.txt"):
        written(f"out/{name}", b"mine")
    assert shell(b"get in old out\n") == (
        1, b"", "shell: out: 6 of 7 files are there already: a.txt, b.txt, c.txt, d.txt, e.txt, ..; nothing was copied\n")
    os.mkdir("out/g.txt")
    assert shell(b"get in old out\n") == (1, b"", "shell: out/g.txt: it is there already, and no plain file; nothing was copied\n")
    os.rmdir("out/g.txt")
    assert copied() == dict.fromkeys(sorted(BYTES)[:6], b"mine")


def test_a_question(at_terminal, letters):
    """At a terminal there is one question."""
    for name in ("b.txt", "d.txt"):
        written(f"out/{name}", b"mine")
    os.symlink("../kept", "out/f.txt")
    written("kept", b"mine", 0o640)
    with at_terminal(NO_COLOR="1") as at:
        at.sees(b"/> ")
        for answer, wanted in ((b"n\n", b"3 of 7 files are there already: b.txt, d.txt, f.txt; nothing was copied"),
                               (b"yes\n", b"out: 7 files copied, 35,000 bytes\r\n")):
            at.types(b"get in old out\n").sees(b"out: 3 of 7 files are there already: b.txt, d.txt, f.txt: write over them? [y/N] ")
            assert sorted(os.listdir("out")) == ["b.txt", "d.txt", "f.txt"], "nothing was written before"
            rest(at.process)
            assert at.types(answer).sees(wanted) is not None, (answer, at.shown[-300:])
        at.types(b"exit\n")
        assert at.ends() == 0
    assert copied() == BYTES and content("kept") == BYTES["f.txt"], "a link is followed"
    assert os.stat("kept").st_mode & 0o777 == 0o640


def test_a_failure_half_way(letters):
    """It says what was copied, and leaves no half file."""
    with session() as program:
        program.write(b"a.txt", b"a")
        program.write(b"b.txt", b"b")
    with within() as answer:
        before = resource.getrlimit(resource.RLIMIT_FSIZE)
        handler = signal.signal(signal.SIGXFSZ, signal.SIG_IGN)
        resource.setrlimit(resource.RLIMIT_FSIZE, (4_500, before[1]))
        try:
            told = answer(b"get in old out\n")
        finally:
            resource.setrlimit(resource.RLIMIT_FSIZE, before)
            signal.signal(signal.SIGXFSZ, handler)
        assert told == (1, b"", "shell: out: 2 of 7 files copied, up to b.txt\nshell: out/c.txt: File too large\n")
        assert answer(b"pwd\n") == (0, b"w /\n", ""), "the session goes on"
    assert copied() == {"a.txt": b"a", "b.txt": b"b"}


def test_a_stop_half_way(at_terminal, program):
    """After Ctrl-C, and after an end of the program."""
    names = [f"n{number:03}" for number in range(900)]
    make(limits=("1024", "64", "64"), script=TAKEN + b"".join(b"create %b live\n" % name.encode() for name in names))
    os.mkdir("out")
    os.mkdir("other")
    with at_terminal(NO_COLOR="1") as at:
        at.sees(b"/> ")
        at.types(b"find n000\n").sees(b"/> ")
        server = children(at.process)[0]
        at.interrupts(b"get in live out\n", server)
        assert at.sees(b"/> ") is not None, at.shown[-300:]
        assert len(os.listdir("out")) < 901 and b"out: 901 files" not in at.shown
        stop(server)
        at.types(b"get in live other\n").sees(b"\r\n")
        rest(at.process)
        os.kill(server, signal.SIGKILL)
        assert at.sees(b"the program was killed by signal 9") is not None, at.shown[-300:]
        assert at.ends() == 137
