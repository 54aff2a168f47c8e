"""`tools/import` on folders and on maildirs, with names that are no names, two equal names, a large file and a link."""
import os
import re
import subprocess
import sys

import pytest

import support
from lisfs import limits
from lisfs.client import PROGRAM
from lisfs.folder import bring
from support import images
from support.images import bytes_of, content, written
from support.waiting import LONG

IMPORT = support.tool("import")
NOBODY = {"user": 65_534, "group": 65_534, "extra_groups": []}


class Brought:
    """How a run of the tool ended: its status, the session that it wrote, and the lines that it said."""

    def __init__(self, *words, more=None, **environment):
        ran = subprocess.run([IMPORT, *words], stdin=subprocess.DEVNULL, capture_output=True, timeout=LONG, check=False,
                             env={**os.environ, "LISFS_PROGRAM": PROGRAM, **environment}, **(more or {}))
        self.status, self.session, self.told = ran.returncode, ran.stdout, ran.stderr.decode().splitlines()

    def lines(self, front):
        """The lines of the session that begin with a text, as texts."""
        return [line.decode() for line in self.session.split(b"\n") if line.startswith(front)]

    def having(self, *parts):
        """The lines of standard error that contain one of these texts, in order."""
        return sorted(line for line in self.told if any(part in line for part in parts))

    def limits(self):
        """The smallest limits of an empty image with room for it."""
        return re.search("from these limits on: (.*)", "\n".join(self.told))[1].split()

    def into(self, image, limits):
        """The replies if the session runs on a new image."""
        images.make(image, limits)
        return ran(image, self.session)


def ran(image, data):
    """What `run` shows."""
    return subprocess.run([PROGRAM, "run", image], input=data, stdout=subprocess.PIPE, timeout=LONG, check=True).stdout


def refused(replies):
    """The lines of replies that are refusals."""
    return [line for line in replies.split(b"\n") if line.startswith(b"no ")]


SOURCES = {"src/a/x.txt": b"one\n", "src/a/x y.txt": b"two", "src/a/x?y.txt": b"three", "src/b/empty": b"", "src/c d/.hidden": b"four\n\n",
           "src/a/deep/bytes": b"\0\377raw\n", "src/b/largest": bytes(65_536), "src/b/larger": bytes(65_537)}
WORDS = ("--word", "mine", "--word", "year:2003", "--by-folder", "src")
SUMMARY = ["import: 7 files taken, 3 not taken, 2 named otherwise", "import: not taken: 2 no plain file, 1 too large",
           "import: 1 folder with another word than the name, or with none", "import: an empty image has room for it from these limits on: 64 64 21"]


@pytest.fixture
def sources(folder):
    """A folder of plain files, a link and a pipe."""
    for path, data in SOURCES.items():
        written(path, data)
    os.symlink("x.txt", "src/a/link")
    os.mkfifo("src/b/pipe")


def test_what_is_told_of_a_folder(program, sources):
    brought = Brought("--verbose", *WORDS)
    assert brought.status == 1, brought.told
    assert sorted(brought.told) == sorted([
        "import: named otherwise: src/a/x?y.txt: x_y-2.txt (the name is taken)", "import: named otherwise: src/a/x y.txt: x_y.txt (the form of a name)",
        "import: a folder's word: c d: c_d (the form of a word)", "import: not taken: src/a/link: no plain file",
        "import: not taken: src/b/larger: 65537 bytes; a file has at most 65536", "import: not taken: src/b/pipe: no plain file", *SUMMARY])


def test_what_is_told_without_a_line_a_file(program, sources):
    brought = Brought(*WORDS)
    assert brought.session == Brought("--verbose", *WORDS).session
    assert brought.told == SUMMARY


def test_a_folder(program, sources):
    replies = Brought(*WORDS).into("image", ("64", "64", "21"))
    assert [line for line in replies.splitlines() if line != b"ok"] == []
    assert len(replies.splitlines()) == 13
    assert ran("image", b"ls\ncd a\nls\ncd deep\nls\n").decode().split("\n") == [
        "d a", "d b", "d c_d", "d deep", "d ext:", "d size:empty", "d size:large", "d size:small", "ok", "ok", "d deep", "d ext:", "ok", "ok",
        "f bytes", "ok", ""]
    assert bytes_of("bytes") == content("src/a/deep/bytes")


def test_larger_files(program, sources):
    brought = Brought("--v2", "--by-folder", "src")
    assert brought.having("larger", "taken,", "limits") == [
        "import: 8 files taken, 2 not taken, 2 named otherwise", "import: an empty image has room for it from these limits on: 64 64 39 v2"]
    assert refused(brought.into("larger", ("64", "64", "39", "v2"))) == []
    assert bytes_of("larger", "larger") == content("src/b/larger")
    written("src/b/largest", bytes(1_048_577))
    assert Brought("--v2", "src").having("taken:") == ["import: not taken: 2 no plain file, 1 too large"]
    brought = Brought("--v3", "--by-folder", "src")
    assert brought.having("taken,", "limits") == [
        "import: 8 files taken, 2 not taken, 2 named otherwise", "import: an empty image has room for it from these limits on: 64 64 281 v3"]
    assert refused(brought.into("largest", ("64", "64", "281", "v3"))) == []
    assert bytes_of("largest", "largest") == content("src/b/largest")


def test_odd_folders(program):
    """Folders that have no word, or a word other than their name, and more words than a file may have: the file goes in with the first 16."""
    long, deep = "w" * 70, "".join(f"d{number}/" for number in range(1, 18))
    for at in ("...", "c d", "c d/in", "c_d", long, deep, ".dot"):
        written(f"odd/{at}/f", b"x")
    brought = Brought("--verbose", "--by-folder", "odd")
    assert brought.status == 0, brought.told
    assert sorted(line for line in brought.told if not line.startswith("import: named otherwise") and "limits" not in line) == sorted([
        "import: a folder's word: .dot: dot (the form of a word)", f"import: a folder's word: {long}: {long[:60]} (60 bytes are the most)",
        "import: a folder's word: c d: c_d (the form of a word)", "import: no word for a folder: ...", f"import: left out: odd/{deep}f: d17",
        "import: one word for two folders: c_d: c_d and c d", "import: 4 folders with another word than the name, or with none",
        "import: 1 word for more folders than one", "import: 1 word of 1 file left out: a file is given 16 at most",
        "import: 7 files taken, 0 not taken, 6 named otherwise"])
    assert refused(brought.into("odd.lis", ("64", "64", "8"))) == []


def test_long_words(program):
    """Sixteen long words don't fit a line: the remaining ones follow it."""
    wide, name = "w" * 58, "f" * 60
    written("wide/" + "".join(f"{wide}{number:02}/" for number in range(1, 17)) + name, b"x")
    brought = Brought("--by-folder", "wide")
    assert len(brought.lines(b"add") + brought.lines(b"mv")) == 2
    assert refused(brought.into("wide.lis", ("64", "64", "8"))) == []
    assert len([line for line in ran("wide.lis", b"props %b\n" % name.encode()).split(b"\n") if line.startswith(b"p " + wide.encode())]) == 16


@pytest.fixture
def shut(program, needs):
    """The arguments for a user who may not read all of `closed`. Root may read everything, so the tool becomes another user."""
    for path in ("open", "closed/secret", "closed/in/f"):
        written(path, b"x")
    for path in ("closed/secret", "closed/in"):
        os.chmod(path, 0)
    other = NOBODY if os.getuid() == 0 else {}
    try:
        told = Brought("open", more=other)
    except OSError as error:
        pytest.skip(f"no other user can be taken on: {error} (only root can)")
    if told.status != 2 or "open: not a folder" not in "\n".join(told.told):
        pytest.skip("no other user can run the tool here (it needs root, and a python3 for all users)")
    return other


def test_where_not_all_can_be_read(shut):
    brought = Brought("--verbose", "closed", more=shut)
    assert brought.status == 1
    assert brought.having("taken") == sorted([
        "import: not taken: closed/secret: Permission denied", "import: not taken: closed/in: Permission denied", "import: not taken: 2 Permission denied",
        "import: 0 files taken, 2 not taken, 0 named otherwise"])


def test_a_maildir(program):
    for box in ("mail", "mail/.Work.Plans"):
        for part in ("cur", "new"):
            os.makedirs(f"{box}/{part}")
    for path, data in (("cur/100.M1.host:2,S", b"From: a@b\n\nhi\n"), ("new/101.M1.host", b"From: a@b\n\nhi\n"),
                       (".Work.Plans/cur/100.M1.host:2,RS", b"From: c@d\n\nhi\n"), ("tmp/102", b"half")):
        written(f"mail/{path}", data)
    for number, path in enumerate((".Work.Plans/cur/100.M1.host:2,RS", "new/101.M1.host", "cur/100.M1.host:2,S")):
        os.utime(f"mail/{path}", (number, number))
    brought = Brought("--by-folder", "mail")
    assert brought.status == 1
    assert [line.decode() for line in brought.session.split(b"\n") if line.startswith((b"add", b"mkdir"))] == [
        "mkdir who:", "mkdir Work", "mkdir Plans", "add 100.M1.host.eml 14 who:a@b", "add 101.M1.host.eml 14 who:a@b",
        "add 100.M1.host-2.eml 14 Work Plans who:c@d"]
    assert refused(brought.into("box", brought.limits())) == []
    assert ran("box", b"cd from:a@b\nls\n") == b"ok\nf 100.M1.host.eml\nf 101.M1.host.eml\nok\n"
    assert brought.having("taken,") == ["import: 3 files taken, 1 not taken, 3 named otherwise"]


def test_coded_headers(program):
    """Words of headers, decoded; words beyond 16 are counted."""
    written("coded/cur/1", "From: =?iso-8859-1?q?J=F6rg?= <j@example.org>\nSubject: =?utf-8?b?UsO8Y2tmcmFnZQ==?= zum Plan\n"
                           "Date: 3 Jun 2024 10:00 +0200\nList-Id: <dev.example.org>\n\n")
    written("coded/cur/2", "To: " + "".join(f"p{number}@example.org, " for number in range(1, 21)) + "last@example.org\n\n")
    written("coded/new/3", b"From: (((\nSubject: =?utf-8?q?=C3?= =?x?y?z?=\n\377\n")
    brought = Brought("--word", "mine", "coded")
    assert brought.status == 0
    first, = brought.lines(b"add 1.eml")
    assert first.split(" ", 3)[3] == "mine date:2024-06 list:dev.example.org who:joerg about:rueckfrage about:plan"
    second, = brought.lines(b"add 2.eml")
    assert len(second.split()) == 19
    assert brought.having("left out") == ["import: 6 words of 1 file left out: a file is given 16 at most"]
    assert refused(brought.into("coded.lis", ("64", "128", "8"))) == []


def test_the_newest(sources):
    """They come first in the session, and the oldest can be left out. Names depend on the order in which files are found."""
    for number, name in enumerate(("a/x y.txt", "a/x.txt", "a/x?y.txt", "b/empty")):
        os.utime(f"src/{name}", (number * 86_400 + 43_200,) * 2)
    whole = Brought("--without", "c d", "--without", "deep", "--without", "large*", "src")
    assert [line.split()[1] for line in whole.lines(b"add")] == ["empty", "x_y-2.txt", "x.txt", "x_y.txt"]
    brought = Brought("--without", "c d", "--without", "deep", "--without", "large*", "--newest", "2", "src")
    assert [line.split()[1] for line in brought.lines(b"add")] == ["empty", "x_y.txt"]
    assert "import: 2 older files left out by --since or --newest" in brought.told
    brought = Brought("--without", "deep", "--since", "2020", "--newest", "9", "src")
    assert sorted(line.split()[1] for line in brought.lines(b"add")) == [".hidden", "largest"]
    assert Brought("--since", "tomorrow", "src").status == 2


def test_a_built_in_head(sources):
    assert Brought("--word", "ext:c", "src").status == 2


def test_names_that_are_passed_over(sources):
    assert Brought("--without", "a", "--without", "*e*", "--without", "c d", "src").lines(b"add") == []


def test_without_a_program(sources):
    assert Brought("src", LISFS_PROGRAM="/nosuch").told[-1] == (
        "import: the words that are derived from files are not counted, since the program is not built")


def test_no_folder():
    assert Brought("nosuch").status == 2


def test_refusals_are_named(program, monkeypatch, capsys):
    """For what no image holds the report gives the cause, with the words that a refusal is about."""
    for number in range(70):
        written(f"top/d{number:02}/f", b"x")
    monkeypatch.setattr(limits, "LARGEST", limits.LARGEST._replace(words=64))
    monkeypatch.setattr(sys, "argv", ["import", "--by-folder", "top"])
    assert bring.main() == 0
    said = capsys.readouterr().err
    assert re.search(r"the largest one refuses [0-9]+ lines: no room for more words \([0-9]+\); no 06 unknown property: d[0-9]{2}; ", said), said
