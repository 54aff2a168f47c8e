"""What `tools/sync` and `tools/import` do with hostile mails: what each costs, which links are followed, and which records of an earlier run are
believed.
"""
import contextlib
import hashlib
import json
import os
import shutil
import subprocess
import sys
import time

import pytest

import support
from lisfs.client import PROGRAM
from lisfs.folder import cache, entries, mails, walk
from lisfs.progress import Line
from lisfs.words import is_assignable
from support import images
from support.costs import bounded
from support.images import content, written
from support.waiting import LONG, until

# The most seconds of processor time of a mail, whatever it holds, on the machine of `costs`.
COST = 0.05


def mail(number, subject="Hello there", body="Text.\n"):
    return f"From: Alice Adams <alice@example.org>\nTo: bob@example.org\nSubject: {subject}\nMessage-ID: <{number}@example.org>\n\n{body}"


def maildir(top, *boxes):
    for box in ("", *boxes):
        for part in ("cur", "new", "tmp"):
            os.makedirs(os.path.join(top, box, part), exist_ok=True)


# The cost of a mail.

def filled(piece, size=250_000):
    return (piece * (size // len(piece) + 1))[:size]


PIECES = (b'"', b"'", b".", b"(", b"()", b"(a)", b"<", b"<>", b">", b"=?", b"=?utf-8?q?a?= ", b"=?utf-8?q?=EF=B7=BA?= ", b"=?utf-8?b?77e6?= ", b"=?x",
          b"=?utf-8?b?", b"a ", b"a, ", b"a.", b",", b";", b":", b"g:", b"g:a@b;", b"@", b"a@", b"\\", b"\\\"", b"\"\" ", b"[", b"a@b,", b"<a@b>,",
          b"\"a, b\" <a@b>,", b"< ", b"9", b"9 ", b"x", b"a\n ", b"\xcc\x81\xcc\x96", b"\xef\xb7\xba", b"\xef\xb7\xba,", b"\xef\xb7\xba" * 100 + b"<a@b>,",
          b"\xff", b"\0", b"=?punycode?q?" + b"a-" * 60 + b"?= <a@b>,")
LINES = (b"a:\n", b"To: a\n", b" \n", b"\ta\n", b"From x\n", b"a:\r", b"From: a@b\n", b"Received: from a by b\n id c\n", b"Subject: =?utf-8?q?a?=\n",
         b":\n", b"References: <a@b>\n <c@d>\n")


def hostile():
    """The most expensive headers, by name."""
    for field in (b"From", b"To", b"Cc", b"Subject", b"Date", b"Message-ID", b"List-Id", b"References", b"In-Reply-To"):
        for piece in PIECES:
            yield f"{field} of {piece[:20]}", field + b": " + filled(piece) + b"\n\nText.\n"
    for piece in LINES:
        yield f"lines {piece}", b"From: a@b\n" + filled(piece) + b"\nText.\n"
    worst = [b"".join(b"\xef\xb7\xba" * 100 + b"%d <a%d@b>," % (number, turn) for number in range(50)) for turn in range(3)]
    yield "all at once", b"From: %b\nTo: %b\nCc: %b\nSubject: %b\n" % (*worst, filled(b"\xef\xb7\xba ", 6_000)) + filled(b"a:\n", 100_000) + b"\n"
    unknown = [b"".join(b"=?%d-%d?q?x?= " % (number, turn) + b"<a@b>," * (number % 9 == 0) for number in range(900)) for turn in range(3)]
    yield "unknown character sets", b"From: %b\nTo: %b\nCc: %b\nSubject: %b\n\n" % (*unknown, unknown[0][:4_000])
    nested = b"".join(b"g%d:" % number for number in range(3_000))
    yield "groups in groups", b"To: " + nested + b"a@b" + b";" * 3_000 + b"\n\n"
    yield "16,000 quotes", b"From: " + b'"' * 16_000 + b"\n\n"
    yield "16,000 dots", b"From: " + b"." * 16_000 + b"\n\n"


def words_of(header):
    mails.of_person.cache_clear()
    return mails.Mail(header).words()


HOSTILE = dict(hostile())


@pytest.mark.parametrize("name", HOSTILE)
def test_costs(name):
    """No mail costs more than the limit, and its words are well formed."""
    words, is_little, told = bounded(lambda: words_of(HOSTILE[name]), COST)
    assert is_little, (f"{name}: seconds of processor", told)
    assert all(is_assignable(word) for word in words), (f"{name}: words", words)


# Fields of ordinary mails give the same words as before, however they are written.

@pytest.mark.parametrize("field, wanted", (
    ("Alice Adams <alice@example.org>", "alice-adams"), ("bob@Example.org", "bob@example.org"), ('"Meyer, Hans" <h@e.org>', "hans-meyer"),
    ("Meyer, Hans <h@e.org>", "meyer hans"), ("=?utf-8?q?J=C3=B6rg_Gro=C3=9F?= <j@e.org>", "joerg-gross"),
    ('"=?utf-8?b?SsO2cmc=?=" <j@e.org>', "joerg"), ("=?utf-8?q?Meyer,_Hans?= <h@e.org>", "hans-meyer"),
    ("Ann =?UTF-8?Q?Andr=C3=A9?= <a@d.fr>", "ann-andre"), ("=?gb2312?B?1tDOxA==?= <z@e.cn>", "z@e.cn"), ("alice@e.org (Alice Adams)", "alice@e.org"),
    ("Alice (at (her) work) Adams <a@b.org>", "alice-adams"), ("undisclosed-recipients:;", ""), ("Team: a@b.org, \"C, D\" <c@d.org>;", "a@b.org d-c"),
    ("MAILER-DAEMON (Mail Delivery System)", "mailer-daemon"), ("root", "root"), ("a@b.org <a@b.org>", "a@b.org"), ("\"a@b.org\" <a@b.org>", "a@b.org"),
    ("J. R. O'Neil <j@e.org>", "j-r-oneil"), ('"J \\"K\\" L" <j@e.org>', "j-k-l"), ("Foo [Bar] <l@e.org>", "foo"), ("<a@b.org>", "a@b.org"),
    ("A B <a@b.org>, C D <c@d.org>,\n e@f.org", "a-b c-d e@f.org"), ("", ""), ("<>", ""), ("José <j@e.org>", "jose")))
def test_people(field, wanted):
    assert b" ".join(mails.people(field)).decode().replace("who:", "") == wanted, f"people of {field}"


@pytest.mark.parametrize("header, wanted", (
    ("Subject: first\nSubject: second\n\n", ["about:first"]), ("X: y\nsubject:  lower\n\n", ["about:lower"]), (" lost\nSubject: kept\n", ["about:kept"]),
    ("Subject: four\n five\r\n\tsix\n\n", ["about:four", "about:five", "about:six"]), ("From x y\nSubject: kept\n\n", ["about:kept"]),
    ("Subject: kept\nno line of a header\nDate: 3 Jun 2024 10:00 +0200\n\n", ["about:kept"]), ("Subject: kept\n\nTo: a@b.org\n", ["about:kept"]),
    ("Subject: kept\r" + "To: a@b.org\r\rTo: c@d.org", ["about:kept", "who:a@b.org"]), (":x\nSubject : none\nSubject: none\n\n", [])))
def test_words(header, wanted):
    assert [word.decode() for word in mails.Mail(header.encode()).words()] == wanted, f"words of {header!r}"


# Links.

def found_in(top, without=()):
    """What is found in a folder: the paths of its files, and the reports about everything else."""
    told = []
    walked = walk.Walk(top, lambda path, why: told.append((os.path.relpath(path, top), why)), without)
    return [(os.path.relpath(found.path, top), walk.content(found, 1_000)) for found in walked.files()], sorted(told)


@pytest.fixture
def secret(folder):
    """A maildir to which links lead."""
    maildir("secret", ".Box")
    for path in ("secret/cur/1:2,", "secret/new/2", "secret/tmp/3", "secret/.Box/cur/4:2,", "secret/plain"):
        written(path, b"secret")


@pytest.mark.parametrize("link", ("cur", "new", "tmp", ".Box", ".In/cur", ".In/new", "Sub", "cur/9:2,", "other"))
def test_a_link_in_a_maildir(secret, link):
    """No link is followed, to a file or to a folder, and each is reported; what is beside it is taken."""
    top = "mail-" + link.replace("/", "-")
    maildir(top, ".In")
    written(f"{top}/cur/5:2,", b"own")
    written(f"{top}/new/6", b"own")
    with contextlib.suppress(FileNotFoundError):
        shutil.rmtree(f"{top}/{link}")
    target = {"cur/9:2,": "secret/plain", ".In/cur": "secret/cur", ".In/new": "secret/new"}.get(link, f"secret/{link}")
    os.symlink(os.path.abspath(target if os.path.exists(target) else "secret"), f"{top}/{link}")
    found, left = found_in(top)
    assert left == [(link, "no plain file")], f"the link {link} is told"
    own = [("cur/5:2,", b"own"), ("new/6", b"own")]
    assert found == [one for one in own if not one[0].startswith(link + "/")], f"what is beside the link {link}"


@pytest.mark.parametrize("link", ("box", "in/box", "in/file"))
def test_a_link_in_a_plain_folder(secret, link):
    written("top/in/f", b"own")
    os.symlink(os.path.abspath("secret/plain" if link == "in/file" else "secret"), f"top/{link}")
    assert found_in("top") == ([("in/f", b"own")], [(link, "no plain file")]), f"a link {link} in a plain folder"


def test_the_folder_itself_may_be_named_by_a_link():
    written("top/in/f", b"own")
    os.symlink("top", "named")
    assert found_in("named")[0] == [("in/f", b"own")], "what is found"


@pytest.mark.parametrize("without, found", (("tmp", [("Sub/.Box/cur/1:2,", b"own")]), ("new", [("Sub/.Box/cur/1:2,", b"own")]),
                                            ("cur", [("Sub/.Box/cur/1:2,", b"own")]), (".B*", [])))
def test_a_maildir_stays_one(without, found):
    """If parts of it are skipped."""
    maildir("passed/Sub", ".Box")
    written("passed/Sub/.Box/cur/1:2,", b"own")
    assert found_in("passed", [without]) == (found, []), f"a maildir without {without}"


@pytest.mark.parametrize("path, target", (("race/cur", "secret/cur"), ("race/cur/1:2,", "secret/plain"), ("race/.Box", "secret/.Box"),
                                          ("race/.Box/cur", "secret/cur")))
def test_a_link_that_comes_meanwhile(secret, path, target):
    """A folder, or a file, that becomes a link after it was found."""
    maildir("race", ".Box")
    written("race/cur/1:2,", b"own")
    written("race/.Box/cur/4:2,", b"own")
    found = {one.path: one for one in walk.Walk("race", lambda *_: None).files()}
    one = found["race/cur/1:2," if path.startswith("race/cur") else "race/.Box/cur/4:2,"]
    os.rename(path, path + ".was")
    os.symlink(os.path.abspath(target), path)
    try:
        told = walk.content(one, 1_000)
    except OSError as error:
        told = error.strerror
    assert told in ("no plain file", "No such file or directory"), f"{path} becomes a link"
    try:
        told = list(walk.names_in("race", one.parts[:-1]))
    except OSError as error:
        told = error.strerror
    assert told != ["plain"] and "4:2," not in told or not os.path.islink(os.path.dirname(one.path)), (
        f"{path} becomes a link before it is looked into", told)


# What is kept from an earlier run.

class Counted:
    """Counts the files that are read meanwhile."""

    def __enter__(self):
        self.real, self.paths = walk.opened, []

        def opened(found):
            self.paths.append(os.path.join(*found.parts))
            return self.real(found)

        walk.opened = opened
        return self

    def __exit__(self, *_):
        walk.opened = self.real


def looked(top, is_kept=True):
    """What a run finds in a folder, which files it reads, and for which it keeps a record."""
    remembered = cache.Remembered(top) if is_kept else cache.Nothing()
    found = entries.Entries(top, 1 << 20, lambda folders: [], lambda *_: None, Line("sync"), remembered=remembered)
    with Counted() as counted:
        found.read()
    remembered.save()
    return [(entry.found.key, entry.subject, entry.ident, entry.digest, entry.words) for entry in found.all], sorted(counted.paths)


def old_enough(top):
    """Waits until a change of any file would give it other times."""
    def is_so():
        newest = max(os.lstat(os.path.join(at, name)).st_ctime_ns for at, _, names in os.walk(top) for name in names)
        return time.time_ns() > newest + cache.STEP

    until(is_so)


@pytest.fixture(autouse=True)
def cache_folder(folder, monkeypatch):
    """The cache is in the test's folder."""
    monkeypatch.setenv("XDG_CACHE_HOME", os.path.abspath("cache"))


def test_kept():
    """A second run reads no unchanged mail; a changed one is read again, whatever it has in common with the former one."""
    maildir("mail", ".Box")
    for number in range(30):
        written(f"mail/{'.Box/' if number % 3 else ''}cur/{number}:2,", mail(number, f"Subject number{number}"))
    written("mail/new/odd", b"\xff\0 none at all")
    old_enough("mail")
    first, read = looked("mail")
    assert len(read) == 31, "the first run reads all"
    assert looked("mail") == (first, []), "the second one reads none, and finds the same"
    path = "mail/cur/0:2,"
    before = os.stat(path)
    written(path, mail(0, "Subject NUMBER0"))
    assert os.stat(path).st_size == before.st_size, "as many bytes, and a newer time"
    old_enough("mail")
    second, read = looked("mail")
    assert read == ["cur/0:2,"] and second != first, ("is read again", (read, second[:1]))
    written(path, mail(0, "Subject NUMBER9"))
    os.utime(path, ns=(before.st_atime_ns, before.st_mtime_ns))
    old_enough("mail")
    assert looked("mail")[1] == ["cur/0:2,"], "as many bytes, and the time of before"
    os.rename(path, path + "S")
    os.remove("mail/.Box/cur/1:2,")
    third, read = looked("mail")
    assert (len(third), read) == (30, ["cur/0:2,S"]), "a mail of other flags"
    old_enough("mail")
    looked("mail")
    written("mail/new/fresh", mail(99))
    os.utime("mail/new/fresh", ns=(0, time.time_ns() + 10**15))
    old_enough("mail")
    assert [looked("mail")[1] for _ in range(2)] == [["new/fresh"]] * 2, "a time that is to come is believed never"
    assert len(looked("mail", False)[1]) == 31, "without what was kept"


@pytest.fixture
def remembered():
    """Two maildirs of one mail each, after a run over the first: what it found, and the path of the cache."""
    for top in ("mail", "other"):
        maildir(top)
        written(f"{top}/cur/1:2,", mail(1))
    old_enough("mail")
    first = looked("mail")[0]
    return first, cache.Remembered("mail").path


def signed(given, **other):
    """The cache, with other values."""
    body = json.dumps({**given, **other}).encode()
    return hashlib.sha256(body).hexdigest().encode() + b"\n" + body


# A cache that is missing, damaged, of another folder, of another version or written by somebody else is made again.
DAMAGED = {
    "nothing": lambda whole, digest, body, given: b"", "half of it": lambda whole, digest, body, given: whole[:len(whole) // 2],
    "a wrong byte": lambda whole, digest, body, given: digest + b"\n" + body.replace(b"Hello there", b"Hullo there"),
    "no digest": lambda whole, digest, body, given: body, "another form": lambda whole, digest, body, given: signed(given, form=0),
    "another version": lambda whole, digest, body, given: signed(given, version="x"),
    "another folder": lambda whole, digest, body, given: signed(given, folder="/else"),
    "no files": lambda whole, digest, body, given: signed(given, files=None),
    "no object": lambda whole, digest, body, given: hashlib.sha256(b"[]").hexdigest().encode() + b"\n[]",
    "noise": lambda whole, digest, body, given: b"\xff" * 99}


@pytest.mark.parametrize("name", DAMAGED)
def test_damaged(remembered, name):
    first, path = remembered
    whole = content(path)
    digest, _, body = whole.partition(b"\n")
    written(path, DAMAGED[name](whole, digest, body, json.loads(body)))
    assert looked("mail") == (first, ["cur/1:2,"]), f"{name}: read again"
    assert looked("mail") == (first, []), f"{name}: and kept"
    assert content(path) == whole, "it is the same again"
    assert os.listdir("cache/lisfs") == [os.path.basename(path)], "nothing is left beside"


def test_what_others_may_write(remembered):
    first, path = remembered
    assert (os.stat(path).st_mode & 0o777, os.stat(os.path.dirname(path)).st_mode & 0o777) == (0o600, 0o700), "readable for its owner alone"
    os.chmod(path, 0o666)
    assert looked("mail")[1] == ["cur/1:2,"], "what others may write"


def test_a_link_in_the_place_of_what_is_kept(remembered):
    first, path = remembered
    os.rename(path, "elsewhere")
    os.symlink(os.path.abspath("elsewhere"), path)
    assert looked("mail")[1] == ["cur/1:2,"], "a link"
    assert not os.path.islink(path) and os.path.exists("elsewhere"), "is replaced, and not followed"


def test_what_another_folder_has(remembered):
    first, path = remembered
    shutil.copy(path, cache.Remembered("other").path)
    assert looked("other")[1] == ["cur/1:2,"], "that of another folder"
    assert sorted(os.listdir("cache/lisfs")) == sorted(os.path.basename(cache.Remembered(top).path) for top in ("mail", "other")), (
        "nothing is left beside")


def test_where_nothing_can_be_kept(remembered, monkeypatch):
    written("elsewhere")
    monkeypatch.setenv("XDG_CACHE_HOME", os.path.abspath("elsewhere"))
    assert [looked("mail")[1] for _ in range(2)] == [["cur/1:2,"]] * 2, "where nothing can be kept"


def test_too_large():
    """A mail that is too large for one image, and then not for another one."""
    maildir("mail")
    written("mail/cur/1:2,", mail(1, body="x" * 5_000))
    old_enough("mail")
    for largest, wanted in ((1_000, 1), (1_000, 0), (10_000, 1), (10_000, 0), (1_000, 0)):
        found = entries.Entries("mail", largest, lambda folders: [], lambda *_: None, Line("sync"), remembered=cache.Remembered("mail"))
        with Counted() as counted:
            found.read()
        found._remembered.save()
        assert (len(counted.paths), bool(found.all[0].found.problem), bool(found.all[0].digest)) == (
            wanted, largest < 5_000, largest > 5_000), f"of at most {largest} bytes"


def test_songs(mutagen):
    """Music likewise, by the words of its tags."""
    written("music/one.mp3", b"ID3\x03\0\0\0\0\0\x17TPE1\0\0\0\x0d\0\0\0Die Band 1\0\0" + b"\xff\xfb\x90\0" + bytes(413) + (b"\xff\xfb\x90\0" + bytes(413)) * 3)
    written("music/broken.mp3", b"no music at all")
    old_enough("music")
    first, read = looked("music")
    assert len(read) == 2 and first[1][-1] == (b"artist:die-band-1",), ("the first run", (read, first))
    assert looked("music") == (first, []), "the second one"


def test_strace(program, needs):
    """A second run of the tool opens none of its mails, as the system calls show."""
    needs("strace")
    maildir("mail")
    for number in range(5):
        written(f"mail/cur/{number}.mail:2,", mail(number))
    old_enough("mail")
    images.make("image", ("64", "64", "64"))
    opened = []
    for more in ([], [], ["--no-cache"]):
        ran = subprocess.run(["strace", "-f", "-qq", "-e", "trace=open,openat,openat2", "-o", "calls", sys.executable, support.tool("sync"), *more,
                              "--as", "m", "image", "mail"], stdin=subprocess.DEVNULL, capture_output=True, timeout=LONG, check=False,
                             env={**os.environ, "LISFS_PROGRAM": program})
        if ran.returncode and not opened:
            pytest.skip("strace can't trace here")
        with open("calls", encoding="utf-8", errors="replace") as calls:
            opened.append(sum(".mail:2," in call for call in calls))
    assert opened[0] >= 5 and opened[1] == 0 and opened[2] >= 5, ("mails that are opened", opened)


# What is shown on a terminal.

EVIL = "x\x1b]0;title\x07\x1b[2J\r\n\udcff\u202e\x85y"
SHOWN = "x^[]0;title^G^[[2J^M^J\\xff\\u202e\\x85y"


def is_harmless(data):
    """Whether a terminal shows it as it is, line by line."""
    text = data.decode("utf-8", "surrogateescape")
    return all(letter == "\n" or letter.isprintable() for letter in text)


def told(tool, *words, program=PROGRAM):
    ran = subprocess.run([sys.executable, support.tool(tool), *words], stdin=subprocess.DEVNULL, capture_output=True, timeout=LONG, check=False,
                         env={**os.environ, "LISFS_PROGRAM": program})
    return ran.stdout, ran.stderr


@pytest.fixture
def evil(folder):
    """A folder of files and folders whose names do something to a terminal."""
    written(f"top/{EVIL}/{EVIL}", b"x")
    os.symlink("nosuch", f"top/link{EVIL}")
    os.makedirs(f"top/{EVIL}/{'d' * 70}{EVIL}")
    written(f"top/{EVIL}/{'d' * 70}{EVIL}/f", b"x")


@pytest.mark.parametrize("words", (["--verbose", "--by-folder", "top"], ["--word", EVIL, "top"], [EVIL]), ids=("a folder", "a word", "no folder"))
def test_names_by_import(evil, words):
    """They are reported harmlessly, one per line."""
    _, error = told("import", *words, program="/nosuch")
    assert is_harmless(error) and SHOWN.encode() in error, (f"import {words}", error)


@pytest.mark.parametrize("words", (["image", EVIL], ["--as", EVIL, "image", "top"]), ids=("a folder", "a name"))
def test_names_by_sync(evil, words):
    _, error = told("sync", *words)
    assert is_harmless(error) and SHOWN.encode() in error, (f"sync {words}", error)


@pytest.mark.parametrize("tool, words", (("browse", []), ("mount", ["top"])))
def test_the_name_of_an_image(program, evil, tool, words):
    # The program does not accept a path that is not UTF-8.
    _, error = told(tool, "x\x1b]0;title\x07y", *words)
    assert is_harmless(error) and b"x^[]0;title^Gy" in error, (f"{tool} of an image of such a name", error)


@pytest.mark.limits("64", "64", "64")
@pytest.mark.parametrize("words", (["--dry-run"], ["--verbose"]))
def test_names_that_are_brought_in(evil, image, words):
    out, error = told("sync", *words, "--as", "t", "image", "top")
    assert is_harmless(out + error) and SHOWN.encode() in out and out.count(b"\n") == 5, (f"sync {words}", (out, error))
