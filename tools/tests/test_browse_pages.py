"""The pages of `tools/browse` over real images: what they show is what the program says, and whatever is in a file stays a text."""
import re
import shutil
import urllib.parse

import pytest

from lisfs.client import PROGRAM, Program
from lisfs.refusals import REFUSALS
from support.visitors import Browsed
from support.web import EVIL, Visitor, adding, leads, make, numbers_by_program

FORMULAS = (b"/", b"music", b"!music", b"live", b"music/!live", b"music|ext:c", b"(music/year:2001)|from:p1@example.org", b"size>=100/!big",
            b"size<5",
            b"!(music|ext:)", b"year:", b"year:2000/live", b"!(music/live)/!size:small", b"from:|to:|defines:", b"ext:eml/subject:plan",
            b"unused", b"size>=7",
            b"!!music", b"subject:", b"from:", b"defines:", b"ext:", b"!size:small", b"live/year:", b"year:2001|year:2002",
            b"to:/!subject:number3")
MISSES = "1 file has the most words that a file has on its own, 48, and may say more: a search by {} can miss such a file."


@pytest.fixture(scope="module")
def cut_words(web_program, tmp_path_factory):
    """Pages of an image with a file of which words are cut."""
    many = b"Subject: " + b" ".join(b"w%03d" % number for number in range(191)) + b"\n\n"
    image = make(str(tmp_path_factory.mktemp("cut") / "image"), adding(b"many.eml", many) + adding(b"few.eml", b"Subject: few\n\n"))
    with Browsed(image) as browsed:
        yield Visitor(browsed)


def test_words_that_are_cut(cut_words):
    assert "48 of at least 193 words that it has on its own" in cut_words.page("file", name="many.eml").text
    assert "of at least" not in cut_words.page("file", name="few.eml").text


@pytest.mark.parametrize("formula, word", (
    ("subject:w001", "subject:w001"), ("!subject:few", "subject:few"), ("ext:eml/(subject:few|size:small)", "subject:few")))
def test_a_search_that_can_miss_a_file(cut_words, formula, word):
    assert cut_words.page(at=formula).text.count(MISSES.format(word)) == 1


def test_a_search_that_finds_none_for_cut_words(cut_words):
    assert MISSES.format("subject:w190") in cut_words.page(status=404, at="subject:w190").text


def test_a_search_that_misses_none(cut_words):
    assert "can miss" not in cut_words.page(at="ext:eml").text


# Counts.

@pytest.fixture(scope="module")
def listings(web_mixed):
    """For each place the words that its pages show with their counts, and how many files they say it has."""
    told, whole = {}, {}
    with Browsed(web_mixed) as browsed:
        visitor = Visitor(browsed)
        for formula in FORMULAS:
            seen, root = visitor.page(at=formula), formula if formula.startswith(b"/") else b"/" + formula
            told[root] = {}
            for href, _, label in seen.links:
                if label and "more of" in label:
                    group = urllib.parse.parse_qs(href.partition("?")[2])["group"][0]
                    told[root].update(visitor.page("words", at=formula, group=group).counts())
            told[root].update(seen.counts())
            whole[root] = int(found[1]) if (found := re.search(r"All ([0-9]+) files? of this place", seen.text)) else 0
            files = visitor.page("files", at=formula)
            assert f"{whole[root]} file" in files.text, formula
    return told, whole


@pytest.fixture
def copied(web_mixed, tmp_path):
    """The path of a copy of the image, which no pages have open."""
    return shutil.copy(web_mixed, tmp_path / "copy")


def test_counts(copied, listings):
    """Each count of a page is the number of files that the program has there."""
    told = dict(listings[1])
    for root, words in listings[0].items():
        told |= {(root if root != b"/" else b"") + b"/" + word: count for word, count in words.items()}
    assert told == numbers_by_program(copied, told)
    assert len(told) > 200


def test_words_of_listings(copied, listings):
    with Program([PROGRAM, "run", copied]) as program:
        for root, words in listings[0].items():
            program.cd(root)
            assert sorted(words) == sorted(text for letter, text in program.ls().body if letter == b"d"), root


# Where links lead, and what lists show.

@pytest.mark.parametrize("typed, wanted", ((b"music live", "music/live"), (b"music | ! live", "music|!live"), (b"/music year: ", "/music/year:")))
def test_a_formula_with_blanks(visitor, typed, wanted):
    seen = visitor.page(at=typed, status=404)
    assert f"Did you mean {wanted}?" in seen.text and leads(seen, wanted) == f"./?at={wanted}"



@pytest.fixture(scope="module")
def visitor(web_mixed, listings):
    """A client for the pages of the image, after another one had it alone."""
    with Browsed(web_mixed) as browsed:
        yield Visitor(browsed)


@pytest.mark.parametrize("typed, meant", (
    (b"music/subject:pla", ["music/subject:plan"]), (b"!year:/subject:PLA", ["!year:/subject:plan"]),
    (b"subject:number", [f"subject:number{number}" for number in (0, 1, 10, 11, 12)]), (b"subject:nosuch", []), (b"nosuch", [])))
def test_values_that_begin_so(visitor, typed, meant):
    """A value that no file has leads to those that begin with it, five at most."""
    seen = visitor.page(at=typed, status=404)
    assert [label for _, label, _ in seen.links if label.startswith(("music/", "!", "subject:"))] == meant
    assert all(leads(seen, formula) == f"./?at={formula}" for formula in meant) and ("Did you mean" in seen.text) == bool(meant)


@pytest.mark.parametrize("typed, wanted, told", (
    (b"music|nosuch", "music", "nosuch: no file has this word"), (b"year:7|!(x:y|live)/music", "!live/music", "year:7, x:y: no file has these words")))
def test_a_word_that_no_file_has(visitor, typed, wanted, told):
    """Beside `|` it is left out, and a line says so."""
    seen, plain = visitor.page(at=typed), visitor.page(at=wanted)
    assert f"{told}, so the formula is `{wanted}`." in seen.text and seen.counts() == plain.counts() and seen.links == plain.links


@pytest.mark.parametrize("typed", (b"music|!nosuch", b"music/nosuch", b"nosuch|nosuch"))
def test_a_word_that_is_refused(visitor, typed):
    assert "nosuch: not known here." in visitor.page(at=typed, status=404).text


@pytest.mark.parametrize("label, wanted", (
    ("Take out live", "./?at=/music/year:/!size:small"), ("Take out year:", "./?at=/(live|music)/!size:small"),
    ("Negate music", "./?at=/(live|!music)/year:/!size:small"), ("Without not: size:small", "./?at=/(live|music)/year:/size:small"),
    ("or: change it to and", "./?at=/live/music/year:/!size:small"), ("and: change it to or", "./?at=/(live|music|year:)/!size:small"),
    ("all files", "./")))
def test_link(visitor, label, wanted):
    assert leads(visitor.page(at="/(live|music)/year:/!size:small"), label) == wanted


def test_a_word_narrows(visitor):
    assert leads(visitor.page(at="music/year:"), "2001") == "./?at=/music/year:/year:2001"


def test_the_way_to_a_file(visitor):
    route = [urllib.parse.unquote(href) for href, _, _ in visitor.page("file", name="song9").links]
    assert "./?at=/music/live" in route or "./?at=/ext:/music" in route


def test_a_file_by_its_words(visitor):
    assert "See you." in visitor.page("file", name="mail3.eml").text


@pytest.mark.parametrize("page, given, inside, outside", (
    pytest.param("", {"at": "subject:plan", "q": "NUMBER1"}, ("11 of",), ("p1",), id="a filter"),
    pytest.param("", {"q": "nosuch"}, ("0 of",), (), id="a filter that finds nothing"),
    pytest.param("words", {"at": "subject:plan", "group": "subject:"}, ("number19",), ("p1",), id="a group"),
    pytest.param("words", {"group": "<b>"}, ("0 words",), (), id="no such group"),
    pytest.param("files", {}, ("77 files",), (), id="a page of files"),
    pytest.param("files", {"q": "song1"}, ("11 of 77",), ("part1",), id="a filter of files"),
    pytest.param("files", {"page": "99"}, ("77 files",), (), id="a page that is not there"),
    pytest.param("", {"at": "unused"}, ("0 files here", "There is no file here"), (), id="a place without files"),
    pytest.param("declared", {}, ("unused", "size>=100", "2 of 1,024 axioms"), (), id="declared words")))
def test_page(visitor, page, given, inside, outside):
    seen = visitor.page(page, **given)
    main = seen.text.partition("Words and axioms")[2]
    for text in inside:
        assert text in seen.text
    for text in outside:
        assert text not in main


@pytest.mark.parametrize("formula, number", (
    (b"nosuch", 6), (b"music/", 5), (b"a b", 5), (b"a" * 1_025, 7), (b"<script>", 5), (b"\xff\0", 5), (b"/" + b"!" * 99 + b"a", 7)),
    ids=lambda given: str(given)[:20])
def test_no_such_place(visitor, formula, number):
    told = "nosuch: not known here. No file has it, and nobody has declared it." if number == 6 else REFUSALS[number].sentence
    assert told in visitor.page(at=formula, status=404).text


@pytest.mark.parametrize("name", (b"nosuch", b"..", b"../../etc/passwd", b"<script>", b"\xff\0", b"a b", b"", b"x" * 2_000),
                         ids=lambda name: str(name)[:20])
@pytest.mark.parametrize("page", ("file", "bytes"))
def test_no_such_file(visitor, page, name):
    answer = visitor.get(page, name=name)
    assert answer.status in (404, 409) and b"<script>" not in answer.data


# What is in a file stays text, and is downloaded as bytes.

@pytest.mark.parametrize("name, text", (
    ("evil.txt", "<script>alert('1')</script>\" ' & <img src=x onerror=alert(2)>"), ("evil.eml", "<script>alert(1)</script>"),
    ("mail.eml", "Gr\u00fc\u00dfe"), ("raw", "Its bytes are no text"), ("empty", "It is empty"), ("@-+._", "It is empty"),
    ("part3.c", "#include <stdio.h>"), ("large", "The first 262,144 characters")))
def test_what_is_shown(visitor, name, text):
    assert text in visitor.page("file", name=name).text


def test_bytes_as_text(visitor):
    assert "\u2400\u2401" in visitor.page("file", name="raw", as_="text").text


def test_a_mail_as_it_is_written(visitor):
    assert "Content-Transfer-Encoding: base64" in visitor.page("file", name="mail.eml", as_="text").text


def test_no_part_of_a_mail_is_live(visitor):
    assert "<b>x</b>" in visitor.page("file", name="mail.eml").text


@pytest.mark.parametrize("name, content", (("raw", bytes(range(256)) * 8), ("evil.txt", EVIL), ("large", b"x" * 300_000), ("empty", b"")),
                         ids=("raw", "evil.txt", "large", "empty"))
def test_download(visitor, name, content):
    answer = visitor.get("bytes", name=name)
    assert answer.data == content and answer.headers["Content-Type"] == "application/octet-stream"
    assert answer.headers["Content-Disposition"] == f'attachment; filename="{name}"'


@pytest.mark.parametrize("page", ("style.css", "script.js", "icon.svg"))
def test_files_beside_the_pages(visitor, page):
    answer = visitor.get(page)
    assert answer.status == 200 and answer.data and answer.headers["X-Content-Type-Options"] == "nosniff"


# 4,096 files with 8,000 words: lists are cut, and counts are the program's.

NAMES = [b"f%04d" % k for k in range(4_096)]


@pytest.fixture(scope="module")
def many(web_program, tmp_path_factory):
    image = make(str(tmp_path_factory.mktemp("many") / "many"), b"mkdir k:\n" + b"".join(
        b"create %s k:%04d k:%04d k:%04d\n" % (name, k % 4_000, 4_000 + k * 7 % 4_000, k * k % 97) for k, name in enumerate(NAMES)),
        ("4096", "8192", "8"))
    with Browsed(image) as browsed:
        yield image, browsed, Visitor(browsed)


def test_many_files(many):
    seen = many[2].page()
    assert "4,096 files" in seen.text and "8,000 words" in seen.text and "more: all 8,000" in seen.text
    told = seen.counts()
    assert list(told.values()) == sorted(told.values(), reverse=True)


def test_pages_of_many_words(many):
    pages = {number: many[2].page("words", group="k:", page=number).counts() for number in (1, 40)}
    assert [len(page) for page in pages.values()] == [200, 200]
    assert min(pages[1].values()) >= max(pages[40].values())


@pytest.mark.parametrize("page, first", ((1, 0), (2, 100), (41, 4_000)))
def test_pages_of_many_files(many, page, first):
    found = [text for _, text, _ in many[2].page("files", page=page).links if re.fullmatch("f[0-9]+", text)]
    assert found == [name.decode() for name in NAMES[first:][:100]]


def test_counts_of_many_files(many):
    image, browsed, visitor = many
    told = {b"/" + word: count for word, count in list(visitor.page().counts().items())[:3]}
    told[b"/k:0001/k:4007"] = visitor.page(at="/k:0001").counts()[b"k:4007"]
    browsed.end()
    assert numbers_by_program(image, told) == told
