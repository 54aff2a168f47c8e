"""The parts of `tools/browse` separately: places, rows, texts, templates, and the time that the longest files take."""
import glob
import os
import random
import re

import pytest

from lisfs.formulas import NotAFormula
from lisfs.index import File, Index
from lisfs.refusals import REFUSALS, sentence
from lisfs.web import contents, markup, pages, site
from lisfs.web.markup import rendered, visible
from lisfs.web.places import Place
from support import TOOLS
from support.costs import bounded
from support.web import COST, HOSTILE_MAILS, MAIL

WEB = os.path.join(TOOLS, "lisfs/web")


# Places.

@pytest.mark.parametrize("text, steps, words", (
    (b"/", [], ()), (b"music", [[b"music"]], (b"music",)), (b"music/year:2003", [[b"music"], [b"year:2003"]], (b"music", b"year:2003")),
    (b"!live/size>=10", [[b"!live"], [b"size>=10"]], None), (b"(a|b)/c", [[b"a", b"b"], [b"c"]], None),
    (b"((a|b)|c)", [[b"a", b"b", b"c"]], None), (b"(a|(b/c))", [[b"a", b"(b/c)"]], None), (b"((a/b)/c)", [[b"((a/b)/c)"]], None),
    (b"!(a|b)", [[b"!(a|b)"]], None), (b"(!(a|b)|!!c)/d", [[b"!(a|b)", b"!!c"], [b"d"]], None), (b"a/a", [[b"a"], [b"a"]], (b"a",))))
def test_steps(text, steps, words):
    place = Place(text)
    assert (place.steps, place.words) == (steps, words)


NEAR = Place(b"(a|!b)/c/d")


@pytest.mark.parametrize("got, wanted", (
    pytest.param(NEAR.text, b"/(a|!b)/c/d", id="itself"), pytest.param(NEAR.with_word(b"e:1"), b"/(a|!b)/c/d/e:1", id="a word more"),
    pytest.param(NEAR.without(0, 0), b"/!b/c/d", id="without a part"), pytest.param(NEAR.without(1, 0), b"/(a|!b)/d", id="without a step"),
    pytest.param(NEAR.negated(0, 0), b"/(!a|!b)/c/d", id="negated"), pytest.param(NEAR.negated(0, 1), b"/(a|b)/c/d", id="no more negated"),
    pytest.param(NEAR.joined(0), b"/(a|!b|c)/d", id="joined"), pytest.param(NEAR.joined(1), b"/(a|!b)/(c|d)", id="joined words"),
    pytest.param(NEAR.parted(0, 0), b"/a/!b/c/d", id="parted"), pytest.param(Place(b"a").without(0, 0), b"/", id="the last step out"),
    pytest.param(Place(b"((a/b)|c)").negated(0, 0), b"/(!(a/b)|c)", id="a group negated")))
def test_places_nearby(got, wanted):
    assert got == wanted


@pytest.mark.parametrize("text", (b"(", b"a b", b"a/", b"a||b", b"!", b"size>"))
def test_no_place(text):
    with pytest.raises(NotAFormula):
        Place(text).files(Index())


# Rows of bits compared with sets.

WORDS = [b"w%d" % number for number in range(12)]


@pytest.fixture(scope="module")
def described():
    """An index after random changes, and the size and the words of each file."""
    chance, index, files = random.Random(7), Index(), {}
    for turn in range(3_000):
        name, kind, has = b"n%d" % chance.randrange(60), chance.randrange(4), frozenset(chance.sample(WORDS, chance.randrange(6)))
        if name not in files:
            files[name] = turn % 50, has
            index.describe(index.add(name, turn % 50, ()), has)
        elif kind == 0:
            del files[name]
            index.drop(index.files[name])
        elif kind == 1:
            other = b"m%d" % turn
            files[other] = files.pop(name)
            index.rename(index.files[name], other)
        else:
            files[name] = files[name][0], has
            index.describe(index.files[name], has)
    return index, files


@pytest.mark.parametrize("text, is_so", (
    (b"/", lambda size, of: True), (b"w1", lambda size, of: b"w1" in of), (b"!w1/w2", lambda size, of: b"w1" not in of and b"w2" in of),
    (b"(w1|(w2/w3))", lambda size, of: b"w1" in of or {b"w2", b"w3"} <= of), (b"!(w1|w2)", lambda size, of: not of & {b"w1", b"w2"}),
    (b"(!!w4|w5)/w6", lambda size, of: bool(of & {b"w4", b"w5"}) and b"w6" in of), (b"size>=21", lambda size, of: size >= 21),
    (b"size<21/w7", lambda size, of: size < 21 and b"w7" in of), (b"none", lambda size, of: False)))
def test_files_of_a_place(described, text, is_so):
    index, files = described
    assert [file.name for file in index.of(Place(text).files(index))] == sorted(name for name, (size, of) in files.items() if is_so(size, of))


def test_all_rows(described):
    index, files = described
    assert {word: {file.name for file in index.of(index.having(word))} for word in WORDS} == {
        word: {name for name, (_, of) in files.items() if word in of} for word in WORDS}


# What is shown of bytes: always text.

def shown(source, **given):
    """The result of a template with this source."""
    return markup.environment().from_string(source).render(given)


@pytest.mark.parametrize("got, wanted", (
    pytest.param(shown('<p title="{{ title }}">{{ text }}</p>', text="<b>&\"'", title='"><script>'),
                 '<p title="&#34;&gt;&lt;script&gt;">&lt;b&gt;&amp;&#34;&#39;</p>', id="markup"),
    pytest.param(shown("{% macro bold(text) %}<b>{{ text }}</b>{% endmacro %}<p>{{ bold(text) }}</p>", text="<"), "<p><b>&lt;</b></p>",
                 id="markup in markup"),
    pytest.param(shown("{% set told %}<{{ text }}{% endset %}<p>{{ told }}</p>", text="<"), "<p><&lt;</p>", id="markup that is set"),
    pytest.param(shown("<p>{{ text }}</p>", text=b"\xff\x00<"), "<p>\ufffd\u2400&lt;</p>", id="bytes"),
    pytest.param(shown("{{ number }}", number=7), "7", id="a number"),
    pytest.param(visible("a\0\x1b\x7f\x85\t\n\udcff"), "a\u2400\u241b\u2421\ufffd\t\n?", id="signs"),
    pytest.param(visible("a\u202eb\u2066"), "a\ufffdb\ufffd", id="what turns a text"),
    pytest.param(contents.text_of(b"a\xc3\xa4\n"), "a\u00e4\n", id="a text"),
    pytest.param(contents.text_of(b"a\0b"), None, id="a NUL"),
    pytest.param(contents.text_of(b"long enough \xff"), "long enough \ufffd", id="few wrong bytes"),
    pytest.param(contents.text_of(b"\x89PNG\xff\xfe\xfa"), None, id="many wrong bytes"),
    pytest.param(contents.header_text("=?UTF-8?B?R3LDvMOfZQ==?= from\n =?iso-8859-1?q?K=F6ln?="), "Gr\u00fc\u00dfe from K\u00f6ln",
                 id="an encoded header"),
    pytest.param(contents.header_text("=?utf-8?B?A?="), "=?utf-8?B?A?=", id="a header of a wrong code"),
    pytest.param(site.name_for(b"C:\\a\\x y.txt"), b"x_y.txt", id="a file's name")))
def test_text(got, wanted):
    assert got == wanted


@pytest.mark.parametrize("value", (None, [b"a"], {"a": 1}, 1.5))
def test_what_is_no_text_is_not_shown(value):
    with pytest.raises(TypeError):
        shown("{{ value }}", value=value)


TEMPLATES = {os.path.basename(path): path for path in glob.glob(os.path.join(WEB, "templates/*"))}


@pytest.mark.parametrize("name", sorted(TEMPLATES))
def test_template_escapes(name):
    """Each template is escaped, none turns that off, and each attribute that shows a value is in quotes."""
    assert name in markup.environment().list_templates() and name.endswith(".html")
    with open(TEMPLATES[name], encoding="utf-8") as file:
        source = re.sub(r"\{#.*?#\}|\{%.*?%\}", "", file.read(), flags=re.S)
        file.seek(0)
        assert not re.search(r"\|\s*safe|autoescape|Markup|\braw\b|xmlattr|tojson|urlize", file.read())
    for found in re.finditer(r"\{\{(.*?)\}\}", source, re.S):
        before = re.sub(r"\{\{.*?\}\}", "", source[:found.start()], flags=re.S)
        within = before[before.rfind("<"):] if before.rfind("<") > before.rfind(">") else ""
        assert not within or within.count('"') % 2 or found[1].strip("- ") in ("typed()", "parts.typed()"), found[0]
    assert "'" not in re.sub(r"\{\{.*?\}\}", "", source, flags=re.S) and "<style" not in source and "style=" not in source


def test_no_markup_of_python():
    """What is not a template makes no markup."""
    assert markup.environment().autoescape is True
    for path in glob.glob(os.path.join(WEB, "*.py")):
        with open(path, encoding="utf-8") as file:
            assert not re.search(r"Markup\(|<[a-z/]+>|from_string", file.read()), path


def test_mail():
    mail = contents.mail_of(MAIL)
    assert mail.headers == [("From", "Alice <alice@example.org>"), ("To", "bob@example.org"), ("Subject", "Gr\u00fc\u00dfe")]
    assert [(part.kind, part.name, part.text) for part in mail.parts] == [
        ("text/plain", None, "Sch\u00f6n\n"), ("text/html", None, "<b>x</b>\n"), ("application/pdf", "a b.pdf", None)]


@pytest.mark.parametrize("title", HOSTILE_MAILS)
def test_hostile_mail(title):
    found = contents.mail_of(HOSTILE_MAILS[title])
    assert found is None or sum(len(part.text or "") for part in found.parts) <= contents.SHOWN


def test_damaged_mails():
    chance = random.Random(3)
    for _ in range(300):
        cut = bytearray(MAIL)
        for _ in range(chance.randrange(1, 12)):
            at = chance.randrange(len(cut))
            cut[at:at + chance.randrange(3)] = chance.choice((b"", b"\0", b"\xff", b"\r", b"--x", b"=?", b";", b"\""))
        found = contents.mail_of(bytes(cut))
        assert found is None or all(isinstance(value, str) for _, value in found.headers), bytes(cut)


@pytest.mark.parametrize("number", range(1, 28))
def test_sentence(number):
    told = sentence(number, "ls")
    assert (REFUSALS[number].sentence is not None) == (number < 26) and told.endswith("."), told


# The time of a page.

@pytest.mark.parametrize("as_text", (False, True), ids=("shown", "as text"))
@pytest.mark.parametrize("title", HOSTILE_MAILS)
def test_cost(title, as_text):
    """No file takes longer to show than others may wait."""
    content = HOSTILE_MAILS[title]
    file = File(b"x.eml", len(content), (), 1)
    _, is_little, told = bounded(lambda: rendered("content.html", content=pages.content_of(file, content, as_text), file=file, place=Place(b"/")),
                                 COST)
    assert is_little, told


def test_report_of_delivery():
    report = contents.mail_of(b"Subject: x\nContent-Type: multipart/report; boundary=b\n\n--b\nContent-Type: message/delivery-status\n\n"
                              b"Reporting-MTA: dns; x.example\n\nAction: failed\n\n--b\nContent-Type: message/rfc822\n\nSubject: y\n\nback\n--b--\n")
    assert [(part.kind, part.text) for part in report.parts] == [
        ("text/plain", "Reporting-MTA: dns; x.example\n\nAction: failed\n"), ("text/plain", "back")]


def test_large_mail():
    large = b"Subject: x\nContent-Type: multipart/mixed; boundary=b\n\n--b\n\nhello\n--b\nContent-Type: application/pdf\n" \
        b"Content-Transfer-Encoding: base64\n\n" + (b"A" * 76 + b"\n") * 13_501 + b"--b--\n"
    assert [(part.kind, part.text, part.size) for part in contents.mail_of(large).parts] == [
        ("text/plain", "hello", 5), ("application/pdf", None, 13_501 * 57)]
