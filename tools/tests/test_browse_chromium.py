"""The pages of `tools/browse` in a real browser: by mouse and by keyboard, with a script and without one, and together with a page from elsewhere."""
import os
import re
import struct
import subprocess
import sys
import urllib.parse
import zlib

import pytest

from support import chromium
from support.visitors import Browsed
from support.web import EVIL, MIXED, in_memory, make


@pytest.fixture(scope="module")
def browser():
    if lacking := chromium.missing():
        pytest.skip(f"a walk in a browser, since {lacking}")
    with chromium.Chromium() as page:
        yield page


@pytest.fixture(scope="module")
def browsed(web_program, browser):
    """Pages that may change an image of files of all kinds. Each test changes separate files."""
    with in_memory() as folder, Browsed(make(os.path.join(folder, "image"), MIXED), "--write") as tool:
        yield tool


@pytest.fixture
def page(browser, browsed, web_folder):
    """A browser that shows the first page. At the end it has no complaints, and has requested nothing elsewhere."""
    start(browser, browsed)
    yield browser
    told = browser.told()
    assert [one for one in told if one.get("method") in chromium.COMPLAINTS] == []
    assert browser.complaints() == []
    asked = {urllib.parse.urlsplit(one["params"]["request"]["url"]).netloc for one in told if one.get("method") == "Network.requestWillBeSent"}
    assert asked == {f"127.0.0.1:{browsed.port}"}


def start(browser, browsed):
    browser.open("about:blank")
    browser.told()
    browser.complaints()
    browser.look(1600, 1000)
    browser.open(browsed.address)


def at(page, place):
    """Goes to a place by the formula field."""
    page.value("document.getElementById('at').select()")
    page.click("#at", leads=False)
    page.value("document.getElementById('at').select()")
    page.type(place)
    page.press("Enter", leads=True)


def search(page):
    return page.value("decodeURIComponent(location.search)")


# What pages look like.

def size_of(path):
    """The width and height of a picture, and roughly how many colours its rows of bytes show: an empty page has few."""
    with open(path, "rb") as file:
        data = file.read()
    width, height = struct.unpack(">II", data[16:24])
    pieces, place = b"", 8
    while place < len(data):
        length, kind = struct.unpack(">I4s", data[place:place + 8])
        pieces += data[place + 8:place + 8 + length] if kind == b"IDAT" else b""
        place += 12 + length
    return width, height, len(set(zlib.decompress(pieces)))


@pytest.mark.parametrize("name, place, clicks", (
    ("root", None, ()), ("place", "music/year:/year:2001", ((".path a", "Take out year:"),)),
    ("file", "music", (("main h1 + p a", None), (".files a", "evil.txt")))))
def test_picture(page, name, place, clicks):
    if place:
        at(page, place)
    for chooser, text in clicks:
        page.click(chooser, text)
    for width, height, is_dark in ((1600, 1000, False), (390, 844, False), (1600, 1000, True), (390, 844, True)):
        page.look(width, height, is_dark, width < 800)
        path = os.path.join(os.environ.get("PICTURES") or os.getcwd(), f"{name}-{width}{'-dark' if is_dark else ''}.png")
        page.picture(path)
        got = size_of(path)
        assert got[:2] == (width, height) and got[2] > 20
        assert page.value("document.documentElement.scrollWidth <= innerWidth"), page.value("document.documentElement.scrollWidth")
    # A label for each field, a name for each link and button, and one first heading.
    assert page.value("[...document.querySelectorAll('input:not([type=hidden])')].every((one) => one.labels.length)")
    assert page.value("[...document.querySelectorAll('a, button')].every((one) => one.innerText.trim())")
    assert page.value("document.querySelectorAll('h1').length") == 1


# A walk through the pages.

def test_the_token_is_not_in_the_address_bar(page):
    assert "token" not in page.value("location.href") and page.value("document.cookie") == ""


def test_by_keys(page):
    """From the root to a place by keyboard alone."""
    page.press("Tab")
    assert page.value("document.activeElement.className") == "skip"
    page.press("Enter")
    page.wait_for("document.activeElement.id == 'main'")
    for _ in range(20):
        page.press("Tab")
        assert page.value("getComputedStyle(document.activeElement).outlineStyle") == "solid", page.value("document.activeElement.outerHTML")
        if page.value("document.activeElement.textContent") == "music":
            break
    page.press("Enter", leads=True)
    assert page.value("location.search") == "?at=/music"


def test_steps(page):
    """A word narrows, and a step is taken out, negated and joined."""
    for chooser, text, wanted in (
            (".card a", "music", "/music"), (".card a", "year:", "/music/year:"), (".card a", "2001", "/music/year:/year:2001"),
            (".path a", "Take out year:", "/music/year:2001"), (".path a", "Negate year:2001", "/music/!year:2001"),
            (".path a", "Without not: year:2001", "/music/year:2001"), (".path a", "and: change it to or", "/(music|year:2001)"),
            (".path a", "or: change it to and", "/music/year:2001"), (".path a", "Take out year:2001", "/music")):
        page.click(chooser, text)
        assert search(page) == f"?at={wanted}", text


def test_filter(page):
    """Words are found while one types into it, and by Enter."""
    at(page, "music")
    page.press("/")
    assert page.value("document.activeElement.id") == "q", page.value("document.activeElement.outerHTML")
    page.type("live")
    page.wait_for("document.getElementById('told').innerText.startsWith('1 of')")
    assert page.value("document.querySelectorAll('.card a').length") == 1 and "q=live" in page.value("location.search")
    page.press("Enter", leads=True)
    assert page.value("document.querySelectorAll('.card a').length") == 1


def show(page, name="evil.txt"):
    """The page of a file, by clicks, from the first page: a hostile one, or another piece of music."""
    page.click(".card a", "music")
    page.click("main h1 + p a")
    page.click(".files a", name)


def test_the_text_of_a_file_is_text(page):
    show(page)
    assert "<script>alert('1')</script>" in page.value("document.querySelector('pre').textContent")


GIVEN = "[...document.querySelectorAll('.tags .given a')].map((a) => a.textContent).join(' ')"


def test_a_word_given_and_taken(page):
    """By keyboard alone, and by mouse."""
    show(page)
    assert page.value(GIVEN) == "music"
    page.value("document.querySelector('.changes input[name=word]').closest('form').previousElementSibling.setAttribute('tabindex', '-1')")
    page.value("document.querySelector('.changes h2').focus()")
    page.press("Tab")
    assert page.value("document.activeElement.name") == "word", page.value("document.activeElement.outerHTML")
    page.type("year:2024")
    page.press("Enter", leads=True)
    assert page.value(GIVEN) == "music year:2024" and "has the word now" in page.value("document.querySelector('.done').textContent")
    page.click(".tags button", "Take year:2024 from the file")
    assert page.value(GIVEN) == "music" and "no more" in page.value("document.querySelector('.done').textContent")


CHOSEN = "document.querySelectorAll('td.choice input:checked').length"


def test_files_chosen(page):
    """One box chooses all files of a page, also of a filtered one; they are tagged, and that is undone."""
    page.click(".card a", "music")
    page.click("main h1 + p a")
    count = page.value("document.querySelectorAll('td.choice input').length")
    page.click("th.choice input", leads=False)
    assert page.value(CHOSEN) == count > 10
    page.click("th.choice input", leads=False)
    assert page.value(CHOSEN) == 0
    page.click("#q", leads=False)
    page.type("song1")
    page.wait_for("document.querySelectorAll('td.choice input').length < 12")
    page.click("th.choice input", leads=False)
    page.click("td.choice input", leads=False)
    chosen = page.value(CHOSEN)
    page.click("#several input[name=word]", leads=False)
    page.type("year:2050")
    page.click("#several button", "Tag")
    assert f"The word was given to {chosen} files." in page.value("document.querySelector('.done').textContent")
    page.click(".undo button")
    assert "The last change is undone" in page.value("document.querySelector('.done').textContent")
    assert page.value("document.querySelectorAll('.undo').length") == 0


def test_a_file_removed(page):
    show(page, "song39")
    page.click("main a", "Remove this file")
    page.click("main a", "Keep it")
    page.click("main a", "Remove this file")
    page.click("main button", "Remove it")
    assert "removed" in page.value("document.querySelector('.done').textContent")


def test_an_upload(page):
    with open("<b>.txt", "wb") as file:
        file.write(EVIL)
    page.choose_file("input[type=file]", os.path.abspath("<b>.txt"))
    page.click("button", "Upload")
    assert page.value("document.querySelector('h1').textContent") == "_b_.txt"
    assert "<script>" in page.value("document.querySelector('pre').textContent")


def test_a_large_file_is_told_before(page):
    with open("large", "wb") as file:
        file.write(bytes(1_048_577))
    page.choose_file("input[type=file]", os.path.abspath("large"))
    assert page.wait_for("document.querySelector('input[type=file]').validationMessage").startswith("The file has 1048577 bytes")


# A page of another port can neither read these pages nor send their forms, nor show them in a frame.

@pytest.fixture
def elsewhere(browser, browsed, web_folder):
    """The browser, at a page of another port, whose links and forms lead to the pages."""
    start(browser, browsed)
    top = browser.value("location.pathname").rpartition("/")[0] + "/"
    own = f"http://127.0.0.1:{browsed.port}{top}"
    with open("index.html", "w", encoding="ascii") as file:
        file.write(f"<title>other</title><form method=post action='{own}remove'><input name=name value=song1><button>x</button></form>"
                   f"<a href='{own}'>y</a><iframe src='{own}'></iframe>")
    with subprocess.Popen([sys.executable, "-m", "http.server", "--bind", "127.0.0.1", "0"], stdout=subprocess.PIPE, stderr=subprocess.DEVNULL,
                          env={**os.environ, "PYTHONUNBUFFERED": "1"}) as other:
        try:
            port = re.search(rb"port ([0-9]+)", other.stdout.readline())[1].decode()
            browser.open(f"http://127.0.0.1:{port}/index.html")
            yield browser, own
        finally:
            other.kill()


def test_a_page_elsewhere_reads_nothing(elsewhere):
    browser, own = elsewhere
    told = browser.driver.execute_async_script(
        "const done = arguments[1]; fetch(arguments[0], {credentials: 'include'}).then((answer) => answer.text()).then(done, () => done('refused'))",
        own)
    assert told == "refused"


def test_a_page_elsewhere_shows_nothing_in_a_frame(elsewhere):
    frame = elsewhere[0].ask("Page.getFrameTree")["frameTree"]["childFrames"][0]["frame"]
    assert frame["url"].startswith("chrome-error:"), frame


def test_a_form_elsewhere(elsewhere):
    elsewhere[0].click("button", "x")
    assert "A page from elsewhere may not" in elsewhere[0].value("document.body.innerText")


def test_a_link_elsewhere(elsewhere):
    """It is refused, and the page leads on."""
    browser = elsewhere[0]
    browser.click("a", "y")
    assert "may not lead here" in browser.value("document.body.innerText")
    browser.click("a", "To all files")
    assert "files" in browser.value("document.querySelector('h1').textContent")


def test_without_a_script(page, browsed):
    """Everything works without a script too."""
    page.ask("Emulation.setScriptExecutionDisabled", value=True)
    try:
        page.open(browsed.address)
        page.click(".card a", "music")
        page.click("#q", leads=False)
        page.type("live")
        page.press("Enter", leads=True)
        assert page.value("document.querySelectorAll('.card a').length") == 1 and "q=live" in page.value("location.search")
    finally:
        page.ask("Emulation.setScriptExecutionDisabled", value=False)
