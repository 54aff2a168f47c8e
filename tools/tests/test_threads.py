"""Mails of one thread: the word that `tools/sync --threads` and `tools/import --threads` give them, and that it stays the same."""
import os
import random
import re
import subprocess
import sys

import pytest

from lisfs.client import Items
from lisfs.folder.threads import Letter, words_of
from lisfs.words import is_assignable
from support import tool
from support.costs import bounded
from support.images import dump, session, written
from support.shells import shell
from support.syncing import LIMITS, held, mail, maildir, make, sync
from support.visitors import Browsed
from support.waiting import LONG
from support.web import Visitor

pytestmark = pytest.mark.usefixtures("program")
THREADS = ("--as", "m", "--threads", "image", "mail")


# Which mails are one thread.

def letters(*rows):
    """Mails by rows of an identity, those before it, the nearest last as in References, and a subject."""
    return [Letter(one, tuple(reversed(before.split())), subject, float(at), f"{at:03}") for at, (one, before, subject) in enumerate(rows)]


def named(*rows):
    return [word and word.decode() for word in words_of(letters(*rows))]


@pytest.mark.parametrize("rows, wanted", (
    ([("a", "", "Budget")], [None]),
    ([("a", "", "Budget"), ("b", "a", "Re: Budget"), ("c", "a b", "AW: Re: Budget"), ("d", "", "Lunch")], ["budget"] * 3 + [None]),
    # The nearest one that is there.
    ([("a", "", "Budget"), ("c", "a gone", "Re: Other"), ("d", "x y", "Re: Budget")], ["budget", "budget", None]),
    # A mail whose parent is not there begins a thread, also if another one has the same parent.
    ([("b", "gone", "Re: Budget"), ("c", "gone", "Re: Budget")], [None, None]),
    ([("b", "gone", "Re: Budget"), ("c", "gone b", "Re: Re: Other")], ["budget"] * 2),
    # Threads of one subject have one word.
    ([("a", "", "Budget"), ("b", "a", "x"), ("c", "", "Re: budget!"), ("d", "c", "y"), ("e", "", "Budget")], ["budget"] * 4 + [None]),
    # A circle, and what hangs on it; and a mail that names itself.
    ([("b", "a", "Second"), ("a", "b", "First"), ("c", "a", "Third")], ["second"] * 3),
    ([("a", "a", "Alone")], [None]), ([("a", "a", "Two"), ("b", "b a", "Re: Two")], ["two"] * 2),
    # Copies of one mail are no thread, and copies in a thread all have its word.
    ([("a", "", "Budget"), ("a", "", "Budget")], [None, None]),
    ([("a", "", "Budget"), ("a", "", "Budget"), ("b", "a", "Re: Budget"), ("b", "a", "Re: Budget")], ["budget"] * 4),
    # Without a Message-ID it can answer, and is answered by none.
    ([("a", "", "Budget"), (None, "a", "Re: Budget"), (None, "", "Other")], ["budget", "budget", None]),
    ([(None, "", "Budget"), (None, "", "Re: Budget")], [None, None])))
def test_threads(rows, wanted):
    assert named(*rows) == [word and f"thread:{word}" for word in wanted]


@pytest.mark.parametrize("subject, word", (
    ("Re: Budget 2024", "budget-2024"), ("RE: re : Fwd: FW: Budget", "budget"), ("Re[2]: AW(3): budget", "budget"), ("Regarding: this", "regarding-this"),
    ("Re-use", "re-use"), ("SV: VS: TR: RV: WG: Antw: Bücher", "buecher"), ("[dev] Re: Budget", "dev-re-budget"), ("x" * 100, "x" * 53),
    ("one two three four five six seven eight nine ten eleven twelve", "one-two-three-four-five-six-seven-eight-nine-ten")))
def test_names(subject, word):
    assert named(("a", "", subject), ("b", "a", "any")) == [f"thread:{word}"] * 2 and is_assignable(f"thread:{word}".encode())


@pytest.mark.parametrize("subject", ("", "Re:", "Re: Fwd:", "\N{CJK UNIFIED IDEOGRAPH-6F22}", "!!!"))
def test_no_name(subject):
    """Digits of the first mail's identity, whatever answers it."""
    first, second = named(("a", "", subject), ("b", "a", "any"))
    assert first == second and re.fullmatch("thread:[0-9a-f]{10}", first)
    assert named(("c", "a", "any"), ("a", "", subject)) == [first] * 2, "the same in another folder"
    assert named(("x", "", subject), ("b", "x", "any"))[0] != first, "and another one for another mail"


def test_what_does_not_count():
    """A mail that can't come into the image, for example since it is too large, names a thread, and does not make one."""
    first, second, third = letters(("a", "", "Pictures"), ("b", "a", "Re: Thanks"), ("c", "a b", "Re: Thanks"))
    assert words_of([first._replace(counts=False), second]) == [None, None]
    assert words_of([first._replace(counts=False), second, third]) == [b"thread:pictures"] * 3


def test_any_order():
    """The words do not depend on the order in which mails are found, nor on which others are there."""
    chance = random.Random(5)
    rows = [(f"m{at}", " ".join(f"m{chance.randrange(at)}" for _ in range(chance.randrange(3)) if at), f"Re: subject {at}") for at in range(300)]
    all_letters = letters(*rows)
    wanted = dict(zip((letter.key for letter in all_letters), words_of(all_letters)))
    for _ in range(5):
        chance.shuffle(all_letters)
        assert dict(zip((letter.key for letter in all_letters), words_of(all_letters))) == wanted


@pytest.mark.parametrize("rows", (
    [(f"m{at}", f"m{at - 1}", "Re: long") for at in range(30_000)], [(f"m{at}", f"m{(at + 1) % 30_000}", "circle") for at in range(30_000)],
    [(f"m{at}", " ".join(f"x{one}" for one in range(32)), "none") for at in range(30_000)]))
def test_cost(rows):
    """Long threads, circles and many references take time in proportion to them."""
    many = letters(*((one, before, subject) for one, before, subject in rows))
    _, is_fast, told = bounded(lambda: words_of(many), 1.5)
    assert is_fast, told


# In an image.

def answer(subject, number, *before, field="References", **more):
    told = " ".join(f"<{one}@example.org>" for one in before)
    return mail(subject, number=number, more=f"{field}: {told}\n" if before else "", **more)


def with_threads(top="mail"):
    """A thread of three, one of two in another folder by In-Reply-To alone, one of two `.eml` files, and two mails alone."""
    maildir(top, ".Lists")
    written(f"{top}/cur/1:2,", answer("Budget 2024", 1))
    written(f"{top}/cur/2:2,", answer("Re: Budget 2024", 2, 1))
    written(f"{top}/cur/3:2,", answer("AW: Re: Budget 2024", 3, 1, 2))
    written(f"{top}/.Lists/cur/4:2,", answer("Lunch?", 4))
    written(f"{top}/cur/5:2,", answer("Re: Lunch?", 5, 4, field="In-Reply-To"))
    written(f"{top}/cur/6:2,", answer("Alone", 6))
    written(f"{top}/cur/7:2,", answer("Re: Gone", 7, 99))


def threads(image="image"):
    """The thread of each mail, by the words of its subject."""
    return {name.rpartition("-")[0]: sorted(word for word in words if word.startswith("thread:")) for name, words in held(image).items()}


BUDGET, LUNCH = ["thread:budget-2024"], ["thread:lunch"]
FOUND = {"budget-2024": BUDGET, "re-budget-2024": BUDGET, "aw-re-budget-2024": BUDGET, "lunch": LUNCH, "re-lunch": LUNCH, "alone": [], "re-gone": []}


@pytest.mark.limits(*LIMITS)
def test_sync(image):
    with_threads()
    assert sync(*THREADS) == (0, ["sync:m: 7 new, 0 as they were"], "")
    assert threads() == FOUND
    before = dump()
    assert sync(*THREADS)[1] == ["sync:m: nothing changed, 7 as they were"] and dump() == before, "a second run changes nothing at all"
    assert sync(*THREADS, "--no-cache")[1] == ["sync:m: nothing changed, 7 as they were"] and dump() == before, "nor without what was kept"
    # A reply that comes later joins its thread, and the first mail that is answered gets a word.
    written("mail/new/8", answer("Re: Something else", 8, 1, 3))
    written("mail/new/9", answer("Re: Alone", 9, 6))
    assert sync(*THREADS)[1] == ["sync:m: 2 new, 1 with other words, 6 as they were"]
    assert threads() == FOUND | {"re-something-else": BUDGET, "alone": ["thread:alone"], "re-alone": ["thread:alone"]}
    # The first mail of a thread goes: what is left of it keeps its word.
    os.remove("mail/cur/1:2,")
    assert sync(*THREADS)[1] == ["sync:m: 1 gone, 8 as they were"]
    os.remove("mail/.Lists/cur/4:2,")
    assert sync(*THREADS)[1] == ["sync:m: 1 with other words, 1 gone, 6 as they were"] and threads()["re-lunch"] == [], "and one alone has none"


@pytest.mark.limits(*LIMITS)
def test_without_the_option(image):
    """Words of threads are not the folder's then: they stay as they are, whoever gave them."""
    with_threads()
    assert sync("--as", "m", "image", "mail")[1] == ["sync:m: 7 new, 0 as they were"] and set(map(tuple, threads().values())) == {()}
    name = next(name for name in held() if name.startswith("alone-"))
    with session() as program:
        program.mkdir(b"thread:")
        program.mv(name.encode(), b"thread:mine")
    assert sync("--as", "m", "image", "mail")[1] == ["sync:m: nothing changed, 7 as they were"]
    assert sync("--as", "m", "--newest", "1", "image", "mail")[1][-1] == "1 older file changed in the image: not removed", "and so is a file with one"
    assert sync("--as", "m", "image", "mail")[1] == ["sync:m: 5 new, 2 as they were"] and threads()["alone"] == ["thread:mine"]
    assert sync(*THREADS)[1] == ["sync:m: 6 with other words, 1 as they were"] and threads() == FOUND, "with the option they are"
    assert sync("--as", "m", "image", "mail")[1] == ["sync:m: nothing changed, 7 as they were"] and threads() == FOUND, "and stay without it"
    written("mail/new/8", answer("Re: Budget 2024", 8, 3))
    assert sync("--as", "m", "image", "mail")[1] == ["sync:m: 1 new, 7 as they were"] and [] in threads().values()
    assert sync(*THREADS)[1] == ["sync:m: 1 with other words, 7 as they were"], "it joins later"


@pytest.mark.limits(*LIMITS)
def test_files(image):
    """`.eml` files in folders have threads too, and other files none."""
    written("mail/a/1.eml", answer("Budget", 1))
    written("mail/2.EML", answer("Re: Budget", 2, 1))
    written("mail/3.txt", answer("Re: Budget", 3, 1))
    assert sync(*THREADS)[0] == 0
    assert {name: sorted(word for word in words if word.startswith("thread:")) for name, words in held().items()} == {
        "a+1.eml": ["thread:budget"], "2.EML": ["thread:budget"], "3.txt": []}


@pytest.mark.limits(*LIMITS)
def test_many_people(image):
    """The word of a thread comes before those of people, of which there may be too many."""
    maildir("mail")
    many = ", ".join(f"Person P{number} <p{number}@example.org>" for number in range(30))
    for number, before in ((1, ()), (2, (1,))):
        written(f"mail/cur/{number}:2,", answer("Budget", number, *before, to=many))
    assert sync(*THREADS)[0] == 0 and set(map(tuple, threads().values())) == {("thread:budget",)}
    assert sync(*THREADS)[1][0] == "sync:m: nothing changed, 2 as they were"


@pytest.mark.limits("64", "64", "64")
def test_no_room(image):
    """If no further word has room, mails come in without the word of their thread, and a later run with room gives it."""
    maildir("mail")
    for number in range(30):
        written(f"mail/cur/{2 * number}:2,", answer(f"Topic t{number}", 2 * number))
        written(f"mail/cur/{2 * number + 1}:2,", answer(f"Re: Topic t{number}", 2 * number + 1, 2 * number))
    status, out, _ = sync(*THREADS)
    count = sum(map(bool, threads().values()))
    assert status == 1 and len(held()) == 60 and 0 < count < 60 and any("no room for more words" in line for line in out), (out, count)
    before = held()
    assert sync(*THREADS)[1][0] == "sync:m: nothing changed, 60 as they were" and held() == before, "it is the same at each run"


@pytest.mark.limits(*LIMITS)
def test_import(image):
    with_threads()
    made = subprocess.run([sys.executable, tool("import"), "--threads", "mail"], capture_output=True, timeout=LONG, check=True)
    with session() as program:
        for line, payload in commands_of(made.stdout):
            program.send_bytes(line, payload)
            program.receive()
    found = {name: sorted(word for word in words if word.startswith("thread:")) for name, words in held().items()}
    assert found == {"1.eml": BUDGET, "2.eml": BUDGET, "3.eml": BUDGET, "4.eml": LUNCH, "5.eml": LUNCH, "6.eml": [], "7.eml": []}
    plain = subprocess.run([sys.executable, tool("import"), "mail"], capture_output=True, timeout=LONG, check=True)
    assert b"thread:" not in plain.stdout and plain.stdout.count(b"\nadd ") == 7


def commands_of(session_bytes):
    items = Items()
    items.feed(session_bytes)
    while taken := items.take():
        yield taken


@pytest.mark.limits(*LIMITS)
def test_listed_and_opened_together(image):
    """By the prompt and by the pages, as any head."""
    with_threads()
    sync(*THREADS)
    names = sorted(name for name, words in held().items() if "thread:budget-2024" in words)
    os.mkdir("out")
    shown = shell(b"find thread:budget-2024\nget in thread:budget-2024 out\nls\n")
    assert shown.status == 0 and shown.shown.decode().splitlines()[:3] == names and sorted(os.listdir("out")) == names, shown
    assert b"d thread:\n" in shown.shown
    with Browsed("image") as browsed:
        visitor = Visitor(browsed)
        assert any(link.label and link.label.startswith("thread:budget-2024, 3 files") for link in visitor.page(at="thread:").links)
        assert sorted(link.text for link in visitor.page("files", at="thread:budget-2024").links if link.text.endswith(".eml")) == names
        assert any(link.text == "thread:budget-2024" for link in visitor.page("file", name=names[0]).links), "from each mail"
