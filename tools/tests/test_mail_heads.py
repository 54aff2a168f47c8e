"""Mails that `tools/sync` took in, as a person sees them in the prompt and in the pages: the more useful heads come first. In a script nothing differs
from the program.
"""
import re
import subprocess
import sys

import pytest

from lisfs.client import PROGRAM
from lisfs.listings import by_rank, groups_of
from support import tool
from support.images import written
from support.syncing import LIMITS, mail, maildir, make, sync
from support.visitors import Browsed
from support.waiting import LONG
from support.web import Visitor

pytestmark = [pytest.mark.usefixtures("program"), pytest.mark.limits(*LIMITS)]
TITLES = re.compile(r"^(?:<h3>)?([a-zA-Z]+:?)(?: \([0-9,]+\)|</h3>)", re.M)
# What readline sends to a terminal around a line.
PASTES = re.compile(rb"\x1b\[\?2004[hl]\r?")


def brought_in():
    """Mails of two people about two things, one of them of a list, and a file of another kind."""
    maildir("mail")
    for number, (name, subject) in enumerate((("ann", "Budget plan"), ("ann", "Lunch today"), ("bob", "Budget again"), ("bob", "Lunch tomorrow"))):
        written(f"mail/cur/{number}:2,", mail(subject, f"{name.capitalize()} Doe <{name}@example.org>", f"to{number}@example.org", number,
                                              "List-Id: <dev.example.org>\n" if number == 0 else "").replace("Jun", "Jun" if number else "May"))
    make()
    assert sync("--as", "m", "image", "mail")[0] == 0


def test_ranks():
    words = [(b"from:a", 9), (b"who:a", 1), (b"date:2024-06", 5), (b"subject:b", 9), (b"about:b", 2), (b"thread:b", 1), (b"to:c", 1), (b"live", 1),
             (b"subject:", 7), (b"list:", 2), (b"who:", 3), (b"year:", 2)]
    assert [group for group, _ in groups_of(words)] == [b"words", b"heads", b"about:", b"thread:", b"who:", b"date:", b"from:", b"subject:", b"to:"]
    assert dict(groups_of(words))[b"heads"] == [(b"who:", 3), (b"list:", 2), (b"year:", 2), (b"subject:", 7)]
    assert by_rank(word for word, _ in words) == [
        b"live", b"about:b", b"thread:b", b"who:", b"who:a", b"date:2024-06", b"list:", b"year:", b"from:a", b"subject:", b"subject:b", b"to:c"]


def test_the_prompt(at_terminal):
    brought_in()
    with at_terminal(NO_COLOR="1", PAGER="cat") as at:
        at.sees(b"/> ")
        at.types(b"ls\n").sees(b"ls\r\n")
        shown = PASTES.sub(b"", at.sees(b"/> ") or b"").decode().replace("\r\n", "\n")
        assert TITLES.findall(shown) == ["Heads", "about:", "who:", "date:", "from:", "subject:", "to:"], shown
        # The first Tab completes what all have in common, which is nothing.
        at.types(b"cd \t\t").sees(b"cd ")
        shown = PASTES.sub(b"", at.sees(b"/> cd ") or b"").decode()
        heads = list(dict.fromkeys(word.partition(":")[0] for word in by_columns(shown)))
        assert heads == ["about", "who", "date", "list", "from", "subject", "to"], shown
        assert [word for word in by_columns(shown) if word.startswith("about:")] == [
            "about:again", "about:budget", "about:lunch", "about:plan", "about:today", "about:tomorrow"], "in byte order"
        at.types(b"\x15quit\n")
        assert at.ends() == 0


def by_columns(shown):
    """The words of a table, from top to bottom and then to the right."""
    rows = [line.split() for line in shown.replace("\x07", "").splitlines() if ":" in line and not line.startswith("/>")]
    return [row[at] for at in range(max(map(len, rows))) for row in rows if at < len(row)]


def test_a_script():
    """What the program prints stays as it is."""
    brought_in()
    shown = subprocess.run([sys.executable, tool("shell"), "image"], input=b"ls\n", stdout=subprocess.PIPE, timeout=LONG, check=True).stdout
    plain = subprocess.run([PROGRAM, "run", "image"], input=b"ls\n", stdout=subprocess.PIPE, timeout=LONG, check=True).stdout
    assert shown + b"ok\n" == plain and shown.index(b"d from:") < shown.index(b"d who:")


def test_the_pages():
    brought_in()
    with Browsed("image") as browsed:
        visitor = Visitor(browsed)
        root = visitor.page()
        heads = list(dict.fromkeys(label.partition(":")[0] for _, _, label in root.links if label and re.match("[a-z]+:.*, [0-9]+ file", label)))
        # `list:` is a head alone, since one mail has it.
        assert heads == ["list", "about", "who", "date", "from", "subject", "to"], heads
        name = next(text for _, text, _ in visitor.page("files").links if text.startswith("budget-plan-"))
        words = [text for _, text, _ in visitor.page("file", name=name).links if re.fullmatch("[a-z]+:[^ ]*", text)]
        # After the way to it: words that it was given, words that it has on its own, and heads.
        assert [word.partition(":")[0] for word in words if not word.endswith(":")][-13:] == [
            "about", "about", "who", "who", "date", "list", "sync", "ext", "size", "from", "subject", "subject", "to"], words
        assert [word for word in words if word.endswith(":")] == [
            "about:", "who:", "date:", "ext:", "list:", "size:", "sync:", "from:", "subject:", "to:"], words
