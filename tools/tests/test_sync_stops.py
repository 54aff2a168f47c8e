"""`tools/sync` over programs that stop it in the middle."""
import contextlib
import os
import shutil
import signal
import subprocess
import sys
import tempfile

import pytest

from support.images import dump, usage, written
from support.syncing import PROGRAM, SYNC, held, is_free, mail, maildir, make, sync
from support.waiting import LONG, until

pytestmark = pytest.mark.usefixtures("program")


# A program in front of the real one. It says which words it has, and notes how it is called. If it is told so, it reads a number of bytes of its
# input, and then kills its caller, or is killed, or ends, or reads nothing more until the end of the input.
FRONT = """#!{python}
import os, signal, subprocess, sys, time
with open({notes!r}, "a") as notes:
    print(*sys.argv[1:2], file=notes)
words = sys.argv[1:]
if not words:
    sys.stderr.write("lisfs: usage\\nlisfs run IMAGE\\nlisfs dump IMAGE\\n" + {usage!r})
    sys.exit(1)
does, limit = {does!r}, {limit}
if words[0] == "load" and "load" in {usage!r} and not {has_load}:
    words[0] = "run"
if does and words[0] in ("run", "load"):
    child = subprocess.Popen([{program!r}, *words], stdin=subprocess.PIPE)
    given = 0
    while data := os.read(0, min(65_536, limit - given)):
        child.stdin.write(data)
        child.stdin.flush()
        given += len(data)
        if given == limit:
            break
    if given == limit and does == "wait":
        open("here", "w").close()
        child.stdin.write(sys.stdin.buffer.read())
    if given == limit and does == "kill":
        os.kill(os.getppid(), signal.SIGKILL)
    if given == limit and does == "die":
        child.kill()
    child.stdin.close()
    status = child.wait()
    if status < 0:
        os.kill(os.getpid(), -status)
    sys.exit(status)
os.execv({program!r}, [{program!r}, *words])
"""


def front(path="front", usage=None, does="", limit=1):
    usage = usage if usage is not None else "lisfs load IMAGE\n" if has_load() else ""
    text = FRONT.format(python=sys.executable, notes=os.path.abspath("notes"), usage=usage, does=does, limit=limit, program=PROGRAM,
                        has_load=has_load())
    written(path, text, 0o755)
    return os.path.abspath(path)


def has_load():
    return b"lisfs load IMAGE" in usage(PROGRAM)


@pytest.mark.parametrize("words, wanted", (("", "run"), ("lisfs load IMAGE\n", "load")))
def test_words_of_the_program(words, wanted):
    written("top/f", "x")
    make()
    written("notes", "")
    status, out, error = sync("--as", "t", "image", "top", program=front(usage=words))
    assert (status, out, error) == (0, ["sync:t: 1 new, 0 as they were"], ""), f"by {wanted}"
    with open("notes", encoding="ascii") as notes:
        called = notes.read().split()
    assert called[-1] == wanted, f"the word {wanted}"
    assert held() == {"f": {"sync:t"}}, "a file"


def own(top):
    """The environment of runs whose cache and memories are kept there."""
    return {"XDG_CACHE_HOME": os.path.join(top, "cache"), "XDG_STATE_HOME": os.path.join(top, "state")}


def text_of(number, word):
    return mail(f"Subject number{number}", number=number if number % 7 else number // 14, body=f"{word} " * 200)


@contextlib.contextmanager
def brought():
    """A separate folder with mails, and an image `whole` of them by a run that nothing stopped."""
    top = tempfile.mkdtemp()
    with contextlib.chdir(top):
        maildir("mail", ".Old")
        for number in range(50):
            written(f"mail/cur/{number}:2,", text_of(number, "text"))
        for number in range(20):
            written(f"mail/.Old/cur/{number}:2,", mail(f"Old number{number}", number=1_000 + number, body="text " * 100))
        make("whole")
        assert sync("--as", "m", "whole", "mail", **own(top))[0] == 0, "a run that nothing stops"
    yield top
    shutil.rmtree(top)


@pytest.fixture(scope="module")
def first(program):
    """The path of a folder of mails, and the dump of its image."""
    with brought() as top:
        yield top, dump(os.path.join(top, "whole"))


@pytest.fixture(scope="module")
def later(program):
    """The same after changes and a second run. The image `base` is the earlier one."""
    with brought() as top:
        with contextlib.chdir(top):
            shutil.copy("whole", "base")
            for number in range(15):
                os.rename(f"mail/.Old/cur/{number}:2,", f"mail/cur/1{number:03}:2,S")
                os.remove(f"mail/cur/{number + 30}:2,")
                written(f"mail/cur/{number}:2,", text_of(number, "other"))
            for number in range(20):
                written(f"mail/cur/2{number:03}:2,", mail(f"Fresh number{number}", number=2_000 + number))
            assert sync("--as", "m", "whole", "mail", **own(top))[0] == 0, "later"
            wanted = dump("whole")
        yield top, wanted


@pytest.mark.parametrize("does, limit", (("kill", 900), ("kill", 30_000), ("die", 40_000), ("stop", 36)))
def test_interrupted(first, does, limit):
    """It is stopped after a number of bytes, and the next run goes on."""
    top, wanted = first
    os.chdir(top)
    make("image")
    status, out, error = sync("--as", "m", "image", "mail", program=front(does=does, limit=limit), **own(top))
    assert status == (-signal.SIGKILL if does == "kill" else 1), (out, error)
    assert does == "kill" or error.startswith("sync: "), "a sentence"
    assert until(lambda: is_free("image")), "the program ends"
    assert sync("--as", "m", "image", "mail", **own(top))[0] == 0, "the next run"
    assert dump("image") == wanted, "the same"


@pytest.mark.parametrize("limit", (100, 2_000, 15_000))
def test_interrupted_later(later, limit):
    """It is killed after a number of bytes of a second run."""
    top, wanted = later
    os.chdir(top)
    shutil.copy("base", "image")
    status, out, error = sync("--as", "m", "image", "mail", program=front(does="kill", limit=limit), **own(top))
    assert status == -signal.SIGKILL, (out, error)
    assert until(lambda: is_free("image")), "the program ends"
    assert sync("--as", "m", "image", "mail", **own(top))[0] == 0, "the next run"
    assert dump("image") == wanted, "the same"


def test_a_new_image_is_the_same(later):
    top, wanted = later
    os.chdir(top)
    make("image")
    assert sync("--as", "m", "image", "mail", **own(top))[0] == 0
    assert dump("image") == wanted


@pytest.mark.parametrize("number", (signal.SIGTERM, signal.SIGINT))
def test_signals(number):
    maildir("mail")
    for count in range(60):
        written(f"mail/cur/{count}:2,", mail(f"Subject number{count}", number=count, body="text " * 1_000))
    make("whole")
    sync("--as", "m", "whole", "mail")
    make()
    # It waits for replies, since the program reads no more of its input.
    with subprocess.Popen([sys.executable, SYNC, "--as", "m", "image", "mail"], stdin=subprocess.DEVNULL, stdout=subprocess.PIPE,
                          stderr=subprocess.PIPE, env={**os.environ, "LISFS_PROGRAM": front(does="wait", limit=20_000)}) as child:
        assert until(lambda: os.path.exists("here")), "it is under way"
        child.send_signal(number)
        out, error = child.communicate(timeout=LONG)
    assert child.returncode == 1 and error == b"sync: stopped; the next run goes on\n", (f"signal {number}", (child.returncode, out, error))
    assert until(lambda: is_free("image")), "the program ends"
    assert sync("--as", "m", "image", "mail")[0] == 0, "the next run"
    assert dump("image") == dump("whole"), "the same"
