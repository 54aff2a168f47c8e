"""`tools/edit`: editors that are scripts, over real images, and with a fake program that fails as it is told."""
import fcntl
import os
import re
import resource
import shlex
import shutil
import stat
import sys

import pytest

import runs
import support
import views
from lisfs.client import PROGRAM, Refused, shown_by
from runs import content, written
from support import images

EDIT = support.tool("edit")
NOTES = b"alpha one\nbeta\n\nalpha two"
VIEW = b"+alpha one\n@1 2\n+alpha two\n!\n"
NOT_WRITTEN, NOT_KNOWN = "nothing was written", "it is not known whether it was written"
KEPT = re.compile(r"edit: (.*): ([^:]*), and the edited text is in (.*)\n")
LEFT = re.compile(r"edit: (.*): nothing was written, and what the editor left is at (.*)\n")
EMPTIED = "notes.txt: the editor left an empty file, and only `lisfs put` removes all shown lines"
# The Python code of an editor: `path` is the file that it gets, and `text` its contents.
SEE = "open('seen', 'wb').write(text)\n"
ADD = "open(path, 'wb').write(b'+alpha zero\\n' + text)\n"
ADDED = b"+alpha zero\n" + VIEW


@pytest.fixture(autouse=True)
def drafts_folder(folder):
    """Where editors get their files."""
    os.mkdir("drafts")


@pytest.fixture(scope="module")
def with_views(program):
    """A program that has views."""
    if b"lisfs view IMAGE NAME F" not in images.usage(program, "view"):
        pytest.skip("the program has no word `view`: build it again")


@pytest.fixture
def notes(with_views, folder):
    """An image with one file of notes."""
    make()


def editor(does, script="editor"):
    """The command of an editor that runs this code."""
    written(script, b"import os, signal, subprocess, sys\npath = sys.argv[-1]\ntext = open(path, 'rb').read()\n" + does.encode())
    return shlex.join([sys.executable, os.path.abspath(script)])


def edit(does="", name="notes.txt", formula="word:alpha", image="image", data=b"", **environment):
    """How an edit ends whose editor runs this code."""
    given = {key: value for key, value in os.environ.items() if key not in ("VISUAL", "EDITOR")}
    given |= {"EDITOR": editor(does), "TMPDIR": os.path.abspath("drafts"), **environment}
    return runs.run(EDIT, [image, name, formula], data, env=given)


def make(image="image", text=NOTES, limits=("64", "64", "16")):
    """An image with one file of these bytes."""
    images.make(image, limits)
    with images.session(image) as program:
        program.add(b"notes.txt", text)


def file_in(image="image"):
    """The bytes of the file, or None if it is missing."""
    try:
        with images.session(image) as program:
            return program.cat(b"notes.txt").body
    except Refused:
        return None


def dump(image="image"):
    return shown_by([PROGRAM, "dump", image])


def drafts():
    return os.listdir("drafts")


def done(name, ran, error="", out=b""):
    assert (ran.code, ran.out, ran.error) == (0, out, error), (name, ran)
    assert drafts() == [], f"{name}, and no file is left"


def keeps(name, ran, cause, text, done=NOT_WRITTEN):
    """Checks an edit that was not written: one line, and the edited text in the file that the line names, for its owner alone."""
    told = KEPT.fullmatch(ran.error)
    assert ran.code == 1 and ran.out == b"" and told and told.groups()[:2] == (cause, done), (name, ran)
    if told:
        assert content(told[3]) == text, (f"{name}, and the text is kept", content(told[3])[:300])
        assert is_own(told[3]), (f"{name}, for its owner alone", os.stat(told[3]))
    for draft in drafts():
        shutil.rmtree(os.path.join("drafts", draft))


def fails(name, ran, cause):
    """Checks an edit that did not start."""
    assert (ran.code, ran.out, ran.error) == (1, b"", f"edit: {cause}\n"), (name, ran)
    assert drafts() == [], f"{name}, and no file is left"
    assert not os.path.exists("seen"), f"{name}, and no editor ran"


def is_own(path):
    modes = [stat.S_IMODE(os.stat(at).st_mode) for at in (path, os.path.dirname(path))]
    return modes == [0o600, 0o700]


# Contents without lines, without a last line feed, with NUL, CR and bytes above 127, and some that look like lines of a view.
TEXTS = (b"", b"\n", b"alpha", b"alpha\n", NOTES, b"\r\n\r\r\nalpha\r", b"\0\n\0alpha\0\n\xff\xfe\n\0", b"+\n@1 1\n!\nalpha\n!")


@pytest.mark.parametrize("formula", ("word:alpha", "line:", "!line:", "line:empty"))
@pytest.mark.parametrize("number", range(len(TEXTS)))
def test_changes(with_views, number, formula):
    """What is changed is written, and nothing else."""
    make(text=TEXTS[number])
    before = file_in()
    view, edit_of_it = views.view_of(before, formula.encode()), b"+new \0\r\xff line\n" + views.view_of(before, formula.encode())
    ran = edit(SEE + "open(path, 'wb').write(b'+new \\0\\r\\xff line\\n' + text)\n", formula=formula)
    done(f"text {number} by {formula}", ran)
    assert content("seen") == view, f"text {number} by {formula}: the editor sees the view"
    assert file_in() == views.edited(before, formula.encode(), edit_of_it), f"text {number} by {formula}: it is written"


def test_a_change_again(notes):
    """What was written by one edit is there for the next."""
    for formula in ("word:alpha", "line:", "!line:", "line:empty"):
        before = file_in()
        edit_of_it = b"+new \0\r\xff line\n" + views.view_of(before, formula.encode())
        done(formula, edit("open(path, 'wb').write(b'+new \\0\\r\\xff line\\n' + text)\n", formula=formula))
        assert file_in() == views.edited(before, formula.encode(), edit_of_it), "it is written"


def test_other_lines_and_no_last_line_feed(notes):
    done("lines go, and others come", edit("open(path, 'wb').write(b'@1 2\\n+x\\n+y')\n"))
    assert file_in() == b"beta\n\nx\ny\n", "and it is written"


def test_another_file_in_the_place(notes):
    done("an editor that puts another file in the place", edit("open(path + '~', 'wb').write(b'+x\\n' + text)\nos.rename(path + '~', path)\n"))
    assert file_in() == b"x\n" + NOTES, "and that is written"


UNCHANGED = "edit: notes.txt: nothing was changed\n"


@pytest.mark.parametrize("name, does", (
    ("nothing", SEE), ("the same bytes", "open(path, 'wb').write(text)\n"), ("a file beside it", "open(path + '~', 'wb').write(b'x')\n"),
    ("the same bytes in a new file", "open(path + '~', 'wb').write(text)\nos.rename(path + '~', path)\n"), ("a new time", "os.utime(path, (0, 0))\n")))
def test_no_change(notes, name, does):
    before = dump()
    done(f"an editor that does: {name}", edit(SEE + does), UNCHANGED)
    assert content("seen") == VIEW, "the editor sees the view"
    assert dump() == before, "the state stays"


def test_a_file_without_lines(with_views):
    make(text=b"")
    done("a file without lines", edit(SEE), UNCHANGED)
    assert content("seen") == b"", "its view is empty"


def by_environment(**environment):
    """How an edit ends that finds its editor in the environment."""
    given = {key: value for key, value in os.environ.items() if key not in ("VISUAL", "EDITOR")}
    return runs.run(EDIT, ["image", "notes.txt", "word:alpha"], env={**given, "TMPDIR": os.path.abspath("drafts"), **environment})


@pytest.mark.parametrize("name", ("VISUAL", "EDITOR", "EDITOR where VISUAL is blank", "vi", "a path with a blank, and words"))
def test_which_editor(notes, name):
    """Which command is the editor, and its arguments."""
    see, wrong = editor(SEE + "open('words', 'w').write(repr(sys.argv[1:-1]))\n"), editor("sys.exit(9)\n", "wrong")
    os.mkdir("bin")
    os.chmod(written("bin/vi", f"#!/bin/sh\nexec {see} \"$@\"\n".encode()), 0o755)
    os.chmod(shutil.copy("bin/vi", "an editor"), 0o755)
    environment = {"VISUAL": {"VISUAL": see, "EDITOR": wrong}, "EDITOR": {"VISUAL": "", "EDITOR": see},
                   "EDITOR where VISUAL is blank": {"VISUAL": " \t", "EDITOR": see},
                   "vi": {"EDITOR": "", "PATH": f"{os.path.abspath('bin')}:{os.environ['PATH']}"},
                   "a path with a blank, and words": {"VISUAL": f"{shlex.quote(os.path.abspath('an editor'))} --wait -n 'a b'"}}[name]
    done(f"the editor is {name}", by_environment(**environment), UNCHANGED)
    assert os.path.exists("seen"), "and it ran"
    if "words" in name:
        assert content("words") == b"['--wait', '-n', 'a b']", "the words of the editor"


@pytest.mark.parametrize("name, environment, cause", (
    ("an editor that is not there", {"EDITOR": "./nosuch -w"}, "the editor ./nosuch: No such file or directory"),
    ("an editor that is a folder", {"EDITOR": "./drafts"}, "the editor ./drafts: Permission denied"),
    ("an editor with half a quote", {"VISUAL": "vi 'x"}, "the editor vi 'x: No closing quotation")))
def test_no_editor(notes, name, environment, cause):
    fails(name, edit(**environment), cause)


def test_what_an_editor_reads_and_shows(notes):
    done("what the editor reads and shows", edit("sys.stdout.write(sys.stdin.read())\n", data=b"typed\n"), UNCHANGED, b"typed\n")


def test_the_modes(notes):
    old = os.umask(0)
    ran = edit("open('modes', 'w').write(repr([path] + [oct(os.stat(at).st_mode & 0o7777) for at in (path, os.path.dirname(path))]))\n")
    os.umask(old)
    done("the modes", ran, UNCHANGED)
    assert content("modes").endswith(b"notes.txt', '0o600', '0o700']"), ("the file and its folder are for their owner alone", content("modes"))


@pytest.mark.parametrize("name, does, cause, text", (
    ("an editor that ends with 3", ADD + "sys.exit(3)\n", "the editor ended with 3", ADDED),
    ("and without a change", "sys.exit(1)\n", "the editor ended with 1", VIEW),
    ("an editor that is killed", ADD + "os.kill(os.getpid(), signal.SIGKILL)\n", "the editor was killed by signal 9", ADDED),
    ("an edit that is ended", ADD + "os.kill(os.getppid(), signal.SIGTERM)\n", "ended by signal 15", ADDED)))
def test_failing_editors(notes, name, does, cause, text):
    before = dump()
    keeps(name, edit(does), cause, text)
    assert dump() == before, "the state stays"


@pytest.mark.parametrize("name, does, cause", (("that removes the file", "os.remove(path)\n", "No such file or directory"),
                                               ("that moves the folder", "os.rename(os.path.dirname(path), 'moved')\n", "No such file or directory")))
def test_a_text_that_is_gone(notes, name, does, cause):
    before = dump()
    ran = edit(does)
    assert (ran.code, ran.out, ran.error) == (
        1, b"", f"edit: what the editor left: {cause}: nothing was written, and the edited text is gone\n"), (f"an editor {name}", ran)
    assert dump() == before, "the state stays"


def test_somebody_types_to_stop_something(notes):
    done("an edit meanwhile", edit("for number in (signal.SIGINT, signal.SIGQUIT):\n    os.kill(os.getppid(), number)\n" + ADD))
    assert file_in() == b"alpha zero\n" + NOTES, "it is written"


def test_an_editor_heeds_what_is_typed(notes):
    heeds = "open('heeds', 'w').write(repr([signal.getsignal(number) is signal.SIG_IGN for number in (signal.SIGINT, signal.SIGQUIT)]))\n"
    done("an editor heeds what is typed", edit(heeds), UNCHANGED)
    assert content("heeds") == b"[False, False]", "it ignores no such signal"


@pytest.mark.parametrize("name, does", (
    ("a pipe", "os.mkfifo(path)\n"), ("a folder", "os.mkdir(path)\n"),
    ("a link", "open('linked', 'wb').write(text)\nos.symlink(os.path.abspath('linked'), path)\n"),
    ("a link to nothing", "os.symlink('nosuch', path)\n"), ("a link to a pipe", "os.mkfifo('pipe')\nos.symlink(os.path.abspath('pipe'), path)\n"),
    ("a device", "os.symlink('/dev/zero', path)\n"),
    ("a socket", "import socket\nos.chdir(os.path.dirname(path))\nsocket.socket(socket.AF_UNIX).bind(os.path.basename(path))\n")))
def test_no_plain_file(notes, name, does):
    """An editor that leaves something other than a plain file, which is not read, since a pipe could block, or deliver bytes without end."""
    before = dump()
    ran = edit("os.remove(path)\n" + does)
    told = LEFT.fullmatch(ran.error)
    assert ran.code == 1 and told and told[1] == "what the editor left: no plain file", (f"an editor that leaves {name}", ran)
    assert told and os.path.lexists(told[2]), f"it stays: {name}"
    assert dump() == before, "the state stays"


@pytest.mark.parametrize("formula", ("line:", "word:alpha"))
def test_emptied(notes, formula):
    """An editor that leaves an empty file, as when its disk was full, removes no lines."""
    before = dump()
    keeps(f"an empty file in place of a view by {formula}", edit("open(path, 'wb').close()\n", formula=formula), EMPTIED, b"")
    assert dump() == before, "and the state stays"


def test_one_empty_line_is_left(notes):
    done("a file of which one empty line is left", edit("open(path, 'wb').write(b'+\\n')\n", formula="line:"))
    assert file_in() == b"\n", "and it is written"


def test_a_view_that_was_empty_before(with_views):
    make(text=b"")
    done("a view that was empty before", edit("open(path, 'wb').close()\n", formula="line:"), UNCHANGED)


@pytest.mark.parametrize("given, error", (
    ({"name": "a\x1b]0;x\x07\n"}, "edit: a^[]0;x^G^J: no file name\n"),
    ({"image": "no\x1b[2Jsuch\u202e"}, "edit: lisfs: disk fault: no^[[2Jsuch\\u202e: No such file or directory\n"),
    ({"EDITOR": "./no\x1b[2Jsuch"}, "edit: the editor ./no^[[2Jsuch: No such file or directory\n")), ids=("a name", "an image", "an editor"))
def test_harmless_lines(notes, given, error):
    """Messages do nothing to a terminal."""
    ran = edit(SEE, **given)
    assert ran.code == 1 and ran.error == error, ("with controls", ran)


def commands(session):
    """The code of an editor that makes the program run a session."""
    return f"subprocess.run([{PROGRAM!r}, 'run', 'image'], input={session!r}, stdout=subprocess.DEVNULL, check=True)\n"


# What others do with the image while the editor is open.

@pytest.mark.parametrize("name, session, cause", (
    ("a line that is shown is another one", b"write notes.txt 10\nalpha two\n\n", "notes.txt: its view has changed in the meantime"),
    ("a hidden line is gone", b"write notes.txt 20\nalpha one\n\nalpha two\n", "notes.txt: its view has changed in the meantime"),
    ("the file is gone", b"rm notes.txt\n", "notes.txt: no 10 no such file here")))
def test_changed_meanwhile(notes, name, session, cause):
    ran = edit(ADD + commands(session) + "open('left', 'wb').write(open('image', 'rb').read())\n")
    keeps(name, ran, cause, ADDED)
    assert dump() == dump("left"), f"{name}, and that stays"


def test_a_hidden_line_has_other_bytes(notes):
    done("an edit", edit(ADD + commands(b"write notes.txt 26\nalpha one\ngamma\n\nalpha two\n")))
    assert file_in() == b"alpha zero\nalpha one\ngamma\n\nalpha two", "and they stay"


@pytest.mark.parametrize("name, does, cause", (
    ("the image is cut off", "os.truncate('image', 5000)\n", "lisfs: image too short: image: 5000 bytes of 2465792"),
    ("the image is gone", "os.remove('image')\n", "lisfs: disk fault: image: No such file or directory")))
def test_an_image_that_goes(notes, name, does, cause):
    keeps(name, edit(ADD + does), cause, ADDED)


def test_in_use_meanwhile(notes):
    before = dump()
    # A process that is left running holds the lock until its end.
    ran = edit(ADD + "import fcntl\nimage = open('image', 'rb')\nfcntl.flock(image, fcntl.LOCK_EX)\nos.mkfifo('end')\nif os.fork() == 0:\n"
               "    for number in (0, 1, 2):\n        os.dup2(os.open('/dev/null', os.O_RDWR), number)\n    open('end').read()\n    os._exit(0)\n")
    keeps("the image is in use", ran, "image: in use by another lisfs", ADDED)
    written("end", b"")
    with open("image", "rb") as file:
        fcntl.flock(file, fcntl.LOCK_EX)
    assert dump() == before, "and the state stays"


@pytest.mark.parametrize("name, given, cause", (
    ("a formula that is none", {"formula": "(a"}, "notes.txt: no 05 formula"), ("an empty formula", {"formula": ""}, "notes.txt: no 05 formula"),
    ("a formula that is too large", {"formula": "a" * 1025}, "notes.txt: no 07 formula too large"),
    ("no such file", {"name": "none"}, "none: no 10 no such file here"), ("no file name", {"name": "a/b"}, "a/b: no file name"),
    ("F that is no UTF-8", {"formula": b"word:\xff"}, "F is no UTF-8: b'word:\\xff'"),
    ("NAME that is no UTF-8", {"name": b"\xff"}, "NAME is no UTF-8: b'\\xff'"),
    ("IMAGE that is no UTF-8", {"image": b"\xff"}, "IMAGE is no UTF-8: b'\\xff'"),
    ("no image there", {"image": "nosuch"}, "lisfs: disk fault: nosuch: No such file or directory"),
    ("a file that is no image", {"image": "text"}, "lisfs: image too short: text: 4 bytes of 4096"),
    ("a file of zeros", {"image": "zeros"}, "lisfs: not an image: zeros: super block")), ids=lambda given: given if isinstance(given, str) else "")
def test_refused_at_the_view(notes, name, given, cause):
    """What `view` refuses, before an editor runs."""
    written("text", b"text")
    written("zeros", bytes(4096))
    before = dump()
    fails(name, edit(SEE, **given), cause)
    assert dump() == before, "the state stays"


def test_a_locked_image(notes):
    with open("image", "rb") as file:
        fcntl.flock(file, fcntl.LOCK_EX)
        fails("a locked image", edit(SEE), "image: in use by another lisfs")


# What an editor leaves, and why it is refused.
REFUSED = {"a mark is gone": (b"+alpha one\n+alpha two\n!\n", "notes.txt: no 27 marks"), "a mark twice": (b"@1 2\n@1 2\n", "notes.txt: no 27 marks"),
           "another mark": (b"@2 2\n", "notes.txt: no 27 marks"), "no line of a view": (b"hello\n", "notes.txt: no 26 not a view"),
           "a CR behind a mark": (b"@1 2\r\n", "notes.txt: no 26 not a view"), "nothing at all": (b"", EMPTIED),
           "more than a file may have": (b"@1 2\n+" + b"x" * 65536, "notes.txt: no 20 file too large"),
           "more than an edited view may have": (b"@1 2\n+" + b"x" * 8388608, "lisfs: input too long")}


@pytest.mark.parametrize("name", REFUSED)
def test_refused_at_put(notes, name):
    """What `put` refuses; the text is kept."""
    text, cause = REFUSED[name]
    before = dump()
    keeps(name, edit(f"open(path, 'wb').write(open({written('wanted', text)!r}, 'rb').read())\n"), cause, text)
    assert dump() == before, "the state stays"


def test_more_than_there_are_blocks(notes):
    make("small", limits=("64", "64", "1"))
    text = b"@1 2\n+" + b"x" * 5000
    keeps("more than there are blocks", edit(f"open(path, 'wb').write({text!r})\n", image="small"),
          "notes.txt: no 24 no space: the image has at most 1 block, and `tools/enlarge small 64 64 2` makes room once no program has it open", text)


@pytest.mark.parametrize("line", ([], ["image"], ["image", "notes.txt"], ["image", "notes.txt", "line:", "x/"], ["--help"]))
def test_wrong_use(line):
    ran = runs.run(EDIT, line)
    assert ran.code == 1 and ran.out == b"" and "usage: tools/edit IMAGE NAME F\n" in ran.error, (f"wrong use: {line}", ran)


def test_a_formula_with_blanks(notes):
    told = "a formula has no blanks, and `/` joins its words: `line:3/!x`"
    for words, name in ((["line:3", "!x"], ""), (["line:3 !x"], "notes.txt: ")):
        ran = runs.run(EDIT, ["image", "notes.txt", *words])
        assert (ran.code, ran.out, ran.error) == (1, b"", f"edit: {name}{told}\n")


# It shows the view that is in a file, and then does with `put`, and with what follows after that many views, what it is told. At a view that is a `k`
# it sends a signal to the process that started it.
MADE_UP = r'''#!/bin/sh
if [ "$1" = view ] && [ "$(wc -c <views)" -gt 0 ]; then
    first=$(head -c 1 views); tail -c +2 views >left; mv left views
    [ "$first" != k ] || kill -TERM $PPID
    cat view
else
    cat >put; eval "$(cat does)"
fi
'''


FAULT = "printf 'lisfs: disk fault\\nimage: Input/output error\\n' >&2; exit 3"
# How it ends, the message for that, and whether the text was written if it was `put` that ended so.
ENDS = {"wrong words": ("printf 'lisfs: usage\\nlisfs run IMAGE\\n' >&2; exit 1", "the program has no word `view`: build it again", NOT_WRITTEN),
        "a damaged image": ("printf 'lisfs: not an image\\nimage: file slot 3\\n' >&2; exit 2", "lisfs: not an image: image: file slot 3", NOT_WRITTEN),
        "a locked image": ("printf 'lisfs: disk fault\\nimage: in use by another lisfs\\n' >&2; exit 3", "image: in use by another lisfs", NOT_WRITTEN),
        "a fault of the disk": (FAULT, "lisfs: disk fault: image: Input/output error", NOT_KNOWN),
        "a fault of the output": ("echo ok; echo 'lisfs: output fault' >&2; exit 5", "lisfs: output fault", NOT_KNOWN),
        "no memory": ("echo 'lisfs: out of memory' >&2; exit 6", "lisfs: out of memory", NOT_WRITTEN),
        "a kill": ("kill -9 $$", "the program ended with -9", NOT_KNOWN), "no reply": ("exit 0", "b'' is not one reply", NOT_KNOWN),
        "another reply": ("echo hello", "b'hello' is no line of a reply here", NOT_KNOWN)}


@pytest.fixture
def made_up(folder):
    """The path of the fake program."""
    written("view", VIEW)
    os.chmod(written("program", MADE_UP.encode()), 0o755)
    return os.path.abspath("program")


@pytest.mark.parametrize("name", ENDS)
def test_failing_at_the_first_view(made_up, name):
    does, cause, _ = ENDS[name]
    written("does", does.encode())
    written("views", b"")
    if name == "no reply":
        # A view may be empty.
        done(name, edit(SEE, LISFS_PROGRAM=made_up), UNCHANGED)
    else:
        fails(f"{name} at once", edit(SEE, LISFS_PROGRAM=made_up), cause)


@pytest.mark.parametrize("name", ENDS)
def test_failing_at_the_second_view(made_up, name):
    does, cause, _ = ENDS[name]
    written("does", does.encode())
    written("views", b"x")
    ran = edit(ADD, LISFS_PROGRAM=made_up)
    if name in ("no reply", "another reply"):
        # A view may be empty, and a differing one is reported as such.
        assert ran.code == 1 and "nothing was written, and the edited text is in " in ran.error, (f"{name} at the second view", ran)
    else:
        keeps(f"{name} behind one view", ran, cause, ADDED)


@pytest.mark.parametrize("name", ENDS)
def test_failing_at_put(made_up, name):
    does, cause, known = ENDS[name]
    written("does", does.encode())
    written("views", b"xx")
    keeps(f"{name} behind two views", edit(ADD, LISFS_PROGRAM=made_up), cause, ADDED, known)
    assert content("put") == ADDED, f"{name}: what was put"


def test_no_program():
    fails("no program", edit(SEE, LISFS_PROGRAM="nosuch"), "build the program first: ./lisfs try 64 64 8 </dev/null")


def test_a_program_that_may_not_be_run(made_up):
    os.chmod("program", 0o644)
    fails("a program that may not be run", edit(SEE, LISFS_PROGRAM=made_up), f"{made_up}: Permission denied")


def test_no_room_for_the_view(made_up):
    written("views", b"x")
    given = {**os.environ, "VISUAL": editor(SEE), "LISFS_PROGRAM": made_up, "TMPDIR": os.path.abspath("drafts")}
    ran = runs.run(EDIT, ["image", "notes.txt", "line:"], prepare=lambda: resource.setrlimit(resource.RLIMIT_FSIZE, (10, 10)), env=given)
    fails("no room for the view", ran, "a file for the view: File too large")


# The tool, to which signals are sent at a moment: when the editor was just started, when the tool checks whether its file exists, and when that is
# removed.
AT_A_MOMENT = r"""
import os, runpy, shutil, signal, subprocess, sys
moment, sys.argv = sys.argv[1], sys.argv[2:]

def come():
    for number in (signal.SIGTERM, signal.SIGHUP):
        os.kill(os.getpid(), number)

def before(call):
    def called(*given, **more):
        if "edit-" in str(given[0]):
            come()
        return call(*given, **more)
    return called

class Started(subprocess.Popen):
    def __init__(self, *given, **more):
        super().__init__(*given, **more)
        if "edit-" in str(given[0]):
            come()

if moment == "started":
    subprocess.Popen = Started
elif moment == "looked":
    os.path.isfile = before(os.path.isfile)
else:
    shutil.rmtree = before(shutil.rmtree)
runpy.run_path(sys.argv[0], run_name="__main__")
"""


# Signals at any moment: what was written is reported as such, and the editor's file is named.

def at(made_up, moment, does):
    """How an edit ends that gets these signals at this moment."""
    written("does", b"echo ok")
    written("views", b"xx")
    given = support.with_package(VISUAL=editor(does), LISFS_PROGRAM=made_up, TMPDIR=os.path.abspath("drafts"))
    return runs.run(sys.executable, ["-c", AT_A_MOMENT, moment, EDIT, "image", "notes.txt", "line:"], env=given)


def behind(made_up, views_before, does=""):
    """How an edit ends if the program shows these views."""
    if not os.path.exists("does"):
        written("does", b"echo ok")
    written("views", views_before)
    return edit(does, LISFS_PROGRAM=made_up)


def test_ended_when_the_editor_was_just_started(made_up):
    keeps("an edit", at(made_up, "started", ""), "ended by signal 15", VIEW)


def test_ended_while_it_fails(made_up):
    keeps("an edit", at(made_up, "looked", ADD + "sys.exit(3)\n"), "the editor ended with 3", ADDED)


def test_ended_when_all_is_written(made_up):
    done("an edit", at(made_up, "removed", ADD))
    assert content("put") == ADDED, "and all is written"


def test_ended_twice_at_once(made_up):
    # It handles both at once only if it has stopped before they come.
    has_stopped = "open(f'/proc/{os.getppid()}/stat').read().rpartition(')')[2].split()[0] == 'T'"
    both = "".join(f"os.kill(os.getppid(), signal.{name})\n" + (f"while not {has_stopped}: pass\n" if name == "SIGSTOP" else "")
                   for name in ("SIGSTOP", "SIGTERM", "SIGHUP", "SIGCONT"))
    keeps("an edit", behind(made_up, b"xx", ADD + both), "ended by signal 1", ADDED)


def test_ended_at_the_second_view(made_up):
    keeps("an edit", behind(made_up, b"xk", ADD), "ended by signal 15", ADDED)


def test_ended_at_the_first_view(made_up):
    fails("an edit", behind(made_up, b"k", SEE), "ended by signal 15")


def test_ended_while_it_is_written(made_up):
    written("does", b"kill -TERM $PPID; echo ok")
    done("an edit", behind(made_up, b"xx", ADD))
    assert content("put") == ADDED, "and it is written"
