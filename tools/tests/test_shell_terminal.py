"""`tools/shell` at a terminal: colours, questions, Ctrl-C, the history of lines, and a person."""
import os
import re
import signal
import stat
import subprocess

import pytest

from support.images import content, make, written
from support.shell_tables import TAKEN, library
from support.shells import SHELL, shell
from support.terminals import Person
from support.waiting import LONG, children, rest, until


def test_terminals(at_terminal):
    """Colours, questions, bytes that are not text, Ctrl-C and Ctrl-D, at a terminal without a person."""
    make(limits=("64", "64", "64"), script=TAKEN + b"add raw 21\na\x1b]0;title\x07\tb\xff\xc3\xa4\r\n\x9b\x7f\n")
    for name, data in (("rest", b"x\n" * 9), ("plain", b"plain"), ("out", b"old")):
        written(name, data)
    umlaut = "\N{LATIN SMALL LETTER A WITH DIAERESIS}".encode()
    word, place, fault = b"\x1b[1;34m", b"\x1b[1;32m", b"\x1b[31m"
    with at_terminal() as at:
        assert at.sees(b"image: 5 files. `help` lists the commands, Ctrl-D ends.") is not None, ("a greeting", at.shown)
        assert at.sees(place + b"/\x1b[0m> ") is not None, ("the place in the prompt", at.shown)
        at.types(b"cd music\n")
        assert at.sees(b"/music\x1b[0m> ") is not None, ("the new place", at.shown)
        assert at.types(b"ls\n").sees(b"\n  " + word + b"live\x1b[0m 1\r\n") is not None, ("coloured words", at.shown)
        at.types(b"frob\n")
        assert at.sees(fault + b"frob: there is no such command; `help` lists all\x1b[0m\r\n") is not None, ("a coloured refusal", at.shown)
        at.types(b"cd /\ncat raw\n")
        assert at.sees(b"a^[]0;title^G\tb\\xff%b^M\r\n\\x9b^?\r\n" % umlaut) is not None, ("bytes without harm", at.shown)
        assert at.types(b"put rest\n").sees(b"rest: 18 bytes\r\n") is not None, ("a new line behind a file", at.shown)
        told = b"add: bytes can't be typed here: `put FILE x` takes those of a file, and `create` makes an empty one"
        assert at.types(b"add x 5 music\n").sees(told) is not None, ("bytes are not typed", at.shown)
        assert at.types(b"write\n").sees(b"write: bytes can't be typed here: `put FILE NAME` takes") is not None, ("also without a name", at.shown)
        taken = b"rest: there is a file of this name already"
        for answer, wanted in ((b"\n", taken), (b"no\n", taken), (b"\x04", taken), (b"\x03", taken), (b"y\n", b"rest: 5 bytes\r\n")):
            at.types(b"put plain rest\n").sees(b"write these bytes to it? [y/N] ")
            # A signal that comes just before the shell waits for a key is handled with the next key.
            rest(at.process)
            assert at.types(answer).sees(wanted) is not None, (f"put asks, and {answer} is the answer", at.shown[-300:])
            at.sees(b"> ")
        for answer, wanted in ((b"n\n", b"out: it is there already, and is left as it was"), (b"yes\n", b"out: 5 bytes\r\n")):
            at.types(b"get rest out\n").sees(b"out is there already: write over it? [y/N] ")
            before = content("out"), os.stat("out").st_mode
            assert at.types(answer).sees(wanted) is not None, (f"get asks, and {answer} is the answer", at.shown[-300:])
            wanted = (before[0] if answer == b"n\n" else b"plain"), before[1]
            assert (content("out"), os.stat("out").st_mode) == wanted, "and does so"
        at.sees(b"> ")
        at.types(b"\x04")
        assert at.ends() == 0, "Ctrl-D"
        assert b"\x1b]0" not in at.shown and b"\x9b" not in at.shown and b"\xff" not in at.shown, ("nothing harms", at.shown)


def test_a_place_without_a_word_that_no_file_has(at_terminal):
    """At a prompt `cd` goes to the place without it."""
    make(script=TAKEN)
    with at_terminal(NO_COLOR="1") as at:
        at.sees(b"/> ")
        for line, said, place in ((b"cd live|nosuch", b"nosuch: no file has this word, so the formula is `live`", b"/live> "),
                                  (b"cd music/nosuch", b"nosuch: this word is not known; `mkdir nosuch` declares it", b"/live> "),
                                  (b"cd /!(year:1999|nosuch)", b"nosuch: no file has this word, so the formula is `/!year:1999`", b"/!year:1999> "),
                                  (b"cd a b", b"cd: a formula has no blanks, and `/` joins its words: `cd a/b`", b"/!year:1999> ")):
            assert at.types(line + b"\n").sees(said + b"\r\n") is not None and at.sees(place) is not None, (line, at.shown[-300:])
        at.types(b"exit\n")
        assert at.ends() == 0


@pytest.mark.parametrize("more", ({"NO_COLOR": "1"}, {"TERM": "dumb"}), ids=("NO_COLOR", "a dumb terminal"))
def test_no_colours(at_terminal, more):
    make(limits=("64", "64", "64"), script=TAKEN)
    with at_terminal(**more) as at:
        at.sees(b"/> ")
        at.types(b"ls\nfrob\nexit\n")
        assert at.ends() == 0, "the end"
        assert b"\x1b[1;" not in at.shown and b"\x1b[31m" not in at.shown and b"  music 3  live 1\r\n" in at.shown, ("no colours", at.shown)


def test_stops(at_terminal):
    """Ctrl-C: for a line that is being typed, and for one that runs, with the program stopped in its middle."""
    make(limits=("1024", "64", "64"), script=TAKEN + b"".join(b"create n%03d live\n" % k for k in range(900)))
    with at_terminal() as at:
        at.sees(b"/\x1b[0m> ")
        # More names than are shown, and the line goes on before the text after the cursor.
        at.types(b"cat n/\x1b[D\t\t").sees(b"cat n/")
        shown = at.sees(b"\r\nand 781 more\r\n") or b""
        # Two blanks follow each on a line of 100 columns.
        rows = -(-120 // (100 // len("n000  ")))
        assert [int(name) for name in re.findall(rb"n(\d{3})", shown)] == sorted(range(120), key=lambda k: (k % rows, k)), (
            "names to choose from, in columns")
        at.sees(b"/\x1b[0m> cat n/\b")
        at.types(b"00\x0b\n")
        assert at.sees(b"n00: there is no file of this name") is not None, ("the line goes on", at.shown[-300:])
        at.sees(b"> ")
        begun = len(at.shown)
        at.types(b"rm notes")
        at.sees(b"rm notes")
        rest(at.process)
        at.types(b"\x03").sees(b"> ")
        at.types(b"cd music\n").sees(b"/music\x1b[0m> ")
        program = children(at.process)[0]
        for line in (b"find /live\n", b"find live\n", b"ls -c\n", b"cat nosuch\n", b"find (\n"):
            at.interrupts(line, program)
            assert at.sees(b"/music\x1b[0m> ") is not None, (f"a prompt behind {line}", at.shown[-300:])
        at.types(b"pwd\n")
        assert at.sees(b"w music\r\n") is not None, ("the place is the same", at.shown[-300:])
        assert b"n001" not in at.shown[begun:], ("find was stopped", at.shown[-300:])
        at.types(b"find\n")
        assert at.sees(b"album\r\ngig\r\nsingle\r\n") is not None, ("and the session goes on", at.shown[-300:])
        at.types(b"find /notes\x7f\x7f\x7f\x7f\x7f!music/!live\n")
        assert at.sees(b"!live\r\n") and at.sees(b"notes\r\n"), ("the line that was not ended did nothing", at.shown[-300:])
        # The program dies while a line is typed.
        os.kill(program, signal.SIGKILL)
        at.types(b"pwd\n")
        assert at.sees(b"shell: the program was killed by signal 9; what was replied to is kept") is not None, (
            "the program is gone", at.shown[-300:])
        assert at.ends() == 137, "and the status tells"


def test_a_script_is_stopped(program):
    make(limits=("1024", "64", "64"), script=TAKEN)
    read, write = os.pipe()
    script = subprocess.Popen([SHELL, "image"], stdin=read, stdout=subprocess.PIPE, stderr=subprocess.PIPE)
    os.close(read)
    os.write(write, b"create last\npwd\n")
    assert script.stdout.read(4) == b"w /\n", "a script begins"
    rest(script.pid)
    script.send_signal(signal.SIGINT)
    out, told = script.communicate(timeout=LONG)
    os.close(write)
    assert (script.returncode, out, told) == (130, b"", b"shell: stopped\n"), "Ctrl-C ends a script"
    assert shell(b"find last|!(music|live)\n".replace(b"last|", b""))[1] == b"last\nnotes\n", "and what was carried out is kept"


def test_history(at_terminal):
    """The history of lines."""
    make(script=TAKEN)
    path = "state/lisfs/shell_history"
    with at_terminal() as at:
        at.types(b"pwd\nls\nls\n \nstat\n").sees(b"s free")
        at.types(b"exit\n").ends()
    assert content(path) == b"pwd\nls\nstat\nexit\n", "lines are kept"
    assert (stat.S_IMODE(os.stat(path).st_mode), stat.S_IMODE(os.stat("state/lisfs").st_mode)) == (0o600, 0o700), "for their owner alone"
    os.chmod(path, 0o644)
    with at_terminal() as at:
        at.sees(b"> ")
        # Up twice: the last line but one.
        at.types(b"\x1b[A\x1b[A\n")
        assert at.sees(b"s files 4\r\n") is not None, ("and called back", at.shown)
        at.types(b"exit\n").ends()
    assert content(path) == b"pwd\nls\nstat\nexit\nstat\nexit\n", "one is added"
    assert stat.S_IMODE(os.stat(path).st_mode) == 0o600, "and it is the owner's alone again"
    written(path, b"".join(b"line%d\n" % k for k in range(5_000)))
    with at_terminal() as at:
        at.types(b"exit\n").ends()
    assert content(path) == b"".join(b"line%d\n" % k for k in range(3_000, 5_000)) + b"exit\n", "the last ones are kept"


@pytest.mark.parametrize("state, home", (("file", "home"), ("", "/dev/null"), ("relative", "home")), ids=("no folder", "no home", "a path from nowhere"))
def test_where_history_is_kept(at_terminal, state, home):
    make(script=TAKEN)
    written("file", b"")
    more = {"XDG_STATE_HOME": os.path.abspath(state) if state == "file" else state, "HOME": os.path.abspath(home)}
    with at_terminal(**more) as at:
        at.types(b"pwd\n")
        assert at.sees(b"w /\r\n") is not None, ("it goes on", at.shown)
        at.types(b"exit\n")
        assert at.ends() == 0, "and ends"
    if state == "relative":
        assert content("home/.local/state/lisfs/shell_history") == b"pwd\nexit\n" and not os.path.exists("relative"), "a home's own folder"


def test_a_person(program, needs):
    """Types, completes by Tab, calls a line back, and interrupts, in tmux."""
    needs("tmux")
    make(limits=("128", "512", "256"), script=library() + TAKEN + b"add title 9\n\x1b]2;BAD\x07\n")
    written("local.txt", b"local\n")
    # A pane does not always know the status of a process that has ended.
    with Person(f"trap : INT; '{SHELL}' image; echo $? >status") as person:
        def sees(name, text):
            assert person.sees(text), (f"a person: {name}", person.screen())

        sees("a prompt", "\n/>")
        person.types("cd mus", "Tab")
        sees("a word is completed", "\n/> cd music")
        person.types("Enter")
        sees("the place is shown", "\n/music>")
        person.types("cd ye", "Tab", "20", "Tab")
        sees("a head, and its value", "\n/music> cd year:2003")
        person.types("Enter")
        sees("and the place again", "\n/music/year:2003>")
        person.types("cd /", "Enter")
        sees("the root", "\n/>")
        person.types("fin", "Tab", "(old|from:a", "Tab", ")/!subject:l", "Tab")
        sees("a command, and words within a formula", "\n/> find (old|from:a@x)/!subject:lunch")
        rest(*children(int(person.asks("display-message", "-p", "#{pane_pid}"))))
        person.types("C-c")
        sees("Ctrl-C stops a line", "\n/>")
        person.types("cat ti", "Tab", "Enter")
        sees("a file is shown without harm", "\n^[]2;BAD^G\n/>")
        assert "BAD" not in person.asks("display-message", "-p", "#{pane_title}"), "the terminal's title stays"
        person.types("put loc", "Tab", "Enter")
        sees("a path is completed", "\nlocal.txt: 6 bytes\n/>")
        person.types("cd music", "Enter", "ls -c", "Enter")
        sees("counts", "\nd 1 live\nd 1 year:1999\nd 2 year:2003\n/music>")
        person.types("Up", "Up", "Up", "C-a", "x", "Enter")
        sees("a line is called back and changed", "\nxput: there is no such command; is it `put`?\n/music>")
        person.pastes("cd /\nstat\nadd x 3\npwd\n")
        person.types("Enter")
        sees("lines that are pasted", "\ns free 205\nadd: bytes can't be typed here: `put FILE x` takes those of a file, "
                                      "and `create` makes an empty one\n/>")
        person.types("C-d")
        assert until(lambda: os.path.exists("status") and content("status") == b"0\n"), "Ctrl-D ends it"
