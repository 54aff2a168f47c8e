"""`lisfs.progress`: the line on a terminal, what it says, and that nothing is written elsewhere. No test waits: each moves the clock itself."""
import contextlib
import fcntl
import io
import itertools
import os
import pty
import re
import signal
import struct
import subprocess
import sys
import termios

import pytest

import support
from lisfs.client import PROGRAM
from lisfs.folder import sync
from lisfs.folder.report import Telling
from lisfs.progress import CLEAR, PAUSE, Line, Progress, clocked, sized
from lisfs.showing import columns_of
from support.images import written
from support.syncing import mail, maildir, make
from support.terminals import environment
from support.waiting import LONG, until

WRITTEN = re.compile(r"\r(.*?)\x1b\[K")
MARK = b"|mark|"


class Clock:
    """A clock that the test moves."""

    def __init__(self):
        self.now = 100.0

    def __call__(self):
        return self.now


class Shown:
    """A line at a terminal of some columns, in a `with` block, and what it has written."""

    def __init__(self, columns=80, after=0.0):
        self.clock = Clock()
        self._ours, theirs = pty.openpty()
        fcntl.ioctl(theirs, termios.TIOCSWINSZ, struct.pack("HHHH", 24, columns, 0, 0))
        self._stream = open(theirs, "w", encoding="utf-8")
        self.line = Line("tool", after, self._stream, self.clock)

    def __enter__(self):
        return self

    def __exit__(self, *_):
        self.hang_up()
        with contextlib.suppress(OSError):
            self._stream.close()

    def hang_up(self):
        """The terminal goes away."""
        if self._ours is not None:
            os.close(self._ours)
        self._ours = None

    def read(self):
        """What was written since the last call, which all comes before a mark."""
        os.write(self._stream.fileno(), MARK)
        said = b""
        while not said.endswith(MARK):
            said += os.read(self._ours, 65_536)
        return said.removesuffix(MARK).decode()

    def texts(self):
        """The lines that were written since the last call. One that was removed is empty."""
        return texts_in(self.read())


class Terminal(io.StringIO):
    """A stream that takes any number of lines."""

    def isatty(self):
        return True


def texts_in(shown):
    assert WRITTEN.sub("", shown) == "", "nothing else"
    return WRITTEN.findall(shown)


def test_what_it_says():
    with Shown() as shown:
        with Progress(shown.line, "copying", 4_096, 80_000_000) as work:
            shown.clock.now += 0.5
            work.add(1, 500)
            assert shown.texts() == ["tool: copying: 1 of 4,096 files, 500 bytes of 80.0 MB"], "no rate yet"
            shown.clock.now += 7.5
            work.add(1_023, 19_999_500)
            left = (3_072 * 4_096 + 60_000_000) * 8 / (1_024 * 4_096 + 20_000_000)
            assert shown.texts() == [f"tool: copying: 1,024 of 4,096 files, 20.0 MB of 80.0 MB, 2.5 MB/s, {clocked(left)} left"]
            # The rate is that of the last ten seconds, since a line before them.
            shown.clock.now += 9
            work.add(0, 0)
            left = (3_072 * 4_096 + 60_000_000) * 16.5 / (1_023 * 4_096 + 19_999_500)
            assert shown.texts() == [f"tool: copying: 1,024 of 4,096 files, 20.0 MB of 80.0 MB, 1.2 MB/s, {clocked(left)} left"]
            shown.clock.now += 10
            work.add(0, 0)
            assert shown.texts() == ["tool: copying: 1,024 of 4,096 files, 20.0 MB of 80.0 MB"], "nothing was done in these"
            work.add(3_072, 70_000_000)
            shown.clock.now += 2
            work.add(0, 0)
            assert shown.texts()[-1].endswith(", 0:00 left"), "more bytes than there were at the start"
        assert shown.texts() == [""], "and nothing at the end"


def test_what_is_not_known():
    with Shown() as shown:
        work = Progress(shown.line, "looking")
        work.show()
        assert shown.texts() == ["tool: looking ..."]
        shown.clock.now += 1
        work.add(1)
        work.add(2_000, 5_000_000)
        assert shown.texts() == ["tool: looking: 1 file"], "and then not yet"
        shown.clock.now += 1
        work.add(0)
        assert shown.texts() == ["tool: looking: 2,001 files, 5.0 MB, 2.5 MB/s"], "no time left"
        assert Progress(shown.line, "comparing", 1).text() == "comparing: 0 of 1 file"


def test_how_often():
    stream, clock = Terminal(), Clock()
    work = Progress(Line("tool", 0, stream, clock), "copying", 10_000)
    for _ in range(10_000):
        clock.now += 0.001
        work.add(1)
    assert 9 / PAUSE <= len(texts_in(stream.getvalue())) <= 10 / PAUSE, "ten times a second"


def test_after_a_time():
    with Shown(after=1.0) as shown:
        work = Progress(shown.line, "opening image")
        shown.clock.now += 0.9
        work.add(1)
        assert shown.read() == ""
        shown.clock.now += 0.2
        work.add(1)
        assert shown.texts() == ["tool: opening image: 2 files"]
        shown.line.end()
        work.show()
        assert shown.texts() == [""], "removed for good"


@pytest.mark.parametrize("columns", (200, 80, 40, 20, 10, 4, 2, 1))
@pytest.mark.parametrize("name", ("plain", "\N{CJK UNIFIED IDEOGRAPH-6F22}" * 60, "e\N{COMBINING ACUTE ACCENT}" * 60))
def test_width(columns, name):
    """The line takes fewer columns than the terminal has, so that no terminal wraps it."""
    with Shown(columns) as shown:
        Progress(shown.line, f"opening {name}", 4_096).show()
        text, = shown.texts()
        whole = f"tool: opening {name}: 0 of 4,096 files"
        assert columns_of(text) <= columns - 1
        assert text == whole if columns_of(whole) <= columns - 1 else columns_of(text) >= columns - 2 and text.endswith(".."[:columns - 1]), text


def test_width_unknown():
    with Shown(0) as shown:
        Progress(shown.line, "x" * 200).show()
        assert [len(text) for text in shown.texts()] == [79]


def test_removed_after_an_error():
    for error in (ValueError, KeyboardInterrupt):
        with Shown() as shown:
            with pytest.raises(error):
                with Progress(shown.line, "copying", 2) as work:
                    work.add(1)
                    raise error
            assert shown.texts() == ["tool: copying: 1 of 2 files", ""]
            shown.line.clear()
            assert shown.read() == "", "only once"


def test_elsewhere():
    """No byte on a file, a pipe or a terminal without escape sequences, and no error if the terminal is gone."""
    stream = io.StringIO()
    with Progress(Line("tool", 0, stream, Clock()), "copying", 2) as work:
        work.add(1)
        work.show()
    assert stream.getvalue() == ""
    before = os.environ.get("TERM")
    os.environ["TERM"] = "dumb"
    try:
        with Shown() as shown:
            Progress(shown.line, "copying").show()
            assert shown.read() == ""
    finally:
        os.environ.pop("TERM")
        os.environ.update({} if before is None else {"TERM": before})
    with Shown() as shown:
        shown.hang_up()
        Progress(shown.line, "copying").show()


def test_numbers():
    assert [sized(size) for size in (0, 999, 1_000, 999_949, 999_950, 12_345_678, 10**12, 10**18)] == [
        "0 bytes", "999 bytes", "1.0 kB", "999.9 kB", "1.0 MB", "12.3 MB", "1.0 TB", "1000000.0 TB"]
    assert [clocked(seconds) for seconds in (0, 0.4, 59.6, 61, 3_599, 3_600, 90_061)] == ["0:00", "0:00", "1:00", "1:01", "59:59", "1:00:00", "25:01:01"]


class Tool:
    """A tool whose standard error is a terminal, and its standard output a pipe."""

    def __init__(self, *words):
        self._ours, theirs = pty.openpty()
        self.child = subprocess.Popen([sys.executable, support.tool(words[0]), *words[1:]], stdin=subprocess.DEVNULL, stdout=subprocess.PIPE,
                                      stderr=theirs, env=environment(TERM="xterm", LISFS_PROGRAM=os.path.abspath(PROGRAM)))
        os.close(theirs)
        self.said = b""

    def sees(self, text):
        while text not in self.said:
            self.said += os.read(self._ours, 65_536)

    def ends(self):
        """Its status, what it shows, and what is left on the terminal."""
        out = self.child.stdout.read()
        # A terminal whose other end is closed returns an error.
        with contextlib.suppress(OSError):
            while data := os.read(self._ours, 65_536):
                self.said += data
        os.close(self._ours)
        return self.child.wait(LONG), out, self.said.rpartition(CLEAR.encode())[2]


def mails(count):
    maildir("mail")
    for number in range(count):
        written(f"mail/cur/{number}:2,", mail(f"Subject number{number}", number=number))


def test_sync(program):
    mails(200)
    make()
    status, out, left = (ran := Tool("sync", "--as", "m", "image", "mail")).ends()
    assert (status, out, left) == (0, b"sync: sync:m: 200 new, 0 as they were\n", b""), "nothing is left"
    assert ran.said.startswith(b"\rsync: looking: 1 file") and b"\n" not in ran.said, ran.said


def test_each_part_of_a_sync(program, monkeypatch):
    """With a clock that goes on at each look at it, each file is shown."""
    mails(3)
    make()
    monkeypatch.setattr(sys, "argv", ["sync", "--as", "m", "image", "mail"])
    for wanted in (("looking: 3 files, 465 bytes", "reading: 3 of 3 files", "comparing: 3 of 3 files", "changing: 3 of 3 files"),
                   ("comparing: 3 of 3 files",)):
        telling, stream, ticks = Telling("sync", io.StringIO(), False), Terminal(), itertools.count(0, PAUSE)
        telling.line = Line("sync", 0, stream, lambda: next(ticks))
        sync.Sync(sync.options(), telling).run()
        telling.line.clear()
        found = texts_in(stream.getvalue())
        assert found[-1] == "" and all(any(text.startswith(f"sync: {part}") for text in found) for part in wanted), found
        assert any(text.startswith("sync: changing") for text in found) == (len(wanted) > 1), found


def test_import(program):
    mails(200)
    status, out, left = (ran := Tool("import", "mail")).ends()
    assert status == 0 and out.count(b"\nadd ") == 200 and b"\rimport: looking: 1 file" in ran.said, ran.said
    assert left.startswith(b"import: 200 files taken") and b"\x1b" not in left, left


@pytest.mark.parametrize("number", (signal.SIGINT, signal.SIGTERM, signal.SIGHUP))
@pytest.mark.parametrize("words", (("sync", "image", "mail"), ("import", "mail")))
def test_stopped(program, words, number):
    """The message after a signal begins on an empty line."""
    mails(1_500)
    make()
    ran = Tool(*words)
    ran.sees(b"looking")
    ran.child.send_signal(number)
    status, _, left = ran.ends()
    assert (status, left) == (1, b"sync: stopped\r\n" if words[0] == "sync" else b"import: stopped: the session is cut off\r\n"), ran.said


def test_a_message_in_between(program):
    """Lines of `--verbose` on the same terminal come after the line was removed."""
    mails(50)
    make()
    ours, theirs = pty.openpty()
    with subprocess.Popen([sys.executable, support.tool("sync"), "--as", "m", "--verbose", "image", "mail"], stdin=subprocess.DEVNULL, stdout=theirs,
                          stderr=theirs, env=environment(TERM="xterm", LISFS_PROGRAM=os.path.abspath(PROGRAM))):
        os.close(theirs)
        said = b""
        with contextlib.suppress(OSError):
            while data := os.read(ours, 65_536):
                said += data
    os.close(ours)
    lines = [line.rpartition(b"\x1b[K")[2] for line in said.split(b"\r\n")[:-1]]
    assert len(lines) == 51 and all(re.fullmatch(rb"sync: (new: subject-\S+ ?: .*|sync:m: 50 new, .*)", line) for line in lines), lines


def test_opening(image, program):
    """While an image opens that takes long, the line says how much of it was read. Its program is slow here: it stops in the middle of a dump."""
    written("slow", f"""#!/usr/bin/env python3
import subprocess, sys, time
if sys.argv[1] == "dump":
    sys.stdout.write("".join(f"add f{{n}} 4\\nabc{{chr(10)}}\\n" for n in range(500)))
    sys.stdout.flush()
    while not __import__("os").path.exists("go"):
        time.sleep(0.01)
    sys.exit(2)
sys.exit(subprocess.run([{os.path.abspath(PROGRAM)!r}, *sys.argv[1:]]).returncode)
""", 0o755)
    ours, theirs = pty.openpty()
    with subprocess.Popen([sys.executable, support.tool("shell"), "image"], stdin=subprocess.DEVNULL, stdout=subprocess.DEVNULL, stderr=theirs,
                          env=environment(TERM="xterm", LISFS_PROGRAM=os.path.abspath("slow"))) as child:
        os.close(theirs)
        said = b""
        while b"files" not in said:
            said += os.read(ours, 65_536)
        written("go")
        with contextlib.suppress(OSError):
            while data := os.read(ours, 65_536):
                said += data
        assert until(lambda: child.poll() is not None)
    os.close(ours)
    # How much of it was read when the second was over depends on the pipe.
    assert re.match(rb"\rshell: opening image: [0-9]+ files, [0-9.]+ (bytes|kB)", said), said
    assert b"\r\x1b[K" in said and b"opening" not in said.rpartition(b"\x1b[K")[2], said
