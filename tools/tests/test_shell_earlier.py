"""`tools/shell`: `undo` of the last change of an earlier shell."""
import glob
import os
import shutil
import signal
import stat
import subprocess

import pytest

from support.images import bytes_of, dump, make, session, written
from support.peers import Served
from support.shell_tables import TAKEN
from support.shells import SHELL, shell
from support.waiting import LONG
from test_shell_changes import CHANGES

NOTHING = "shell: undo: there is nothing to undo: no change of this shell is kept any more, or none was made\n"
OTHER = "shell: undo: {}, of an earlier shell: the image has changed since, so it is not undone\n"
NO_BYTES = "shell: undo: {}, of an earlier shell: bytes that it removed or wrote over are not kept after a shell ends\n"


def kept():
    """The files of kept changes."""
    return glob.glob(os.path.join(os.environ["XDG_STATE_HOME"], "lisfs", "undo-*"))


@pytest.fixture
def taken(program):
    make(script=TAKEN)


def test_the_next_shell(taken):
    """It undoes the last change, once, although a shell that changes nothing ran in between."""
    before = dump()
    assert shell(b"create other\n")[0] == 0
    between = dump()
    assert shell(b"cd music\ntag live in !live\n")[1] == b"2 of 2 files changed\n"
    assert shell(b"find live\ncd nosuch\n")[0] == 1 and dump() != between
    assert shell(b"undo\nundo\n") == (1, b"undone: tag live in !live (of an earlier shell)\n", NOTHING) and dump() == between
    assert shell(b"undo\n") == (1, b"", NOTHING) and dump() == between != before and not kept(), "it is kept no longer"


def test_changes_of_this_shell_come_first(taken):
    before = dump()
    assert shell(b"create other live\n")[0] == 0
    assert shell(b"mkdir jazz\ntag notes jazz\nundo\nundo\nundo\n") == (
        0, b"1 of 1 file changed\nundone: tag notes jazz\nundone: mkdir jazz\nundone: create other live (of an earlier shell)\n", "")
    assert dump() == before


@pytest.mark.parametrize("line", CHANGES, ids=[line.split(b"\n")[-1][:20].decode() or line[:12].decode() for line in CHANGES])
def test_each_change(program, line):
    """The image is as before, or what was removed is named and the image stays as it is."""
    make(script=TAKEN + b"mkdir rock\nmkdir spare\naxiom rock music\nmkdir size<9\naxiom size<9 rock\nadd text 4 live year:3\nold\n\n")
    written("file", b"new\n")
    before = dump()
    assert shell(line + b"\n")[0] == 0
    after, (path,) = dump(), kept()
    assert stat.S_IMODE(os.stat(path).st_mode) == 0o600 and b"old" not in bytes_of_path(path)
    status, shown, said = shell(b"undo\n")
    if has_bytes := b"undone" not in shown:
        said_line = next(part for part in line.split(b"\n") if part.split()[0] in (b"rm", b"write", b"put")).decode()
        assert (status, shown, said) == (1, b"", NO_BYTES.format(said_line))
    assert dump() == (after if has_bytes else before) and has_bytes == (line.split(b"\n")[-1].split()[:1] == [b"rm"] or line[:5] in (b"write", b"put -"))


def bytes_of_path(path):
    with open(path, "rb") as file:
        return file.read()


# What another client does after a shell has made the file `x` of 3 bytes: commands, and those that undo them.
OTHERS = (("another word", lambda program: program.mv(b"x", b"live"), lambda program: (program.cd(b"/live"), program.mv(b"x", b"/"))),
          ("another file", lambda program: program.create(b"y"), lambda program: program.rm(b"y")),
          ("other bytes", lambda program: program.write(b"x", b"xyz"), lambda program: program.write(b"x", b"abc")),
          ("another name", lambda program: program.rename(b"x", b"y"), lambda program: program.rename(b"y", b"x")),
          ("another declared word", lambda program: program.mkdir(b"jazz"), lambda program: program.rmdir(b"jazz")),
          ("another axiom", lambda program: program.axiom(b"live", b"music"), lambda program: program.unaxiom(b"live", b"music")))


@pytest.mark.parametrize("name, does, undoes", OTHERS, ids=[name for name, *_ in OTHERS])
def test_what_has_changed_since(taken, name, does, undoes):
    """Nothing is undone, unless the image is in the same state again."""
    before = dump()
    assert shell(b"add x 3\nabc\n")[0] == 0
    with session() as program:
        does(program)
    after = dump()
    assert shell(b"undo\n") == (1, b"", OTHER.format("add x 3")) and dump() == after, "it has changed"
    with session() as program:
        undoes(program)
    assert shell(b"undo\n") == (0, b"undone: add x 3 (of an earlier shell)\n", "") and dump() == before, "it is as it was"


def test_another_image(taken):
    """At the same path another image is refused, and a copy elsewhere has no earlier shell."""
    shutil.copy("image", "copy")
    assert shell(b"tag notes live\n")[0] == 0
    assert shell(b"undo\n", "copy") == (1, b"", NOTHING)
    shutil.copy("copy", "image")
    assert shell(b"undo\n") == (1, b"", OTHER.format("tag notes live"))
    os.symlink("image", "link")
    assert shell(b"tag notes live\n", "link")[0] == 0 and shell(b"undo\n")[0] == 0


@pytest.mark.parametrize("spoil", (lambda path: written(path, b""), lambda path: written(path, b'[1, "x"]'), lambda path: written(path, b"[2,1,1,[],[]]"),
                                   lambda path: written(path, b'[1,"x","y",1,[]]'), lambda path: os.chmod(path, 0o666), os.unlink),
                         ids=("empty", "cut", "another form", "another kind", "anybody may write it", "gone"))
def test_a_file_that_is_none(taken, spoil):
    assert shell(b"tag notes live\n")[0] == 0
    after, (path,) = dump(), kept()
    spoil(path)
    assert shell(b"undo\n") == (1, b"", NOTHING) and dump() == after


def test_a_folder_that_can_not_be_written(taken):
    """A shell ends as usual."""
    written("plain", b"")
    given = {**os.environ, "XDG_STATE_HOME": os.path.abspath("plain")}
    assert shell(b"tag notes live\n", env=given) == (0, b"1 of 1 file changed\n", "")
    assert shell(b"undo\n", env=given) == (1, b"", NOTHING)


def test_a_shell_that_is_killed(taken):
    """It keeps nothing, and what an earlier shell kept is not undone."""
    assert shell(b"tag notes live\n")[0] == 0
    with subprocess.Popen([SHELL, "image"], stdin=subprocess.PIPE, stdout=subprocess.PIPE) as killed:
        killed.stdin.write(b"create other\npwd\n")
        killed.stdin.flush()
        assert killed.stdout.readline() == b"w /\n"
        killed.send_signal(signal.SIGKILL)
        killed.wait(LONG)
    after = dump()
    assert shell(b"undo\n") == (1, b"", OTHER.format("tag notes live")) and dump() == after


def test_a_served_image(rooms):
    """For a served image nothing is kept or undone, and what was kept before is found again."""
    make(script=TAKEN)
    assert shell(b"tag notes live\n")[0] == 0
    with Served("image", None):
        assert shell(b"undo\ncreate other\nrm other\n") == (1, b"", f"shell: image is served: a client of image.socket\n{NOTHING}")
    assert shell(b"undo\n") == (0, b"undone: tag notes live (of an earlier shell)\n", "")


def test_at_a_terminal(at_terminal, taken):
    before = dump()
    with at_terminal(NO_COLOR="1") as at:
        at.sees(b"/> ")
        at.types(b"tag notes live\n").sees(b"1 of 1 file changed\r\n")
        at.sees(b"/> ")
        at.types(b"\x04")
        assert at.ends() == 0
    assert dump() != before
    with at_terminal(NO_COLOR="1") as at:
        at.sees(b"/> ")
        at.types(b"undo\n")
        assert at.sees(b"undone: tag notes live (of an earlier shell)\r\n") is not None, at.shown[-300:]
        at.types(b"exit\n")
        assert at.ends() == 0
    assert dump() == before
    assert bytes_of("notes") == b""
