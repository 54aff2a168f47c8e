"""`tools/mount` if a folder can be mounted: its ends, other users, the installed programs, and several at once."""
import os
import signal
import socket
import subprocess
import sys
import threading
import urllib.request

import pytest

import support
from support import images
from support.mount.answers import MOUNT, NEW, WR, Mount, directly, make, really, told_by
from support.mount.asking import Real
from support.waiting import LONG, children, is_running, not_taken, stop, until

pytestmark = pytest.mark.usefixtures("program", "fuse")
PAGE = os.path.join(support.TOP, "docs/MOUNT.md")


@pytest.fixture
def mountpoint(image):
    """An empty folder beside an image."""
    os.mkdir("folder")
    return "folder"


@pytest.fixture
def mounted(image, mountpoint):
    """A mount of the image on the folder, and the way to ask it. The test ends it."""
    return Mount(image, mountpoint), Real(mountpoint)


# However it ends, the folder is free afterwards, and no process is left.

@pytest.mark.parametrize("number", (signal.SIGTERM, signal.SIGINT, signal.SIGHUP))
def test_the_end_by_a_signal(mounted, number):
    mount, _ = mounted
    left = children(mount.child.pid)
    assert told_by(mount.stop, number) == (0, ""), f"the end by {number.name}"
    assert left and not any(map(is_running, left)), (f"no process is left by {number.name}", left)


def test_a_second_mount(mounted):
    mount, _ = mounted
    done = subprocess.run([sys.executable, MOUNT, "image", "folder"], stdin=subprocess.DEVNULL, capture_output=True, timeout=LONG, check=False)
    assert (done.returncode, done.stderr) == (1, b"mount: image: in use by another lisfs\n"), ("a second mount", done)
    mount.stop()


def test_the_end_by_umount(mounted):
    mount, _ = mounted
    subprocess.run(["umount", "folder"], check=True)
    assert told_by(mount.ended) == (0, ""), "the end by umount"


def test_the_end_with_open_files(mounted):
    """A program has a file open, and has written into it."""
    mount, ways = mounted
    ways.put("x", b"whole")
    handle = ways.open("x", WR)
    ways.write(handle, b"half", 0)
    new = ways.open("new", WR | NEW)
    assert told_by(mount.stop) == (0, ""), "the end with open files"
    assert isinstance(told_by(ways.close, handle), str), "the close of what is gone"
    assert isinstance(told_by(ways.close, new), str), "that of a new file"
    # Ctrl-C goes to all processes that the terminal started.
    child = subprocess.Popen([sys.executable, MOUNT, "image", "folder"], stdin=subprocess.DEVNULL, stderr=subprocess.PIPE,
                             start_new_session=True)
    child.stderr.readline()
    assert told_by(lambda: (ways.get("x"), ways.get("new"))) == (b"halfe", b""), "what was not closed"
    os.killpg(child.pid, signal.SIGINT)
    assert told_by(lambda: (child.communicate(timeout=LONG)[1], child.returncode)[::-1]) == (0, b""), "the end by Ctrl-C"


@pytest.mark.parametrize("target", ("mount", "program"))
def test_what_is_lost_at_the_end(mounted, target):
    """There is no room for what was written, or no program that takes it."""
    mount, ways = mounted
    ways.put("x", b"whole")
    handle = ways.open("x", WR)
    ways.write(handle, bytes(60_000), 0)
    os.kill(mount.child.pid if target == "mount" else children(mount.child.pid)[0], signal.SIGTERM if target == "mount" else signal.SIGKILL)
    status, said = mount.ended()
    assert status == 1 and any(line.startswith("mount: x: what was written and not closed is lost: ") for line in said.splitlines()), (
        f"what is lost at the end of the {target} is named", (status, said))
    told_by(ways.close, handle)


def test_a_mount_on_the_folder_where_it_is_started(mountpoint):
    child = subprocess.Popen([sys.executable, MOUNT, "../image", "."], cwd="folder", stdin=subprocess.DEVNULL, stderr=subprocess.PIPE)
    assert child.stderr.readline() == b"mount: ../image is at .\n", "a mount on its own folder"
    Real("folder").put("x", b"x")
    child.terminate()
    assert child.communicate(timeout=LONG) == (None, b"") and not os.listdir("folder"), "and its end"


@pytest.fixture
def another(root):
    """Skips if the test can't become another user."""
    try:
        subprocess.run(["true"], preexec_fn=as_another, check=True)
    except (OSError, subprocess.SubprocessError):
        pytest.skip("no other user can be taken on here (it needs root)")


NO = "cat: x: Permission denied"


@pytest.mark.parametrize("more, modes, wanted", (
    ([], "", NO), (["--allow-other"], "", NO), (["--allow-other"], "755 folder", NO), (["--allow-other"], "644 folder/x", NO),
    (["--allow-other"], "755 folder folder/:all; chmod 644 folder/x", "x")))
def test_another_user(mountpoint, another, more, modes, wanted):
    with images.session() as program:
        program.add(b"x", b"x")
    mount = Mount("image", "folder", *more)
    shell(f"chmod {modes}", ".") if modes else None
    # If it is mounted for its user alone, or the folder is closed to others, they may not even enter it.
    told = shell(f"cd folder 2>/dev/null || {{ echo '{NO}'; exit; }}; cat x", ".", preexec_fn=as_another)
    assert told == wanted, f"another user, {more}, {modes}"
    told = shell("stat -c %a folder folder/:all folder/x", ".")
    assert modes or told.split() == (["700", "700", "600"] if more else ["755", "755", "644"]), (f"the modes, {more}, {modes}", told)
    mount.stop()


def test_unprotected(mountpoint, another):
    """What modes of folders can't protect, as the page says."""
    make("shared", "64", "64", "8")
    with images.session("shared") as program:
        for word in (b"private", b"public"):
            program.mkdir(word)
        for name in (b"x", b"y", b"z"):
            program.add(name, name, b"private", b"public")
        program.create(b"other")
    mount = Mount("shared", "folder", "--allow-other")
    shell("chmod 755 folder; chmod 777 folder/public; chmod 644 folder/x", ".")
    for words, wanted in (
            ("ls private", "ls: cannot open directory 'private': Permission denied"), ("ls :all", "ls: cannot open directory ':all': Permission denied"),
            ("cat private/x", "cat: private/x: Permission denied"), ("cat public/x", "x"), ("cat public/y", "cat: public/y: Permission denied"),
            ("rm -f public/y; mv public/z public/mine; ls public", "mine\nx"), ("touch public/other", "touch: cannot touch 'public/other': File exists")):
        told = shell(words, "folder", preexec_fn=as_another, env={"PATH": os.environ["PATH"], "LC_ALL": "C"})
        assert told == wanted, f"another user: {words}"
    assert shell("ls private", "folder") == "mine\nx", "everywhere"
    shell("chmod 755 folder/:all", ".")
    told = shell("ls :all", "folder", preexec_fn=as_another)
    assert told == "mine\nother\nx", "what :all shows then"
    mount.stop()


def as_another():
    os.setuid(65_534)


@pytest.mark.parametrize("is_asked", (False, True))
def test_dead_program(mounted, is_asked):
    """After the program has ended, nothing is acknowledged any more, and the folder is free."""
    (mount, ways), told = mounted, []
    program = children(mount.child.pid)[0]
    if is_asked:
        stop(program)
        asker = threading.Thread(target=lambda: told.append(told_by(ways.put, "x", b"x")))
        asker.start()
        assert until(lambda: not_taken(program)), "a change that was sent"
    os.kill(program, signal.SIGKILL)
    if is_asked:
        asker.join()
        assert told == ["EIO"], "a change that the program does not answer"
    status, said = mount.ended()
    assert status == 1 and said.endswith("mount: the program ended with -9\n"), ("the end of the program", said)
    with directly("image") as direct:
        assert told_by(direct.ls, "") == [], "what is in the image"


# The files on which programs are tried, and their expected output.
SEED = """mkdir -p music/live docs year:
for k in 1 2 3; do echo song $k > music/song$k; done
echo gig > music/live/gig; echo 2003 > year:2003/note; printf 'one\\ntwo\\n' > docs/text; : > docs/empty"""
PROGRAMS = os.path.join(support.TESTS, "support/mount/programs.txt")


def transcripts(text, begin):
    """The parts of a text of commands and their output: for each the first line, and its commands."""
    for part in text.split(begin)[1:]:
        head, _, rest = part.partition("\n")
        commands = [one.partition("\n") for one in ("\n" + rest).split("\n$ ")[1:]]
        yield head, [(command, shown.rstrip("\n")) for command, _, shown in commands]


def shell(words, folder, **more):
    try:
        done = subprocess.run(["bash", "-c", words], cwd=folder, stdin=subprocess.DEVNULL, stdout=subprocess.PIPE, stderr=subprocess.STDOUT,
                              timeout=LONG, check=False, **more)
        return done.stdout.decode(errors="replace").rstrip("\n")
    except subprocess.TimeoutExpired:
        return "no end"


def parts():
    """The parts of the file: for each the programs that it needs, and its commands with their output."""
    with open(PROGRAMS, encoding="utf-8") as file:
        return list(transcripts(file.read(), "\n# "))


@pytest.mark.parametrize("programs, commands", parts(), ids=[programs for programs, _ in parts()])
def test_programs(needs, programs, commands):
    """Common programs, each over the same few files."""
    needs(*programs.split())
    make("image", "256", "256", "1024", "v2")
    os.mkdir("out")
    out = os.path.abspath("out")
    # They get none of the caller's own settings, for example those of `make` or `tar`.
    environment = {"PATH": os.environ["PATH"], "OUT": out, "LC_ALL": "C", "HOME": out}
    with really("image") as ways:
        for words, wanted in [(SEED, "")] + commands:
            told = shell(words, ways.folder, env=environment)
            assert told == wanted.replace("$OUT", out), f"{programs}: {words[:70]}"


def has_network():
    """Whether this machine can connect to itself."""
    with socket.socket() as listener, socket.socket() as asker:
        try:
            listener.bind(("127.0.0.1", 0))
            listener.listen()
            asker.connect(listener.getsockname())
        except OSError:
            return False
    return True


def test_pages():
    """A web server over it, with several clients at once."""
    if not has_network():
        pytest.skip("127.0.0.1 is not there")
    # Without the proxies that the environment may name.
    ask = urllib.request.build_opener(urllib.request.ProxyHandler({})).open
    make("image", "64", "128", "64")
    with really("image") as ways:
        ways.mkdir("music")
        ways.put("music/gig", b"gig" * 5_000)
        ways.put("todo", b"todo")
        server = subprocess.Popen([sys.executable, "-u", "-m", "http.server", "--bind", "127.0.0.1", "0"], cwd=ways.folder,
                                  stdin=subprocess.DEVNULL, stdout=subprocess.PIPE, stderr=subprocess.DEVNULL)
        at = server.stdout.readline().split(b"(")[1].split(b")")[0].decode()
        got = []
        askers = [threading.Thread(target=lambda: got.append(ask(at + "music/gig", timeout=LONG).read())) for _ in range(6)]
        for asker in askers:
            asker.start()
        for asker in askers:
            asker.join()
        assert got == [b"gig" * 5_000] * 6, ("pages", len(got))
        listed = ask(at, timeout=LONG).read()
        assert b'"music/"' in listed and b'"todo"' in listed, ("a listing as a page", listed)
        server.kill()
        server.communicate()


def test_the_page():
    """The commands that docs/MOUNT.md shows print what it shows."""
    make("files.lis", "1024", "512", "2048", "v2")
    os.makedirs("files", exist_ok=True)
    with open(PAGE, encoding="utf-8") as file:
        text = file.read()
    mount = Mount("files.lis", "files")
    count = 0
    for block in text.split("```\n")[1::2]:
        if not block.startswith("$ "):
            continue
        for words, wanted in [one for _, commands in transcripts("#\n" + block, "#") for one in commands]:
            count += 1
            told = shell(words, "files", env={"PATH": os.environ["PATH"], "LC_ALL": "C"})
            assert told == wanted, f"the page: {words}"
    mount.stop()
    assert count > 10, "the page shows commands"


WORKER = r"""
import os, sys
folder, me = sys.argv[1:]
os.chdir(folder)
for number in range(25):
    name, data = f"{me}-{number}", f"{me} {number}\n".encode() * (1 + number * 50)
    with open(f"in/{name}", "xb") as file:
        file.write(data)
    with open(f"in/{name}", "rb") as file:
        assert file.read() == data, name
    with open("log" if number % 2 else "in/log", "ab") as file:
        file.write(f"{name}\n".encode())
    assert name in os.listdir("in/:all"), name
    os.rename(f"in/{name}", f"out/{name}")
    assert not os.path.exists(f"in/{name}") and os.stat(f"out/{name}").st_size == len(data), name
    if number % 3 == 1:
        os.remove(name)
    if number % 3 == 2:
        os.replace(f"out/{name}", f"out/{me}-{number - 2}")
"""


def test_six():
    """Six at once, each with separate files and all with one log."""
    make("image", "256", "128", "1024")
    with really("image") as ways:
        for folder in ("in", "out"):
            ways.mkdir(folder)
        ways.put("in/log", b"")
        workers = [subprocess.Popen([sys.executable, "-c", WORKER, ways.folder, str(number)], stderr=subprocess.PIPE) for number in range(6)]
        for worker in workers:
            try:
                said = worker.communicate(timeout=LONG)[1].decode()
            except subprocess.TimeoutExpired:
                worker.kill()
                said = "no end"
            assert worker.returncode == 0, ("one of six", said[-300:])
        lines = ways.get("log").decode().split()
        assert sorted(lines) == sorted(f"{me}-{number}" for me in range(6) for number in range(25)), ("the log of six", len(lines))
        kept = {f"{me}-{number}": number + 2 if number + 2 < 25 else number for me in range(6) for number in range(0, 25, 3)}
        assert sorted(ways.ls("out")) == sorted(kept), ("the files of six", ways.ls("out"))
        for name, number in kept.items():
            assert ways.get(name) == f"{name[0]} {number}\n".encode() * (1 + number * 50), ("the bytes of six", name)


def test_a_full_image(program, fuse):
    """An error has no place for what helps. The mount says it once for each limit."""
    make("full", "64", "64", "1")
    os.mkdir("folder")
    mount, ways = Mount("full", "folder"), Real("folder")
    for _ in range(2):
        assert told_by(ways.put, "x", bytes(9_000)) == "ENOSPC"
    for number in range(65):
        told_by(ways.put, f"f{number}", b"")
    assert mount.stop().text == ("mount: the image is full: at most 1 block: `tools/enlarge full 64 64 2` makes room once no program has it open\n"
                                 "mount: the image is full: at most 64 files: `tools/enlarge full 128 64 1` makes room once no program has it open\n")
