"""What the tests of the tools share: the path on which they find the package, options and fixtures.

A test runs in an empty folder, which is removed after it. It has a separate cache and memories, and servers that it started end with it.
"""
import os
import shutil
import signal
import stat
import sys
import tempfile

import pytest

# Asserts of these modules show their values too.
pytest.register_assert_rewrite("support")

import support  # noqa: E402, which puts the package and bench/ on the path
from lisfs.client import PROGRAM  # noqa: E402
from lisfs.folder import music  # noqa: E402
from lisfs.mount import attach  # noqa: E402
from support.images import SMALL, make, usage  # noqa: E402
from support.peers import Served  # noqa: E402
from support.running import none_left  # noqa: E402
from support.terminals import Terminal  # noqa: E402
from support.waiting import hear, with_an_end  # noqa: E402
from support.web import web_folder, web_mixed, web_program, web_reading, web_writing  # noqa: E402, F401

ENDING = (signal.SIGTERM, signal.SIGINT, signal.SIGHUP)
# Programs whose Debian package has another name.
PACKAGES = {"cp": "coreutils", "dd": "coreutils", "df": "coreutils", "install": "coreutils", "ln": "coreutils", "mv": "coreutils", "rm": "coreutils",
            "sort": "coreutils", "touch": "coreutils", "truncate": "coreutils", "find": "findutils"}


def pytest_addoption(parser):
    group = parser.getgroup("lisfs")
    group.addoption("--count", type=int, default=30, metavar="N", help="so many random sessions by the client, beside `run` and `rooms` (30)")
    group.addoption("--kills", type=int, metavar="N", help="so many kills of a server (4) and of a mount (9)")
    group.addoption("--asserts", action="store_true", help="say at the end how many asserts held")


class Held:
    """Counts the asserts that hold."""

    def __init__(self):
        self.count = 0

    def pytest_assertion_pass(self):
        self.count += 1

    def pytest_terminal_summary(self, terminalreporter):
        terminalreporter.write_line(f"{self.count} asserts held")


def pytest_configure(config):
    config.addinivalue_line("markers", "limits(files, words, blocks[, version]): of the image of a test")
    # The Python that runs the tests runs the tools too, since it has their packages; and no launcher of Pythons comes first on the path.
    os.environ["PATH"] = os.pathsep.join([os.path.dirname(sys.executable), os.environ["PATH"]])
    # So that processes that a test starts receive these signals, and end by them.
    hear(*ENDING)
    # So that terminals and the processes in them end too.
    signal.signal(signal.SIGTERM, lambda *_: pytest.exit("ended by SIGTERM", 1))
    if config.getoption("--asserts"):
        config.pluginmanager.register(Held())


def pytest_generate_tests(metafunc):
    if "server_kill" in metafunc.fixturenames:
        metafunc.parametrize("server_kill", range(first_of(metafunc.config.getoption("--kills"), 4)))
    if "mount_kill" in metafunc.fixturenames:
        metafunc.parametrize("mount_kill", range(first_of(metafunc.config.getoption("--kills"), 9)))


def first_of(given, default):
    return default if given is None else given


@pytest.fixture
def count(request):
    """How many random sessions are tried."""
    return request.config.getoption("--count")


@pytest.fixture(autouse=True)
def folder(monkeypatch):
    """An empty folder, where the test runs. Its path is short enough for a socket in it, and other users may enter it."""
    top = tempfile.mkdtemp()
    at = os.path.join(top, "work")
    os.mkdir(at)
    for path in (top, at):
        os.chmod(path, 0o755)
    monkeypatch.setenv("XDG_CACHE_HOME", os.path.join(top, "cache"))
    monkeypatch.setenv("XDG_STATE_HOME", os.path.join(top, "state"))
    before = os.getcwd()
    os.chdir(at)
    yield at
    os.chdir(before)
    # Left by a test that failed.
    for mounted in mounts_below(top):
        attach.detach(mounted)
    for path, folders, _ in os.walk(top):
        for name in folders:
            if stat.S_ISDIR(os.lstat(os.path.join(path, name)).st_mode):
                os.chmod(os.path.join(path, name), 0o755)
    shutil.rmtree(top, ignore_errors=True)


def mounts_below(top):
    with open("/proc/self/mounts", encoding="utf-8", errors="surrogateescape") as mounts:
        return [path for path in (line.split()[1] for line in mounts) if path.startswith(top + "/")]


@pytest.fixture(autouse=True)
def an_end(folder):
    """A test without an end fails, and what it started ends."""
    with none_left(), with_an_end():
        yield


@pytest.fixture(scope="session")
def program():
    """The path of the built program."""
    if not os.path.exists(PROGRAM):
        pytest.skip("the program is not built: ./lisfs try 64 64 8 </dev/null")
    return os.path.abspath(PROGRAM)


@pytest.fixture
def image(request, program, folder):
    """The name of an image, which has the limits of the test's mark `limits`, or else small ones."""
    mark = request.node.get_closest_marker("limits")
    return make("image", mark.args if mark else SMALL)


@pytest.fixture(scope="session")
def rooms(program):
    """The path of a program that serves rooms."""
    if b"lisfs rooms IMAGE" not in usage(program, "rooms"):
        pytest.skip("the program has no word `rooms`: build it again")
    return program


@pytest.fixture
def served(image, rooms):
    """A server over the image, at `socket`."""
    with Served(image) as server:
        yield server


@pytest.fixture
def at_terminal(program):
    """Starts the prompt at a terminal, in a `with` block, with more environment variables."""
    return lambda **more: Terminal([support.tool("shell"), "image"], **more)


@pytest.fixture(scope="session")
def fuse():
    """Skips the test if no folder can be mounted."""
    folder = tempfile.mkdtemp()
    try:
        os.close(attach.mounted(folder, "trial"))
    except attach.NotMounted as error:
        pytest.skip(f"no folder can be mounted: {error} (Debian's fuse3, for others than root)")
    finally:
        attach.detach(folder)
        os.rmdir(folder)


@pytest.fixture
def mutagen():
    """The reader of tags."""
    if music.reader() is None:
        pytest.skip("no words of tags without Debian's python3-mutagen")
    return music.reader()


@pytest.fixture
def root():
    """Skips the test if it may not become another user."""
    if os.getuid():
        pytest.skip("only root can become another user (Debian's sudo)")


@pytest.fixture
def needs(request):
    """Skips the test if a program is missing."""
    def look(*programs):
        if lacking := [name for name in programs if not shutil.which(name)]:
            packages = sorted({PACKAGES.get(name, name) for name in lacking})
            pytest.skip(f"{request.node.name}: no {' and '.join(lacking)} (Debian's {' '.join(packages)})")
    return look
