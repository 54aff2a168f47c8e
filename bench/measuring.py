"""What measures share: the costs of a command, images with files and words, and SQLite databases with the same files and words."""
import contextlib
import os
import re
import resource
import shutil
import subprocess
import sys
import tempfile
import time
from collections.abc import Iterator, Sequence
from typing import IO, NamedTuple

from turns import PROGRAMS, Program, middle

TABLES = (
    "PRAGMA journal_mode=WAL; PRAGMA synchronous=FULL; PRAGMA foreign_keys=ON;",
    "CREATE TABLE word(word TEXT PRIMARY KEY);",
    "CREATE TABLE file(name TEXT PRIMARY KEY, content BLOB);",
    "CREATE TABLE has(name TEXT REFERENCES file ON DELETE CASCADE, word TEXT, PRIMARY KEY(name, word));",
)
BY_WORD = "CREATE INDEX by_word ON has(word);"
# The words that some files have and not all, as a listing of the root shows them.
SHOWN = "SELECT word FROM has GROUP BY word HAVING count(*) < (SELECT count(*) FROM file);\n"
# The most seconds between two looks at a process that is watched.
LOOK = 0.005
HAS_SQLITE = shutil.which("sqlite3") is not None


class Ran(NamedTuple):
    """What a command took, with all processes that it waited for: seconds by the clock and of processor time. Its exit status, and what it showed. If it
    was watched, the most mebibytes of it and of each of its children."""

    seconds: float
    processor: float
    status: int
    out: bytes
    mebibytes: tuple[float, ...] = ()


def ran(command: Sequence[str], data: bytes = b"", environment: dict[str, str] | None = None, is_watched: bool = False) -> Ran:
    """Runs a command over an input. Its errors go where those of this process go. To watch it takes some processor time of this process."""
    with given(data) as source, tempfile.TemporaryFile() as shown:
        begin = time.monotonic()
        with subprocess.Popen(command, stdin=source, stdout=shown, env=environment) as child:
            held = watched(child.pid) if is_watched else ()
            _, status, usage = os.wait4(child.pid, 0)
            child.returncode = os.waitstatus_to_exitcode(status)
        seconds = time.monotonic() - begin
        shown.seek(0)
        return Ran(seconds, usage.ru_utime + usage.ru_stime, child.returncode, shown.read(), held)


def watched(process: int) -> tuple[float, ...]:
    """The most mebibytes of a process and of each of its children, as far as was seen before it ended. What `wait4` says would count those of this
    process too, which was copied."""
    held: dict[int, float] = {}
    begin = time.monotonic()
    while os.waitid(os.P_PID, process, os.WEXITED | os.WNOHANG | os.WNOWAIT) is None:
        # A process that has just ended has no memory.
        with contextlib.suppress(OSError):
            with open(f"/proc/{process}/task/{process}/children", encoding="ascii") as children:
                for one in (process, *map(int, children.read().split())):
                    held[one] = resident(one)
        time.sleep(min(LOOK, (time.monotonic() - begin) / 10))
    return tuple(held.values())


@contextlib.contextmanager
def given(data: bytes) -> Iterator[IO[bytes]]:
    """A file with this input, positioned at its beginning: a pipe would deliver it only as fast as this process writes."""
    with tempfile.TemporaryFile() as file:
        file.write(data)
        file.seek(0)
        yield file


def timed(command: Sequence[str], data: bytes) -> tuple[float, bytes]:
    """Seconds, and the output."""
    with given(data) as file:
        before = time.monotonic()
        ended = subprocess.run(command, stdin=file, stdout=subprocess.PIPE, check=False)
        seconds = time.monotonic() - before
    if ended.returncode:
        sys.exit(f"{command[:3]} ended with {ended.returncode}")
    return seconds, ended.stdout


def used() -> tuple[float, float]:
    """Seconds of processor time, and the part spent in user mode, of all processes that have ended so far."""
    usage = resource.getrusage(resource.RUSAGE_CHILDREN)
    return usage.ru_utime + usage.ru_stime, usage.ru_utime


def spent(command: Sequence[str], data: bytes, file: int | IO[bytes] = subprocess.DEVNULL) -> tuple[float, ...]:
    """Seconds of wall-clock time, of processor time, and of the program's user time. Its output goes into the file, or is discarded."""
    with given(data) as input_file:
        clock, before = time.monotonic(), used()
        subprocess.run(command, stdin=input_file, stdout=file, check=True)
        clock = time.monotonic() - clock
    return clock, *less(used(), before)


def less(figures: Sequence[float], taken_off: Sequence[float]) -> tuple[float, ...]:
    return tuple(a - b for a, b in zip(figures, taken_off))


def memory(command: Sequence[str], data: bytes = b"") -> float:
    """The most mebibytes that are resident until the command has read this and waits for more input."""
    child = subprocess.Popen(command, stdin=subprocess.PIPE, stdout=subprocess.DEVNULL)
    assert child.stdin
    child.stdin.write(data)
    child.stdin.flush()
    time.sleep(1)
    held = resident(child.pid)
    child.communicate(b"")
    return held


def resident(process: int) -> float:
    """The most mebibytes of a process that runs that were resident so far."""
    with open(f"/proc/{process}/status") as status:
        found = re.search(r"VmHWM:\s*(\d+)", status.read())
    if not found:
        raise ProcessLookupError(process)
    return int(found[1]) / 1024


def make(program: Program, image: str, limits: Sequence[str]) -> None:
    subprocess.run(program.run("make", image, *limits), stdin=subprocess.DEVNULL, check=True)


def image_of(program: Program, folder: str, name: str = "image") -> str:
    return os.path.join(folder, f"{name}-{program.mark}")


def copy(image: str, other: str) -> None:
    """A sparse copy: it has no blocks where the image has none, so that most of it need not be written."""
    subprocess.run(["cp", "--sparse=always", image, other], check=True)


def images(folder: str, name: str, limits: Sequence[str], data: bytes) -> dict[Program, str]:
    """An image for each program, the same bytes for all, on which the first program ran this session. They are removed by `remove`."""
    made, first = {program: image_of(program, folder, name) for program in PROGRAMS}, PROGRAMS[0]
    make(first, made[first], limits)
    _, out = timed(first.run("load" if first.has("load") else "run", made[first]), data)
    if any(line != b"ok" for line in out.splitlines()):
        sys.exit(f"{name}: not every change was made")
    for program in PROGRAMS[1:]:
        copy(made[first], made[program])
    return made


def remove(*paths: str) -> None:
    for path in paths:
        os.remove(path)


def words_of_file(number: int, words: int) -> list[str]:
    """The two words of a file of this number, out of so many."""
    return [f"w{place % words:04}" for place in (2 * number, 2 * number + 1)]


def small_session(files: int, words: int) -> bytes:
    """A session that declares the words and makes the files, each with two of them, so that some file has each word."""
    lines = [f"mkdir w{k:04}" for k in range(words)]
    lines += [f"create f{k:04} {' '.join(words_of_file(k, words))}" for k in range(files)]
    return ("\n".join(lines) + "\n").encode()


def cost(program: Program, image: str, data: bytes, count: int) -> tuple[float, ...]:
    """Seconds, as from `spent`, of one of the `count` commands of a session, less those of an empty session. The image is restored."""
    kept = image + ".kept"
    copy(image, kept)
    empty, whole = (spent(program.run("run", image), given) for given in (b"", data))
    shutil.move(kept, image)
    return tuple(seconds / count for seconds in less(whole, empty))


def filled(folder: str, name: str, limits: Sequence[str], files: int, words: int) -> dict[Program, str]:
    """Images with this many files and known words; each file has two of these by its size."""
    return images(folder, name, limits, small_session(files, max(words - 2, 0)))


def database(folder: str, files: int, words: int) -> str:
    """The same files and words in a database, with an index by word."""
    base = os.path.join(folder, f"base-{files}-{words}")
    if os.path.exists(base):
        return base
    rows = ["BEGIN;"] + [f"INSERT INTO word VALUES('w{k:04}');" for k in range(words)]
    for k in range(files):
        rows.append(f"INSERT INTO file VALUES('f{k:04}', x'');")
        rows += [f"INSERT INTO has VALUES('f{k:04}', '{word}');" for word in words_of_file(k, words)]
    timed(["sqlite3", base], "\n".join([*TABLES, BY_WORD, *rows, "COMMIT;"]).encode())
    return base


def query_cost(base: str, query: str, count: int, first: str = "") -> tuple[float, ...]:
    """Seconds, as from `spent`, of one of the `count` queries of a session that begins with others, less those of a session without these queries."""
    empty, whole = (spent(["sqlite3", base], data) for data in (first.encode(), first.encode() + query.encode() * count))
    return tuple(seconds / count for seconds in less(whole, empty))


def query_time(base: str, query: str, count: int) -> float:
    """The same by the clock."""
    return query_cost(base, query, count)[0]


def sync_time(folder: str, count: int = 50) -> float:
    """Seconds of a sync of one written block in the folder: the median of several."""
    times: list[float] = []
    with open(os.path.join(folder, "synced"), "wb", buffering=0) as file:
        for k in range(count):
            file.seek(0)
            file.write(bytes([k]) * 4096)
            before = time.monotonic()
            os.fdatasync(file.fileno())
            times.append(time.monotonic() - before)
    return middle(times)
