"""Runs of the program, which must end on their own, however busy the machine is.

So no run is limited by the clock. A run that takes more than MOST seconds of processor time is ended, and so is one of which each process did nothing
between two checks and waits neither for a processor nor for a disk.
"""
import concurrent.futures
import functools
import multiprocessing
import os
import resource
import signal
import subprocess
import sys
import tempfile
import typing

TOP = os.path.dirname(os.path.dirname(os.path.abspath(__file__)))
MOST, LOOK = 60, 60


class Ran(typing.NamedTuple):
    """How a run ended: its exit status, or what ended it, and its bytes and its text on both streams."""
    code: typing.Union[int, str]
    out: bytes
    error: str

    def __repr__(self):
        return f"code {self.code}, out {self.out[:80]!r}, error {self.error[:300]!r}"


def program_in(words):
    """The path of the program, which is the first of these words if it names one."""
    program = os.path.abspath(words[0]) if words else os.path.join(TOP, "crates/lisfs/out/lisfs")
    if not os.path.exists(program):
        sys.exit("build the program first: ./lisfs try 64 64 8 </dev/null")
    return program


def waits(session):
    """How often each process of a session has waited so far, if all of them wait now, and none for a disk; else None."""
    seen = {}
    for process in filter(str.isdigit, os.listdir("/proc")):
        try:
            if os.getsid(int(process)) == session:
                with open(f"/proc/{process}/status", encoding="ascii", errors="replace") as file:
                    rows = dict(row.split(":", 1) for row in file)
                seen[process] = rows["State"].split()[0], rows.get("voluntary_ctxt_switches")
        except OSError:
            # It has ended meanwhile.
            continue
    return seen if all(state in "SZ" for state, _ in seen.values()) else None


def run(program, words, data=b"", closed=(), prepare=None, most=MOST, **more):
    """Runs a program with this input, with some standard streams closed, after a function has prepared its process."""
    def before():
        resource.setrlimit(resource.RLIMIT_CPU, (most, most + 1))
        if prepare:
            prepare()
        for stream in closed:
            os.close(stream)

    streams = {"stdin": subprocess.PIPE, "stdout": subprocess.PIPE, "stderr": subprocess.PIPE, **more}
    waited = None
    with subprocess.Popen([program, *words], preexec_fn=before, start_new_session=True, **streams) as child:
        while True:
            try:
                out, error = child.communicate(data if streams["stdin"] == subprocess.PIPE else None, timeout=LOOK)
                return Ran("too much work" if child.returncode == -signal.SIGXCPU else child.returncode, out or b"", (error or b"").decode(errors="replace"))
            except subprocess.TimeoutExpired:
                data, earlier, waited = None, waited, waits(child.pid)
            if waited is not None and waited == earlier:
                os.killpg(child.pid, signal.SIGKILL)
                out, error = child.communicate()
                return Ran("no end", out or b"", (error or b"").decode(errors="replace"))


def content(path):
    with open(path, "rb") as file:
        return file.read()


def written(path, data):
    with open(path, "wb") as file:
        file.write(data)
    return path


def in_folder(task, item):
    with tempfile.TemporaryDirectory() as folder:
        os.chdir(folder)
        try:
            return task(item)
        finally:
            os.chdir("/")


def side_by_side(task, items):
    """The result of a task for each item, each in an empty folder, and as many in parallel as there are processors."""
    with concurrent.futures.ProcessPoolExecutor(len(os.sched_getaffinity(0)), multiprocessing.get_context("fork")) as pool:
        return list(pool.map(functools.partial(in_folder, task), items))
