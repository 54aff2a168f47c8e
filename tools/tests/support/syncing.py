"""Runs of `tools/sync`, folders for them, and what they leave in an image. Only for its tests."""
import contextlib
import fcntl
import os
import subprocess
import sys
from collections.abc import Sequence
from typing import Any, NamedTuple

from lisfs.client import PROGRAM
from lisfs.dumps import dumped
from support import images, tool
from support.images import session, written
from support.waiting import LONG

SYNC, PROGRAM = tool("sync"), os.path.abspath(PROGRAM)
LIMITS = ("256", "1024", "512")


def make(image: str = "image", limits: Sequence[str] = LIMITS) -> str:
    """Makes an image. Returns its name."""
    return images.make(image, limits)


class Synced(NamedTuple):
    """The status, the lines without the tool's name, and what is said on standard error."""

    status: int
    lines: list[str]
    said: str


def sync(*words: str, program: str = PROGRAM, python: str = sys.executable, user: int | None = None, **environment: str) -> Synced:
    if user is not None:
        # Each user has separate memories.
        environment["XDG_STATE_HOME"] = os.path.abspath(f"state-{user}")
        os.makedirs(environment["XDG_STATE_HOME"], exist_ok=True)
        os.chmod(environment["XDG_STATE_HOME"], 0o777)
    ran = subprocess.run([python, SYNC, *words], stdin=subprocess.DEVNULL, capture_output=True, timeout=LONG, check=False,
                         env={**os.environ, "LISFS_PROGRAM": program, **environment}, **as_user(user))
    out = [line.removeprefix("sync: ") for line in ran.stdout.decode(errors="replace").splitlines()]
    return Synced(ran.returncode, out, ran.stderr.decode(errors="replace"))


def as_user(user: int | None) -> dict[str, Any]:
    """The arguments of `subprocess` with which a user runs a program. None means the user who runs the tests."""
    return {} if user is None else {"user": user, "group": user, "extra_groups": []}


def held(image: str = "image") -> dict[str, set[str]]:
    """The words that each file of an image was given."""
    return {name.decode(): {word.decode() for word in words} for name, (_, words) in dumped(image).files.items()}


def mail(subject: str = "Hello there", sender: str = "Alice Adams <alice@example.org>", to: str = "bob@example.org", number: object = 1,
         more: str = "", body: str = "Text.\n") -> str:
    """A mail, without a Message-ID if `number` is None."""
    message_id = "" if number is None else f"Message-ID: <{number}@example.org>\n"
    return f"From: {sender}\nTo: {to}\nSubject: {subject}\nDate: Mon, 3 Jun 2024 10:00:00 +0200\n{message_id}{more}\n{body}"


def maildir(top: str, *boxes: str) -> None:
    for box in ("", *boxes):
        for part in ("cur", "new", "tmp"):
            os.makedirs(os.path.join(top, box, part), exist_ok=True)


def contents(image: str = "image") -> dict[str, tuple[str, bool]]:
    """The bytes of each file of an image, and whether it has the word that somebody gave it."""
    words = held(image)
    with session(image) as program:
        return {name: (program.cat(name.encode()).body.decode(), "mine" in words[name]) for name in words}


def memory_words(image: str = "image") -> list[bytes]:
    """The words by which an image names memories."""
    return sorted(word for word in dumped(image).declared if word.startswith(b"synced-"))


def brought_in(*files: str) -> Synced:
    """Makes an image with these files of a folder, each with a word that somebody gave it. Returns how the run ended."""
    make()
    for name in files:
        written(f"top/{name}", f"{name} as it was\n")
    ended = sync("--as", "t", "image", "top")
    with session() as program:
        program.mkdir(b"mine")
        for name in files:
            program.mv(name.replace("/", "+").encode(), b"mine")
    return ended


def is_free(image: str) -> bool:
    """Whether no program has the lock of an image."""
    with open(image, "rb") as file, contextlib.suppress(BlockingIOError):
        fcntl.flock(file, fcntl.LOCK_EX | fcntl.LOCK_NB)
        return True
    return False


def who_may_not_read(path: str) -> dict[str, Any] | None:
    """The user, and the Python, that can run the tool so that it can't read a file, or None. Root may read everything."""
    for user in (None, 65_534):
        for python in (sys.executable, "/usr/bin/python3"):
            with contextlib.suppress(OSError, subprocess.SubprocessError):
                look = f"import os; print(os.access({path!r}, os.R_OK), os.access({SYNC!r}, os.R_OK), os.access({PROGRAM!r}, os.X_OK))"
                if subprocess.run([python, "-c", look], capture_output=True, check=False, **as_user(user)).stdout == b"False True True\n":
                    return {"python": python, "user": user}
    return None
