"""Images for tests, files beside them, and what an image holds. Only for tests."""
import os
import subprocess
from collections.abc import Sequence

from lisfs.client import PROGRAM, Program
from support.waiting import LONG

SMALL = ("64", "64", "8")


def make(image: str = "image", limits: Sequence[str] = SMALL, script: bytes = b"") -> str:
    """Makes an image on which these lines ran. Returns its name."""
    Program([PROGRAM, "make", image, *limits]).close()
    if script:
        subprocess.run([PROGRAM, "run", image], input=script, stdout=subprocess.DEVNULL, timeout=LONG, check=True)
    return image


def session(image: str = "image") -> Program:
    """A session over an image, in a `with` block."""
    return Program([PROGRAM, "run", image])


def usage(program: str, *words: str) -> bytes:
    """What a program says about wrong words: the words that it has."""
    return subprocess.run([program, *words], stdin=subprocess.DEVNULL, capture_output=True, check=False).stderr


def dump(image: str = "image") -> bytes:
    """The dump of an image."""
    return subprocess.run([PROGRAM, "dump", image], stdin=subprocess.DEVNULL, capture_output=True, check=True).stdout


def bytes_of(name: str, image: str = "image") -> bytes:
    """The bytes of a file in an image."""
    with session(image) as program:
        return program.cat(name.encode()).body


def written(path: str, data: bytes | str = b"", mode: int | None = None) -> str:
    """Writes a file, in a folder that is made if necessary. Returns its path."""
    os.makedirs(os.path.dirname(os.path.abspath(path)), exist_ok=True)
    with open(path, "wb") as file:
        file.write(data if isinstance(data, bytes) else data.encode())
    if mode is not None:
        os.chmod(path, mode)
    return path


def content(path: str) -> bytes:
    """The bytes of a file."""
    with open(path, "rb") as file:
        return file.read()
