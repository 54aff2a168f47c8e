"""Gives an image larger limits: fills a new image from a dump of it, compares the two, and lets the new one have its name.

usage: tools/enlarge IMAGE [FILES PROPS BLOCKS [v2|v3]]

Without numbers it doubles each limit of which the image uses more than half, or else the one of which it uses the largest part. The old image
is kept as `IMAGE.before-enlarging`, or with a number after that, until you remove it. The new one has its owner and its permissions. It is of
the same version, or of a later one if the limits need it or the last word asks for it: in version 2 a file may have 1,048,576 bytes, and in
version 3 as many as its blocks have, up to 67,108,864. Limits may also be smaller than before, if they have room for all that the image holds.

No other program may have the image open, so end its server first. If IMAGE is a link, the image that it leads to is enlarged. There must be
room on the disk for a second image. If `enlarge` is stopped at any point, IMAGE is the old image or the new one, and whole; the next run removes
what a killed one has left.

The status is 0 if the image was enlarged, 1 if something is wrong, which one line says, and 2 for wrong use. After another status than 0
nothing has changed. Nothing of it is proved: it runs the words `dump` and `load` of the program, and compares two dumps byte for byte.
"""
from __future__ import annotations

import argparse
import contextlib
import os
import signal
import stat
import sys
import time
from collections.abc import Iterator, Sequence
from typing import NoReturn

from lisfs import client
from lisfs.client import PROGRAM, Ended, Locked, NotAReply, Program, counts_in, held, missing, shown, unnamed_file
from lisfs.dumps import settled, times_of
from lisfs.endings import quiet
from lisfs.endings import cause_of as cause_of_end
from lisfs.limits import LIMITS, VERSIONS, Limits, Need, NoLimits, chosen, doubled, limits_of
from lisfs.making import KEPT, Aside, aside, is_open_elsewhere, kept_names, name_again
from lisfs.own import sync_folder
from lisfs.showing import write_line

STOPS = (signal.SIGTERM, signal.SIGHUP)
# How many bytes of a dump are read at a time.
PIECE = 65_536
# How long it waits until nobody has the old image open any more, in seconds, and between two looks.
PATIENCE, PAUSE = 10, 0.01


class Failed(Exception):
    """What is wrong, in one line."""


class Stopped(BaseException):
    """A signal came that ends this program."""


class Done:
    """What was done, once something was."""

    line = ""


def looked_at(path: str) -> tuple[Limits, Need]:
    """The limits of an image, and how much of each it uses. Opening it finishes what a stop left unfinished, so no later opening writes."""
    with Program([PROGRAM, "run", path]) as program:
        counts = counts_in(program.stat().body)
    limits = limits_of(path)
    return limits, Need(counts["files"], max(counts["known"], counts["axioms"]), limits.blocks - counts["free"])


def fill(old: str, new: str, limits: Limits) -> None:
    """Makes a new image of these limits, with all that the old one holds."""
    Program([PROGRAM, "make", new, *limits.make()]).close()
    with shown([PROGRAM, "dump", old]) as dump, unnamed_file() as said, client.begun([PROGRAM, "load", new], dump.fileno(), said, (), -1) as load:
        assert load.stdout
        refusals = [line for line in load.stdout if line != b"ok\n"]
        if status := load.wait():
            said.seek(0)
            raise client.ended(status, said.read().decode(errors="backslashreplace"))
    if refusals:
        raise Failed(f"the larger image refuses what the old one has ({refusals[0].decode(errors='backslashreplace').strip()})")
    if not are_same(old, new):
        raise Failed("the dump of the larger image is not that of the old one")


def are_same(one: str, other: str) -> bool:
    """Whether the dumps of two images are the same, byte for byte."""
    with shown([PROGRAM, "dump", one]) as first, shown([PROGRAM, "dump", other]) as second:
        while (piece := first.read(PIECE)) == second.read(PIECE):
            if not piece:
                return True
    return False


def make_alike(old: os.stat_result, path: str, new: Aside) -> None:
    """Gives the new image the owner, the permissions and the other attributes of the old one."""
    made = os.fstat(new.descriptor)
    if (made.st_uid, made.st_gid) != (old.st_uid, old.st_gid):
        try:
            os.fchown(new.descriptor, old.st_uid, old.st_gid)
        except PermissionError:
            raise Failed("it has another owner or group, which you may not give to the larger image") from None
    # A file system may have none, or not allow each.
    with contextlib.suppress(OSError):
        for name in os.listxattr(path):
            with contextlib.suppress(OSError):
                os.setxattr(new.descriptor, name, os.getxattr(path, name))
    os.fchmod(new.descriptor, stat.S_IMODE(old.st_mode))


def swap(path: str, new: str, old: int) -> str:
    """Keeps the old image under another name, and gives its name to the new one. Returns the other name. `old` is a descriptor of the old image."""
    for name in kept_names(path):
        # A run that was killed between the two steps left it: it is this image.
        if os.path.samestat(os.lstat(name), os.fstat(old)):
            os.unlink(name)
    kept, number = path + KEPT, 1
    while os.path.lexists(kept):
        number += 1
        kept = f"{path}{KEPT}-{number}"
    # With both names, something whole is at the path at any moment.
    is_link = name_again(path, kept)
    try:
        os.rename(new, path)
    except OSError:
        if is_link:
            os.unlink(kept)
        else:
            os.rename(kept, path)
        raise
    return kept


def wait_for_others(old: int) -> None:
    """Waits until no program that opened the old image by its name can still take its lock: what it wrote there would be lost. As long as this
    process has the lock, such a program ends."""
    until = time.monotonic() + PATIENCE
    while is_open_elsewhere(old) and time.monotonic() < until:
        time.sleep(PAUSE)


def enlarge(image: str, numbers: Sequence[str], done: Done, version: int = 1) -> None:
    """Gives an image other limits, in this version at least, and notes it once it is so."""
    # A link stays one.
    path = os.path.realpath(image) if os.path.islink(image) else image
    found = os.stat(path)
    if not stat.S_ISREG(found.st_mode):
        raise Failed("no file: only an image in a file can be enlarged; a dump brings another one into a larger image (docs/guide/backup.md)")
    limits, used = looked_at(path)
    wished = chosen(limits, numbers, used, version) if numbers else doubled(limits, used)
    before = settled(path)
    with aside(path, 0o600) as new:
        fill(path, new.name, wished)
        make_alike(found, path, new)
        os.fsync(new.descriptor)
        with held(path) as old:
            if times_of(path) != before:
                raise Failed("another program has changed it meanwhile; run this again")
            with without_stops():
                other = f", of version {wished.version}" if wished.version != limits.version else ""
                done.line = f"from {limits} to {wished}{other}; the old image is {swap(path, new.name, old)} until you remove it"
                sync_folder(os.path.dirname(path))
                wait_for_others(old)


@contextlib.contextmanager
def without_stops() -> Iterator[None]:
    """A signal that ends this program does so only after the block."""
    before = signal.pthread_sigmask(signal.SIG_BLOCK, (*STOPS, signal.SIGINT))
    try:
        yield
    finally:
        signal.pthread_sigmask(signal.SIG_SETMASK, before)


def cause(error: BaseException, image: str) -> str:
    """What is wrong, in one line."""
    if isinstance(error, (Failed, NoLimits)):
        return f"{image}: {error}"
    if isinstance(error, (KeyboardInterrupt, Stopped)):
        return f"{image}: stopped"
    if isinstance(error, Locked):
        return f"{image}: in use by another lisfs: end it, or its server, first"
    if isinstance(error, NotAReply):
        return f"{PROGRAM} does not reply as it should: {error}"
    return cause_of_end(error, image)


def stop(*_: object) -> NoReturn:
    raise Stopped


@quiet
def main() -> int:
    assert __doc__
    parser = argparse.ArgumentParser(usage=__doc__.split("usage: ", 1)[1])
    parser.add_argument("image")
    parser.add_argument("numbers", nargs="*")
    words = parser.parse_args()
    # The version that the last word asks for.
    version = next((row.number for row in VERSIONS if row.make == tuple(words.numbers[len(LIMITS):])), None)
    if words.numbers and len(words.numbers) < len(LIMITS) or version is None:
        parser.error("FILES, PROPS and BLOCKS, and then v2, v3 or nothing; or none of them")
    for number in STOPS:
        # A signal that is ignored, as by `nohup`, stays ignored.
        if signal.getsignal(number) == signal.SIG_DFL:
            signal.signal(number, stop)
    done = Done()
    try:
        if what := missing():
            raise Failed(what)
        enlarge(words.image, words.numbers[:len(LIMITS)], done, version)
    except BrokenPipeError:
        raise
    except (Failed, NoLimits, Ended, NotAReply, OSError, KeyboardInterrupt, Stopped) as error:
        write_line(sys.stderr, f"enlarge: {cause(error, words.image)}: {done.line or 'nothing was changed'}")
        return 1
    write_line(sys.stdout, f"enlarge: {words.image}: {done.line}")
    return 0
