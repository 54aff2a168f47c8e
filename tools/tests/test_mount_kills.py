"""Kills of a mount, of the program below it and of both, during three writers, and what is in the image afterwards."""
import contextlib
import errno
import functools
import os
import random
import signal
import subprocess
import threading
import time

import pytest

from lisfs.formulas import Place
from lisfs.mount import attach
from support.mount.answers import NEW, WR, Mount, directly, has_inodes, make, told_by
from support.mount.asking import Real
from support.waiting import LONG, children, is_running, until

pytestmark = pytest.mark.usefixtures("program", "fuse")


class Keeper:
    """Changes separate files, and knows what the image may hold when it is stopped: what was acknowledged, or also the change under way."""

    def __init__(self, ways, seed, letter):
        self.ways, self.chance, self.files, self.others, self.letter = ways, random.Random(seed), {}, [], letter
        # How many changes were started, and how many were acknowledged.
        self.count = self.done = 0

    def change(self):
        chance, files = self.chance, self.files
        name, word, self.count = f"{self.letter}{chance.randrange(8)}", chance.choice("abc"), self.count + 1
        data = b"%d " % self.count * chance.choice((1, 30, 3000))
        kind = chance.choice(("put", "sync", "shell", "move", "remove", "replace")) if name in files else chance.choice(("put", "sync"))
        after, between, self.kind = dict(files), dict(files), kind
        if kind in ("put", "sync", "shell"):
            words = files[name][1] if name in files else frozenset(word)
            after[name] = data, words
            between[name] = (b"", words) if name not in files or kind == "shell" and not has_inodes() else files[name]
            path = name if name in files else f"{word}/{name}"
            call = functools.partial({"put": self.ways.put, "sync": self.synced, "shell": self.shell}[kind], path, data)
        elif kind == "move":
            after[name] = files[name][0], frozenset(word)
            call = functools.partial(self.ways.rename, "/".join(sorted(files[name][1]) + [name]), f"{word}/{name}")
        elif kind == "remove":
            del after[name]
            call = functools.partial(self.ways.unlink, name)
        else:
            other = chance.choice(sorted(files))
            if other == name:
                return
            after[other] = between[other] = files[name][0], files[other][1]
            del after[name]
            call = functools.partial(self.ways.rename, name, other)
        self.others = [between, after]
        call()
        self.files, self.others, self.done = after, [], self.done + 1

    def synced(self, path, data):
        """What `fsync` has acknowledged counts; the close after it reports nothing more."""
        handle = self.ways.open(path, WR | NEW)
        try:
            self.ways.write(handle, data, 0)
            self.ways.sync(handle)
            self.files, self.others = self.others[1], []
        finally:
            told_by(self.ways.close, handle)

    def shell(self, name, data):
        """By a program that checks whether its output could be closed, as a shell itself doesn't."""
        done = subprocess.run(["bash", "-c", 'exec cat > "$0"', self.ways.at(name)], input=data, capture_output=True, check=False)
        if done.returncode:
            raise OSError(errno.EIO, done.stderr)

    def go_on(self):
        with contextlib.suppress(OSError):
            while True:
                self.change()
        # No more will come.
        self.count = float("inf")


def killed(keepers, processes, chance):
    """Lets all of them make changes, and kills these processes in the middle of some."""
    writers = [threading.Thread(target=keeper.go_on) for keeper in keepers]
    for writer in writers:
        writer.start()
    wanted = chance.randrange(1, 40)
    until(lambda: sum(keeper.count for keeper in keepers) >= wanted)
    # Anywhere in it, or in later ones.
    time.sleep(chance.uniform(0, 0.01))
    for process in processes:
        os.kill(process, signal.SIGKILL)
    for writer in writers:
        writer.join()


def test_kills(mount_kill):
    """The mount, the program below it, or both are killed at random points, during three writers."""
    os.mkdir("folder")
    make("image", "64", "128", "64")
    mount = Mount("image", "folder")
    # Through the folder that is mounted now: at its path there is another one once it is unmounted.
    top = os.open("folder", os.O_RDONLY)
    program, ways = children(mount.child.pid)[0], Real(f"/proc/{os.getpid()}/fd/{top}")
    keepers = [Keeper(ways, f"{mount_kill} {letter}", letter) for letter in "fgh"]
    for word in "abc":
        ways.mkdir(word)
    chance, both = random.Random(mount_kill), [mount.child.pid, program]
    killed(keepers, [both[:1], both[1:], chance.sample(both, 2)][mount_kill % 3], chance)
    os.close(top)
    mount.child.wait(LONG)
    mount.child.stderr.close()
    attach.detach("folder")
    assert until(lambda: not is_running(program)), "no process is left"
    found = left("image")
    for keeper in keepers:
        own = {name: of for name, of in found.items() if name[0] == keeper.letter}
        other = {name for name in own.keys() | keeper.files.keys() if own.get(name) != keeper.files.get(name)}
        assert own in [keeper.files] + keeper.others, ("what was acknowledged is kept", (keeper.kind, other))


def left(image):
    """The contents of a keeper's files in an image."""
    with directly(image) as ways:
        known = ways.tree.image
        known.extension(Place())
        return {file.name.decode(): (known.content(file), frozenset(word.decode() for word in file.words & {b"a", b"b", b"c"}))
                for file in known.files.values()}
