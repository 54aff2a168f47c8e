"""How a file system is mounted on a folder, and unmounted: by system calls if that is allowed, as for root, and else by `fusermount3`, which may do
it for its caller's own folders. Also the loop that answers until it ends.
"""
from __future__ import annotations

import contextlib
import ctypes
import errno
import os
import select
import shutil
import signal
import subprocess
import threading
import time
from collections.abc import Iterator

from lisfs.mount.kernel import Connection, Unmounted

DEVICE = "/dev/fuse"
HELPER = "fusermount3"
NO_SETUID, NO_DEVICES, DETACH = 2, 4, 2
# How many seconds requests that are under way at a stop have to end.
PATIENCE = 2
LIBRARY = ctypes.CDLL(None, use_errno=True)


class NotMounted(Exception):
    """The folder is not mounted, and why."""


def mounted(folder: str, source: str, others: bool = False) -> int:
    """Mounts a file system on `folder`; requests come from the device that is returned."""
    options = ["default_permissions"] + (["allow_other"] if others else [])
    if not os.path.exists(DEVICE):
        raise NotMounted(f"{DEVICE} is missing: this system has no FUSE")
    try:
        return _by_call(folder, source, options)
    except PermissionError as error:
        if not shutil.which(HELPER):
            raise NotMounted(f"{folder}: {error.strerror}, and there is no {HELPER}, which would be allowed to") from None
        return _by_helper(folder, source, options)
    except OSError as error:
        raise NotMounted(f"{folder}: {error.strerror}") from None


def _by_call(folder: str, source: str, options: list[str]) -> int:
    device = os.open(DEVICE, os.O_RDWR)
    words = ",".join([f"fd={device}", "rootmode=40000", f"user_id={os.getuid()}", f"group_id={os.getgid()}"] + options)
    if LIBRARY.mount(os.fsencode(source), os.fsencode(folder), b"fuse.lisfs", NO_SETUID | NO_DEVICES, words.encode()):
        number = ctypes.get_errno()
        os.close(device)
        raise OSError(number, os.strerror(number))
    return device


def _by_helper(folder: str, source: str, options: list[str]) -> int:
    """The helper mounts, and sends the device over a socket whose number it gets."""
    # A mount by root needs no socket, and starts faster without the module.
    import array
    import socket
    ours, theirs = socket.socketpair()
    # A comma in the name of the source would end an option.
    words = ",".join(options + ["subtype=lisfs", "fsname=" + source.replace("\\", "\\\\").replace(",", "\\,")])
    with ours, theirs:
        ran = subprocess.run([HELPER, "-o", words, "--", folder], pass_fds=[theirs.fileno()], stdin=subprocess.DEVNULL, capture_output=True,
                             env={**os.environ, "_FUSE_COMMFD": str(theirs.fileno())}, check=False)
        if ran.returncode:
            raise NotMounted(" ".join(ran.stderr.decode(errors="replace").split()) or f"{HELPER} ended with {ran.returncode}")
        _, sent, _, _ = ours.recvmsg(1, socket.CMSG_SPACE(4))
    for level, kind, data in sent:
        if (level, kind) == (socket.SOL_SOCKET, socket.SCM_RIGHTS):
            device = array.array("i", data)[0]
            os.set_inheritable(device, False)
            return device
    raise NotMounted(f"{HELPER} sent no device")


def detach(folder: str) -> None:
    """Unmounts the folder. What is still open works until it is closed."""
    if LIBRARY.umount2(os.fsencode(folder), DETACH) and ctypes.get_errno() == errno.EPERM and shutil.which(HELPER):
        subprocess.run([HELPER, "-u", "-z", "--", folder], stdin=subprocess.DEVNULL, capture_output=True, check=False)


@contextlib.contextmanager
def stops() -> Iterator[int]:
    """A descriptor that becomes readable when a signal asks for an end: from the terminal, or from the system."""
    ours, theirs = os.pipe()
    for end in (ours, theirs):
        os.set_blocking(end, False)
    before = {number: signal.signal(number, lambda *_: None) for number in (signal.SIGINT, signal.SIGTERM, signal.SIGHUP)}
    former = signal.set_wakeup_fd(theirs)
    try:
        yield ours
    finally:
        signal.set_wakeup_fd(former)
        for number, handler in before.items():
            signal.signal(number, handler)
        os.close(ours)
        os.close(theirs)


def answered(connection: Connection, folder: str, stop: int, program: int) -> bool:
    """Answers until the folder is unmounted, and closes the device. A stop, or the end of the program, unmounts it. Returns False after the
    latter."""
    # A message can be withdrawn before it is read, as when the asker is killed; then a read would block, and no stop be seen.
    os.set_blocking(connection.device, False)
    poll = select.poll()
    for descriptor in (connection.device, stop, program):
        poll.register(descriptor, select.POLLIN)
    until, is_wanted, ending = None, True, threading.Thread(target=detach, args=[folder], daemon=True)
    try:
        while until is None or time.monotonic() < until:
            ready = dict(poll.poll(None if until is None else 100))
            if until is None and (stop in ready or program in ready):
                # In another thread, since unmounting may cause further requests first.
                ending.start()
                until, is_wanted = time.monotonic() + PATIENCE, program not in ready
                poll.unregister(stop)
                poll.unregister(program)
            if connection.device in ready:
                connection.serve()
    except Unmounted:
        pass
    except BaseException:
        detach(folder)
        raise
    finally:
        os.close(connection.device)
    if until is not None:
        # Nothing delays it now, since nobody waits for an answer any more.
        ending.join()
    return is_wanted
