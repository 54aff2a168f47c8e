"""Shows an image as a folder, so that programs that know nothing of images work with its files. docs/MOUNT.md says what they see.

usage: tools/mount [--derived] [--allow-other] IMAGE DIR

It goes on until `umount DIR`, Ctrl-C or a SIGTERM, and says on standard error when DIR can be used. What was written by then and not closed
is stored, or named if that fails. --derived also shows as folders the words that files have automatically; without it they are below `:by`.
--allow-other lets other users look, if the modes allow it: files begin as 0600 and folders as 0700.
A listing shows folders of two words, and of one word if the image has more than 250 files, so that `find` ends. Others open by their names.

One `lisfs run IMAGE` runs each change, and an answer comes after its `ok`. If the image is served (`tools/serve IMAGE`), the mount is a client of
its server, and shows what other clients change. What is between a program and these commands is not proved.

The status is 0 after a requested end if the image has all that was written, 1 if something is wrong, which a line says, and 2 for wrong use.
"""
import argparse
import os

from lisfs.client import Ended, NotAReply, missing
from lisfs.dumps import NotADump
from lisfs.endings import cause_of, folder_fault, quiet, say
from lisfs.limits import limits_of
from lisfs.mount.attach import NotMounted, answered, mounted, stops
from lisfs.mount.image import Image
from lisfs.mount.kernel import Connection
from lisfs.mount.tree import Tree
from lisfs.opening import opened


class Options(argparse.Namespace):
    """The words of the command line."""

    derived: bool
    allow_other: bool
    image: str
    folder: str


def tell(line: str) -> None:
    say(f"mount: {line}")


def run(image: str, folder: str, with_derived: bool, others: bool) -> int:
    """Runs the mount, and returns the status."""
    if what := missing():
        raise NotMounted(what)
    if fault := folder_fault(folder):
        raise NotMounted(fault)
    program, dump = opened("mount", image)
    # However it ends, no process has the image afterwards.
    with stops() as stop, program:
        tree = Tree(Image(program, dump, limits_of(image)), with_derived, os.stat(image).st_mtime_ns, others)
        # The absolute path, since `.` is the folder below the mount.
        whole = os.path.abspath(folder)
        connection = Connection(mounted(whole, image, others), tree)
        tell(f"{image} is at {folder}")
        try:
            is_wanted = answered(connection, whole, stop, program.fileno())
        finally:
            tree.finish()
    if not is_wanted:
        tell(f"{image}: the {'server' if program.is_shared else 'program'} has ended")
    return 0 if is_wanted and not tree.has_lost else 1


@quiet
def main() -> int:
    parser = argparse.ArgumentParser(usage=__doc__.split("usage: ", 1)[1])
    parser.add_argument("--derived", action="store_true")
    parser.add_argument("--allow-other", action="store_true")
    parser.add_argument("image")
    parser.add_argument("folder")
    words = parser.parse_args(namespace=Options())
    try:
        return run(words.image, words.folder, words.derived, words.allow_other)
    except (Ended, NotMounted, NotADump, NotAReply, OSError, KeyboardInterrupt) as error:
        tell(cause_of(error, words.image))
    return 1
