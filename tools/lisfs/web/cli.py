"""Shows an image in a web browser, narrowed by clicks: the words of each place and how many files each leaves, the files, and their contents.

usage: tools/browse IMAGE [--port N] [--write]

It prints one address, which you open in a browser on this machine, and serves pages there until Ctrl-C or a SIGTERM. The address has a
random token: whoever knows it sees the image, and nobody else. --port N uses port N instead of a free one. --write lets the pages change
things.

A request must come within 20 seconds, and its answer be taken within 60, or each within the seconds in `$LISFS_PATIENCE`. At most 200
connections are open. When one more comes, one that has not sent an admitted request is closed first.

One `lisfs run IMAGE` runs each question and each change. It holds the image's lock all the time. If the image is served (`tools/serve IMAGE`),
the pages are a client of its server, and each shows what other clients have changed. A page shows a change as done after its
`ok`. What is between a browser and these commands is not proved.

The status is 0 after a requested end, 1 if something is wrong, which one line says, and 2 for wrong use.
"""
import argparse
import functools
import importlib.util
import os
import signal
import socket
import sys
from types import FrameType

from lisfs.client import Ended, NotAReply, missing
from lisfs.dumps import NotADump
from lisfs.endings import cause_of, quiet, say
from lisfs.limits import limits_of
from lisfs.opening import opened
from lisfs.web.connections import WAITING, Connections
from lisfs.web.image import Image
from lisfs.web.site import Site

# The packages that the first page needs.
PACKAGES = {"jinja2": "python3-jinja2", "markupsafe": "python3-markupsafe"}
for package, of_debian in PACKAGES.items():
    if importlib.util.find_spec(package) is None:
        sys.exit(f"browse: {package} is missing: apt-get install {of_debian}")


class NotServed(Exception):
    """Nothing can be served, for a cause that one line states."""


def tell(line: str) -> None:
    say(f"browse: {line}")


def heard(number: int, frame: FrameType | None) -> None:
    """A signal handler. The arrival itself is written to the descriptor of `come_signals`."""


def come_signals() -> int:
    """A descriptor that becomes readable when one of the signals has come that end the tool. A signal that is ignored, as by `nohup`, stays
    ignored."""
    come, sent = os.pipe()
    os.set_blocking(sent, False)
    signal.set_wakeup_fd(sent, warn_on_full_buffer=False)
    for number in (signal.SIGINT, signal.SIGTERM, signal.SIGHUP):
        if signal.getsignal(number) != signal.SIG_IGN:
            signal.signal(number, heard)
    return come


def listening(port: int) -> socket.socket:
    """The socket to which clients of this machine connect."""
    try:
        return socket.create_server(("127.0.0.1", port), backlog=WAITING)
    except OSError as error:
        raise NotServed(f"port {port}: {os.strerror(error.errno or 0)}") from None


def serve(path: str, port: int, can_write: bool) -> int:
    """Serves the image, and returns the status."""
    with listening(port) as listener:
        program, dump = opened("browse", path)
        site = None
        try:
            # However it ends, no process has the image afterwards.
            with program:
                site = Site(Image(program, dump, limits_of(path)), os.path.basename(path), can_write, listener.getsockname()[1])
                connections, come = Connections(site, listener), come_signals()
                connections.watch(come, functools.partial(connections.end, come))
                print(site.address, flush=True)
                connections.serve()
        except Ended:
            # A page has reported it.
            if not site or not site.end:
                raise
    return 1 if site.end else 0


def port_of(text: str) -> int:
    port = int(text)
    if not 0 <= port < 65_536:
        raise ValueError(text)
    return port


@quiet
def main() -> int:
    parser = argparse.ArgumentParser(usage=(__doc__ or "").split("usage: ", 1)[1])
    parser.add_argument("--port", type=port_of, default=0)
    parser.add_argument("--write", action="store_true")
    parser.add_argument("image")
    words = parser.parse_args()
    try:
        if what := missing():
            tell(what)
            return 1
        return serve(words.image, words.port, words.write)
    except BrokenPipeError:
        raise
    except (Ended, NotServed, NotADump, NotAReply, OSError, KeyboardInterrupt) as error:
        tell(cause_of(error, words.image))
    return 1
