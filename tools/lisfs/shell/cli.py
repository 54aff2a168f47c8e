"""A prompt over an image: it shows the place, completes words and names by Tab, explains refusals in sentences, and counts bytes.

usage: tools/shell IMAGE

`help` lists the commands: those of `lisfs run`, and `put` and `get`, which copy files in and out, `tag` and `untag`, which change the words of
several files, `undo`, `find`, `grep` and `less`. `ls` lists other places too, and counts. Ctrl-C stops a line, and `quit` or Ctrl-D ends the
prompt. What is longer than the terminal is shown by `$PAGER`, or `less`; an empty `$PAGER`, or `cat`, turns this off. The lines that you
type are kept in `$XDG_STATE_HOME/lisfs/shell_history`, or below `~/.local/state`, and beside it the last change, for `undo` of the next
shell. If `$NO_COLOR` is set there are no colours.

If the image is served (`tools/serve IMAGE`), the prompt is a client of its server, and sees what other clients change.

If standard input or output is not a terminal, the lines of the input run without a prompt, with bytes after `add` and `write` lines as
`lisfs run` takes them. Standard error says what is refused, and the lines after it still run.

The status is 0 at the end, and 1 if a line of a script was refused, if something else is wrong, or for wrong use. If the program ends, for
example because another one has the image or at a disk fault, the status is that of the program, or 128 plus the number of the signal that
killed it. Ctrl-C ends a script with 130. Nothing of this is proved.
"""
import io
import os
import sys

from lisfs.client import Ended, Locked, NotAReply, missing
from lisfs.dumps import NotADump
from lisfs.endings import quiet
from lisfs.limits import limits_of
from lisfs.opening import opened
from lisfs.shell.completing import Completer
from lisfs.shell.earlier import Earlier
from lisfs.shell.running import Shell, as_a_script, at_a_prompt
from lisfs.shell.session import Session
from lisfs.shell.terminal import History, Interrupts, Screen, Stopped, history_path
from lisfs.showing import harmless

STOPPED = 130


def run(image: str, screen: Screen) -> int:
    """Runs the shell, and returns the status."""
    program, dump = opened("shell", image)
    # Ctrl-C is for the shell alone, and the program finishes.
    with program:
        session = Session(program, dump, limits_of(image), screen.interrupts.ask)
        earlier = Earlier(image, session)
        shell = Shell(session, screen, earlier)
        try:
            if not screen.asks:
                is_fine = as_a_script(shell)
                earlier.keep()
                return 0 if is_fine else 1
            screen.lines([f"{harmless(os.fsencode(image))}: {len(dump.files):,} files. `help` lists the commands, Ctrl-D ends."])
            Completer(session, screen).install()
            at_a_prompt(shell, History(history_path()))
            earlier.keep()
            return 0
        except NotAReply:
            # No later reply can be recognized.
            program.kill()
            raise


def cause_of(end: Ended) -> str:
    """The message for the end of the program."""
    if end.status < 0:
        return f"the program was killed by signal {-end.status}; what was replied to is kept"
    return ": ".join(end.text.splitlines()) or f"the program has ended with {end.status}; what was replied to is kept"


def status_of(end: Ended) -> int:
    return 128 - end.status if end.status < 0 else end.status or 1


@quiet
def main() -> int:
    if len(sys.argv) != 2 or sys.argv[1].startswith("-"):
        sys.exit(__doc__)
    if what := missing():
        sys.exit(f"shell: {what}")
    if sys.stdin is None or sys.stdout is None:
        sys.exit("shell: standard input or output is closed")
    for stream in (sys.stdin, sys.stdout):
        if isinstance(stream, io.TextIOWrapper):
            stream.reconfigure(errors="surrogateescape")
    image, screen = sys.argv[1], Screen(Interrupts())
    shown = harmless(os.fsencode(image))
    cause: str | None = None
    try:
        status = run(image, screen)
    except Locked as end:
        others = "another `tools/shell` or `tools/mount`"
        status, cause = status_of(end), f"{shown}: another program has it open, as {others}: end that first; `tools/serve` lets several have it"
    except Ended as end:
        # Ctrl-C ends the reading of the image at the start.
        status, cause = (STOPPED, "stopped") if screen.interrupts.has_come else (status_of(end), cause_of(end))
    except NotAReply as error:
        status, cause = 1, f"the program does not reply as lisfs does: {error}"
    except (KeyboardInterrupt, Stopped):
        status, cause = STOPPED, "stopped"
    except NotADump as error:
        status, cause = 1, str(error)
    except BrokenPipeError:
        raise
    except OSError as error:
        status, cause = 1, f"{error.filename or shown}: {error.strerror}"
    if cause:
        screen.fault(f"shell: {cause}")
    return status
