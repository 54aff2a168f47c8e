"""The commands: the syntax of each, what it does, and when it is refused, as `help` prints it."""
import enum
import re
import textwrap
from typing import NamedTuple

from lisfs.constants import (
    ALREADY_DECLARED, AXIOM_THERE, BAD_FORMULA, BUILT_IN, CYCLE, IN_USE, LARGE_DESCRIPTION, LARGE_FILE, LARGE_FORMULA, MAX_ASSIGNED,
    MAX_LINE, MAX_WORD, NAME_TAKEN, NO_AXIOM, NO_AXIOM_ROOM, NO_FILE_HERE, NO_FILE_ROOM, NO_PROPERTY_ROOM, NO_SPACE, NOT_A_PLACE, NOT_ASSIGNABLE,
    NOT_DECLARED, TOO_MANY_ASSIGNED, UNKNOWN_PROPERTY, V3_MAX_FILES)
from lisfs.refusals import meaning
from lisfs.shell.undoing import UNDOABLE

# How many words of a head a listing shows on a terminal, and how many files are changed at once without a question.
SOME, ASKED = 20, 20
# A line of `tag` and `untag` may name all files of an image, and as many words as a file is given. The shell turns it into commands.
LONGEST = (1 + V3_MAX_FILES + MAX_ASSIGNED) * (MAX_WORD + 1)


class Part(enum.Enum):
    """The kind of a word of a line: a word that is new, declared or known, or that a file can be given; a file that is new, or here, or such a file
    or word; a formula; a count of bytes; a path of the system; any text; a command."""

    NEW_WORD = "new word"
    DECLARED = "declared"
    KNOWN = "known"
    GIVEN = "given"
    NEW_FILE = "new file"
    FILE = "file"
    FILE_OR_WORD = "file or word"
    FORMULA = "formula"
    COUNT = "count"
    PATH = "path"
    TEXT = "text"
    COMMAND = "command"


WIDTH = 79
WORDS = (Part.NEW_WORD, Part.DECLARED, Part.KNOWN, Part.GIVEN)
FILES = (Part.NEW_FILE, Part.FILE)


class Command(NamedTuple):
    """`parts` are the kinds of the words after the command. The first `needed` of them are required; the last one may be repeated if `repeats`.
    `refusals` are the numbers, in the order in which the program checks, or for the shell's own commands those that it passes on."""

    form: str
    does: str
    more: str
    parts: tuple[Part, ...]
    needed: int
    repeats: bool
    refusals: tuple[int, ...]

    @property
    def flags(self) -> list[bytes]:
        """The options that may come before the parts."""
        return [flag.encode() for flag in re.findall(r"\[(-\w)\]", self.form)]


def command(form: str, does: str, *parts: Part, needed: int | None = None, repeats: bool = False, refusals: tuple[int, ...] = (),
            more: str = "") -> Command:
    return Command(form, does, more, parts, len(parts) if needed is None else needed, repeats, refusals)


CREATES = (NAME_TAKEN, NOT_A_PLACE, BUILT_IN, NOT_ASSIGNABLE, UNKNOWN_PROPERTY, TOO_MANY_ASSIGNED, NO_FILE_ROOM, LARGE_DESCRIPTION, NO_PROPERTY_ROOM)
TAGS = (NO_FILE_HERE, BUILT_IN, NOT_ASSIGNABLE, UNKNOWN_PROPERTY, TOO_MANY_ASSIGNED, LARGE_DESCRIPTION, NO_PROPERTY_ROOM)
RULE = "What is the name of a file of this place is a file, and anything else is a word, in any order. "
# The refusals of a formula that leads nowhere.
LEADS = (BAD_FORMULA, LARGE_FORMULA, UNKNOWN_PROPERTY)
COMMANDS = {
    "ls": command("ls [-a] [-c] [PLACE]", "lists words that narrow the place, and other files", Part.FORMULA, needed=0,
                  more="On a terminal the words stand by their heads, the most frequent first, each with the number of files that are left after "
                       f"`cd WORD`; of more than {SOME} words of a head only -a shows all. Of mails that tools/sync took in, who:, about: and "
                       "thread: come first, and from:, to: and subject: last. In a script, and with -c, each has a line: `d` marks a word, "
                       "and `f` a file that no word covers; -c puts the number before the word. PLACE is a formula as in `cd`; you stay where "
                       "you are."),
    "cd": command("cd FORMULA", "goes to a place", Part.FORMULA, refusals=LEADS,
                  more="`/` is and, `|` is or, `!` is not, `size>=N` and `size<N` test the bytes. A formula that begins with `/` starts at the root, "
                       "any other goes on from here; `..` drops the last step. At a terminal a word that no file has "
                       "matches nothing on one side of `|`."),
    "pwd": command("pwd", "shows the place"),
    "find": command("find [FORMULA]", "shows all files of a place, one a line", Part.FORMULA, needed=0, refusals=LEADS,
                    more="The formula is written as in `cd`. Without one it is this place. On one side of `|` a word that no file has matches "
                         "nothing. You stay where you are."),
    "grep": command("grep [-i] TEXT [FORMULA]", "shows lines of files that have a text", Part.TEXT, Part.FORMULA, needed=1, refusals=LEADS,
                    more="Each is shown as NAME:NUMBER:LINE, of all files of the place to which the formula leads. The text stands for itself, "
                         "and may be in quotes; -i takes small and large letters as the same. Of a file with a NUL byte it shows only that the "
                         "text is there."),
    "cat": command("cat NAME", "shows the bytes of a file", Part.FILE, refusals=(NO_FILE_HERE,),
                   more="On a terminal, what is no text is shown as `^X`, `\\xNN` or `\\uNNNN`."),
    "less": command("less NAME", "shows the bytes of a file by a pager", Part.FILE, refusals=(NO_FILE_HERE,),
                    more="The pager is $PAGER, or `less`. In a script it is as `cat`."),
    "props": command("props NAME", "shows all words that a file has", Part.FILE, refusals=(NO_FILE_HERE,),
                     more="After the words of a file that has as many as it can have, a line says so: others were perhaps left out."),
    "way": command("way NAME", "shows the words of listings that lead to a file", Part.FILE, refusals=(NO_FILE_HERE,)),
    "stat": command("stat", "counts files, words, axioms and free blocks", more="A block has 4,096 bytes."),
    "put": command("put [-w] FILE [AS] [WORD..]", "takes a file of the system in", Part.PATH, Part.NEW_FILE, Part.GIVEN,
                   needed=1, repeats=True, refusals=(LARGE_FILE, *CREATES, NO_SPACE),
                   more="It has these words and those of the place. AS is its name here, otherwise that of FILE. If a file of that name is "
                        "here already, it gets the bytes and keeps its words, if you say yes, or -w. Quotes, and `\\` before a blank, are as in "
                        "other shells."),
    "get": command("get NAME [FILE]", "writes a file's bytes to a file of the system", Part.FILE, Part.PATH, needed=1, refusals=(NO_FILE_HERE,),
                   more="FILE may be a folder; without it NAME is taken. `get in FORMULA FOLDER` copies all files of a place to a folder. A file that "
                        "is there is not written over, unless you say yes."),
    "create": command("create NAME WORD..", "makes an empty file", Part.NEW_FILE, Part.GIVEN, needed=1, repeats=True, refusals=CREATES,
                      more="It has these words and those of the place."),
    "add": command("add NAME N WORD..", "makes a file of the N bytes that follow", Part.NEW_FILE, Part.COUNT, Part.GIVEN, needed=2, repeats=True,
                   refusals=(LARGE_FILE, *CREATES, NO_SPACE),
                   more="They begin with the next line, and a line feed follows them. It is for scripts: at a prompt `put` counts the bytes."),
    "write": command("write NAME N", "gives a file the N bytes that follow", Part.FILE, Part.COUNT,
                     refusals=(LARGE_FILE, NO_FILE_HERE, LARGE_DESCRIPTION, NO_PROPERTY_ROOM, NO_SPACE),
                     more="They are given as those of `add`. It is for scripts: at a prompt `put` counts the bytes."),
    "rename": command("rename NAME OTHER", "gives a file another name", Part.FILE, Part.NEW_FILE,
                      refusals=(NO_FILE_HERE, NAME_TAKEN, LARGE_DESCRIPTION, NO_PROPERTY_ROOM)),
    "mv": command("mv NAME FORMULA", "takes a file from here to another place", Part.FILE, Part.FORMULA,
                  refusals=(BAD_FORMULA, LARGE_FORMULA, NO_FILE_HERE, NOT_A_PLACE, BUILT_IN, NOT_ASSIGNABLE, UNKNOWN_PROPERTY, TOO_MANY_ASSIGNED,
                            LARGE_DESCRIPTION, NO_PROPERTY_ROOM),
                  more="It loses the words of this place that it was given, and gains those of the other. On a terminal it shows which these are, "
                       "and asks."),
    "tag": command("tag FILE.. WORD..", "gives words to files", Part.FILE_OR_WORD, Part.FILE_OR_WORD, repeats=True, refusals=TAGS,
                   more=RULE + "`tag WORD in FORMULA` gives it to all files of a place. On a terminal it asks before it changes more than "
                   f"{ASKED} files."),
    "untag": command("untag FILE.. WORD..", "takes words back from files", Part.FILE_OR_WORD, Part.FILE_OR_WORD, repeats=True, refusals=TAGS,
                     more=RULE + "`untag WORD in FORMULA` takes it from all files of a place. A file that has a word on its own, or by another word, "
                     "keeps it."),
    "rm": command("rm NAME", "removes a file", Part.FILE, refusals=(NO_FILE_HERE,)),
    "mkdir": command("mkdir WORD", "declares a word, under the words of the place", Part.NEW_WORD,
                     refusals=(BUILT_IN, NOT_ASSIGNABLE, ALREADY_DECLARED, NOT_A_PLACE, UNKNOWN_PROPERTY, NO_AXIOM_ROOM, NO_PROPERTY_ROOM,
                               LARGE_DESCRIPTION),
                     more="`music` is a plain word. `year:` is a head, of which a file can have values, as `year:2003`. A test, as `size>=1000`, "
                          "is then a word of each file that meets it."),
    "rmdir": command("rmdir WORD", "removes a declared word that nothing uses", Part.DECLARED, refusals=(BUILT_IN, NOT_ASSIGNABLE, NOT_DECLARED, IN_USE)),
    "axiom": command("axiom LEFT RIGHT", "says that each file with LEFT has RIGHT too", Part.KNOWN, Part.DECLARED,
                     refusals=(NOT_ASSIGNABLE, UNKNOWN_PROPERTY, AXIOM_THERE, CYCLE, NO_AXIOM_ROOM, NO_PROPERTY_ROOM, LARGE_DESCRIPTION)),
    "unaxiom": command("unaxiom LEFT RIGHT", "removes that axiom", Part.KNOWN, Part.DECLARED, refusals=(NO_AXIOM,)),
    "undo": command("undo", "undoes the last change",
                    more=f"Each further `undo` undoes the change before it. The last {UNDOABLE} changes of this shell are kept, and then the last one "
                         "of the shell before, which is undone only while the image is as it left it. There is no redo."),
    "help": command("help [COMMAND]", "explains all commands, or one", Part.COMMAND, needed=0),
    "exit": command("exit", "ends, as Ctrl-D does"),
    "quit": command("quit", "ends, as Ctrl-D does"),
}
# Commands that the program does not know.
OWN = ("find", "grep", "less", "put", "get", "tag", "untag", "undo", "help", "exit", "quit")


def most_of_line(command: bytes) -> int:
    """The most bytes of a line of a command."""
    return LONGEST if command in (b"tag", b"untag") else MAX_LINE


def all_in_lines() -> list[str]:
    """All commands, one per line."""
    width = max(len(command.form) for command in COMMANDS.values())
    return [f"{command.form:{width}}  {command.does}" for command in COMMANDS.values()]


def told(name: str) -> list[str]:
    """The help text of a command."""
    command = COMMANDS[name]
    lines = [f"{command.form}: {command.does}."] + textwrap.wrap(command.more, WIDTH)
    refused = [f"- {meaning(number, name)}" for number in command.refusals]
    return lines + (["It is refused if" + (":" if name in OWN else ", in this order:")] + refused if refused else [])
