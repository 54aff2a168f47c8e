"""The shell's own commands that copy files of the system into the image, and files of the image out."""
from __future__ import annotations

import contextlib
import os
import shlex
import shutil
import stat
from collections.abc import Callable, Collection, Sequence
from typing import NoReturn

from lisfs.client import Ended, NotAReply, Refused
from lisfs.index import File
from lisfs.shell.commands import COMMANDS
from lisfs.shell.explaining import Failed, bad_line, of_files, said, sentence, with_blanks
from lisfs.shell.looking import elsewhere
from lisfs.shell.session import Session
from lisfs.shell.terminal import Screen, Stopped
from lisfs.showing import harmless
from lisfs.words import NAME_FORM, is_file_name, is_word

# How many names of existing files are shown.
SHOWN = 5


class Copying:
    def __init__(self, session: Session, screen: Screen) -> None:
        self.session, self.screen = session, screen

    # In.

    def put(self, line: bytes, _: list[bytes]) -> None:
        words = in_quotes(line)
        is_sure = words[:1] == [b"-w"]
        path, *words = words[is_sure:] or wrong("put")
        name, words = words[0] if words else os.path.basename(path.rstrip(b"/")), words[1:]
        if not is_file_name(name):
            raise Failed(f"{harmless(name)}: no name of a file, which has {NAME_FORM}: give one after the path: put FILE AS")
        if malformed := [word for word in words if not is_word(word)]:
            raise Failed(bad_line("create", [name, *malformed], self.session))
        content, told = self.content_of(path), ""
        if self.session.is_here(name):
            if not is_sure and not self.screen.says_yes(f"{harmless(name)} is here already, with its words: write these bytes to it?"):
                raise Failed(f"{harmless(name)}: there is a file of this name already" + ("" if self.screen.asks else "; `put -w` writes to it"))
            self.judged(b"write", name, content, [], lambda: self.session.write(line, name, content))
            told = "; its words stay as they were" if words else ""
        else:
            self.judged(b"add", name, content, words, lambda: self.session.add(line, name, content, *words))
        self.screen.lines([f"{harmless(name)}: {len(content):,} bytes{told}"])

    def judged(self, command: bytes, name: bytes, content: bytes, words: Sequence[bytes], call: Callable[[], None]) -> None:
        """Runs a command with bytes. A refusal is raised as a sentence for its line."""
        try:
            call()
        except Refused as refused:
            raise Failed(sentence(refused, b" ".join([command, name, b"%d" % len(content), *words]), self.session)) from None

    def content_of(self, path: bytes) -> bytes:
        """The bytes of a file of the system, if a file of the image may have that many."""
        path, most = os.path.expanduser(path), self.session.limits.file_bytes
        try:
            found = os.stat(path)
            if not stat.S_ISREG(found.st_mode):
                raise Failed(f"{harmless(path)}: no plain file")
            with open(path, "rb") as file:
                content = file.read(most + 1)
        except OSError as error:
            raise Failed(f"{harmless(path)}: {error.strerror}") from None
        if len(content) > most:
            raise Failed(f"{harmless(path)}: it has {max(found.st_size, len(content)):,} bytes, and a file of this image at most {most:,}")
        return content

    # Out.

    def get(self, line: bytes, _: list[bytes]) -> None:
        words = in_quotes(line)
        if len(words) == 3 and words[0] == b"in":
            self.get_all(words[1], words[2])
            return
        if words[:1] == [b"in"] and len(words) > 3 and (hint := with_blanks("get", words, 1, 1)):
            raise Failed(hint)
        if not 1 <= len(words) <= 2:
            wrong("get")
        if not is_file_name(words[0]):
            raise Failed(bad_line("get", words, self.session))
        content = self.session.content(words[0])
        path = os.path.expanduser(words[1] if len(words) > 1 else words[0])
        path = os.path.join(path, words[0]) if os.path.isdir(path) else path
        try:
            self.write_to(path, content)
        except OSError as error:
            raise Failed(f"{harmless(path)}: {error.strerror}") from None
        self.screen.lines([f"{harmless(path)}: {len(content):,} bytes"])

    def write_to(self, path: bytes, content: bytes) -> None:
        """Writes a file of the system: a new one, or over an old one if the person says yes."""
        if not os.path.lexists(path):
            write_new(path, content)
            return
        if not os.path.isfile(path):
            raise Failed(f"{harmless(path)}: it is there already, and no plain file")
        if not self.screen.says_yes(f"{harmless(path)} is there already: write over it?"):
            raise Failed(f"{harmless(path)}: it is there already, and is left as it was")
        write_over(path, content)

    def get_all(self, formula: bytes, folder: bytes) -> None:
        """Copies all files of a place to a folder of the system, in the order of their names."""
        folder = os.path.expanduser(folder)
        if not os.path.isdir(folder):
            raise Failed(f"{harmless(folder)}: no such folder: make it first")
        with elsewhere(self.session, self.screen, "get", formula):
            files = self.session.files()
            there = {file.name for file in files if os.path.lexists(os.path.join(folder, file.name))}
            self.ask_for(folder, sorted(there), len(files))
            self.copy(files, folder, there)

    def ask_for(self, folder: bytes, there: Sequence[bytes], count: int) -> None:
        """Asks, before anything is written, whether to overwrite existing files. Raises `Failed` if not."""
        for name in there:
            if not os.path.isfile(path := os.path.join(folder, name)):
                raise Failed(f"{harmless(path)}: it is there already, and no plain file; nothing was copied")
        if not there:
            return
        text = f"{harmless(folder)}: {len(there):,} of {of_files(count)} are there already: {said(*there[:SHOWN])}{', ..' if len(there) > SHOWN else ''}"
        if not self.screen.says_yes(f"{text}: write over them?"):
            raise Failed(f"{text}; nothing was copied")

    def copy(self, files: Sequence[File], folder: bytes, over: Collection[bytes]) -> None:
        """Copies files; those in `over` overwrite existing ones. At its end it says how many were copied, even if it fails half way."""
        count, size, last = 0, 0, b""
        try:
            for file, content in self.session.contents(files):
                path = os.path.join(folder, file.name)
                try:
                    (write_over if file.name in over else write_new)(path, content)
                except OSError as error:
                    raise Failed(f"{harmless(path)}: {error.strerror}") from None
                count, size, last = count + 1, size + len(content), file.name
        except (Failed, Stopped, Ended, NotAReply):
            self.screen.complain(f"{harmless(folder)}: {count:,} of {of_files(len(files))} copied" + (f", up to {said(last)}" if count else ""))
            raise
        # If the image is served, another client may have removed some meanwhile.
        text = of_files(count) if count == len(files) else f"{count:,} of {of_files(len(files))}"
        self.screen.lines([f"{harmless(folder)}: {text} copied, {size:,} bytes"])


def write_new(path: bytes, content: bytes) -> None:
    """Writes a new file of the system. If this fails half way, no file is left."""
    try:
        with open(path, "xb") as file:
            file.write(content)
    except FileExistsError:
        raise
    except BaseException:
        with contextlib.suppress(OSError):
            os.unlink(path)
        raise


def write_over(path: bytes, content: bytes) -> None:
    """Overwrites a file of the system, which keeps its old bytes until the new ones are complete."""
    # Few sessions need it.
    import tempfile
    path = os.path.realpath(path)
    descriptor, new = tempfile.mkstemp(dir=os.path.dirname(path))
    try:
        with open(descriptor, "wb") as file:
            file.write(content)
        shutil.copymode(path, new)
        os.replace(new, path)
    except BaseException:
        with contextlib.suppress(OSError):
            os.unlink(new)
        raise


def in_quotes(line: bytes) -> list[bytes]:
    """The words after the command, with quotes and backslashes as in other shells."""
    try:
        words = [os.fsencode(word) for word in shlex.split(os.fsdecode(line.removesuffix(b"\r")))]
    except ValueError:
        raise Failed(f"{harmless(line.strip())}: a quote is not closed") from None
    if b"\0" in line:
        raise Failed(f"{harmless(line.strip())}: no path has such a byte")
    return words[1:]


def wrong(name: str) -> NoReturn:
    raise Failed(f"{name}: usage: {COMMANDS[name].form}")
