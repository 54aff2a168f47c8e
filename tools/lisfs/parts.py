"""Views of the lines of a file, and edited views that are put back, as the words `view` and `put` of the program do it; also of a served image.

A served image is open already, so these words can't open it. The file's bytes then go through a separate image, which has this one file: the program
makes the view there, and puts the edited view back, and the server's image gets the resulting bytes.
"""
import os
from typing import NamedTuple

from lisfs import client
from lisfs.client import PROGRAM, Ended, Program, Refused
from lisfs.constants import V3_MAX_FILE
from lisfs.limits import blocks_of
from lisfs.opening import joined, waiting
from lisfs.words import is_file_name

# The limits of an image that can hold any file, with room for new bytes besides the old ones.
LIMITS = ("64", "64", str(2 * blocks_of(V3_MAX_FILE)), "v3")


class Changed(Exception):
    """Another client has changed the file meanwhile, so that nothing was written."""


class Alone(NamedTuple):
    """An image with one file."""

    image: str
    name: str

    def view(self, formula: str) -> bytes:
        return client.view(self.image, self.name, formula)

    def put(self, formula: str, edited: bytes) -> bytes:
        """Writes the edited view, and returns the new bytes of the file."""
        client.put(self.image, self.name, formula, edited)
        with Program([PROGRAM, "run", self.image]) as program:
            return program.cat(os.fsencode(self.name)).body


def alone(folder: str, name: str, content: bytes) -> Alone:
    """A new image in a folder, with these bytes as its only file."""
    image = os.path.join(folder, "image")
    Program([PROGRAM, "make", image, *LIMITS]).close()
    with Program([PROGRAM, "run", image]) as program:
        program.add(os.fsencode(name), content)
    return Alone(image, name)


def content_of(program: Program, name: str) -> bytes:
    """The bytes of a file. A name that is no file name is wrong use, as for the words of the program."""
    if not is_file_name(os.fsencode(name)):
        raise Ended(1, "lisfs: usage\nlisfs view IMAGE NAME F\n")
    return program.cat(os.fsencode(name)).body


def view(image: str, name: str, formula: str) -> bytes:
    """The view of a file's lines of which a formula holds. Raises `Refused` and `Ended`."""
    with waiting("edit", image):
        session = joined("edit", image)
        if session is None:
            return client.view(image, name, formula)
        import tempfile
        with session.program as program, tempfile.TemporaryDirectory() as folder:
            return alone(folder, name, content_of(program, name)).view(formula)


def put(image: str, name: str, formula: str, shown: bytes, edited: bytes) -> None:
    """Writes a file by an edited view of it. For a served image it raises `Changed` if the view is not the one that was shown."""
    with waiting("edit", image):
        session = joined("edit", image)
        if session is None:
            client.put(image, name, formula, edited)
            return
        import tempfile

        from lisfs.refusals import CHANGED
        with session.program as program, tempfile.TemporaryDirectory() as folder:
            session.program.guard()
            made = alone(folder, name, content_of(program, name))
            if made.view(formula) != shown:
                raise Changed
            try:
                program.write(os.fsencode(name), made.put(formula, edited))
            except Refused as refused:
                if refused.number == CHANGED:
                    raise Changed from None
                raise
