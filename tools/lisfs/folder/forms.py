"""Turns texts into words and names of an image: ASCII, and well formed for the program."""
from __future__ import annotations

import os
import re
import unicodedata

from lisfs.constants import MAX_WORD
from lisfs.words import mapped

# Letters that are written as other letters, and letters that are not a base letter with a mark.
LETTERS = str.maketrans({
    "ä": "ae", "ö": "oe", "ü": "ue", "Ä": "Ae", "Ö": "Oe", "Ü": "Ue", "ß": "ss", "ẞ": "SS", "æ": "ae", "Æ": "Ae", "œ": "oe", "Œ": "Oe",
    "ø": "o", "Ø": "O", "ł": "l", "Ł": "L", "đ": "d", "Đ": "D", "ð": "d", "Ð": "D", "þ": "th", "Þ": "Th", "ı": "i", "ħ": "h", "Ħ": "H",
    "'": "", "’": "", "‘": "", "ʼ": "",
})
RUN = re.compile(r"[A-Za-z0-9]+")


class WithoutMarks(dict[int, int | str | None]):
    """The mapping of a letter whose marks are separate: a mark is dropped, and a letter that is not ASCII becomes a blank."""

    def __missing__(self, code: int) -> int | str | None:
        found = self[code] = None if unicodedata.combining(chr(code)) else code if code < 128 else " "
        return found


WITHOUT_MARKS = WithoutMarks()


def folded(text: str) -> str:
    """A text in ASCII, with its case: umlauts as two letters, other letters without their marks. What can't be written so becomes a blank."""
    if text.isascii():
        return text.replace("'", "")
    # A mark that follows its letter is first joined to it, so that it is an umlaut too.
    text = unicodedata.normalize("NFC", text).translate(LETTERS)
    return unicodedata.normalize("NFKD", text).translate(WITHOUT_MARKS)


def runs(text: str) -> list[str]:
    """The longest runs of letters and digits of a text in ASCII and small letters."""
    return RUN.findall(folded(text).lower())


def joined(text: str, longest: int) -> bytes:
    """The runs of a text joined by `-`: as many whole runs as fit, and at least a part of the first one."""
    found = ""
    for run in runs(text):
        more = f"{found}-{run}" if found else run[:longest]
        if len(more) > longest:
            break
        found = more
    return found.encode()


def valued(head: bytes, text: str) -> list[bytes]:
    """The word of this head with a text as its value, or None."""
    value = joined(text, MAX_WORD - len(head) - 1)
    return [b"%s:%s" % (head, value)] if value else []


def plain(name: str) -> bytes:
    """The plain bytes of a file name of the system, of any length. Letters that are not ASCII are folded; what can't be written so becomes `_`."""
    text = unicodedata.normalize("NFC", os.fsencode(name).decode(errors="surrogateescape"))
    text = "".join(letter if letter.isascii() else folded(letter).strip() or "_" for letter in text)
    return mapped(text.encode())


def folder_value(name: str) -> bytes:
    """The value that represents a folder in a word, of any length; empty if its name has only full stops."""
    return plain(name).lstrip(b".")
