"""Words from the tags of a piece of music, which `mutagen` reads (Debian's `python3-mutagen`): `artist:`, `album:`, `genre:`, `year:`."""
from __future__ import annotations

import importlib
import io
import os
import re
import sys
from collections.abc import Sequence
from typing import Protocol, cast

from lisfs.folder.forms import valued

HEADS = (b"artist", b"album", b"genre", b"year")
SUFFIXES = {".mp3", ".ogg", ".oga", ".opus", ".spx", ".flac", ".m4a", ".m4b", ".mp4", ".aac", ".wma", ".wav", ".aif", ".aiff", ".ape",
            ".wv", ".mpc", ".tta", ".dsf"}
# The names of a tag in the file formats.
TAGS = {
    b"artist": ("artist", "TPE1", "\xa9ART", "Author", "Artist"),
    b"album": ("album", "TALB", "\xa9alb", "WM/AlbumTitle", "Album"),
    b"genre": ("genre", "TCON", "\xa9gen", "WM/Genre", "Genre"),
    b"year": ("date", "year", "TDRC", "TYER", "\xa9day", "WM/Year", "Year", "Date"),
}
YEAR = re.compile(r"(?<![0-9])[0-9]{4}(?![0-9])")
# Where Debian's packages are, which another Python that is first on the path doesn't search.
DEBIAN = "/usr/lib/python3/dist-packages"


class Tags(Protocol):
    def __getitem__(self, name: str, /) -> object: ...


class Piece(Protocol):
    """A piece of music that was read, and its tags, if any."""

    tags: Tags | None


class Mutagen(Protocol):
    """What of the module is used here."""

    version_string: str

    def File(self, file: io.BytesIO, /) -> Piece | None: ...


def is_music(path: str) -> bool:
    return os.path.splitext(path)[1].lower() in SUFFIXES


def reader() -> Mutagen | None:
    """The module, or None if it is missing."""
    try:
        return cast(Mutagen, importlib.import_module("mutagen"))
    except ImportError:
        pass
    sys.path.append(DEBIAN)
    try:
        return cast(Mutagen, importlib.import_module("mutagen"))
    except ImportError:
        return None
    finally:
        sys.path.remove(DEBIAN)


def words(mutagen: Mutagen, path: str, content: bytes) -> list[bytes] | None:
    """The words of a piece's tags, the most important first. None if the file is no music, or broken."""
    file = io.BytesIO(content)
    # The package looks at the suffix too.
    file.name = path
    try:
        piece = mutagen.File(file)
        tags = None if piece is None else piece.tags
    except Exception:
        # The package raises its own errors, and others for some broken files.
        return None
    if piece is None:
        return None
    found: list[bytes] = []
    for head in HEADS:
        for text in texts(tags, TAGS[head]):
            if head == b"year":
                year = YEAR.search(text)
                found += [b"year:" + year[0].encode()] if year else []
            else:
                found += valued(head, text)
    return list(dict.fromkeys(found))


def texts(tags: Tags | None, names: Sequence[str]) -> list[str]:
    """The texts of the first of these tags that exists."""
    if tags is None:
        return []
    for name in names:
        try:
            value = tags[name]
        except Exception:
            continue
        # A genre of ID3 may be a number; `genres` are its names.
        several = getattr(value, "genres", None) or getattr(value, "text", value)
        several = several if isinstance(several, (list, tuple)) else [several]
        if several := [text for text in map(str, several) if text.strip()]:
            return several
    return []
