"""The names that files have in an image: the same at every run, whatever other files are there and in whatever order they are found.

A file is named after its path below the folder, with `+` between two parts, if the path can be told from these bytes. Otherwise the name is as much
of the path as fits, from its end, and a digest of the whole path: `PATH-DIGEST.SUFFIX`. A mail of a maildir is named `SUBJECT-DIGEST.eml`, with the
digest of its Message-ID, or of its path if it has none.
"""
import hashlib
import os
import re

from lisfs.constants import MAX_WORD
from lisfs.folder.forms import joined, plain

# How many digits of a digest a name has. Among a few thousand files two are equal once in a hundred thousand folders.
DIGITS = 10
# If a path has other bytes, or if its name would end as one with a digest does, the bytes alone don't identify it.
CLEAR = re.compile(rb"[A-Za-z0-9_.@-]+(?:/[A-Za-z0-9_.@-]+)*")
DIGESTED = re.compile(rb"-[0-9a-f]{10}(?:\.[A-Za-z0-9_@-]{1,12})?$")
SUFFIX = re.compile(rb"(?<=[^.+])\.[A-Za-z0-9_@-]{1,12}$")
EML, LEAN = b".eml", b"_"


def digest_of(*parts: bytes) -> bytes:
    """Some digits that represent these texts."""
    return hashlib.sha256(b"\0".join(parts)).hexdigest()[:DIGITS].encode()


def of_path(key: str) -> bytes:
    """The name of a file by its path below the folder."""
    path = os.fsencode(key)
    name = path.replace(b"/", b"+")
    is_clear = CLEAR.fullmatch(path) and len(name) <= MAX_WORD and name not in (b".", b"..") and not DIGESTED.search(name)
    return name if is_clear else digested(key, digest_of(b"path", path))


def digested(key: str, digest: bytes) -> bytes:
    """A name that has the end of a path, and a digest."""
    name = b"+".join(plain(part) for part in key.split(os.sep))
    found = SUFFIX.search(name)
    suffix = found[0] if found else b""
    room = MAX_WORD - len(b"-" + digest + suffix)
    return name[:len(name) - len(suffix)][-room:] + b"-" + digest + suffix


def of_mail(subject: str, digest: bytes) -> bytes:
    """The name of a mail from its subject and its identity."""
    return (joined(subject, MAX_WORD - len(b"-" + digest + EML)) or b"mail") + b"-" + digest + EML


def lean(name: bytes, is_mail: bool) -> bytes:
    """The name of a file from which the program derives only words of its name and its size: for a mail without its suffix, and for any other file
    with another suffix, so that `ext:c_` finds the sources of C."""
    return name.removesuffix(EML) if is_mail else name[-(MAX_WORD - len(LEAN)):] + LEAN
