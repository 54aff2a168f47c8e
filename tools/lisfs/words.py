"""The forms of words and of names of files, as docs/MODEL.md has them. Words and names are bytes."""
import re

from lisfs.constants import BUILT_IN_HEADS, MAX_WORD

# The bytes of words and names, as a class of a regular expression, and as a text for a person.
PLAIN = rb"A-Za-z0-9_.+@-"
PLAIN_FORM = "letters, digits and _ - . + @"
NAME_FORM = f"1 to {MAX_WORD} {PLAIN_FORM}"
PLAIN_RUN = re.compile(rb"[%b]+" % PLAIN)
PLAIN_BYTES = b"".join(PLAIN_RUN.findall(bytes(range(256))))
NOT_PLAIN = re.compile(rb"[^%b]" % PLAIN)
# Of any length, as in a formula and a path.
FILE_NAME = PLAIN_RUN
WORD = re.compile(rb"(?!\.)[%b]+(:[%b]*)?" % (PLAIN, PLAIN))
TEST = re.compile(rb"size(>=|<)([0-9]{1,12})(?![0-9])")


def is_file_name(name: bytes) -> bool:
    return len(name) <= MAX_WORD and FILE_NAME.fullmatch(name) is not None and name not in (b".", b"..")


def is_word(text: bytes) -> bool:
    """Whether a text is a plain word, a head or a value."""
    return len(text) <= MAX_WORD and WORD.fullmatch(text) is not None


def is_test(word: bytes) -> bool:
    return TEST.fullmatch(word) is not None


def is_plain(word: bytes) -> bool:
    """Whether a word, or a test, is plain."""
    return b":" not in word and b"<" not in word and b">" not in word


def is_head(word: bytes) -> bool:
    return word.endswith(b":")


def stem_of(word: bytes) -> bytes:
    """The part of a word before its first colon, or all of it if it has none."""
    return word.partition(b":")[0]


def head_of(word: bytes) -> bytes | None:
    """The head of a value, or of a head itself, with its colon; None for any other word."""
    head, colon, _ = word.partition(b":")
    return head + colon if colon else None


def is_built_in(word: bytes) -> bool:
    """Whether files have it automatically, so that nobody gives or declares it."""
    return head_of(word) in BUILT_IN_HEADS


def is_assignable(text: bytes) -> bool:
    """Whether a file can be given these bytes as a word, once it or its head is declared."""
    return is_word(text) and not is_head(text) and not is_built_in(text)


def mapped(name: bytes) -> bytes:
    """A name in which each byte that is not plain becomes `_`."""
    return NOT_PLAIN.sub(b"_", name)
