"""The people that a field of a mail names, each as a name and an address, read in one pass: whatever the field contains, each letter is read at most
a few times. Python's own parser of such fields takes seconds for some fields of a few thousand letters.
"""
import binascii
import encodings
import functools
import itertools
import quopri
import re
from collections.abc import Iterator
from typing import NamedTuple

# The most people of a field, the most letters of each name and of each address, and the most tokens of a field that are read.
MOST, NAME, ADDRESS, TOKENS = 32, 100, 320, 1_024
ENCODED = r"=\?(?P<charset>[^?\s<>,;\"]+)\?(?P<code>[bBqQ])\?(?P<coded>[^?]*)\?="
ENCODED_WORD = re.compile(ENCODED)
# The tokens of a field: an encoded word, a quoted text, an address in `< >`, the beginning of a comment, a separator of people or the end of a
# group's name, and anything else.
TOKEN = re.compile(rf"(?P<word>{ENCODED})|\"(?P<quoted>(?:[^\"\\]+|\\.)*)\"?|<(?P<angle>[^>]*)>?|(?P<comment>\()|(?P<end>[,;:])"
                   r"|(?P<text>[^=\"<(,;:]+|.)")
IN_COMMENT = re.compile(r"[()]|\\.")
ESCAPED = re.compile(r"\\(.)")
NO_NAME = re.compile(r"[@\[\]>\\]")


class Person(NamedTuple):
    """A person whom a field names. What the field does not say is empty."""

    name: str
    address: str


@functools.cache
def charsets() -> frozenset[str]:
    """Character sets that exist. Looking for another one takes long, since it could be in a file."""
    import encodings.aliases
    import pkgutil
    return frozenset((*encodings.aliases.aliases, *(module.name for module in pkgutil.iter_modules(encodings.__path__))))


def people(field: str) -> list[Person]:
    """The name and the address of each of the first people of a field; an address is empty if there is none."""
    return list(itertools.islice(found(re.sub(r"[\r\n]+", "", field)), MOST))


def found(field: str) -> Iterator[Person]:
    at, tokens = 0, 0
    said: list[str] = []
    plain: list[str] = []
    angle: str | None = None
    while at < len(field) and tokens < TOKENS:
        tokens += 1
        token = TOKEN.match(field, at)
        # The last group of the pattern matches any letter.
        assert token
        at, more = token.end(), token["text"] or token["word"] or ""
        if token["comment"]:
            at, more = behind_comment(field, at), " "
        elif token["angle"] is not None:
            angle = token["angle"] if angle is None else angle
        elif token["quoted"] is not None:
            more = ESCAPED.sub(r"\1", token["quoted"])
        elif token["end"]:
            if token["end"] != ":":
                yield from person("".join(said), "".join(plain), angle)
            said, plain, angle = [], [], None
        # Text after `< >` is ignored, up to the next person.
        if angle is None:
            said.append(more)
            plain.append(token["text"] or "")
    yield from person("".join(said), "".join(plain), angle)


def behind_comment(field: str, at: int) -> int:
    """Where a comment ends that begins before this position. Comments can be nested."""
    depth = 1
    for mark in IN_COMMENT.finditer(field, at):
        depth += {"(": 1, ")": -1}.get(mark[0], 0)
        if not depth:
            return mark.end()
    return len(field)


def person(said: str, plain: str, angle: str | None) -> Iterator[Person]:
    """One person, or none. Before `< >` a name contains `@` only in quotes: without quotes such a text is an address."""
    sign = NO_NAME.search(plain)
    if angle is not None and not sign:
        yield Person(decoded(said[:4 * ADDRESS])[:NAME], angle[:ADDRESS].strip())
    else:
        text = plain[:sign.start()] if sign and sign[0] != "@" else plain if angle is not None else said
        if text.strip():
            yield Person("", decoded(text[:ADDRESS]).strip())


def decoded(text: str) -> str:
    """A text with its encoded words decoded."""
    return ENCODED_WORD.sub(lambda word: decoded_word(word["charset"], word["code"], word["coded"]), text)


def decoded_word(charset: str, code: str, coded: str) -> str:
    data = coded.encode("utf-8", "surrogateescape")
    if code in "qQ":
        data = quopri.decodestring(data, header=True)
    else:
        try:
            data = binascii.a2b_base64(data + b"=" * (-len(data) % 4))
        except binascii.Error:
            return coded
    charset = encodings.normalize_encoding(charset.partition("*")[0].lower())
    try:
        return data.decode(charset if charset in charsets() else "ascii", "replace")
    except (LookupError, ValueError):
        return data.decode("ascii", "replace")
