"""The words that a file has automatically, as the program derives them by docs/MODEL.md: from its name, its size and its bytes, at most 48.

The program keeps no word beyond these, and does not say that there were more. This module reads a file again to count how many it would have, so that
a tool can say which search may miss it. Only the program decides which words a file has.
"""
from __future__ import annotations

import re
from collections.abc import Collection, Iterable, Iterator, Sequence
from typing import Literal, TypeAlias

from lisfs.constants import BUILT_IN_HEADS, MAX_ASSIGNED, MAX_DERIVED, MAX_DESCRIPTION, MAX_WORD, MEDIUM_FILE, SMALL_FILE
from lisfs.words import PLAIN_BYTES, PLAIN_RUN, head_of, is_built_in, is_head

# The most bytes that are searched for more words than a file has, so that no file takes long: the count is a lower bound.
LOOKED = 131_072
# The heads of words that bytes give.
HEADS = frozenset(BUILT_IN_HEADS) - {b"ext:", b"size:"}
SUFFIX = re.compile(rb"[^/]*[^/]\.([A-Za-z0-9_+@-]+)", re.S)
SIZES = ((0, b"size:empty"), (SMALL_FILE - 1, b"size:small"), (MEDIUM_FILE - 1, b"size:medium"))
FIELD = re.compile(rb"([!-9;-~]+):")
JOINT = re.compile(rb"\\\r?\n")
KEYWORDS = frozenset((b"if", b"for", b"while", b"switch", b"return", b"sizeof"))
# The tokens of a source, each by its first bytes. A literal ends with its closing byte, before a line feed or at the end.
PIECE = re.compile(rb"(?P<blank>[ \t]+)|(?P<feed>\n)|(?P<white>[\v\f\r]+)|(?P<identifier>[A-Za-z_][A-Za-z0-9_]*)|(?P<number>[0-9][A-Za-z0-9_.]*)"
                   rb"|(?P<comment>/\*.*?(?:\*/|\Z)|//[^\n]*)|(?P<literal>\"(?:[^\"\\\n]|\\[^\n])*\\?\"?|'(?:[^'\\\n]|\\[^\n])*\\?'?)|(?P<mark>.)", re.S)
# The end of the last line of a header, before the empty line.
HEADER_END = re.compile(rb"\n\r?\n")
PATH = re.compile(rb"<([^>\n]*)>|\"([^\"\n]*)\"")
# What a piece of a source is: the path of an include, or what a group of `PIECE` names. And where it is: at the beginning of a line, after the `#` of
# a directive, after its `include`, in another directive, or elsewhere. There is one for each token, and an enum would take twice the time.
Kind: TypeAlias = str
Context: TypeAlias = Literal["start", "hash", "include", "directive", "code"]
# The path of an include, or a token outside directives.
Entry: TypeAlias = tuple[Kind, bytes]


def derived_words(name: bytes, content: bytes) -> list[bytes]:
    """The words that a file of this name and these bytes would have automatically, each once, in the order in which the program takes them. For a
    long file, those of its beginning."""
    suffix, found = suffix_of(name), words_by_name(name, len(content))
    if len(content) > LOOKED:
        # A token that is cut off is dropped.
        content = content[:LOOKED].rstrip(PLAIN_BYTES)
    if suffix == b"eml":
        found += mail_words(content)
    elif suffix in (b"c", b"h"):
        found += source_words(content)
    return list(dict.fromkeys(word for word in found if len(word) <= MAX_WORD))


def words_by_name(name: bytes, size: int) -> list[bytes]:
    """The words of them that a file has by its name and its size."""
    suffix = suffix_of(name)
    return [*([b"ext:" + suffix] if suffix else []), next((word for most, word in SIZES if size <= most), b"size:large")]


def has_many(name: bytes) -> bool:
    """Whether a file of this name may have more words than the program keeps."""
    return suffix_of(name) in (b"eml", b"c", b"h")


def is_full(words: Iterable[bytes]) -> bool:
    """Whether a file has as many derived words as the program keeps, so that others may have been cut."""
    return sum(head_of(word) in HEADS and not is_head(word) for word in words) >= MAX_DERIVED - 3


def told_of_cut(name: bytes, content: bytes) -> str | None:
    """How many derived words a file would have, if some are cut, or None."""
    count = len(derived_words(name, content)) if has_many(name) else 0
    return f"{MAX_DERIVED} of at least {count:,} words that it has on its own: a search for one of the others misses it" if count > MAX_DERIVED else None


def told_of_misses(words: Iterable[bytes], described: Iterable[tuple[bytes, Iterable[bytes]]]) -> str | None:
    """What a search by some words must say if it can miss a file, or None. The files are pairs of a name and all words."""
    missing = [word for word in words if head_of(word) in HEADS]
    count = sum(has_many(name) and is_full(had) for name, had in described) if missing else 0
    if not count:
        return None
    files = "1 file has" if count == 1 else f"{count:,} files have"
    return f"{files} the most words that a file has on its own, {MAX_DERIVED}, and may say more: a search by {missing[0].decode()} can miss such a file"


def has_no_room(given: Collection[bytes], words: Collection[bytes]) -> bool:
    """Whether a file with these given words and these words can be given no more, or hardly any: a value brings its head too."""
    return len(given) >= MAX_ASSIGNED or len(words) > MAX_DESCRIPTION - 2


def told_of_no_room(given: Collection[bytes], words: Collection[bytes]) -> str | None:
    """How many words such a file has, since others may have been left out when a folder was imported, or None."""
    if not has_no_room(given, words):
        return None
    count = f"{MAX_ASSIGNED} words that it was given, the most" if len(given) >= MAX_ASSIGNED else f"{len(words)} words in all, of at most {MAX_DESCRIPTION}"
    return f"{count}: if one was left out, a search for it misses the file"


def told_of_left_out(words: Iterable[bytes], files: Iterable[tuple[Collection[bytes], Collection[bytes]]]) -> str | None:
    """What a search by words that files are given must say. The files are pairs of the given words and all words."""
    wanted = {word for word in words if not is_built_in(word)}
    found = [(given, had) for given, had in files if has_no_room(given, had)] if wanted else []
    missing = sorted(word for word in wanted if any(word not in given and word not in had for given, had in found))
    if not missing:
        return None
    count = sum(missing[0] not in given and missing[0] not in had for given, had in found)
    return (f"{'1 file has' if count == 1 else f'{count:,} files have'} the most words that a file can have, {MAX_ASSIGNED} given ones or "
            f"{MAX_DESCRIPTION} in all: if {missing[0].decode()} was left out, a search by it misses such a file")


def suffix_of(name: bytes) -> bytes | None:
    """What follows the last full stop of a name, or None."""
    found = SUFFIX.fullmatch(name)
    return found[1] if found else None


def mail_words(content: bytes) -> list[bytes]:
    """The words of a mail's header, repeats included."""
    found: list[bytes] = []
    kind: bytes | None = None
    end = HEADER_END.search(content)
    for line in content[:end.start() if end else None].split(b"\n"):
        line = line.removesuffix(b"\r")
        if not line:
            break
        if line[:1] in (b" ", b"\t"):
            body = line if kind else b""
        else:
            field = FIELD.match(line)
            kind, body = (field[1].lower(), line[field.end():]) if field else (None, b"")
        if kind is not None and kind in (b"from", b"to", b"subject"):
            # A token may go on in a folded line only where no blank begins that, which one does.
            found += [kind + b":" + token.lower() for token in PLAIN_RUN.findall(body) if kind == b"subject" or b"@" in token]
    return found


def source_words(content: bytes) -> list[bytes]:
    """The words of a C source, repeats included."""
    entries = list(entries_of(JOINT.sub(b"", content)))
    found: list[bytes] = []
    braces, parens = 0, 0
    for at, (kind, text) in enumerate(entries):
        if kind == "path":
            path = text.rpartition(b"/")[2]
            found += [b"includes:" + path] if not path or PLAIN_RUN.fullmatch(path) else []
        elif kind == "identifier":
            if not braces and not parens and text not in KEYWORDS and is_defined(entries, at + 1):
                found.append(b"defines:" + text)
        else:
            braces, parens = depth_after(braces, text, b"{", b"}"), depth_after(parens, text, b"(", b")")
    return found


def depth_after(depth: int, text: bytes, opening: bytes, closing: bytes) -> int:
    return depth + 1 if text == opening else max(0, depth - 1) if text == closing else depth


def is_defined(entries: Sequence[Entry], at: int) -> bool:
    """Whether what follows an identifier makes it a definition: a parenthesis, and a brace after the matching one. No identifier between these two is
    judged, so that each entry is read once."""
    depth, is_closed = 0, False
    while at < len(entries):
        kind, text = entries[at]
        at += 1
        if kind == "path":
            continue
        if is_closed:
            return text == b"{"
        if depth == 0 and text != b"(":
            return False
        depth = depth_after(depth, text, b"(", b")")
        is_closed = depth == 0
    return False


def entries_of(source: bytes) -> Iterator[Entry]:
    """The paths of includes, and the tokens outside directives."""
    context: Context = "start"
    at = 0
    while at < len(source):
        path = PATH.match(source, at) if context == "include" else None
        if path:
            at, context = path.end(), "directive"
            yield "path", path[1] if path[1] is not None else path[2]
            continue
        piece = PIECE.match(source, at)
        # The last group takes any byte.
        assert piece and piece.lastgroup
        at, kind, text = piece.end(), piece.lastgroup, piece[0]
        if context in ("start", "code") and kind not in ("blank", "feed", "white", "comment") and not (context == "start" and text == b"#"):
            yield kind, text
        context = context_after(context, kind, text)


def context_after(context: Context, kind: Kind, text: bytes) -> Context:
    if kind == "feed":
        return "start"
    if kind in ("blank", "comment"):
        return context
    if context == "start":
        return "start" if kind == "white" else "hash" if text == b"#" else "code"
    if context == "hash":
        return "include" if text == b"include" else "directive"
    return "code" if context == "code" else "directive"
