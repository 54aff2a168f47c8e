"""Which mails of a folder are one thread, and the word of each thread (RFC 5322, section 3.6.4).

1. The parent of a mail is the nearest mail of the folder that it names in References, or else in In-Reply-To. A mail whose parent is not there begins a
   thread.
2. A thread of two mails or more has a word, `thread:` and the subject of its first mail without `Re:` and the like. A single mail has none.
3. Threads of one subject have one word. So a mail that comes or goes gives no other thread another word, and a thread whose first mail is removed
   keeps its word.
4. If nothing of a subject can be written in a word, the word has digits of the first mail's Message-ID instead.
"""
import re
from collections.abc import Mapping, Sequence
from typing import NamedTuple

from lisfs.folder.forms import valued
from lisfs.folder.names import digest_of

HEAD = b"thread"
# What mail programs put before the subject of a reply or of a forwarded mail, in several languages.
PREFIXES = re.compile(r"(?:\s*(?:re|fwd?|aw|wg|antw|sv|vs|tr|rv|odp|ynt)\s*(?:\[[0-9]{1,4}\]|\([0-9]{1,4}\))?\s*:)+", re.I)


class Letter(NamedTuple):
    """A mail: its Message-ID or None, those of the mails before it, the nearest first, its subject and its date. `key` identifies it at each run,
    and `counts` says whether it can come into an image."""

    message_id: str | None
    ancestors: Sequence[str]
    subject: str
    date: float
    key: str
    counts: bool = True


def words_of(letters: Sequence[Letter]) -> list[bytes | None]:
    """The word of the thread of each mail, or None for one that is alone. Copies of a mail, which have one Message-ID, count as one."""
    ordered = sorted(letters, key=lambda letter: letter.key)
    by_id = {letter.message_id: letter for letter in reversed(ordered) if letter.message_id is not None}

    def as_one(letter: Letter) -> Letter:
        return letter if letter.message_id is None else by_id[letter.message_id]

    parents = {letter.key: parent_of(letter, by_id) for letter in map(as_one, ordered)}
    firsts = firsts_of({letter.key: letter for letter in map(as_one, ordered)}, parents)
    members: dict[str, set[str]] = {}
    for letter in letters:
        if letter.counts:
            members.setdefault(firsts[as_one(letter).key].key, set()).add(as_one(letter).key)
    found = [firsts[as_one(letter).key] for letter in letters]
    return [word_of(first) if len(members.get(first.key, ())) > 1 else None for first in found]


def parent_of(letter: Letter, by_id: Mapping[str, Letter]) -> Letter | None:
    """The nearest mail before this one, or None if it begins a thread."""
    return next((by_id[one] for one in letter.ancestors if one in by_id and by_id[one] is not letter), None)


def firsts_of(letters: Mapping[str, Letter], parents: Mapping[str, Letter | None]) -> dict[str, Letter]:
    """The first mail of the thread of each mail, by their keys. Of mails that name each other in a circle it is the oldest."""
    firsts: dict[str, Letter] = {}
    for letter in letters.values():
        way = dict[str, Letter]()
        at: Letter | None = letter
        while at is not None and at.key not in firsts and at.key not in way:
            way[at.key] = at
            at = parents[at.key]
        if at is None:
            first = list(way.values())[-1]
        elif at.key in firsts:
            first = firsts[at.key]
        else:
            circle = list(way.values())[list(way).index(at.key):]
            first = min(circle, key=lambda letter: (letter.date, letter.key))
        firsts.update(dict.fromkeys(way, first))
    return firsts


def word_of(first: Letter) -> bytes:
    """The word of a thread, by its first mail."""
    prefix = PREFIXES.match(first.subject)
    if found := valued(HEAD, first.subject[prefix.end() if prefix else 0:]):
        return found[0]
    identity = first.key if first.message_id is None else first.message_id
    return HEAD + b":" + digest_of(HEAD, identity.encode(errors="surrogateescape"))
