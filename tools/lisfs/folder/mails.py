"""Words from the header of a mail, with encoded words decoded.

- `date:2024-06` of its Date;
- `list:` and what List-Id has in `< >`;
- `who:` and the name, or else the address, of each that From, To and Cc name;
- `about:` and each word of its Subject that has three letters or digits and a letter, and carries meaning.

Anybody can send a mail, so its cost is bounded: only a bounded number of bytes, lines and letters of a field is read, each a few times, and only a
bounded number goes to Python's own `email` package, which takes quadratic time.
"""
from __future__ import annotations

import calendar
import functools
import itertools
import re
from collections.abc import Sequence

from lisfs.constants import MAX_WORD
from lisfs.folder import addresses
from lisfs.folder.forms import folded, runs, valued

HEADS = (b"date", b"list", b"who", b"about")
# The most bytes of a mail that are searched for its header, the most lines of the header, the most letters of a field, and fewer for some fields.
HEADER, LINES, FIELD = 262_144, 4_096, 16_384
SUBJECT, SHORT = 2_048, 512
END = re.compile(rb"\r?\n\r?\n")
LINE = re.compile(r"[^\r\n]*(?:\r\n?|\n|\Z)")
# How a line of a header begins: with the name of a field, or as a continuation of the field before.
BEGIN = re.compile(r"([!-9;-~]*):|[\t ]|From ")
FIELDS = frozenset(("date", "list-id", "from", "to", "cc", "subject", "message-id", "in-reply-to", "references"))
# How many earlier mails of its thread are kept of a mail, the nearest ones.
ANCESTORS = 32
# How many people are kept with their words, since the same people write again and again.
KEPT = 2_048
# The prefixes of replies and forwarded mails, and English and German words that are in every subject.
SAYS_NOTHING = frozenset("""
    re fwd fw aw wg antw sv vs tr rv
    the and for with from your you our are was were has have had not this that these those but all can could will would about into its
    his her their they them who what when where how why out off get got any may one more than then also been being did does
    der die das den dem des ein eine einen einem einer und oder aber mit von vom zum zur fuer bei aus auf ist sind war nicht auch als wie
    wir sie ihr ihre ihren ihnen mein meine unser unsere uns dass nach noch nur wird werden haben hat
""".split())
MESSAGE_ID = re.compile(r"<\s*([^<>\s]+)\s*>")
LIST_ID = re.compile(r"<\s*([^<>\s]+)\s*>\s*$")
ADDRESS = re.compile(r"[^\s@<>,;:\"]+@[^\s@<>,;:\"]+")
NOT_IN_A_WORD = re.compile(r"[^a-z0-9_.+@-]")


class Mail:
    """What the header of a mail says: `message_id` as text or None, `ancestors`, which are those of the mails that it answers, the nearest first,
    `subject` as text, and `words`, the most important first."""

    def __init__(self, content: bytes) -> None:
        header = content[:HEADER]
        if end := END.search(header):
            header = header[:end.end()]
        # Bytes that are not ASCII should be UTF-8; otherwise they are mostly Latin-1.
        try:
            text = header.decode()
        except UnicodeDecodeError:
            text = header.decode("latin-1")
        self._fields = fields_of(text)
        found = MESSAGE_ID.search(raw := self._raw("Message-ID"))
        self.message_id = found[1] if found else raw.strip() or None
        nearest = MESSAGE_ID.findall(self._raw("References"))[::-1] + MESSAGE_ID.findall(self._raw("In-Reply-To"))
        self.ancestors: list[str] = list(dict.fromkeys(nearest))[:ANCESTORS]
        self.subject = subject_of(self._raw("Subject"))

    def _raw(self, name: str) -> str:
        """A field's raw text, or an empty text."""
        return self._fields.get(name.lower(), "")

    def words(self) -> list[bytes]:
        found = [self._date(), self._list(), people(self._raw("From")), self._about(), people(self._raw("To")),
                 people(self._raw("Cc"))]
        return list(dict.fromkeys(word for words in found for word in words))

    @functools.cached_property
    def _date_parts(self) -> Sequence[int]:
        """The parts of its Date, with the seconds east of Greenwich at the end, or none."""
        import email.utils
        try:
            date = email.utils.parsedate_tz(self._raw("Date")[:SHORT])
        except Exception:
            date = None
        return [part or 0 for part in date] if date and 1970 <= date[0] <= 2099 and 1 <= date[1] <= 12 else []

    def sent(self) -> int | None:
        """When it was sent by its Date, in seconds since 1970, or None."""
        if not self._date_parts:
            return None
        year, month, day, hour, minute, second, *_, zone = self._date_parts
        if not (1 <= day <= 31 and 0 <= hour <= 24 and 0 <= minute < 60 and 0 <= second <= 60 and abs(zone) <= 86_400):
            return None
        return calendar.timegm((year, month, 1, hour, minute, second)) + (day - 1) * 86_400 - zone

    def _date(self) -> list[bytes]:
        return [b"date:%04d-%02d" % (self._date_parts[0], self._date_parts[1])] if self._date_parts else []

    def _list(self) -> list[bytes]:
        found = LIST_ID.search(self._raw("List-Id"))
        return of_address(b"list", found[1]) if found else []

    def _about(self) -> list[bytes]:
        said = [run for run in runs(self.subject) if len(run) >= 3 and not run.isdigit() and run not in SAYS_NOTHING]
        return [b"about:" + run[:MAX_WORD - len("about:")].encode() for run in said]


def fields_of(header: str) -> dict[str, str]:
    """The first field of each name in `FIELDS`, as raw text. A line that is not part of a header ends the header, as for the `email` package."""
    found: dict[str, list[str]] = {}
    lines: list[str] | None = None
    for line in itertools.islice(LINE.finditer(header), LINES):
        begin = BEGIN.match(line[0])
        if not begin:
            break
        if begin[0] in (" ", "\t"):
            if lines is not None:
                lines.append(line[0])
            continue
        name, lines = (begin[1] or "").lower(), None
        if name in FIELDS and name not in found:
            lines = found[name] = [line[0][begin.end():].lstrip(" \t")]
    return {name: "".join(of).rstrip("\r\n")[:FIELD] for name, of in found.items()}


def subject_of(raw: str) -> str:
    """A decoded Subject. A header may contain anything, and the package has no list of the errors that it raises then."""
    raw = re.sub(r"[\r\n]+", "", raw)
    if len(raw) > SUBJECT:
        raw = raw[:SUBJECT].rpartition(" ")[0] or raw[:SUBJECT]
    for decode in (newer_header, older_header):
        try:
            return str(decode(raw))
        except Exception:
            pass
    return raw


def newer_header(raw: str) -> object:
    """A Subject as the package's newer classes decode it."""
    # The package is slow to load, and many folders have no mails.
    import email.policy
    return email.policy.default.header_factory("Subject", raw)


def older_header(raw: str) -> object:
    """The same, as its older classes decode it."""
    import email.header
    return email.header.make_header(email.header.decode_header(raw))


def people(raw: str) -> list[bytes]:
    """The words of those whom a field names."""
    return [word for shown, address in addresses.people(raw) for word in of_person(shown, address)]


@functools.lru_cache(KEPT)
def of_person(shown: str, address: str) -> list[bytes]:
    """The word of a person's name, which is reordered if it is `LAST, FIRST`; or else that of the address."""
    if ADDRESS.fullmatch(shown.strip()):
        shown, address = "", address if "@" in address else shown.strip()
    last, comma, first = shown.partition(",")
    text = " ".join(folded(f"{first} {last}" if comma else shown).split())
    return valued(b"who", text) if sum(map(str.isalpha, text)) > 1 else of_address(b"who", address)


def of_address(head: bytes, address: str) -> list[bytes]:
    """The word of an address, or of a text that looks like one."""
    value = NOT_IN_A_WORD.sub("_", address.strip().lower()).strip("_")[:MAX_WORD - len(head) - 1]
    return [head + b":" + value.encode()] if value.strip("_@") else []
