"""Mails in a database of notmuch, by its command, which is started for each question. It indexes the whole text of each mail, and keeps no bytes."""
import os
import shutil
from collections.abc import Sequence

from measuring import Ran, ran
from scaling.facts import Fact, Version
from scaling.systems import MEANT, TAG, Counts, Names, Place, System, Term, Wrong, checked

# How a word of LISFS is written as a query, by its head. Text in quotes is not stemmed.
QUERIES = {b"from:": 'from:"{}"', b"about:": 'subject:"{}"', b"list:": 'List:"{}"', b"date:": "date:{0}..{0}"}


class Notmuch(System):
    name = "notmuch"
    told = "a process for each question; it indexes the whole text, and the mails stay in their folder"

    def __init__(self, top: str) -> None:
        super().__init__(top)
        self._names: dict[str, bytes] = {}
        # Months are those of this zone.
        self._environment = {**os.environ, "NOTMUCH_CONFIG": os.path.join(self.top, "config"), "TZ": "UTC"}

    def lacks(self) -> str | None:
        return None if shutil.which("notmuch") else "no notmuch (Debian's notmuch)"

    def takes(self, name: str) -> bool:
        return name == "mails"

    def bring(self, folder: str, facts: Sequence[Fact], version: Version) -> Ran:
        self.emptied()
        base = os.path.join(self.top, "database")
        os.makedirs(base)
        with open(self._environment["NOTMUCH_CONFIG"], "w", encoding="utf-8") as file:
            file.write(f"[database]\npath={base}\nmail_root={os.path.abspath(folder)}\nhook_dir={self.top}\n[user]\nname=bench\nprimary_email=bench@example.org\n"
                       "[new]\ntags=\n[search]\nexclude_tags=\n[maildir]\nsynchronize_flags=false\n[index]\nheader.List=List-Id\n")
        return self._ran("new", "--quiet", is_watched=True)

    def open(self, facts: Sequence[Fact]) -> None:
        self._names = {os.path.abspath(fact.path): fact.name for fact in facts}
        if (count := int(self._ran("count", "*").out)) != len(facts):
            raise Wrong(f"notmuch has {count:,} mails, and not the {len(facts):,} of the folder")

    def find(self, place: Place) -> Names | None:
        query = query_of(place)
        return None if query is None else {self._names[path] for path in self._ran("search", "--output=files", query).out.decode().splitlines()}

    def counts(self, head: bytes) -> Counts | None:
        """A count for each month that a mail may have, in one process."""
        if head != b"date:":
            return None
        months = [f"{year}-{month:02}" for year in range(2015, 2025) for month in range(1, 13)]
        told = self._ran("count", "--batch", data="".join(f"date:{month}..{month}\n" for month in months)).out.split()
        return {b"date:" + month.encode(): int(count) for month, count in zip(months, told) if int(count)}

    def tag(self, place: Place, names: Sequence[bytes]) -> bool:
        return self._tag(f"+{TAG.decode()}", query_of(place))

    def untag(self, names: Sequence[bytes]) -> bool:
        return self._tag(f"-{TAG.decode()}", f"tag:{TAG.decode()}")

    def mean(self, word: bytes) -> bool:
        """It has no axioms, so each mail gets the tag."""
        return self._tag(f"+{MEANT.decode()}", query_of([Term((word,))]))

    def unmean(self, word: bytes) -> bool:
        return self._tag(f"-{MEANT.decode()}", f"tag:{MEANT.decode()}")

    def _tag(self, change: str, query: str | None) -> bool:
        if query is not None:
            self._ran("tag", change, "--", query)
        return query is not None

    def asked_once(self, word: bytes) -> Ran:
        return self._ran("search", "--output=files", query_of([Term((word,))]) or "", is_watched=True)

    def _ran(self, *words: str, data: str = "", is_watched: bool = False) -> Ran:
        return checked(ran(["notmuch", *words], data.encode(), self._environment, is_watched), "notmuch")


def query_of(place: Place) -> str | None:
    """The query for a place, or None if there is none."""
    parts = [term_of(term) for term in place]
    known = [part for part in parts if part is not None]
    return None if len(known) < len(parts) else " and ".join(known) or "*"


def term_of(term: Term) -> str | None:
    queries = [word_of(word) for word in term.words]
    known = [query for query in queries if query is not None]
    if term.least is not None or len(known) < len(queries):
        return None
    either = f"({' or '.join(known)})"
    return f"not {either}" if term.is_not else either


def word_of(word: bytes) -> str | None:
    """The query for a word: a tag, or a value that notmuch has too."""
    if b":" not in word:
        return f"tag:{word.decode()}"
    head, _, value = word.partition(b":")
    form = QUERIES.get(head + b":")
    return form.format(value.decode()) if form and value else None
