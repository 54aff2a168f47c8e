"""A collection in a database with the tables of `bench/measure`, by the library, in this process.

A process of its own brings the files in, as `tools/sync` is one: `python3 -m scaling.in_sqlite DATABASE FOLDER LARGEST`. It reads the folder by the
same readers.
"""
import os
import shutil
import sqlite3
import sys
from collections.abc import Sequence

import support  # noqa: F401, which puts the package on the path
from lisfs.folder.walk import content
from measuring import BY_WORD, TABLES, Ran, memory, ran
from scaling.facts import Fact, Version, entries_of, fact_of
from scaling.systems import MEANT, TAG, Counts, Names, Place, System, checked

BENCH = os.path.dirname(os.path.dirname(os.path.abspath(__file__)))
# The words of the files `here` that some have and not all, without those whose head is one of them.
REFINE = """
WITH here AS (SELECT name FROM file WHERE {}),
  counts AS (SELECT word, count(*) AS files FROM has WHERE name IN here GROUP BY word HAVING files < (SELECT count(*) FROM here))
SELECT word, files FROM counts
WHERE instr(word, ':') IN (0, length(word)) OR substr(word, 1, instr(word, ':')) NOT IN (SELECT word FROM counts)
"""


class Sqlite(System):
    name = "SQLite"
    told = "the library in this process, held open; the database keeps the bytes of the files"

    def __init__(self, top: str) -> None:
        super().__init__(top)
        self.base = os.path.join(self.top, "files.db")
        self._connection: sqlite3.Connection | None = None

    def lacks(self) -> str | None:
        return None if shutil.which("sqlite3") else "no sqlite3 (Debian's sqlite3)"

    def bring(self, folder: str, facts: Sequence[Fact], version: Version) -> Ran:
        self.emptied()
        command = [sys.executable, "-m", "scaling.in_sqlite", self.base, folder, str(version.file_bytes)]
        return checked(ran(command, environment={**os.environ, "PYTHONPATH": BENCH}, is_watched=True), "SQLite: bringing in")

    def open(self, facts: Sequence[Fact]) -> None:
        self._connection = sqlite3.connect(self.base, isolation_level=None)
        self._connection.execute("PRAGMA synchronous=FULL")

    def close(self) -> None:
        if self._connection:
            self._connection.close()
            self._connection = None

    def _rows(self, query: str, values: Sequence[object] = ()) -> list[tuple[str, int]]:
        assert self._connection
        return self._connection.execute(query, values).fetchall()

    def find(self, place: Place) -> Names:
        where, values = condition(place)
        return {row[0].encode() for row in self._rows(f"SELECT name FROM file WHERE {where}", values)}

    def refine(self, place: Place) -> Counts:
        where, values = condition(place)
        return {word.encode(): files for word, files in self._rows(REFINE.format(where), values)}

    def words(self, name: bytes) -> Names:
        return {row[0].encode() for row in self._rows("SELECT word FROM has WHERE name = ?", [name.decode()])}

    def counts(self, head: bytes) -> Counts:
        begin = head.decode()
        # `;` follows `:`.
        rows = self._rows("SELECT word, count(*) FROM has WHERE word > ? AND word < ? GROUP BY word", [begin, begin[:-1] + ";"])
        return {word.encode(): files for word, files in rows}

    def tag(self, place: Place, names: Sequence[bytes]) -> bool:
        where, values = condition(place)
        self._rows(f"INSERT OR IGNORE INTO has SELECT name, ? FROM file WHERE {where}", [TAG.decode(), *values])
        return True

    def untag(self, names: Sequence[bytes]) -> bool:
        self._rows("DELETE FROM has WHERE word = ?", [TAG.decode()])
        return True

    def mean(self, word: bytes) -> bool:
        """It has no axioms, so each file gets the word."""
        self._rows("INSERT OR IGNORE INTO has SELECT name, ? FROM has WHERE word = ?", [MEANT.decode(), word.decode()])
        return True

    def unmean(self, word: bytes) -> bool:
        self._rows("DELETE FROM has WHERE word = ?", [MEANT.decode()])
        return True

    def asked_once(self, word: bytes) -> Ran:
        command, query = ["sqlite3", self.base], f"SELECT name FROM has WHERE word = '{word.decode()}' ORDER BY name;\n".encode()
        # It ends too soon to be watched.
        return checked(ran(command, query), "sqlite3")._replace(mebibytes=(memory(command, query),))


def condition(place: Place) -> tuple[str, list[object]]:
    """The condition for files of a place, and its values."""
    parts, values = ["1"], list[object]()
    for term in place:
        if term.least is not None:
            parts.append("length(content) >= ?")
            values.append(term.least)
        else:
            marks = ", ".join("?" * len(term.words))
            parts.append(f"name {'NOT IN' if term.is_not else 'IN'} (SELECT name FROM has WHERE word IN ({marks}))")
            values += [word.decode() for word in term.words]
    return " AND ".join(parts), values


def fill(base: str, folder: str, largest: int) -> None:
    """Brings a folder into a new database, in one transaction."""
    connection = sqlite3.connect(base, isolation_level=None)
    connection.executescript("\n".join([*TABLES, BY_WORD]))
    connection.execute("BEGIN")
    known: set[bytes] = set()
    for entry in entries_of(folder, largest):
        fact = fact_of(entry, largest)
        name = fact.name.decode()
        connection.executemany("INSERT INTO word VALUES(?)", [(word.decode(),) for word in fact.words - known])
        known |= fact.words
        connection.execute("INSERT INTO file VALUES(?, ?)", (name, content(entry.found, largest)))
        connection.executemany("INSERT INTO has VALUES(?, ?)", [(name, word.decode()) for word in fact.words])
    connection.execute("COMMIT")
    connection.close()


if __name__ == "__main__":
    fill(sys.argv[1], sys.argv[2], int(sys.argv[3]))
