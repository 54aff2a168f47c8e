"""Mails as many people write them: some write often, and most hardly ever, and so it is with words. Threads and mailing lists go on for a while."""
import calendar
import datetime
import itertools
import os
import random
import string
from collections.abc import Sequence
from typing import NamedTuple

from mails import BOXES, FIRST, LAST, encoded

# A word ends so that no stemmer shortens it, and `subject:` of notmuch finds this word alone.
ENDS = [vowel + last for vowel in "aou" for last in "bgkp"]
SYLLABLES = [first + vowel for first in "bcdfghjklmnprstvwz" for vowel in "aeiou"]
# Words that a header encodes.
ENCODED = ["Überblick", "Größe", "Rückfrage", "Prüfung", "Maß", "Entwürfe", "Łódź", "reçu"]
FIRST_YEAR, MONTHS = 2015, 120
# The most earlier mails to which one replies, and the most that a mail names in References.
RECENT, REFERENCES = 200, 10
LEAST_BYTES, MOST_BYTES = 2_000, 60_000
# Lines of which bodies are made.
LINES = 4_000


class Choice:
    """Picks some of a number of things by a Zipf law: the second is picked half as often as the first, and the third a third."""

    def __init__(self, things: Sequence[str], chance: random.Random) -> None:
        self.things, self._chance = things, chance
        self._weights = list(itertools.accumulate(1 / (rank + 1) for rank in range(len(things))))

    def some(self, count: int) -> list[str]:
        return self._chance.choices(self.things, cum_weights=self._weights, k=count)

    def one(self) -> str:
        return self.some(1)[0]


def vocabulary(count: int, chance: random.Random) -> list[str]:
    """This many separate words of small letters."""
    found: dict[str, None] = {}
    while len(found) < count:
        found["".join(chance.choices(SYLLABLES, k=chance.randint(1, 3))) + chance.choice(ENDS)] = None
    return list(found)


class Written(NamedTuple):
    """What a reply needs to know of a mail."""

    message_id: str
    subject: str
    references: tuple[str, ...]
    list_id: str | None
    box: str


class Mails:
    """Writes mails. There are as many people, words and lists as a collection of this size has."""

    def __init__(self, count: int, chance: random.Random) -> None:
        self._chance, self._count = chance, count
        self._words = Choice(vocabulary(max(60, count * 2 // 3), chance), chance)
        self._people = Choice([self._person(number) for number in range(max(12, count * 7 // 60))], chance)
        self._lists = Choice([f"{name}.lists.example.net" for name in vocabulary(max(3, min(40, count // 50)), chance)], chance)
        self._lines = [" ".join(self._words.some(9)) for _ in range(LINES)]
        self._recent: list[Written] = []

    def _person(self, number: int) -> str:
        name = f"{self._chance.choice(FIRST)} {self._chance.choice(LAST)}"
        return f"{encoded(name, self._chance)} <user{number}@{self._chance.choice(['example.org', 'mail.example', 'post.example.net'])}>"

    def _begun(self, message_id: str) -> Written:
        """The first mail of a thread."""
        subject = " ".join(self._words.some(self._chance.randint(2, 5)) + [self._chance.choice(ENCODED)] * (self._chance.random() < 0.05))
        list_id = self._lists.one() if self._chance.random() < 0.4 else None
        return Written(message_id, subject, (), list_id, BOXES[3] if list_id else self._chance.choice(BOXES))

    def _replied(self, message_id: str) -> Written:
        to = self._chance.choice(self._recent)
        return to._replace(message_id=message_id, subject=f"Re: {to.subject.removeprefix('Re: ')}", references=(*to.references, to.message_id)[-REFERENCES:])

    def write(self, top: str, number: int) -> None:
        """Writes the mail of this number, and the later ones have later months."""
        chance = self._chance
        sender, *others = self._people.some(chance.randint(2, 4))
        message_id = f"{number}.{''.join(chance.choices(string.digits, k=9))}@example.org"
        mail = self._replied(message_id) if self._recent and chance.random() < 0.5 else self._begun(message_id)
        header = [f"From: {sender}", "To: " + ",\n ".join(others), f"Subject: {encoded(mail.subject, chance)}", f"Date: {self._date(number)}",
                  f"Message-ID: <{message_id}>", "MIME-Version: 1.0", "Content-Type: text/plain; charset=utf-8", "Content-Transfer-Encoding: 8bit"]
        if mail.references:
            header += [f"In-Reply-To: <{mail.references[-1]}>", "References: " + "\n ".join(f"<{name}>" for name in mail.references)]
        if mail.list_id:
            header.append(f"List-Id: {mail.list_id.partition('.')[0]} <{mail.list_id}>")
        # Most mails are short.
        size = int(LEAST_BYTES * (MOST_BYTES / LEAST_BYTES) ** (chance.random() ** 2))
        body = chance.choices(self._lines, k=size // len(self._lines[0]) + 1)
        with open(os.path.join(top, mail.box, "cur", f"{number:07}.M{number}.host:2,S"), "w", encoding="utf-8") as file:
            file.write("\n".join(header) + "\n\n" + "\n".join(body)[:size] + "\n")
        self._recent = [*self._recent[-RECENT + 1:], mail]

    def _date(self, number: int) -> str:
        """No day is the first or the last of its month, so that the month is the same in each zone."""
        year, month = divmod(number * MONTHS // self._count, 12)
        day = datetime.date(FIRST_YEAR + year, month + 1, self._chance.randint(2, 27))
        clock = f"{self._chance.randint(0, 23):02}:{self._chance.randint(0, 59):02}:00 {self._chance.choice(['+0000', '+0100', '-0500'])}"
        return f"{calendar.day_abbr[day.weekday()]}, {day.day} {calendar.month_abbr[day.month]} {day.year} {clock}"


def make_mails(top: str, count: int, chance: random.Random) -> None:
    """A maildir of this many mails."""
    for box in BOXES:
        for part in ("cur", "new", "tmp"):
            os.makedirs(os.path.join(top, box, part))
    mails = Mails(count, chance)
    for number in range(count):
        mails.write(top, number)
