"""Synthetic mails, the same each time: their headers have encoded words in Latin-1 and UTF-8."""
import email.header
import os
import random

PARTS = ["ab", "an", "auf", "ber", "der", "dung", "ein", "ent", "fahrt", "frage", "ge", "haus", "keit", "kon", "lich", "mäß", "nung", "plan", "prüf",
         "rück", "schluß", "stell", "tag", "über", "ung", "ver", "werk", "zahl", "zeit", "zug", "port", "form", "test", "base", "node", "ring"]
FIRST = ["Jörg", "Anna", "Zoë", "Müzeyyen", "François", "Ola", "Bob", "Carol", "Łukasz", "Pedro", "Eve", "Günther", "Ines", "Søren"]
LAST = ["Groß", "Müller", "Adams", "Nuñez", "Smith", "Østergaard", "Kowalski", "Brown", "Becker", "Yıldız", "Dvořák", "Lee", "Weiß", "Martin"]
BOXES = ["", ".Work", ".Work.Plans", ".Lists.dev", ".Entw&APw-rfe", ".Archive"]


def encoded(text: str, chance: random.Random) -> str:
    """A text of a header, encoded if necessary, in one of the usual ways."""
    charset = "utf-8" if any(ord(letter) > 255 for letter in text) else chance.choice(["utf-8", "iso-8859-1"])
    return email.header.Header(text, None if text.isascii() else charset, maxlinelen=76).encode()


def make_mails(top: str, count: int) -> None:
    chance = random.Random(38)
    vocabulary = ["".join(chance.choices(PARTS, k=chance.randint(2, 3))) for _ in range(2_500)]
    weights = [1 / (rank + 3) for rank in range(len(vocabulary))]
    people = [(f"{chance.choice(FIRST)} {chance.choice(LAST)}", f"user{number}@{chance.choice(['example.org', 'mail.example', 'lists.example.net'])}")
              for number in range(300)]
    for box in BOXES:
        for part in ("cur", "new", "tmp"):
            os.makedirs(os.path.join(top, box, part))
    for number in range(count):
        sender, *others = chance.choices(people, k=chance.randint(2, 5))
        subject = ("Re: " if chance.random() < 0.4 else "") + " ".join(chance.choices(vocabulary, weights, k=chance.randint(2, 6)))
        box = chance.choice(BOXES)
        header = [f"Return-Path: <{sender[1]}>", *(f"Received: from host{hop}.example.org by mx.example.net with ESMTP id {number:06}{hop}" for hop in range(4)),
                  f"From: {encoded(sender[0], chance)} <{sender[1]}>",
                  "To: " + ",\n ".join(f"{encoded(name, chance)} <{address}>" for name, address in others),
                  f"Subject: {encoded(subject, chance)}",
                  f"Date: {chance.choice(['Mon', 'Tue', 'Fri'])}, {chance.randint(1, 28)} {chance.choice(['Jan', 'Mar', 'Jun', 'Oct'])} "
                  f"{chance.randint(2015, 2024)} {chance.randint(0, 23):02}:12:00 +0100",
                  f"Message-ID: <{number}.{chance.randrange(10**9)}@{sender[1].partition('@')[2]}>",
                  "MIME-Version: 1.0", "Content-Type: text/plain; charset=utf-8", "Content-Transfer-Encoding: 8bit"]
        if box == ".Lists.dev":
            header.append("List-Id: Development <dev.lists.example.net>")
        body: list[str] = []
        while sum(map(len, body)) < 4_000:
            body.append(" ".join(chance.choices(vocabulary, weights, k=9)))
        with open(os.path.join(top, box, "cur", f"{1_700_000_000 + number}.M{number}.host:2,S"), "w", encoding="utf-8") as file:
            file.write("\n".join(header) + "\n\n" + "\n".join(body) + "\n")
