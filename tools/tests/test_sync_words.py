"""`tools/sync` and `tools/import`: words of mails, and names of files, without a program."""
import random

import pytest

from lisfs.folder import mails, names
from lisfs.folder.walk import decoded
from lisfs.words import is_assignable, is_file_name


@pytest.mark.parametrize("header, words", (
    ("Subject: =?utf-8?q?Re=3A_R=C3=BCckfrage_zum?=\n =?utf-8?b?IEFuZ2Vib3Q=?=\n\n", ["about:rueckfrage", "about:angebot"]),
    ("From: =?iso-8859-1?Q?J=F6rg_Gro=DF?= <jg@example.org>\nSubject: =?ISO-8859-1?Q?Stra=DFe_=E0_la_carte?=\n\n",
     ["who:joerg-gross", "about:strasse", "about:carte"]),
    ("Subject: Änderung\n\n".encode("latin-1"), ["about:aenderung"]),
    ("Subject: Änderung u\u0308ber café\n\n", ["about:aenderung", "about:ueber", "about:cafe"]),
    ("Subject: =?utf-8?q?broken=C3?= =?nope?q?x=41yz?= =?utf-8?b?####?= whole\n\n", ["about:broken", "about:xayz", "about:whole"]),
    ("Subject: Re: AW: Fwd: the 2024 ab plan - don't\n\n", ["about:plan", "about:dont"]),
    ("From: \"Meyer, Hans\" <h@example.org>\nTo: bob@Example.org, \"x@y.org\" <x@y.org>\nCc: =?utf-8?q?=D0=9F=D1=91?= <p@example.ru>\n\n",
     ["who:hans-meyer", "who:bob@example.org", "who:x@y.org", "who:p@example.ru"]),
    ("Date: Fri, 31 Dec 1999 23:59:59 -0800\nList-Id: The list <dev.lists.example.org>\n\n", ["date:1999-12", "list:dev.lists.example.org"]),
    ("Date: yesterday\nFrom: <>\nTo: undisclosed-recipients:;\nList-Id: none\n\n", []),
    ("Subject: first\n\nSubject: second\n", ["about:first"])),
    ids=("an encoded subject in UTF-8", "an encoded subject and name in Latin-1", "bytes that are Latin-1",
         "bytes that are UTF-8, and a mark behind its letter", "broken codes", "what says nothing, numbers, and short words", "people",
         "a date and a list", "a broken date, sender and list", "the header alone"))
def test_words_of_mails(header, words):
    assert [word.decode() for word in mails.Mail(header if isinstance(header, bytes) else header.encode()).words()] == words


BROKEN = (b"", b"\0\xff\xfe", b":\n:\n", b"To: " + b"(" * 5_000, b"To: " + b'"' * 3_000, b"Subject: " + b"=?" * 5_000, b"From: " + b"<" * 5_000,
          b"Date: " + b"9" * 5_000, b"Subject: " + b"x" * 5_000, b"To: " + b"a@b, " * 3_000)


@pytest.mark.parametrize("number", range(len(BROKEN)))
def test_a_broken_header(number):
    assert all(is_assignable(word) for word in mails.Mail(BROKEN[number]).words())


def test_random_headers():
    chance = random.Random(1)
    for number in range(300):
        header = bytes(chance.choice(b"From:To:Subject:Date:<>@\",;()=?utf-8?q?b?\n \xc3\xfc-.abc") for _ in range(120))
        words = mails.Mail(b"From: " + header + b"\nSubject: " + header).words()
        assert all(is_assignable(word) for word in words), (f"random header {number}", (header, words))


@pytest.mark.parametrize("name, wanted", (("Entw&APw-rfe", "Entwürfe"), ("A&-B", "A&B"), ("&zz-", "&zz-"), ("&AP", "&AP"), ("Plain", "Plain")))
def test_names_of_mail_folders(name, wanted):
    assert decoded(name) == wanted


@pytest.mark.parametrize("key, name", (("a.c", b"a.c"), ("src/a.c", b"src+a.c"), (".x", b".x"), ("a/..b", b"a+..b")))
def test_paths_that_are_names(key, name):
    assert names.of_path(key) == name


def test_names_of_files():
    keys = {"a+b", "a/b", "a_b", "a b", "a?b", "ä", "ae", "Ä/ü.c", "x" * 61, "x" * 60, "y" * 200 + ".tar", "y" * 201 + ".tar", "d/" * 80 + "f", ".",
            "a" * 300 + "/b", "a" * 301 + "/b", "\udcff", "\udcfe", "x-0123456789", "x-0123456789.c", "c++/a", "c+/+a"}
    keys |= {names.of_path(key).decode() for key in keys}
    made = [names.of_path(key) for key in keys]
    assert all(is_file_name(name) for name in made), ("each is a name", made)
    assert len(set(made)) == len(keys), "each has its own"


def test_the_end_of_a_name_stays():
    assert all(names.of_path(key).endswith(b".c") for key in ("ä.c", "x" * 90 + ".c", "x-0123456789.c")), "the end of a name stays"


def test_the_name_of_a_mail():
    assert is_file_name(names.of_mail("Ä " + "long " * 30, names.digest_of(b"x"))), "the name of a mail"
    assert names.of_mail("", names.digest_of(b"x")).startswith(b"mail-"), "and without a subject"
