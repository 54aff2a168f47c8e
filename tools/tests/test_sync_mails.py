"""`tools/sync`: maildirs and music, and words that are left out or cut."""
import os
import re
import subprocess
import wave

import pytest

from support.images import bytes_of, dump, session, written
from support.syncing import LIMITS, held, mail, maildir, make, sync

pytestmark = [pytest.mark.usefixtures("program"), pytest.mark.limits(*LIMITS)]


def test_mail_folders(image):
    maildir("mail", ".Work.Plans", ".Entw&APw-rfe")
    written("mail/cur/1.host:2,S", mail("=?utf-8?q?R=C3=BCckfrage?=", number=1))
    written("mail/new/2.host", mail("Second", number=2))
    written("mail/.Work.Plans/cur/3.host:2,", mail("Third", number=3))
    written("mail/.Entw&APw-rfe/cur/4.host:2,D", mail("No id", number=None))
    written("mail/cur/5.host:2,", mail("Second", number=2, body="Another text.\n"))
    written("mail/cur/6.host:2,", mail("Third", number=3))
    written("mail/cur/7.host:2,", b"\xff\0 no mail at all")
    written("mail/tmp/8.host", "half")
    written("mail/dovecot-uidlist", "3\n")
    status, out, error = sync("--as", "m", "image", "mail")
    assert (status, out, error) == (
        1, ["sync:m: 7 new, 0 as they were", "not taken: 1 a mail that is not delivered yet, 1 no part of the maildir"], ""), "a maildir"
    now = held()
    first = next(name for name in now if name.startswith("rueckfrage-"))
    assert now[first] == {"sync:m", "date:2024-06", "who:alice-adams", "about:rueckfrage", "who:bob@example.org"}, "words of a mail"
    assert re.fullmatch(r"rueckfrage-[0-9a-f]{10}\.eml", first), ("its name", first)
    assert sorted(re.sub("-.*", "", name) for name in now) == [
        "mail", "no", "rueckfrage", "second", "second", "third", "third"], "two mails with one Message-ID, by other bytes and by the same"
    places = [sorted(word for word in words if word.startswith("in:")) for words in now.values()]
    assert sorted(filter(None, places)) == [["in:Entwuerfe"], ["in:Plans", "in:Work"]], "words of folders"
    before = dump()
    assert sync("--as", "m", "image", "mail")[1][0] == "sync:m: nothing changed, 7 as they were", "the second run"
    assert dump() == before, "changes nothing at all"
    # Flags change, a mail is read, and one moves to another folder.
    os.rename("mail/cur/1.host:2,S", "mail/cur/1.host:2,FS")
    os.rename("mail/new/2.host", "mail/cur/2.host:2,S")
    assert sync("--as", "m", "image", "mail")[1][0] == "sync:m: nothing changed, 7 as they were", "flags"
    os.rename("mail/cur/1.host:2,FS", "mail/.Work.Plans/cur/99.other:2,S")
    with session() as program:
        program.mkdir(b"todo")
        program.mv(first.encode(), b"todo")
    assert sync("--as", "m", "image", "mail")[1][0] == "sync:m: 1 with other words, 6 as they were", "a mail that moved"
    assert held()[first] == {
        "sync:m", "date:2024-06", "who:alice-adams", "about:rueckfrage", "who:bob@example.org", "in:Work", "in:Plans",
        "todo"}, "has other words, and those that somebody gave"
    os.rename("mail/.Work.Plans/cur/99.other:2,S", "mail/cur/99.other:2,S")
    assert sync("--as", "m", "image", "mail")[1][0] == "sync:m: 1 with other words, 6 as they were", "and back"
    assert held()[first] == {"sync:m", "date:2024-06", "who:alice-adams", "about:rueckfrage", "who:bob@example.org", "todo"}, "has those of before"
    # One of two with the same bytes goes; the other one's words are those of its folder.
    os.remove("mail/cur/6.host:2,")
    assert sync("--as", "m", "image", "mail")[0] == 1, "one of two goes"
    assert [sorted(words & {"in:Work", "in:Plans"}) for name, words in held().items() if name.startswith("third-")] == [
        ["in:Plans", "in:Work"]], "and the other stays"


def test_names_that_do_not_depend_on_where_a_mail_is_found():
    # The same mails in another place, found in another order, get the same names.
    maildir("again", ".Work.Plans")
    written("again/cur/x:2,", mail("Second", number=2))
    written("again/.Work.Plans/cur/a:2,", mail("Second", number=2, body="Another text.\n"))
    maildir("turned", ".Work.Plans")
    written("turned/cur/b:2,", mail("Second", number=2, body="Another text.\n"))
    written("turned/.Work.Plans/cur/c:2,", mail("Second", number=2))
    named = []
    for top in ("again", "turned"):
        make("new")
        sync("--as", "m", "new", top)
        named.append({name: bytes_of(name, "new") for name in held("new")})
    assert named[0] == named[1] and len(named[0]) == 2, ("names that don't depend on where a mail is found", named)


def test_maildirs_in_a_folder():
    maildir("many/Inbox")
    maildir("many/Inbox/Sub")
    written("many/Inbox/cur/1:2,", mail("Inner", number=1))
    written("many/Inbox/Sub/new/2", mail("Below", number=2))
    written("many/notes.eml", mail("A file", number=3))
    make("new")
    assert sync("--as", "m", "new", "many")[:2] == (0, ["sync:m: 3 new, 0 as they were"]), "maildirs below a folder"
    assert sorted(sorted(word for word in words if word.startswith(("in:", "about:"))) for words in held("new").values()) == [
        ["about:below", "in:Inbox", "in:Sub"], ["about:file"], ["about:inner", "in:Inbox"]], "their words"


def test_words_left_out(image):
    many = ", ".join(f"Person P{number} <p{number}@example.org>" for number in range(30))
    maildir("mail")
    written("mail/cur/1:2,", mail("Some subject", to=many, number=1))
    assert sync("--as", "m", "image", "mail")[:2] == (
        0, ["sync:m: 1 new, 0 as they were", "19 words of 1 file left out: a file is given 16 at most"]), "words beyond 15"
    name, = held()
    assert len(held()[name]) == 16, "how many there are"
    assert sync("--as", "m", "image", "mail")[1][0] == "sync:m: nothing changed, 1 as they were", "the second run"
    with session() as program:
        program.mkdir(b"mine")
        program.cd(b"who:person-p2")
        program.mv(name.encode(), b"/mine")
    assert sync("--as", "m", "image", "mail")[1][0] == "sync:m: 1 with other words, 0 as they were", "a word that somebody gave comes first"
    assert sync("--as", "m", "image", "mail")[1][0] == "sync:m: nothing changed, 1 as they were", "and then nothing"
    assert "mine" in held()[name] and len(held()[name]) == 16, ("and stays", held())


def test_long_words():
    """Too many to fit a line."""
    deep = "/".join(f"{letter * 60}" for letter in "abcdefghijklmnop")
    written(f"deep/{deep}/f", "x")
    make("new")
    assert sync("--as", "d" * 55, "new", "deep")[:2] == (
        0, [f"sync:{'d' * 55}: 1 new, 0 as they were", "1 word of 1 file left out: a file is given 16 at most"]), "long words"
    assert [len(words) for words in held("new").values()] == [16], "all of them"
    assert sync("--as", "d" * 55, "new", "deep")[1][0] == f"sync:{'d' * 55}: nothing changed, 1 as they were", "and then nothing"


def test_cut_words():
    """Words that the program cuts are counted, of mails and of sources, new and old ones."""
    make(limits=("64", "1024", "64"))
    maildir("mail")
    written("mail/cur/1:2,", mail(" ".join(f"w{number:03}" for number in range(100)), number=1))
    status, out, _ = sync("--as", "m", "--verbose", "image", "mail")
    name, = held()
    # The suffix, the size, the sender, the recipient, and the words of the Subject.
    told = "at least 56 words of 1 file cut: a file has at most 48 on its own, so a search by from:, to:, subject:, includes: or defines: can miss it"
    assert (status, told in out, f"cut: {name}: 48 of at least 104 words that it has on its own" in out) == (0, True, True), "a mail"
    assert told in sync("--as", "m", "image", "mail")[1], "again, when it is not read"
    assert [line for line in sync("--as", "l", "--lean", "image", "mail")[1] if "cut" in line] == [], "not of a mail without derived words"
    written("top/many.c", "".join(f"int f{number}(int a) {{ }}\n" for number in range(60)))
    written("top/few.c", "int f(int a) { }\n")
    written("top/many.txt", "".join(f"int f{number}(int a) {{ }}\n" for number in range(60)))
    for run in ("a source", "a source again"):
        assert [line for line in sync("--as", "t", "image", "top")[1] if "cut" in line] == [told.replace("56 words", "14 words")], run
    # At most 128 words, with all that others entail.
    with session() as program:
        program.mkdir(b"wide")
        for number in range(120):
            program.mkdir(b"a%d" % number)
            program.axiom(b"wide", b"a%d" % number)
    with session() as program:
        program.axiom(b"sync:w", b"wide")
    written("wide/x/y/z/file", "x")
    status, out, _ = sync("--as", "w", "image", "wide")
    # The folder's word and head, the 121, the size and its head, and the head and two of the three words for folders.
    assert (status, out[1:]) == (1, ["1 word of 1 file left out: a file has 128 at most, with those that it has on its own"]), "128 words"


def test_music_without_mutagen(image):
    written("hidden/mutagen.py", "raise ImportError\n")
    wave_file("music/Band/one.wav")
    status, out, error = sync("--as", "t", "image", "music", PYTHONPATH=os.path.abspath("hidden"))
    assert (status, out) == (0, ["sync:t: 1 new, 0 as they were", "1 piece of music without the words of tags: python3-mutagen is not there"])


def test_tags(image, mutagen):
    wave_file("music/Band/one.wav")
    from mutagen import id3
    piece = mutagen.File("music/Band/one.wav")
    piece.add_tags()
    piece.tags.add(id3.TPE1(text=["Die Ärzte"]))
    piece.tags.add(id3.TALB(text=["Geräusch (2)"]))
    piece.tags.add(id3.TCON(text=["(17)"]))
    piece.tags.add(id3.TDRC(text=["2003-09-29"]))
    piece.save()
    written("music/Band/broken.mp3", b"no music at all")
    written("music/Band/two.ogg", b"OggS" + bytes(100))
    status, out, error = sync("--as", "t", "image", "music")
    assert (status, out, error) == (0, ["sync:t: 3 new, 0 as they were", "2 pieces of music whose tags can't be read"], ""), "music"
    wanted = {"sync:t", "in:Band", "artist:die-aerzte", "album:geraeusch-2", "genre:rock", "year:2003"}
    assert held()["Band+one.wav"] == wanted, "its words"
    assert sync("--as", "t", "image", "music")[1][0] == "sync:t: nothing changed, 3 as they were", "the second run"
    # If mutagen is missing later, words of tags stay.
    written("hidden/mutagen.py", "raise ImportError\n")
    status, out, error = sync("--as", "t", "image", "music", PYTHONPATH=os.path.abspath("hidden"))
    assert (status, out[0]) == (0, "sync:t: nothing changed, 3 as they were"), "without mutagen later"
    assert held()["Band+one.wav"] == wanted, "words stay"


def test_music_made_by_sox(image, mutagen, needs):
    needs("sox")
    os.mkdir("music")
    made = subprocess.run(["sox", "-n", "-r", "8000", "-c", "1", "--comment", "ARTIST=Ann Onym", "--add-comment", "ALBUM=Zwölf",
                           "--add-comment", "GENRE=Noise", "--add-comment", "DATE=1999", "music/three.ogg", "synth", "1", "sine", "440"],
                          capture_output=True, check=False)
    if made.returncode:
        pytest.skip("sox can't write ogg here (Debian's libsox-fmt-base)")
    sync("--as", "t", "image", "music")
    assert held()["three.ogg"] == {"sync:t", "artist:ann-onym", "album:zwoelf", "genre:noise", "year:1999"}, "the tags of an ogg"


def wave_file(path):
    os.makedirs(os.path.dirname(path), exist_ok=True)
    with wave.open(path, "wb") as file:
        file.setnchannels(1)
        file.setsampwidth(1)
        file.setframerate(8_000)
        file.writeframes(bytes(800))
