"""`tools/sync`: a folder with more files or words than an image has room for. The newest come in first."""
import os
import re
import shutil

import pytest

from lisfs.constants import MAX_PROPS
from lisfs.folder.options import day, part_or_number
from lisfs.folder.room import kept_free
from support.images import bytes_of, dump, session, written
from support.syncing import held, mail, maildir, make, sync

pytestmark = pytest.mark.usefixtures("program")
DAY = 86_400


def dated(path, number, data=None):
    """Writes a file that was changed on this day."""
    written(path, f"{path} {number}\n" if data is None else data)
    os.utime(path, (number * DAY, number * DAY))


def sent(number, subject=None, **more):
    """A mail that was sent on this day of the year 2024 or later."""
    text = mail(subject or f"Subject number{number}", number=number, **more)
    return text.replace("Mon, 3 Jun 2024", f"{number % 28 + 1} {('Jan', 'Feb', 'Mar', 'Apr')[number // 28 % 4]} {2024 + number // 112}")


def known(image="image"):
    with session(image) as program:
        return int(dict(text.split() for _, text in program.stat().body)[b"known"])


def test_newest():
    make()
    for number in range(6):
        dated(f"top/f{number}", number + 1)
    assert sync("--as", "t", "--newest", "3", "image", "top") == (
        0, ["sync:t: 3 new, 0 as they were", "3 older files left out by --since or --newest"], ""), "the newest come in"
    assert sorted(held()) == ["f3", "f4", "f5"], "which they are"
    before = dump()
    assert sync("--as", "t", "--newest", "3", "image", "top")[1][0] == "sync:t: nothing changed, 3 as they were", "again"
    assert dump() == before, "changes nothing"
    dated("top/f6", 7)
    assert sync("--as", "t", "--newest", "3", "image", "top")[:2] == (
        0, ["sync:t: 1 new, 1 removed as older, 2 as they were", "4 older files left out by --since or --newest"]), "a newer one comes in"
    assert sorted(held()) == ["f4", "f5", "f6"], "and the oldest goes"
    assert sync("--as", "t", "image", "top")[:2] == (0, ["sync:t: 4 new, 3 as they were"]), "without the option all are there"


def test_older_files_that_somebody_changed():
    """They stay, whatever limit is given, and are updated as others are."""
    make()
    for name in ("word", "edited", "name", "plain", "both"):
        dated(f"top/{name}", 1)
    dated("top/new", 9)
    sync("--as", "t", "image", "top")
    with session() as program:
        program.mkdir(b"mine")
        for name in (b"word", b"both"):
            program.mv(name, b"mine")
        program.write(b"edited", b"mine\n")
        program.rename(b"name", b"other")
    dated("top/both", 1, "the folder's\n")
    assert sync("--as", "t", "--newest", "1", "--dry-run", "image", "top")[1][0] == "removed as older: plain: top/plain", "a dry run tells it"
    assert sync("--as", "t", "--newest", "1", "image", "top") == (
        0, ["sync:t: 1 changed, 1 removed as older, 3 as they were", "1 older file left out by --since or --newest",
            "4 older files changed in the image: not removed", "1 file changed in the image: left as the image has it"], ""), "what is told"
    assert {name: "mine" in words for name, words in held().items()} == {
        "word": True, "both": True, "edited": False, "other": False, "new": False}, "what is there"
    assert bytes_of("both") == b"the folder's\n", "what changed in the folder comes in"
    # A file that was removed for its age does not count as removed by somebody.
    assert sync("--as", "t", "image", "top")[1][0] == "sync:t: 1 new, 4 as they were", "it comes again"


def test_older_files_without_memory():
    """What is the same on both sides can go too, and what is not is a conflict."""
    make()
    for name in ("same", "other", "new"):
        dated(f"top/{name}", 9 if name == "new" else 1)
    sync("--as", "t", "image", "top")
    with session() as program:
        program.write(b"other", b"mine\n")
    shutil.rmtree(os.environ["XDG_STATE_HOME"])
    status, out, _ = sync("--as", "t", "--newest", "1", "image", "top")
    assert (status, out[0]) == (1, "sync:t: 1 removed as older, 1 as they were") and sorted(held()) == ["new", "other"], out
    assert bytes_of("other") == b"mine\n", "nothing of somebody's is lost"


def test_since():
    """By the Date of a mail, and else by the time of the last change."""
    make()
    maildir("box/mail")
    for number, when in ((1, 20_000), (2, 1), (3, 20_000)):
        dated(f"box/mail/cur/{number}:2,", when, sent(number).replace(" 2024", " 1999" if number == 3 else " 2024"))
    dated("box/old.txt", 10_000)
    dated("box/new.txt", 19_800)
    assert sync("--as", "m", "--since", "2024", "image", "box")[:2] == (
        0, ["sync:m: 3 new, 0 as they were", "2 older files left out by --since or --newest"]), "since a year"
    assert sorted(re.sub("-[^-]*$", "", name) for name in held()) == ["new.txt", "subject-number1", "subject-number2"], "which they are"
    assert sync("--as", "m", "--since", "2024-01-03", "image", "box")[1][0] == "sync:m: 1 removed as older, 2 as they were", "since a day"
    # A Date in the future is ignored.
    dated("box/mail/cur/9:2,", 5, sent(9).replace(" 2024", " 2098"))
    assert sync("--as", "m", "--since", "2024", "image", "box")[1][1] == "3 older files left out by --since or --newest", "a date to come"


@pytest.mark.parametrize("words", (["--since", "yesterday"], ["--since", "2024-13"], ["--since", "2024-02-30"], ["--since", "2999"],
                                   ["--newest", "0"], ["--newest", "-1"], ["--newest", "x"], ["--reserve", "3/2"], ["--reserve", "-1"],
                                   ["--reserve", "1/0"], ["--reserve", "1.5"], ["--reserve", ""]))
def test_wrong_numbers(image, words):
    written("top/f")
    status, _, error = sync(*words, "image", "top")
    assert status == 2 and words[0] in error, (words, error)


def test_numbers():
    assert [kept_free(part_or_number(text), MAX_PROPS) for text in ("0", "7", "1/10", "0.1", ".5", "0.0")] == [0, 7, 819, 819, 4_096, 0]
    assert day("2024-06-03") > day("2024-06") > day("2024") > day("2023-12-31")


def test_no_room_for_files():
    """The newest come in, by the Date of mails, whatever their names and the order in which they are found."""
    make("image", ("64", "8192", "512"))
    maildir("mail")
    for number in range(100):
        written(f"mail/cur/{number * 37 % 100}:2,", sent(number))
    told = ["not taken: 36 no room for more files",
            "limit reached: 64 files, and 100 are needed: --newest 64 keeps the newest; tools/enlarge image 128 8192 512 makes room"]
    assert sync("--as", "m", "image", "mail") == (1, ["sync:m: 64 new, 0 as they were", *told], ""), "what is told"
    wanted = {f"subject-number{number}" for number in range(36, 100)}
    assert {name.rpartition("-")[0] for name in held()} == wanted, "the newest"
    for number in range(100, 110):
        written(f"mail/cur/{number}:2,", sent(number))
    assert sync("--as", "m", "image", "mail")[1][0] == "sync:m: nothing changed, 64 as they were", "newer ones have no room"
    # The advice helps.
    assert sync("--as", "m", "--newest", "64", "image", "mail") == (
        0, ["sync:m: 10 new, 10 removed as older, 54 as they were", "46 older files left out by --since or --newest"], ""), "and with it they have"


def test_no_room_for_words():
    """The newest have all their words, a twentieth of the words stays free, and a line says how many files have all."""
    make("image", ("256", "512", "512"))
    maildir("mail")
    for number in range(100):
        written(f"mail/cur/{number}:2,", sent(number, f"Subject one{number} two{number}", sender=f"Person P{number} <p{number}@example.org>"))
    status, out, error = sync("--as", "m", "image", "mail")
    assert (status, out[1], error) == (1, "sync:m: 100 new, 0 as they were", ""), "all come in"
    limit = re.fullmatch(r"limit reached: 512 known words, 25 of them kept free, and [0-9,]+ are needed: --lean takes fewer words for each new mail and "
                         r"source; --newest ([0-9]+) keeps the newest; --reserve 0 keeps none free; tools/enlarge image 256 [0-9]+ 512 makes room", out[-1])
    assert limit, out
    assert known() == 512 - 25, "each word that there is room for"
    whole = int(limit[1])
    numbers = {int(re.search("one([0-9]+)", name)[1]): words for name, words in held().items() if name.endswith(".eml")}
    own = [len([word for word in numbers.get(number, ()) if word.startswith("about:")]) for number in range(99, -1, -1)]
    assert own[:whole] == [3] * whole and own[whole] < 3 and max(own[whole + 1:]) <= 1, ("the newest have all words", whole, own)
    # The advice helps: without --lean, and with it.
    assert sync("--as", "m", "--newest", str(whole), "image", "mail")[0] == 0, "a few of them"
    # Automatic words that are already known are not counted again.
    assert sync("--as", "m", "--newest", str(whole + 5), "image", "mail")[1][1] == f"sync:m: 5 new, {whole} as they were", "some more"
    assert known() == 512 - 25, "each word that there is room for"
    make("lean", ("256", "512", "512"))
    assert sync("--as", "m", "--lean", "lean", "mail") == (0, ["sync:m: 100 new, 0 as they were"], ""), "all of them"
    # And a person can use what is kept free.
    make("mine", ("256", "512", "512"))
    sync("--as", "m", "mine", "mail")
    with session("mine") as program:
        for number in range(25):
            program.mkdir(b"mine%d" % number)


def lean_told(out, image="image"):
    """What is said of --lean before the first change: how many words are needed, free, and needed with --lean, and the command; or None."""
    found = re.fullmatch(rf"{image}: not enough known words \(([0-9,]+) new files? need ([0-9,]+), and ([0-9,]+) are free\): "
                         r"--lean needs ([0-9,]+)(, also too many)?: (.*)", out[0])
    return found and (*(int(found[number].replace(",", "")) for number in (1, 2, 3, 4)), bool(found[5]), found[6])


def test_lean_told_before():
    """If there are too few words, a line says before the run how many, how many with --lean, and the command. The counts are those of real runs."""
    maildir("mail")
    for number in range(100):
        written(f"mail/cur/{number}:2,", sent(number, f"Subject one{number} two{number}", sender=f"Person P{number} <p{number}@example.org>"))
    needed = {}
    for words in ((), ("--lean",)):
        make("image", ("256", "8192", "512"))
        assert sync("--as", "m", *words, "image", "mail") == (0, ["sync:m: 100 new, 0 as they were"], ""), "nothing is said if there are enough"
        # The word that names what was brought in is not one of the files.
        needed[words] = known() - 1
    make("image", ("256", "512", "512"))
    with session() as program:
        program.mkdir(b"mine")
    before = dump()
    told = lean_told(sync("--as", "m", "--dry-run", "image", "mail")[1])
    assert told[:4] == (100, needed[()], 512 - 25 - 2, needed[("--lean",)]) and not told[4], (told, needed)
    assert told[5].endswith("/tools/sync --lean --as m --dry-run image mail") and dump() == before, "before anything is changed"
    # A run with exactly as many words as are said has room, and with one fewer it says so.
    for spare, count in ((0, 0), (1, 1)):
        make("image", ("256", "1024", "512"))
        out = sync("--as", "m", "--reserve", str(1_024 - needed[()] - 1 + spare), "image", "mail")[1]
        assert len([line for line in out if "not enough known words" in line]) == count, (spare, out)
        assert any("limit reached" in line for line in out) == bool(count), (spare, out)
    # And with the command there is room.
    make("image", ("256", "512", "512"))
    assert sync("--lean", "--as", "m", "image", "mail") == (0, ["sync:m: 100 new, 0 as they were"], ""), "with the command"


def test_lean_told_only_where_it_helps():
    make("image", ("256", "64", "512"))
    for number in range(40):
        dated(f"top/{number}/f.txt", number + 1)
    assert lean_told(sync("--as", "t", "--reserve", "1/2", "image", "top")[1]) is None, "no mail or source"
    make("image", ("256", "64", "512"))
    maildir("mail")
    for number in range(40):
        written(f"mail/cur/{number}:2,", sent(number, f"Subject one{number} two{number}"))
    told = lean_told(sync("--as", "m", "--dry-run", "image", "mail")[1])
    assert told[3] > told[2] and told[4], ("too many with --lean too", told)
    assert lean_told(sync("--as", "m", "--lean", "image", "mail")[1]) is None, "with --lean"


def test_lean_and_words_that_are_freed():
    """Words of older mails that go have room for those of newer ones, so nothing is said."""
    make("image", ("64", "512", "512"))
    maildir("mail")
    for number in range(40):
        written(f"mail/cur/{number}:2,", sent(number, f"Subject one{number} two{number} three{number}"))
    room = ("--reserve", "0", "--newest", "40", "image", "mail")
    assert sync("--as", "m", *room)[0] == 0
    used = known()
    for number in range(40, 80):
        written(f"mail/cur/{number}:2,", sent(number, f"Subject one{number} two{number} three{number}"))
    assert used > 512 / 2
    status, out, _ = sync("--as", "m", *room)
    assert (status, out[0]) == (0, "sync:m: 40 new, 40 removed as older, 0 as they were"), out


def test_lean_told_in_the_middle():
    """Changed bytes are taken in any case, and may leave too few words for new mails: then a line says so once, with the command."""
    maildir("mail")
    make("image", ("256", "256", "512"))
    written("mail/cur/a:2,", sent(0))
    assert sync("--as", "m", "--reserve", "0", "image", "mail")[0] == 0
    written("mail/cur/a:2,", sent(0, to=", ".join(f"to{number}@example.org" for number in range(40))))
    # Each new mail needs six words, and the changed one some forty.
    free = 256 - known()
    count = (free - 40) // 6
    for number in range(1, count):
        written(f"mail/cur/{number}:2,", sent(number, f"Subject one{number} two{number}", sender=f"Person P{number} <p{number}@example.org>"))
    status, out, _ = sync("--as", "m", "--reserve", "0", "image", "mail")
    told = [line for line in out if "run short" in line]
    assert status == 1 and len(told) == 1 and lean_told(out) is None, (free, count, out)
    found = re.fullmatch(r"image: known words run short after ([0-9]+) of ([0-9]+) changes \(256 in all, 0 of them kept free\): --lean needs fewer: "
                         r".*/tools/sync --lean --as m --reserve 0 image mail", told[0])
    assert found and 0 < int(found[1]) < int(found[2]) == count, told
    # The newest have their words, and it is said before the counts.
    assert out.index(told[0]) == 0


def test_reserve():
    make("image", ("64", "64", "64"))
    for number in range(40):
        dated(f"top/{number}/f", number + 1)
    status, out, _ = sync("--as", "t", "--reserve", "1/2", "image", "top")
    assert status == 1 and known() == 32 and "limit reached: 64 known words, 32 of them kept free, and 78 are needed: " in out[-1], (out, known())
    assert "--lean" not in out[-1], "which no file here needs"
    assert held()["39+f"] == {"sync:t", "in:39"} and held()["0+f"] == {"sync:t"}, "the newest have their words"
    assert sync("--as", "t", "--reserve", "0", "image", "top")[:2] == (0, ["sync:t: 14 with other words, 26 as they were"]), "and then all"
    assert sync("--as", "t", "--reserve", "64", "image", "top") == (
        1, [], "sync: --reserve 64: image has room for 64 known words in all\n"), "too many"


def test_words_of_somebody_else():
    """Words that the reserve is for are known words too. So no more words become known when they are used, and the folder's word has room."""
    make("image", ("64", "64", "64"))
    with session() as program:
        for number in range(58):
            program.mkdir(b"mine%d" % number)
    written("top/sub/f", "x")
    status, out, error = sync("--as", "t", "--reserve", "2", "image", "top")
    assert (status, out[:2], error) == (1, ["sync:t: nothing changed, 0 as they were", "not taken: 1 no room for more words"], ""), "no room for its size"
    status, out, error = sync("--as", "t", "--reserve", "0", "image", "top")
    assert (status, out[:2], held()) == (
        1, ["sync:t: 1 new, 0 as they were", "1 word of 1 file left out: no room for more words"], {"sub+f": {"sync:t"}}), (out, error)


def test_lean_sources():
    """From their names the program derives no words of their bytes."""
    for name in ("a.c", "sub/a.h", "notes.eml", "long-" * 11 + "name.c", "plain.txt", "a.c_"):
        written(f"top/{name}", "int main(void) { }\n" if name != "notes.eml" else mail())
    make()
    assert sync("--as", "t", "--lean", "image", "top")[0] == 0, "lean ones"
    names = sorted(held())
    assert names[:2] == ["a-" + names[0][2:], "a.c_"] and "sub+a.h_" in names and "notes.eml_" in names and "plain.txt" in names, names
    assert all(len(name) <= 60 for name in names), names
    with session() as program:
        words = {text.decode() for name in names for _, text in program.props(name.encode()).body}
    assert {"ext:c_", "ext:h_", "ext:eml_", "ext:txt"} <= words and not [word for word in words if word.startswith(("defines:", "includes:", "from:"))]
    for words in ([], ["--lean"]):
        assert sync("--as", "t", *words, "image", "top")[1] == ["sync:t: nothing changed, 6 as they were"], "they stay so"
    # A lean file that moves stays lean, and keeps the word that it was given.
    with session() as program:
        program.mkdir(b"mine")
        program.mv(b"sub+a.h_", b"mine")
    os.makedirs("top/other")
    os.rename("top/sub/a.h", "top/other/b.h")
    assert sync("--as", "t", "image", "top")[1] == ["sync:t: 1 moved, 5 as they were"], "moved"
    assert held()["other+b.h_"] == {"sync:t", "in:other", "mine"}, "its name and words"


def test_sources_without_room():
    """A source for whose words there is no room comes in with a lean name, and the newest have their words."""
    make("image", ("64", "64", "64"))
    for number in range(4):
        dated(f"top/f{number}.c", number + 1, "".join(f"int f{number}{letter}(void) {{ }}\n" for letter in "abcdefghijklmnopqr"))
    status, out, error = sync("--as", "t", "image", "top")
    assert (status, out[1:3], error) == (
        1, ["sync:t: 4 new, 0 as they were", "2 files named as by --lean: no room for the words that the program derives"], ""), "what is told"
    assert "--newest 2 keeps the newest" in out[-1], out
    assert sorted(held()) == ["f0.c_", "f1.c_", "f2.c", "f3.c"], "the newest have all"


def test_room_and_bytes():
    """If blocks are full, smaller files may come in after a larger one that has no room."""
    make("image", ("64", "64", "4"))
    for number, size in ((4, 8_192), (3, 12_288), (2, 4_096), (1, 4_096), (0, 4_096)):
        dated(f"top/f{number}", number + 1, bytes(size))
    assert sync("--as", "t", "image", "top")[:2] == (
        1, ["sync:t: 3 new, 0 as they were", "not taken: 2 no room for its bytes",
            "limit reached: 4 blocks, and 8 are needed: --newest 1 keeps the newest; tools/enlarge image 64 64 8 makes room"]), "what is told"
    assert sorted(held()) == ["f1", "f2", "f4"], "which come in"


def test_dry_run_tells_what_has_no_room():
    make("image", ("64", "64", "64"))
    for number in range(70):
        dated(f"top/f{number}", number + 1)
    with open("image", "rb") as file:
        before = file.read()
    status, out, _ = sync("--as", "t", "--dry-run", "image", "top")
    assert (status, out[-3:]) == (1, [
        "sync:t: would be 64 new, 0 as they were", "not taken: 6 no room for more files",
        "limit reached: 64 files, and 70 are needed: --newest 64 keeps the newest; tools/enlarge image 128 64 128 makes room"]), "the same as a run"
    with open("image", "rb") as file:
        assert file.read() == before, "and no byte changes"
