"""`tools/sync`: what was changed in the folder, in the image, and in both, and what is kept of earlier runs."""
import hashlib
import os
import shutil
import stat

import pytest

from support.images import dump, session, written
from support.syncing import LIMITS, brought_in, contents, held, mail, maildir, make, memory_words, sync

pytestmark = [pytest.mark.usefixtures("program"), pytest.mark.limits(*LIMITS)]


def bring_in(*files):
    """Makes an image with these files of a folder, each with a word that somebody gave it."""
    assert brought_in(*files) == (0, [f"sync:t: {len(files)} new, 0 as they were"], ""), "all are new"


def test_nine_cases():
    """Edited, renamed and removed: in the folder, in the image and in both."""
    bring_in("edit-folder", "edit-image", "edit-both", "name-folder", "name-image", "name-both", "gone-folder", "gone-image", "gone-both")
    for name in ("edit-folder", "edit-both"):
        written(f"top/{name}", "the folder's\n")
    os.makedirs("top/below")
    os.rename("top/name-folder", "top/below/other")
    os.rename("top/name-both", "top/below/both")
    for name in ("gone-folder", "gone-both"):
        os.remove(f"top/{name}")
    with session() as program:
        for name in (b"edit-image", b"edit-both"):
            program.write(name, b"the image's\n")
        program.rename(b"name-image", b"their-name")
        program.rename(b"name-both", b"their-other")
        for name in (b"gone-image", b"gone-both"):
            program.rm(name)
    before = dump()
    status, out, error = sync("--as", "t", "--dry-run", "image", "top")
    assert (status, "conflict: edit-both: top/edit-both: changed in the folder and in the image" in out, error) == (
        1, True, ""), "a dry run tells the conflict too"
    assert dump() == before, "and changes nothing"
    told = ["1 file changed in the image: left as the image has it",
            "1 file removed from the image: left out until changed in the folder, or --restore",
            "conflict: edit-both: top/edit-both: changed in the folder and in the image",
            "1 conflict left: --ours keeps what the image has, --theirs takes what the folder has; --ours=PATH or --theirs=PATH settles one"]
    assert sync("--as", "t", "image", "top") == (1, ["sync:t: 1 changed, 2 moved, 1 gone, 1 as they were", *told], ""), "what is told"
    now, words = contents(), held()
    assert now.get("edit-folder") == ("the folder's\n", True), "edited in the folder: it is brought in"
    assert now.get("edit-image") == ("the image's\n", True), "edited in the image: it stays"
    assert now.get("edit-both") == ("the image's\n", True), "edited in both: a conflict, and left"
    assert (now.get("below+other"), words.get("below+other"), "name-folder" in now) == (
        ("name-folder as it was\n", True), {"sync:t", "mine", "in:below"}, False), "renamed in the folder: it has the new name, and its words"
    assert (now.get("their-name"), "name-image" in now) == (("name-image as it was\n", True), False), "renamed in the image: it stays so"
    assert (now.get("their-other"), words.get("their-other"), "below+both" in now) == (
        ("name-both as it was\n", True), {"sync:t", "mine", "in:below"},
        False), "renamed in both: it has the image's name, and the word of its folder"
    assert "gone-folder" not in now, "removed from the folder: it is removed"
    assert "gone-image" not in now, "removed from the image: it stays away"
    assert "gone-both" not in now, "removed from both: nothing is left"
    assert len(now) == 6, "no other file is there"
    before = dump()
    assert sync("--as", "t", "image", "top") == (1, ["sync:t: nothing changed, 4 as they were", *told], ""), "again the same is told"
    assert dump() == before, "and nothing is changed"
    written("top/gone-image", "changed\n")
    assert sync("--as", "t", "image", "top")[1][0] == "sync:t: 1 new, 4 as they were", "what was removed from the image changes"
    assert contents().get("gone-image") == ("changed\n", False), "and comes again"


def test_mixed_cases():
    """One change in the folder, and a different one in the image."""
    bring_in("edit-gone", "gone-edit", "name-edit", "edit-name", "name-gone", "gone-name", "alike", "back")
    for name in ("edit-gone", "edit-name"):
        written(f"top/{name}", "the folder's\n")
    written("top/alike", "the same\n")
    for name in ("name-edit", "name-gone"):
        os.rename(f"top/{name}", f"top/{name}.new")
    for name in ("gone-edit", "gone-name"):
        os.remove(f"top/{name}")
    with session() as program:
        for name in (b"edit-gone", b"name-gone", b"back"):
            program.rm(name)
        for name in (b"gone-edit", b"name-edit"):
            program.write(name, b"the image's\n")
        program.write(b"alike", b"the same\n")
        for name in (b"edit-name", b"gone-name"):
            program.rename(name, name + b".theirs")
    assert sync("--as", "t", "image", "top") == (
        1, ["sync:t: 1 new, 1 changed, 1 moved, 1 gone, 1 as they were", "1 file changed in the image: left as the image has it",
            "2 files removed from the image: left out until changed in the folder, or --restore",
            "conflict: gone-edit: gone from the folder, and changed in the image",
            "1 conflict left: --ours keeps what the image has, --theirs takes what the folder has; --ours=PATH or --theirs=PATH settles one"], ""), "what is told"
    assert contents() == {
        "edit-gone": ("the folder's\n", False), "gone-edit": ("the image's\n", True), "name-edit.new": ("the image's\n", True),
        "edit-name.theirs": ("the folder's\n", True), "alike": ("the same\n", True)}, "what is there"
    assert sync("--as", "t", "--restore", "image", "top")[1][0] == "sync:t: 2 new, 3 as they were", "what was removed comes again where it is wanted"
    now = contents()
    assert [now.get(name) for name in ("back", "name-gone.new")] == [
        ("back as it was\n", False), ("name-gone as it was\n", False)], "with the bytes of the folder"


def test_settled_conflicts():
    """`--ours` and `--theirs`."""
    bring_in("both", "gone", "here", "there")
    written("top/both", "the folder's\n")
    written("top/here", "the folder's alone\n")
    os.remove("top/gone")
    with session() as program:
        for name in (b"both", b"gone", b"there"):
            program.write(name, b"the image's\n")
    shutil.copy("image", "theirs")
    assert sync("--as", "t", "--ours", "image", "top") == (
        0, ["sync:t: 1 changed, 0 as they were", "3 files changed in the image: left as the image has them"], ""), "by what the image has"
    assert contents() == {
        "both": ("the image's\n", True), "gone": ("the image's\n", True), "there": ("the image's\n", True), "here": ("the folder's alone\n",
                                                                                                                     True)}, "it stays"
    assert sync("--as", "t", "image", "top") == (
        0, ["sync:t: nothing changed, 1 as they were", "3 files changed in the image: left as the image has them"], ""), "and is no conflict any more"
    written("top/both", "the folder's again\n")
    status, out, _ = sync("--as", "t", "image", "top")
    assert (status, out[2:3]) == (1, ["conflict: both: top/both: changed in the folder and in the image"]), "until the folder changes again"
    assert contents()["both"] == ("the image's\n", True), "and stays all the same"
    # A copy of the image has the memory of its own state.
    assert sync("--as", "t", "--theirs", "theirs", "top") == (
        0, ["sync:t: 2 changed, 1 gone, 0 as they were", "1 file changed in the image: left as the image has it"], ""), "by what the folder has"
    assert contents("theirs") == {
        "both": ("the folder's again\n", True), "here": ("the folder's alone\n", True), "there": ("the image's\n", True)}, "it is taken"
    assert sync("--ours", "--theirs", "image", "top")[0] == 2, "not both"


def in_conflict():
    """Six conflicts: four files that were edited on both sides, one that is gone from the folder, and one of which nothing is known."""
    bring_in("both", "below/one", "below/two", "top/both", "gone", "lost")
    for name in ("both", "below/one", "below/two", "top/both"):
        written(f"top/{name}", "the folder's\n")
    os.remove("top/gone")
    os.remove("top/lost")
    with session() as program:
        for name in (b"both", b"below+one", b"below+two", b"top+both", b"gone", b"lost"):
            program.write(name, b"the image's\n")
        program.rename(b"below+two", b"their-two")


def edited():
    """The names of the files of the image, by the owner of their bytes."""
    return {side: {name for name, (data, _) in contents().items() if data == f"the {side}'s\n"} for side in ("image", "folder")}


LEFT = "--ours keeps what the image has, --theirs takes what the folder has; --ours=PATH or --theirs=PATH settles one"


def test_one_conflict():
    """One is settled by its path in the folder, or by its name in the image if the folder does not have the file, and the others are left."""
    in_conflict()
    status, out, said = sync("--as", "t", "--theirs=below/one", "image", "top")
    assert (status, said, out[0], out[-1]) == (1, "", "sync:t: 1 changed, 0 as they were", f"5 conflicts left: {LEFT}")
    assert edited() == {"image": {"both", "their-two", "top+both", "gone", "lost"}, "folder": {"below+one"}}
    status, out, said = sync("--as", "t", "--theirs=gone", "--ours=both", "--theirs=below/two", "image", "top")
    assert (status, said, out[0], out[-1]) == (1, "", "sync:t: 1 changed, 1 gone, 1 as they were", f"2 conflicts left: {LEFT}")
    assert edited() == {"image": {"both", "top+both", "lost"}, "folder": {"below+one", "their-two"}}
    assert sync("--as", "t", "--theirs=top/both", "--ours=lost", "image", "top")[:2] == (
        0, ["sync:t: 1 changed, 2 as they were", "2 files changed in the image: left as the image has them"]), "all are settled, and stay so"
    assert edited() == {"image": {"both", "lost"}, "folder": {"below+one", "their-two", "top+both"}}
    assert sync("--as", "t", "image", "top")[0] == 0


def test_all_but_one():
    """A named conflict is settled as its option says, and the others as the option for all says; a dry run says it too."""
    in_conflict()
    before = dump()
    words = "--as", "t", "--theirs", "--ours=top/below/one", "image", "top"
    assert sync(*words[:2], "--dry-run", *words[2:])[0] == 0 and dump() == before
    assert sync(*words)[:2] == (0, ["sync:t: 3 changed, 2 gone, 0 as they were", "1 file changed in the image: left as the image has it"])
    assert edited() == {"image": {"below+one"}, "folder": {"both", "their-two", "top+both"}}


def test_a_path_with_that_of_the_folder():
    """As a conflict is shown. A path within the folder comes first."""
    in_conflict()
    assert sync("--as", "t", "--theirs=top/both", "image", "top")[0] == 1
    assert edited()["folder"] == {"top+both"}, "the folder has such a path"
    assert sync("--as", "t", "--theirs=./top/below/one", f"--theirs={os.path.abspath('top/below/two')}", "image", os.path.abspath("top"))[0] == 1
    assert edited()["folder"] == {"top+both", "their-two"}, "another folder is said"
    assert sync("--as", "t", "--theirs=./top/below/one", "image", "top/")[0] == 1 and edited()["folder"] == {"top+both", "their-two", "below+one"}


def test_a_name_that_a_path_has():
    """The name in the image of one file is the path of another one, whose conflict is meant."""
    bring_in("a/b", "a+b")
    names = {name for name in contents() if name != "a+b"}
    for name in ("a/b", "a+b"):
        written(f"top/{name}", f"the folder's {name}\n")
    with session() as program:
        for name in ("a+b", *names):
            program.write(name.encode(), b"the image's\n")
    assert sync("--as", "t", "--theirs=a+b", "image", "top")[0] == 1
    assert sorted(data for data, _ in contents().values()) == ["the folder's a+b\n", "the image's\n"]


def test_no_conflict():
    """A line names a path that is in no conflict, and nothing is done for it."""
    bring_in("here", "there", "both")
    written("top/here", "the folder's\n")
    with session() as program:
        program.write(b"there", b"the image's\n")
    assert sync("--as", "t", "--ours=here", "--theirs=there", "--theirs=nosuch", "image", "top") == (
        1, ["sync:t: 1 changed, 1 as they were", "1 file changed in the image: left as the image has it",
            *(f"not settled: {path}: this file is in no conflict" for path in ("here", "there", "nosuch"))], "")
    assert edited() == {"image": {"there"}, "folder": {"here"}}


@pytest.mark.parametrize("words, told", (
    (("--ours=a", "--theirs=a"), "a: --ours or --theirs, and not both"), (("--ours", "a"), "unrecognized arguments: top; --ours=PATH and --theirs=PATH settle"),
    (("--ours", "--theirs"), "not allowed with"), (("--ours=",), "ignored explicit argument")))
def test_wrong_sides(words, told):
    make()
    os.mkdir("top")
    status, out, said = sync(*words, "image", "top")
    assert status == 2 and not out and told in said.splitlines()[-1]


def test_verbose():
    """Each path that comes in, changes or is removed."""
    make()
    maildir("top/box")
    for name in ("below/one", "two", "three"):
        written(f"top/{name}", f"{name}\n")
    written("top/box/cur/1:2,", mail("Plan"))
    out = sync("--as", "t", "--verbose", "image", "top")[1]
    name = next(name for name in held() if name.startswith("plan"))
    assert sorted(out[:4]) == ["new: below+one: top/below/one", f"new: {name}: top/box/cur/1:2,", "new: three: top/three", "new: two: top/two"]
    os.remove("top/below/one")
    os.remove("top/box/cur/1:2,")
    written("top/two", "other\n")
    os.rename("top/three", "top/below/three")
    status, (*out, counts), _ = sync("--as", "t", "--verbose", "image", "top")
    assert (status, counts, sorted(out)) == (0, "sync:t: 1 changed, 1 moved, 2 gone, 0 as they were", [
        "changed: two: top/two", "gone: below+one: top/below/one", f"gone: {name}", "moved: below+three: top/below/three"])


def test_found_again():
    """Among files with the same bytes those of the same name are found again first, and empty ones only by their names; a mail without a Message-ID
    is found by its bytes too."""
    make()
    maildir("mail", ".Old")
    written("mail/cur/1:2,", mail("Without id", number=None))
    sync("--as", "m", "image", "mail")
    had, = held()
    for name, data in (("a/same", "same\n"), ("b/twin", "same\n"), ("a/empty", ""), ("a/none", "")):
        written(f"top/{name}", data)
    sync("--as", "t", "image", "top")
    with session() as program:
        for word in (b"mine", b"twin", b"empty"):
            program.mkdir(word)
        for name, word in ((had.encode(), b"mine"), (b"a+same", b"mine"), (b"b+twin", b"twin"), (b"a+empty", b"empty"), (b"a+none", b"empty")):
            program.mv(name, word)
    os.rename("mail/cur/1:2,", "mail/.Old/cur/1:2,")
    assert sync("--as", "m", "image", "mail")[:2] == (0, ["sync:m: 1 moved, 0 as they were"]), "a mail that moved"
    assert [words >= {"mine", "in:Old"} for words in held().values() if "sync:m" in words] == [True], "has its words"
    os.makedirs("top/c")
    for old, new in (("a/same", "c/same"), ("b/twin", "c/twin"), ("a/empty", "c/empty"), ("a/none", "c/another")):
        os.rename(f"top/{old}", f"top/{new}")
    assert sync("--as", "t", "image", "top")[:2] == (0, ["sync:t: 1 new, 3 moved, 1 gone, 0 as they were"]), "files that moved"
    assert {name: words for name, words in held().items() if "sync:t" in words} == {
        "c+same": {"sync:t", "in:c", "mine"}, "c+twin": {"sync:t", "in:c", "twin"}, "c+empty": {"sync:t", "in:c", "empty"},
        "c+another": {"sync:t", "in:c"}}, "each has its words"


def test_not_moved():
    """A file that was in the folder before, and for which there was no room, does not count as moved when another one with its bytes goes."""
    make(limits=("64", "64", "2"))
    for name, data in (("another", "other\n"), ("first", "the same\n"), ("second", "the same\n")):
        os.utime(written(f"top/{name}", data), (1, 1))
    assert sync("--as", "t", "image", "top")[1][:2] == ["sync:t: 2 new, 0 as they were", "not taken: 1 no room for its bytes"], "room for two"
    before = dump()
    assert sync("--as", "t", "image", "top")[1][:2] == [
        "sync:t: nothing changed, 2 as they were", "not taken: 1 no room for its bytes"], "and no more"
    assert dump() == before, "nothing is changed"
    with session() as program:
        program.mkdir(b"mine")
        program.mv(b"first", b"mine")
    os.remove("top/first")
    assert sync("--as", "t", "image", "top") == (0, ["sync:t: 1 new, 1 gone, 1 as they were"], ""), "one goes, and the other one comes"
    assert held() == {"another": {"sync:t"}, "second": {"sync:t"}}, "without its words"


def test_without_memory():
    """What was brought in without a memory, as by an older `tools/sync`, is neither lost nor overwritten."""
    bring_in("same", "other", "gone")
    written("top/other", "the folder's\n")
    os.remove("top/gone")
    word, = memory_words()
    with session() as program:
        program.rmdir(word)
    assert sync("--as", "t", "image", "top") == (
        1, ["sync:t: nothing changed, 1 as they were", "nothing is known of earlier runs, so no difference shows who made it",
            "conflict: other: top/other: not the same in the folder and in the image", "conflict: gone: not in the folder",
            "2 conflicts left: --ours keeps what the image has, --theirs takes what the folder has; --ours=PATH or --theirs=PATH settles one"], ""), "without a memory"
    assert contents() == {
        "same": ("same as it was\n", True), "other": ("other as it was\n", True), "gone": ("gone as it was\n", True)}, "nothing is lost"
    written("top/same", "newer\n")
    status, out, _ = sync("--as", "t", "image", "top")
    assert (status, out[0]) == (1, "sync:t: 1 changed, 0 as they were"), "what both had alike is known then"
    assert sync("--as", "t", "--theirs", "image", "top")[:2] == (0, ["sync:t: 1 changed, 1 gone, 1 as they were"]), "the rest is settled"
    assert contents() == {"same": ("newer\n", True), "other": ("the folder's\n", True)}, "as the folder has it"


def test_memories():
    """A memory belongs to one state of an image, wherever that is, and what is no memory is not believed."""
    bring_in("a", "b")
    shutil.copy("image", "backup")
    word, = memory_words()
    written("top/a", "newer\n")
    assert sync("--as", "t", "image", "top")[:2] == (0, ["sync:t: 1 changed, 1 as they were"]), "an image"
    assert (len(memory_words()), word in memory_words()) == (1, False), "one memory is named"
    os.rename("backup", "moved")
    assert sync("--as", "t", "moved", "top")[:2] == (0, ["sync:t: 1 changed, 1 as they were"]), "an older copy of it elsewhere"
    assert memory_words("moved") == memory_words(), "then names the same one"
    os.remove("image")
    make()
    assert sync("--as", "t", "image", "top")[:2] == (0, ["sync:t: 2 new, 0 as they were"]), "an image that was made again"
    # A memory that somebody changed, or that is missing.
    word, = memory_words()
    name, = (name for name in os.listdir(os.path.join(os.environ["XDG_STATE_HOME"], "lisfs")) if word[-20:].decode() in name)
    path = os.path.join(os.environ["XDG_STATE_HOME"], "lisfs", name)
    assert stat.S_IMODE(os.stat(path).st_mode) == 0o600, "it is its owner's alone"
    with open(path, "ab") as file:
        file.write(b" ")
    written("top/a", "newest\n")
    status, out, _ = sync("--as", "t", "image", "top")
    assert (status, out[2:3]) == (1, ["conflict: a: top/a: not the same in the folder and in the image"]), "a changed memory is none"
    # A folder in which it can't be kept.
    written("file")
    written("top/c", "more\n")
    status, out, _ = sync("--as", "t", "image", "top", XDG_STATE_HOME=os.path.abspath("file"))
    assert status == 1 and out[0] == "sync:t: 1 new, 1 as they were" and "could not be kept" in out[-1], (
        "a memory that can't be kept is told", (status, out))
    assert memory_words() == [], "and none is named"


def test_unknown_conflict():
    """A conflict of which nothing is known gets only its words, and keeps its bytes."""
    bring_in("a")
    os.mkdir("top/sub")
    os.rename("top/a", "top/sub/a")
    assert sync("--as", "t", "image", "top")[1][0] == "sync:t: 1 moved, 0 as they were", "found again"
    assert contents() == {"sub+a": ("a as it was\n", True)}, "with its word"
    # Without a memory a file in conflict gets or loses words, and the run goes on.
    written("top/sub/a", "the folder's\n")
    word, = memory_words()
    with session() as program:
        program.rmdir(word)
    status, out, error = sync("--as", "t", "--flat", "image", "top")
    assert (status, error, any("conflict" in line for line in out)) == (1, "", True), "words of a conflict of which nothing is known"
    assert contents()["sub+a"] == ("a as it was\n", True), "its bytes stay"


def test_long_names():
    """Folders whose names have a common prefix have separate memories."""
    make()
    for folder in ("x", "y"):
        written(f"{folder}/family-photos-and-letters-of-the-year/a", f"{folder}\n")
        assert sync("image", f"{folder}/family-photos-and-letters-of-the-year")[0] == 0, "a folder"
    assert len(memory_words()) == 2, "each has a memory"
    for folder in ("x", "y"):
        assert "nothing changed" in sync("image", f"{folder}/family-photos-and-letters-of-the-year")[1][0], "and nothing changed"


def test_ours_again():
    """What `--ours` kept is a conflict again when the folder's file changes, whatever the image has then."""
    bring_in("a")
    written("top/a", "the folder's\n")
    with session() as program:
        program.write(b"a", b"the image's\n")
    assert sync("--as", "t", "--ours", "image", "top")[0] == 0, "ours"
    with session() as program:
        program.write(b"a", b"a as it was\n")
    sync("--as", "t", "image", "top")
    written("top/a", "newer\n")
    status, out, _ = sync("--as", "t", "image", "top")
    assert (status, contents()["a"]) == (1, ("a as it was\n", True)), "a new conflict"


def test_mails_alike():
    """Two mails with one Message-ID each keep their own words when one of them goes."""
    make()
    for number, text in ((1, "One.\n"), (2, "Two.\n")):
        written(f"box/cur/{number}", mail(body=text))
    os.makedirs("box/new", exist_ok=True)
    assert sync("--as", "m", "image", "box")[0] == 0, "both"
    names = held()
    with session() as program:
        bodies = {name: program.cat(name.encode()).body.decode() for name in names}
        for word in (b"one", b"two"):
            program.mkdir(word)
        for name, body in bodies.items():
            program.mv(name.encode(), b"one" if "One." in body else b"two")
    # The names of such mails are ordered by their digests: without the lowest the other one has another name.
    lowest = min((1, 2), key=lambda number: hashlib.sha256(mail(body="One.\n" if number == 1 else "Two.\n").encode()).digest())
    os.remove(f"box/cur/{lowest}")
    assert sync("--as", "m", "image", "box")[0] == 0, "one is gone"
    (_, words), = held().items()
    assert {"one", "two"} & words == {"two" if lowest == 1 else "one"}, "the other has its own word"


def test_plain_words():
    """A plain word that is spelled as one of the folder's heads is somebody's own, and stays."""
    bring_in("f")
    written("top/sub/g", "new\n")
    assert sync("--as", "t", "image", "top") == (0, ["sync:t: 1 new, 1 as they were"], ""), "another one"
    with session() as program:
        for word in (b"date", b"in", b"who", b"year", b"sync"):
            program.mkdir(word)
        program.mv(b"f", b"date/in/who/year/sync")
        program.mv(b"sub+g", b"in")
    wanted = {"f": {"sync:t", "mine", "date", "in", "who", "year", "sync"}, "sub+g": {"sync:t", "in", "in:sub"}}
    assert sync("--as", "t", "image", "top") == (0, ["sync:t: nothing changed, 2 as they were"], ""), "nothing is taken from an unchanged file"
    assert held() == wanted, "each word is there"
    written("top/f", "changed\n")
    assert sync("--as", "t", "image", "top") == (0, ["sync:t: 1 changed, 1 as they were"], ""), "nor from a changed one"
    assert held() == wanted, "and each is there"


def test_edited_and_renamed():
    """In the image, between two runs: the file is found again by its contents, and counts as edited and renamed."""
    bring_in("a.txt", "b.c", "sub/c.txt", "d.txt", "e.txt")
    with session() as program:
        for name, other in ((b"a.txt", b"mine.txt"), (b"b.c", b"mine.c"), (b"sub+c.txt", b"another.txt")):
            program.rename(name, other)
            program.write(other, program.cat(other).body + b"the image's\n")
        program.rm(b"e.txt")
    told = ["3 files changed in the image: left as the image has them",
            "1 file removed from the image: left out until changed in the folder, or --restore"]
    for run in ("the first run", "a second one"):
        assert sync("--as", "t", "image", "top") == (0, ["sync:t: nothing changed, 1 as they were", *told], ""), run
    names = {"mine.txt", "mine.c", "another.txt", "d.txt"}
    assert {name: content[1] for name, content in contents().items()} == dict.fromkeys(names, True), "none is lost, and none is there twice"
    out = sync("--as", "t", "--verbose", "image", "top")[1]
    assert not [line for line in out if "conflict" in line], out
    # What was removed since stays away, whatever is new in the image.
    for name in ("a.txt", "b.c", "sub/c.txt"):
        written(f"top/{name}", "the folder's\n")
    status, out, _ = sync("--as", "t", "image", "top")
    assert (status, sorted(line for line in out if line.startswith("conflict"))) == (1, [
        f"conflict: {name}: top/{path}: changed in the folder and in the image"
        for name, path in (("another.txt", "sub/c.txt"), ("mine.c", "b.c"), ("mine.txt", "a.txt"))]), "each is the one of its file"
    assert set(contents()) == names, "and none comes in a second time"
    assert contents()["mine.c"] == ("b.c as it was\nthe image's\n", True), "nor is anything lost"
    assert sync("--as", "t", "--theirs", "image", "top")[:2] == (
        0, ["sync:t: 3 changed, 1 as they were", told[1]]), "settled by what the folder has"
    assert contents()["mine.c"] == ("the folder's\n", True), "under the name that somebody gave"


def test_edited_and_renamed_where_the_folder_changed():
    """The same, where the folder's file has other bytes, moved, or is gone."""
    bring_in("edit", "name", "gone")
    with session() as program:
        for name in (b"edit", b"name", b"gone"):
            program.rename(name, name + b".mine")
            program.write(name + b".mine", b"the image's\n")
    written("top/edit", "the folder's\n")
    os.makedirs("top/below")
    os.rename("top/name", "top/below/name")
    os.remove("top/gone")
    told = [f"conflict: gone.mine: {'gone from the folder, and changed in the image'}",
            "conflict: edit.mine: top/edit: changed in the folder and in the image"]
    status, out, error = sync("--as", "t", "image", "top")
    assert (status, out[0], sorted(line for line in out if line.startswith("conflict")), error) == (
        1, "sync:t: 1 moved, 0 as they were", sorted(told), ""), out
    assert contents() == {f"{name}.mine": ("the image's\n", True) for name in ("edit", "name", "gone")}, "each is there once"
    assert held()["name.mine"] == {"sync:t", "mine", "in:below"}, "with the word of its folder now"


def test_a_new_file_with_the_word_of_the_folder():
    """It is none of those that were removed before."""
    bring_in("a", "b")
    with session() as program:
        program.rm(b"a")
    sync("--as", "t", "image", "top")
    with session() as program:
        program.add(b"own", b"somebody's own\n", b"sync:t")
    status, out, _ = sync("--as", "t", "image", "top")
    assert (status, out[1:3]) == (1, ["1 file removed from the image: left out until changed in the folder, or --restore",
                                      "conflict: own: not in the folder"]), out
    written("top/a", "changed\n")
    assert sync("--as", "t", "image", "top")[1][0] == "sync:t: 1 new, 1 as they were", "what was removed comes in when it changes"
    assert contents()["own"] == ("somebody's own\n", False), "and the other one stays"


def test_edited_and_then_renamed():
    """A file that was edited before the last run and renamed after it is found again by the bytes that it had then."""
    bring_in("a", "b", "c")
    with session() as program:
        program.write(b"a", b"all is new\n")
    assert sync("--as", "t", "image", "top")[1][0] == "sync:t: nothing changed, 2 as they were", "edited"
    with session() as program:
        program.rename(b"a", b"z")
        for name in (b"b", b"c"):
            program.rm(name)
        program.add(b"own", b"b as it was c as it was\n", b"sync:t")
    out = sync("--as", "t", "--verbose", "image", "top")[1]
    assert "renamed in the image: z: it was a" in out, out
    assert contents()["z"] == ("all is new\n", True), "with its bytes and its word"
    written("top/a", "the folder's\n")
    assert "conflict: z: top/a: changed in the folder and in the image" in sync("--as", "t", "image", "top")[1], "and it is that file"
