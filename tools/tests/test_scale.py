"""`bench/scale` over tiny collections: they are the same each time, all systems give the right answers, and what is missing is skipped."""
import hashlib
import os
import random
import re
import shutil
import subprocess
import sys

import pytest
from scaling import comparing, facts, growth, making
from scaling.in_lisfs import Lisfs
from scaling.systems import Wrong

import support
from support.images import session
from support.waiting import LONG

sys.path.append(os.path.join(support.TOP, "docs"))
import curves  # noqa: E402, a module beside the pages

SCALE = os.path.join(support.TOP, "bench", "scale")
# At most 64 files, and fewer words than 64 files of the made set have.
SMALL = facts.Version("v2", 64, 256, 1_024, 65_536)
QUESTIONS, CHANGES = 10, 4


def scale(*words, path=None):
    environment = {**os.environ, "PATH": path} if path else None
    return subprocess.run([sys.executable, SCALE, "--rounds", "1", "--bring", "1", *words], capture_output=True, text=True, timeout=LONG, check=False,
                          env=environment)


def digest_of(folder):
    """A digest of the paths, the bytes and the times of all files."""
    found = hashlib.sha256()
    for path in sorted(os.path.join(at, name) for at, _, names in os.walk(folder) for name in names):
        with open(path, "rb") as file:
            found.update(f"{os.path.relpath(path, folder)} {file.read()!r}".encode())
    return found.hexdigest()


def wish(name, version=facts.VERSIONS["v2"], files=80):
    return comparing.Wish(os.getcwd(), name, files, 1, version, 1, 1)


@pytest.mark.parametrize("name", making.KINDS)
def test_collections_are_the_same_each_time(name, monkeypatch):
    # The sources of the kernel differ from machine to machine.
    monkeypatch.setattr(making, "KERNEL", "nothing")
    one, other, third = (making.kept(top, name, 40, seed) for top, seed in (("one", 1), ("other", 1), ("one", 2)))
    assert sum(len(names) for _, _, names in os.walk(one)) == 40
    assert digest_of(one) == digest_of(other) != digest_of(third), "by the seed alone"
    path = next(os.path.join(at, names[0]) for at, _, names in os.walk(one) if names)
    os.remove(path)
    assert making.kept("one", name, 40, 1) == one and not os.path.exists(path), "a whole collection is used again as it is"
    os.remove(one + ".whole")
    making.kept("one", name, 40, 1)
    assert digest_of(one) == digest_of(other), "one that was not finished is made again"


@pytest.mark.usefixtures("program")
def test_all_systems_answer_alike(needs):
    needs("sqlite3")
    ran = scale("--files", "60", "top")
    assert (ran.returncode, ran.stderr) == (0, ""), ran
    parts = ran.stdout.split("\n\n")
    found = {part.strip().split(":")[0] for part in parts if " files, with " in part}
    assert found == set(making.KINDS), "each collection"
    shown = [part.splitlines() for part in parts if "milliseconds of processor" in part]
    assert [len(lines) for lines in shown] == [2 + QUESTIONS + CHANGES] * len(making.KINDS), "each question and change"
    for lines in shown:
        assert all(cells.split("|")[place].strip(" .0123456789") == "" for cells in lines[2:] for place in (2, 3)), ("LISFS and SQLite answer all", lines)
    if shutil.which("notmuch"):
        answers = [line.split("|")[4].strip() for line in shown[0][2:]]
        assert answers.count("–") == 5, ("notmuch answers what it can", answers)
        assert all(len(lines[0].split("|")) == 5 for lines in shown[1:]), "about mails alone"


@pytest.mark.usefixtures("program")
def test_what_is_missing_is_skipped(needs):
    needs("sqlite3")
    os.mkdir("bin")
    for name in ("sqlite3", "strace", "cp"):
        if shutil.which(name):
            os.symlink(shutil.which(name), os.path.join("bin", name))
    ran = scale("--files", "30", "--only", "mails", "top", path=os.path.abspath("bin"))
    assert ran.returncode == 0 and "notmuch is skipped: no notmuch (Debian's notmuch)" in ran.stdout, ran
    assert "| LISFS | SQLite |\n" in ran.stdout, "and the others are compared"
    os.remove("bin/sqlite3")
    ran = scale("--files", "30", "--only", "made", "top", path=os.path.abspath("bin"))
    assert ran.returncode == 0 and "SQLite is skipped: no sqlite3 (Debian's sqlite3)" in ran.stdout and "| LISFS |\n" in ran.stdout, ran


@pytest.mark.usefixtures("program")
def test_growth(needs):
    needs("sqlite3")
    ran = scale("--growth", "--first", "64", "--files", "128", "top")
    assert ran.returncode == 0, ran
    tables = [lines.strip().splitlines() for lines in ran.stdout.split("\n\n") if lines.strip().startswith("|")]
    assert [lines[0].split(",")[0] for lines in tables] == [f"| {measure}" for measure in growth.MEASURES], "a table for each measure"
    for lines in tables:
        rows = [[cell.strip() for cell in line.strip("|").split("|")] for line in lines]
        assert [row[:2] for row in rows[2:]] == [["64", "64"], ["128", "64"], ["128", "128"]], "first the files grow, and then the words"
        assert rows[0][2:] == ["LISFS", "SQLite", "notmuch"][:2 + bool(shutil.which("notmuch"))], lines
        assert all(float(cell) > 0 for row in rows[2:] for cell in row[2:]), lines


def test_curves_of_growth():
    table = "milliseconds of a listing, files", [dict(zip(("milliseconds of a listing, files", "words", "LISFS", "SQLite"), cells)) for cells in (
        ("64", "64", "0.02", "0.30"), ("128", "64", "0.03", "0.60"), ("128", "128", "1.50", "1.40"))]
    shapes, _ = curves.panel(table, 0, curves.Curves("Milliseconds", table[0], "words", "files"))
    lines = [re.search('points="(.*)"', shape)[1] for shape in shapes if shape.startswith("<polyline")]
    heights = [[float(place.split(",")[1]) for place in line.split()] for line in lines]
    assert [len(line) for line in heights] == [2, 2], "the rows with the most files"
    assert heights[0][1] < heights[0][0] and heights[1][1] < heights[1][0], "more is higher"
    names = {text: float(re.search('y="(.*?)"', shape)[1]) for shape in shapes for text in re.findall(">(LISFS|SQLite)</text>", shape)}
    assert abs(names["LISFS"] - names["SQLite"]) >= curves.NAME, "each line is named, and no name covers another"
    numbers = [text for shape in shapes for text in re.findall(r">([\d.,]+)</text>", shape)]
    assert numbers == ["0.01", "0.1", "1", "10", "128", "64"], "plain numbers"


@pytest.mark.usefixtures("program")
def test_a_wrong_answer_ends_the_run():
    asked = wish("songs", files=30)
    folder, files, _ = comparing.collection(asked)
    system = Lisfs("in")
    system.bring(folder, files, asked.version)
    assert comparing.asked([system], asked, files), "right answers"
    with session(system.image) as program:
        program.cd(b"sync:bench")
        program.rename(files[0].name, b"other.mp3")
    with pytest.raises(Wrong, match="LISFS: the image has"):
        comparing.asked([system], asked, files)
    with session(system.image) as program:
        program.rename(b"other.mp3", files[0].name)
        word = sorted(word for word in files[0].words if word.startswith(b"year:19") or word.startswith(b"year:20"))[0]
        program.cd(word)
        program.mv(files[0].name, b"/genre:jazz/genre:rock")
    with pytest.raises(Wrong, match="LISFS answers `find"):
        comparing.asked([system], asked, files)


def test_what_does_not_fit_is_said():
    folder, files, left = comparing.collection(wish("made", SMALL))
    assert folder.endswith("-in-v2") and sum(len(names) for _, _, names in os.walk(folder)) == len(files) < 64
    assert left == [f"{80 - len(files)} more do not fit: an image knows 256 words"]
    assert len({word for fact in files for word in fact.words}) <= 256 - facts.FREE
    _, files, left = comparing.collection(wish("made", SMALL._replace(words=8_192)))
    assert len(files) == 64 and left == ["16 more do not fit: an image has 64 files"]
    _, files, left = comparing.collection(wish("made", SMALL._replace(words=8_192, blocks=32)))
    assert len(files) == 32 and left == ["48 more do not fit: an image has 32 blocks"]
    _, files, left = comparing.collection(wish("songs", SMALL._replace(words=8_192, file_bytes=1_048_576), files=20))
    assert len(files) == 18 and left == ["2 are larger than 1,048,576 bytes"]


def test_a_source_of_the_kernel_is_taken(monkeypatch):
    import tarfile
    os.makedirs("linux/kernel")
    for name in ("linux/kernel/fork.c", "linux/kernel/Makefile"):
        with open(name, "w", encoding="utf-8") as file:
            file.write("int fork(void) { return 0; }\n")
    with tarfile.open("linux-source-6.1.tar.xz", "w:xz") as archive:
        archive.add("linux")
    monkeypatch.setattr(making, "KERNEL", os.path.abspath("linux-source-*.tar.*"))
    making.make_sources("made", 3, random.Random(1))
    found = sorted(os.path.relpath(os.path.join(at, name), "made") for at, _, names in os.walk("made") for name in names)
    assert len(found) == 3 and found[0] == "linux/kernel/fork.c", found
