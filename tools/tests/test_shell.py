"""`tools/shell`: scripts, refusals by their numbers, files in and out, counts, and what Tab completes."""
import contextlib
import fcntl
import os
import random
import re
import shutil
import signal
import subprocess
import types

import pytest

import support
from lisfs import derived
from lisfs.client import CONTENT, PROGRAM, Program, Refused, Replies, reply_of, shown_by
from lisfs.constants import MAX_DERIVED
from lisfs.dumps import dumped, opened
from lisfs.limits import limits_of
from lisfs.refusals import REFUSALS
from lisfs.shell.commands import COMMANDS, OWN
from lisfs.shell.completing import Completer
from lisfs.shell.explaining import SENTENCES
from lisfs.shell.session import Session
from support.images import bytes_of, content, make, session, written
from support.shell_tables import FORM, NO_WORD, PLACES, REFUSED, SCRIPTS, TAKEN, library
from support.shells import SHELL, Kept, shell, within
from support.waiting import LONG

MODEL = os.path.join(support.TOP, "docs/MODEL.md")
ALL_BYTES = bytes(range(256))


@pytest.mark.parametrize("number", range(len(SCRIPTS)), ids=[name for name, *_ in SCRIPTS])
def test_scripts(program, number):
    name, script, shown, told = SCRIPTS[number]
    make(script=TAKEN)
    # Some with a separate shell, and the others within this process, which is faster.
    with within() if number % 4 else contextlib.nullcontext(shell) as answer:
        assert answer(script) == (1 if told else 0, shown, told), name


def test_help(image):
    status, shown, told = shell(b"help\n")
    lines = shown.decode().splitlines()
    assert (status, told) == (0, "") and [line.split()[0] for line in lines] == list(COMMANDS), ("help has a line for each command", lines)
    assert max(map(len, lines)) < 80, ("and each fits a terminal", lines)


@pytest.fixture(scope="module")
def helped(program, tmp_path_factory):
    """The help text of each command."""
    image = make(str(tmp_path_factory.mktemp("helped") / "image"))
    return shell(b"".join(b"help %b\npwd\n" % name.encode() for name in COMMANDS), image)


@pytest.mark.parametrize("number", range(len(COMMANDS)), ids=COMMANDS)
def test_help_of_a_command(helped, number):
    status, shown, told = helped
    assert (status, told) == (0, ""), "each is told of"
    texts = shown.decode().split("w /\n")
    assert len(texts) == len(COMMANDS) + 1, "and nothing else"
    name, command = list(COMMANDS.items())[number]
    lines = texts[number].splitlines()
    assert lines[0] == f"{command.form}: {command.does}.", f"help {name}"
    assert sum(line.startswith("- ") for line in lines) == len(command.refusals), f"help {name} has its refusals"


def random_lines(rng, count):
    """Lines of all commands of the program, most of them well formed, and bytes after some."""
    names, words = ["a", "b.c", "m.eml", "n"], ["u", "v", "w", "h:", "h:1", "h:2", "g:", "g:x", "size>=3", "size<2", "ext:c", "from:a@b", "q"]
    formulas = words + ["/", "..", "u/v", "u|!v", "/h:1/size>=2", "!w", "(u|v)/!h:", "u/", "/from:"]
    data = [b"", b"xy", b"From: a@b\n\nhi", b"#include <s.h>\n", b"ok\n\0\r\n", b"long " * 30]
    found = []
    for _ in range(count):
        name, other = rng.choice(names), rng.choice(names)
        given, content = rng.choices(words, k=rng.randrange(3)), rng.choice(data)
        behind = b" %d" % len(content)
        found.append(rng.choice((
            f"mkdir {rng.choice(words)}", f"mkdir {rng.choice(words)}", f"rmdir {rng.choice(words)}", f"axiom {rng.choice(words)} {rng.choice(words)}",
            f"unaxiom {rng.choice(words)} {rng.choice(words)}", f"create {name} {' '.join(given)}", f"rename {name} {other}", f"rm {name}",
            f"mv {name} {rng.choice(formulas)}", f"cd {rng.choice(formulas)}", "cd /", "pwd", "ls", f"cat {name}", f"props {name}", f"way {name}",
            "stat", f"cd /u\nmkdir {rng.choice('vw')}", "axiom u v", "unaxiom u v", "", " \t", f" pwd {name}",
            "ls\r", "pwd\r\r", f"add {name} 3\r\r", f"cat\t{name}  \r", "\0", "x" * 1_030, "add a 3 u\nabcd", "frob")).encode())
        if rng.random() < 0.2:
            found.append(rng.choice((b"add ", b"write ")) + name.encode() + behind + b"\n" + content)
    return b"\n".join(found) + rng.choice((b"", b"\n", b"\nadd a 5\nxy"))


@pytest.mark.parametrize("seed", range(6))
def test_as_run(program, seed):
    """The shell shows what `lisfs run` shows, without the ends of replies, and what it knows of the image is true."""
    script = random_lines(random.Random(seed), 250)
    make()
    shutil.copy("image", "copy")
    cut, shown, refused = Replies(), b"", 0
    cut.shown += subprocess.run([PROGRAM, "run", "copy"], input=script, stdout=subprocess.PIPE, timeout=LONG, check=True).stdout
    while taken := cut.take():
        try:
            kind, body = reply_of(taken[0])
            shown += body if kind == CONTENT else b"".join(letter + b" " + text + b"\n" for letter, text in body)
        except Refused:
            refused += 1
    with within() as answer:
        got, session = answer(script), answer.session
        assert got[:2] == (1, shown), f"session {seed}"
        assert len(got[2].splitlines()) == refused, f"session {seed}: a sentence for each refusal"
        known = set(session.known())
        assert len(known) == counted(session.program), f"session {seed}: how many words are known"
        place = session.place
        assert session.program.pwd().body == [(b"w", place)], f"session {seed}: the place"
        told = session.names, session.declared, session.axioms
    dump = dumped("image")
    assert told == (set(dump.files), dump.declared, dump.axioms), f"session {seed}: files, words and axioms"
    assert shown_by([PROGRAM, "dump", "image"]) == shown_by([PROGRAM, "dump", "copy"]), f"session {seed}: the image"


def counted(program):
    """How many words an image knows."""
    return int(dict(text.split() for _, text in program.stat().body)[b"known"])


def numbers_by_command(page):
    """For each command the numbers of its refusals in order, as docs/MODEL.md has them."""
    found = {}
    for row in re.finditer(r"^\| (`\w+`(?:, `\w+`)*) \| (?:`\w+`(?:, `\w+`)*|the same names) \| (.*) \|$", page, re.M):
        numbers = []
        for part in row[2].split(";"):
            if "those of `create`" in part:
                numbers += found["create"]
            elif leading := re.match(r" ?(?:then )?((?:\d+(?:, | and )?)+) ", part):
                numbers += map(int, re.findall(r"\d+", leading[1]))
        for name in re.findall(r"`(\w+)`", row[1]):
            found[name] = numbers
    return found


@pytest.mark.parametrize("number", range(len(REFUSED)))
def test_refusals(program, number):
    limits, script, *wanted = REFUSED[number]
    make(limits=limits)
    shown = subprocess.run([PROGRAM, "try", *limits], input=script, stdout=subprocess.PIPE, timeout=LONG, check=True).stdout
    name = f"refusals {number}: {script[-60:]!r}"
    assert [int(found) for found in re.findall(rb"^no ([0-9]{2}) ", shown, re.M)] == [number for number, _ in wanted], f"{name}: of the program"
    with within() as answer:
        assert answer(script) == (1, b"", "".join(f"shell: {sentence}\n" for _, sentence in wanted)), name


@pytest.fixture(scope="module")
def page():
    with open(MODEL, encoding="utf-8") as file:
        return file.read()


@pytest.fixture(scope="module")
def numbers(page):
    """The refusals of a session, and all of them, as docs/MODEL.md has them."""
    table = page[page.index("| no | words | no | words |"):].split("\n\n")[0]
    numbers = {int(number): words for number, words in re.findall(r"\| (\d+) \| ([^|]+) (?=\|)", table)}
    return set(numbers), set(numbers) | {int(number) for number in re.findall(r"`no (\d\d) [a-z ]+`", page)}


def test_every_refusal(numbers):
    of_sessions, every = numbers
    assert {number for _, _, *wanted in REFUSED for number, _ in wanted} == of_sessions, "every refusal of a session was seen"
    assert every == {*of_sessions, 26, 27} and len(of_sessions) >= 25, ("and those of `put` are refusals too", every)
    assert set(REFUSALS) == every, "every refusal has a meaning"
    assert set(SENTENCES) == every, "every refusal has a sentence"


@pytest.mark.parametrize("number", sorted(SENTENCES))
def test_the_sentence_of_a_refusal(image, number):
    told = types.SimpleNamespace(place=b"/", names=set(), declared=set(), axioms=set(), limits=limits_of(image), known=set,
                                 unknown=lambda _: [], is_assignable=lambda _: False)
    sentence = SENTENCES[number]("create", [b"song", b"7"], told)
    assert re.match(r"song|7|create", sentence) and len(sentence) > 12, (f"the sentence of {number} has the name or the word", sentence)


def test_the_refusals_that_help_tells(page):
    assert {name: list(command.refusals) for name, command in COMMANDS.items() if name not in OWN and command.refusals} == (
        {name: numbers for name, numbers in numbers_by_command(page).items() if name in COMMANDS and numbers}), "the refusals that help tells"


FILES = {"empty": b"", "all.bytes": ALL_BYTES * 3, "large": random.Random(7).randbytes(65_536), "no.feed": b"ok\nno 09 name taken",
         "rest": b"x\n" * 9}


@pytest.mark.limits("64", "64", "64")
def test_files(image):
    """What goes in and comes out is the same, and nothing is overwritten."""
    make(limits=("64", "64", "64"), script=b"mkdir a\nmkdir b:\n")
    for name, data in FILES.items():
        written(name, data)
        assert shell(f"put {name} {name} a b:1\nget {name} got\ncat {name}\n".encode()) == (
            0, f"{name}: {len(data):,} bytes\ngot: {len(data):,} bytes\n".encode() + data, ""), f"put, get and cat {name}"
        assert bytes_of(name) == data, (f"{name} is in", name)
        assert content("got") == data, (f"{name} is out", name)
        os.unlink("got")
    assert shell(b"cd a/b:1\nfind\n") == (0, "".join(f"{name}\n" for name in sorted(FILES)).encode(), ""), "words were given"
    odd = "two words (\N{LATIN SMALL LETTER U WITH DIAERESIS})'s"
    escaped = odd.replace(" ", "\\ ").replace("'", "\\'")
    os.mkdir("folder")
    written("folder/plain.txt", b"plain")
    written(odd, b"odd")
    written("larger", bytes(65_537))
    written("huge", bytes(1_048_577))
    os.symlink("rest", "link")
    os.mkfifo("pipe")
    rows = (
        ("a path, and the place's words", "cd a\nput folder/plain.txt\nprops plain.txt\n",
         "plain.txt: 5 bytes\np a\np ext:\np ext:txt\np size:\np size:small\n", ""),
        ("quotes", f"put '{odd[:-2]}'\"'s\" odd1\nput {escaped} odd2\n", "odd1: 3 bytes\nodd2: 3 bytes\n", ""),
        ("no name", f'put "{odd}"\n', "", f"{odd}: no name of a file, which has {FORM}: give one after the path: put FILE AS\n"),
        ("a quote that is not closed", "put 'rest\n", "", "put 'rest: a quote is not closed\n"),
        ("too large", "put larger\n", "", "larger: it has 65,537 bytes, and a file of this image at most 65,536\n"),
        ("much too large", "put huge\n", "", "huge: it has 1,048,577 bytes, and a file of this image at most 65,536\n"),
        ("nothing is there", "put nosuch\n", "", "nosuch: No such file or directory\n"),
        ("no path", "put a\0b\n", "", "put a^@b: no path has such a byte\n"),
        ("a folder and a pipe", "put folder\nput pipe\n", "", "folder: no plain file\npipe: no plain file\n"),
        ("no words", "put\nput -w\nget\nget a b c\n", "",
         "put: usage: put [-w] FILE [AS] [WORD..]\n" * 2 + "get: usage: get NAME [FILE]\n" * 2),
        ("a word that is none", "put rest r q\nput rest r 'a b'\n", "",
         f"q: this word is not known; `mkdir q` declares it\na b: {NO_WORD}\n"),
        ("it is here already", "put folder/plain.txt rest\ncat rest\n", "x\n" * 9,
         "rest: there is a file of this name already; `put -w` writes to it\n"),
        ("and is written to", "put -w folder/plain.txt rest b:2\ncat rest\ncd b:1\nfind size<6\n",
         "rest: 5 bytes; its words stay as they were\nplainempty\nrest\n", ""),
        ("it is elsewhere", "mkdir c\ncd c\nput -w rest\n", "", "rest: there is a file of this name already\n"),
        ("a link is followed", "put link link\ncat link\n", "link: 18 bytes\n" + "x\n" * 9, ""),
        ("nothing is written over", "get rest folder/plain.txt\nget rest link\nget rest pipe\nget rest nosuch/x\nget nosuch x\nget a/b\n", "",
         "folder/plain.txt: it is there already, and is left as it was\nlink: it is there already, and is left as it was\n"
         "pipe: it is there already, and no plain file\nnosuch/x: No such file or directory\nnosuch: there is no file of this name\n"
         f"a/b: no name of a file, which has {FORM}\n"),
        ("into a folder", "get empty folder\nget all.bytes folder/\nget odd1 'two words'\n",
         "folder/empty: 0 bytes\nfolder/all.bytes: 768 bytes\ntwo words: 3 bytes\n", ""),
    )
    with within() as answer:
        for name, script, shown, told in rows:
            told = "".join(f"shell: {line}\n" for line in told.splitlines())
            assert answer(b"cd /\n" + script.encode()) == (1 if told else 0, shown.encode(), told), name
    assert (content("rest"), content("folder/plain.txt"), os.path.islink("link")) == (b"x\n" * 9, b"plain", True), "all is as it was"
    assert content("folder/all.bytes") == ALL_BYTES * 3 and content("two words") == b"odd", "and there"
    with contextlib.suppress(OSError):
        os.symlink("nosuch", "dangling")
        assert shell(b"get rest dangling\n") == (1, b"", "shell: dangling: it is there already, and no plain file\n"), "a link that leads nowhere"


@pytest.mark.parametrize("limits, size, most", ((("64", "64", "300", "v2"), 1_048_576, 1_048_576), (("64", "64", "800", "v3"), 3_000_064, 3_276_800)))
def test_large_files(program, limits, size, most):
    make("second", limits)
    written("large", ALL_BYTES * (size // 256))
    written("huge", bytes(most + 1))
    assert shell(b"put large\nput huge\nget large out\n", "second") == (
        1, f"large: {size:,} bytes\nout: {size:,} bytes\n".encode(), f"shell: huge: it has {most + 1:,} bytes, and a file of this image at most {most:,}\n")
    assert content("out") == ALL_BYTES * (size // 256), "it is the same"


def there(program, names):
    """Which of these files are at a place, by the program."""
    for name in names:
        program.send(b"cat", name)
    found = set()
    for name in names:
        with contextlib.suppress(Refused):
            program.receive()
            found.add(name)
    return found


def walked(program, steps=(), seen=None):
    """The files of a place by its listings alone: those that are shown, and those below each word."""
    seen = set() if seen is None else seen
    if frozenset(steps) in seen:
        return set()
    seen.add(frozenset(steps))
    body = program.ls().body
    found = {text for letter, text in body if letter == b"f"}
    for letter, word in body:
        if letter == b"d":
            program.cd(word)
            found |= walked(program, (*steps, word), seen)
            program.cd(b"..")
    return found


def test_counts(program):
    """The results of `find` and `ls -c`, compared with those of `cd` and `ls` alone."""
    make(limits=("128", "512", "256"), script=library(80))
    names = re.findall(rb"^add (\S+) ", library(80), re.M)
    places, wanted = [], []
    with session() as program:
        for place in PLACES:
            program.cd(place)
            shown = program.ls().body
            places.append((place, shown, there(program, names)))
            for letter, word in shown:
                if letter == b"d":
                    program.cd(word)
                    wanted.append((place, word, len(there(program, names))))
                    program.cd(b"..")
    with within() as answer:
        for place, shown, here in places:
            assert answer(b"cd %b\n" % place) == (0, b"", ""), f"a place {place}"
            rows = [line.split() for line in answer(b"ls -c\n")[1].splitlines()]
            assert [(row[0], row[-1]) for row in rows] == shown, f"its words and files at {place}"
            assert [(row[2], int(row[1])) for row in rows if row[0] == b"d"] == [
                (word, count) for at, word, count in wanted if at == place], f"its counts at {place}"
            files = b"".join(name + b"\n" for name in sorted(here))
            assert answer(b"find\nfind %b\n" % place) == (0, files * 2, ""), f"find at {place}"
            at = answer(b"cd w0\npwd\n")
            assert answer(b"find %b\npwd\n" % place) == (0, files + at[1], ""), f"find elsewhere, and the place stays: {place}"
            onward = answer(b"cd !w1/size<500|w2/year:\nfind\ncd ..\ncd ..\ncd ..\n")
            assert answer(b"find !w1/size<500|w2/year:\npwd\n") == (0, onward[1] + at[1], ""), f"and some steps on, from {place}"
    assert len(wanted) > 60, "many were counted"


def test_find_finds_what_listings_lead_to(program):
    make("small", limits=("64", "256", "64"), script=library(30))
    with session("small") as program:
        found = []
        for place in PLACES[:6]:
            program.cd(place)
            found.append(b"".join(name + b"\n" for name in sorted(walked(program))))
    assert shell(b"".join(b"find %b\n" % place for place in PLACES[:6]), "small") == (0, b"".join(found), ""), "find finds what listings lead to"


MANY = b"Subject: " + b" ".join(b"w%03d" % number for number in range(191)) + b"\n\n"
MANY_TOLD = "48 of at least 193 words that it has on its own: a search for one of the others misses it"
MISSES = "1 file has the most words that a file has on its own, 48, and may say more: a search by subject:{} can miss such a file"


def test_cut_words(program):
    """Words that the program cuts are counted as it derives them, and a search that can miss a file says so once."""
    chance, files = random.Random(5), {}
    for number in range(40):
        pieces = [b"From: ", b"to:", b"Subject:", b"\n", b"\r\n", b" ", b"\t", b"a@b", b"X-Y: ", b"Word%d" % chance.randrange(60), b":", b"<", b",",
                  b"w" * 70, b"\xff"]
        files[b"m%d.eml" % number] = b"".join(chance.choice(pieces) for _ in range(chance.choice((10, 60, 250))))
        pieces = [b"#", b"include", b"<a/b%d.h>" % chance.randrange(60), b'"c.h"', b"f%d" % chance.randrange(60), b"(", b")", b"{", b"}", b"if", b"\n",
                  b"\\\n", b" ", b"/*", b"*/", b"//", b'"', b"'", b"\\", b"1.x", b";", b"() {}", b"\r", b"\xff", b"g%d(int a) {}" % chance.randrange(60)]
        files[b"s%d.%c" % (number, chance.choice(b"ch"))] = b"".join(chance.choice(pieces) for _ in range(chance.choice((10, 80, 500))))
    files |= {b"many.eml": MANY, b"many.c": b"".join(b"int f%d(int a) { }\n" % number for number in range(100)), b"a.b.Txt": b"x", b".eml": MANY,
              b"lean": MANY, b"m.EML": MANY}
    make(limits=("256", "4096", "1024"))
    differ = []
    with Program([PROGRAM, "load", "image"]) as program:
        for name, data in files.items():
            program.send(b"add", name, b"%d" % len(data), payload=data)
        for name in files:
            program.send(b"props", name)
        for _ in files:
            program.receive()
        for name, data in files.items():
            found, wanted = {text for _, text in program.receive().body}, derived.derived_words(name, data)[:MAX_DERIVED]
            if found != {*wanted, *(word.partition(b":")[0] + b":" for word in wanted)}:
                differ.append((name, data, sorted(found), wanted))
    assert not differ, ("the words are those of the program", differ[:1])
    assert sum(len(derived.derived_words(name, data)) > MAX_DERIVED for name, data in files.items()) >= 2, "some are cut"


def test_a_long_file_counts_as_far_as_it_is_looked_at():
    assert derived.derived_words(b"a.eml", b"Subject: one two" + b"x" * derived.LOOKED) == [b"ext:eml", b"size:large", b"subject:one"], "its words"


def test_a_search_that_can_miss_a_file(program):
    """It says so once."""
    make(script=b"add many.eml %d\n%b\nadd few.eml 13\nSubject: few\n\n" % (len(MANY), MANY))
    status, shown, said = shell(b"props many.eml\nprops few.eml\n")
    assert (status, said) == (0, f"shell: many.eml: {MANY_TOLD}\n"), "props of a file whose words are cut"
    assert shown.count(b"\n") == 48 + 3 + 6 and MANY_TOLD.encode() not in shown, ("and its output is the program's", shown)
    assert shell(b"cd ext:eml\ncd /\nfind subject:w001\nfind subject:few\ncd subject:few\n") == (
        0, b"many.eml\nfew.eml\n", f"shell: {MISSES.format('w001')}\n"), "a search that can miss it, said once"
    status, shown, said = shell(b"find subject:w190\n")
    assert status == 1 and said.startswith(f"shell: {MISSES.format('w190')}\n"), ("one that finds none for this", (status, shown, said))


def test_values_that_begin_so(program):
    """For a value that no file has, those that begin with it are named, the most frequent first, or else a similar one."""
    make(limits=("64", "128", "64"), script=b"mkdir year:\nmkdir music\n" + b"".join(
        b"add m%d.eml %d year:20%02d\n%b\n" % (number, len(mail), number, mail) for number, mail in enumerate(
            b"From: ann@example.org\nSubject: w%d\n\n" % number for number in range(3)))
        + b"add n.eml 25\nFrom: anna@b.example.org\n\n\ncreate song year:2007 music\ncreate other year:2007\n"
        + b"".join(b"create f%d year:19%d\n" % (number, number) for number in range(10, 18)))
    nothing = "no file has it"
    rows = (("find from:ann", f"from:ann: {nothing}; did you mean `from:ann@example.org`, `from:anna@b.example.org`?"),
            ("cd from:ANNA", f"from:ANNA: {nothing}; did you mean `from:anna@b.example.org`?"),
            ("ls music/!year:20", f"year:20: {nothing}; did you mean `year:2007`, `year:2000`, `year:2001`, `year:2002`?"),
            ("grep x year:19", f"year:19: {nothing}; did you mean `year:1910`, `year:1911`, `year:1912`, `year:1913`, `year:1914`, ..?"),
            ("untag song year:200", f"year:200: {nothing}; did you mean `year:2007`, `year:2000`, `year:2001`, `year:2002`?"),
            ("tag music in from:ann@exmaple.org", f"from:ann@exmaple.org: {nothing}; is it `from:ann@example.org`?"),
            ("find to:bob", f"to:bob: {nothing}"), ("find to:bob/year:3/from:ann", "to:bob, year:3, from:ann: no file has them; did you mean "
                                                     "`from:ann@example.org`, `from:anna@b.example.org`?"))
    with within() as answer:
        for line, told in rows:
            assert answer(line.encode() + b"\n") == (1, b"", f"shell: {told}\n"), line


# With the files gig, album, single and notes: a line, the output, and the formula that is used.
SIDES = (
    ("find live|nosuch", b"gig\n", "live"), ("find nosuch|live", b"gig\n", "live"), ("find /(year:7|live)/music", b"gig\n", "/live/music"),
    ("find !(music|nosuch)", b"notes\n", "!music"), ("find live|(nosuch/music)", b"gig\n", "live"), ("ls nosuch|live", b"f gig\n", "live"),
    ("ls -c live|nosuch", b"f gig\n", "live"), ("grep x nosuch|live", b"", "live"), ("tag live in nosuch|live", b"0 of 1 file changed\n", "live"),
    ("untag live in (single|live)/music", b"1 of 1 file changed\n", "live/music"), ("get in live|nosuch out", b"out: 1 file copied, 0 bytes\n", "live"))


@pytest.mark.parametrize("line, shown, taken", SIDES, ids=[line for line, *_ in SIDES])
def test_a_word_that_no_file_has(program, line, shown, taken):
    """Its side of `|` is left out, and a line says so. The place stays, and `cd` of a script is the program's."""
    make(script=TAKEN)
    os.mkdir("out")
    word = next(word for word in ("nosuch", "year:7", "single") if word in line)
    with within() as answer:
        assert answer(line.encode() + b"\npwd\n") == (0, shown + b"w /\n", f"shell: {word}: no file has this word, so the formula is `{taken}`\n")


UNKNOWN = "this word is not known; `mkdir nosuch` declares it"


@pytest.mark.parametrize("line", ("cd live|nosuch", "find nosuch", "find live/nosuch", "find live|!nosuch", "find !nosuch", "find nosuch|(nosuch/live)",
                                  "tag live in music/(nosuch|nosuch)"))
def test_a_word_that_is_refused(program, line):
    """No formula without it would find the same, or it is `cd` of a script."""
    make(script=TAKEN)
    with within() as answer:
        assert answer(line.encode() + b"\npwd\n") == (1, b"w /\n", f"shell: nosuch: {UNKNOWN}\n")


def test_values_that_begin_so_beside_others(program):
    """The same at a place, and words that may have been meant are named."""
    make(script=TAKEN)
    assert shell(b"cd music\nfind year:19|year:2003|musik\nfind /musik|live\npwd\n") == (
        0, b"album\ngig\ngig\nw music\n", "shell: year:19, musik: no file has these words, so the formula is `year:2003`; did you mean `year:1999`?\n"
        "shell: musik: no file has this word, so the formula is `/live`; is it `music`?\n")


BACK = "shell: find: there is no way back to this place, which is too long or has a word that nothing has any more: " \
       "say a formula that goes on from here, or `cd` elsewhere first\n"


@pytest.fixture
def with_long_words(program):
    """An image that knows words of 60 bytes."""
    make(limits=("64", "128", "8"), script=TAKEN + b"mkdir a\n" + b"".join(b"mkdir %b\n" % (b"%02d" % k * 30) for k in range(20)))


# The place is the same after `find`, even if there is no way back to it.

def test_a_word_that_nothing_has_any_more(with_long_words):
    gone = b"cd year:1999\nrm single\n"
    assert shell(gone + b"find /\npwd\nfind ..\npwd\nfind music\npwd\nfind nosuch\npwd\nfind (\nls -c\npwd\n") == (
        1, b"w year:1999\n" * 5, BACK * 2 + "shell: nosuch: this word is not known; `mkdir nosuch` declares it\n"
        "shell: (: no formula: words with `/` (and), `|` (or), `!` (not) and parentheses, without blanks\n")


LONG_PLACE = b"".join(b"cd %b\n" % (b"%02d" % k * 30) for k in range(16))
# 16 words of 60 bytes with their slashes print as 975 bytes, and the longest way back has 1,020.
LONGER_PLACE = LONG_PLACE + b"cd !(a|(!music/(a|music)))|a|!music\n"


@pytest.mark.parametrize("steps, fits", ((LONG_PLACE, True), (LONGER_PLACE, True), (LONGER_PLACE + b"cd !music\ncd a\ncd a\n", False)),
                         ids=("a long place", "a longer one", "the longest"))
def test_a_long_place(with_long_words, steps, fits):
    at = shell(steps + b"pwd\n")[1]
    assert (len(b"cd /") + len(at) - len(b"w \n") <= 1_024) == fits, f"whether it fits, of {len(at) - 3} bytes"
    assert shell(steps + b"find\npwd\nfind /!music\npwd\n") == ((0, at + b"notes\n" + at, "") if fits else (1, at + at, BACK)), "the place"


# The end after an error.

@pytest.fixture
def taken(program):
    """An image of four files."""
    return make(script=TAKEN)


def test_a_locked_image(taken):
    with open("image", "rb") as file:
        fcntl.flock(file, fcntl.LOCK_EX)
        assert shell(b"pwd\n") == (
            3, b"", "shell: image: another program has it open, as another `tools/shell` or `tools/mount`: end that first; `tools/serve` lets several have it\n")


def test_no_image(program):
    assert shell(b"pwd\n", "nosuch") == (3, b"", "shell: lisfs: disk fault: nosuch: No such file or directory\n"), "no image"


def test_another_file(program):
    written("text", b"x" * 5_000)
    assert shell(b"pwd\n", "text") == (2, b"", "shell: lisfs: not an image: text: super block\n"), "another file"


@pytest.mark.parametrize("words", ([], ["a", "b"], ["--help"]))
def test_wrong_use(words):
    ran = subprocess.run([SHELL, *words], stdin=subprocess.DEVNULL, capture_output=True, text=True, timeout=LONG, check=False)
    assert ran.returncode == 1 and "usage: tools/shell IMAGE" in ran.stderr and not ran.stdout, (f"wrong use: {words}", ran)


@pytest.mark.parametrize("ends, status, told", (
    ("echo 'lisfs: disk fault' >&2; echo 'image: Input/output error' >&2; exit 3", 3, "lisfs: disk fault: image: Input/output error"),
    ("kill -9 $$", 137, "the program was killed by signal 9; what was replied to is kept"),
    ("exit 0", 1, "the program has ended with 0; what was replied to is kept"),
    ("echo hello; exec cat", 1, "the program does not reply as lisfs does: b'hello' is no line of a reply here")),
    ids=("a fault", "a kill", "an end", "another program"))
def test_a_program_that_ends_in_the_middle(taken, program, ends, status, told):
    front = written("program", b'#!/bin/sh\ncase $1 in dump) exec "$REAL" "$@";; esac\n'
                    b'read line\necho "s files 4"; echo ok\nread line\n' + ends.encode() + b"\n", 0o755)
    assert shell(b"mkdir x\npwd\n", env={**os.environ, "REAL": program, "LISFS_PROGRAM": os.path.abspath(front)}) == (
        status, b"", f"shell: {told}\n"), "the end"


def test_no_program():
    assert shell(b"", env={**os.environ, "LISFS_PROGRAM": "nosuch"}) == (
        1, b"", "shell: build the program first: ./lisfs try 64 64 8 </dev/null\n"), "no program"


def test_nobody_reads(taken):
    read, write = os.pipe()
    os.close(read)
    ran = subprocess.run([SHELL, "image"], input=b"create y\nls\ncreate z\n", stdout=write, stderr=subprocess.PIPE, timeout=LONG, check=False)
    os.close(write)
    assert (ran.returncode, ran.stderr) == (-signal.SIGPIPE, b""), "nobody reads"
    assert shell(b"find\n")[1] == b"album\ngig\nnotes\nsingle\ny\n", "what was carried out before is kept"


@pytest.mark.parametrize("closed", ("<&-", ">&-"), ids=("input", "output"))
def test_a_closed_stream(taken, closed):
    ran = subprocess.run(["bash", "-c", f"{SHELL} image {closed}"], stdin=subprocess.DEVNULL, capture_output=True, timeout=LONG, check=False)
    assert (ran.returncode, ran.stderr) == (1, b"shell: standard input or output is closed\n"), "a closed stream"


def test_completion(program):
    """What Tab completes in a line, without a terminal."""
    make(limits=("128", "512", "256"), script=library() + b"create other.txt\n")
    os.mkdir("in")
    os.mkdir("in/sub dir")
    for name in ("in/one.txt", "in/on two", "in/.hidden", "in/sub dir/x"):
        written(name, b"")
    program, dump = opened("image")
    with program:
        session = Session(program, dump, limits_of("image"))
        completer = Completer(session, Kept())

        def completes(line, wanted, place=b"/"):
            session.carry_out(b"cd " + place)
            begin = max(line.rfind(b" "), -1) + 1
            got = completer.candidates(line, begin)
            assert got == sorted(wanted), f"completed at {place}: {line}"
            assert program.pwd().body == [(b"w", place.lstrip(b"/") or b"/")], f"and the place stays: {line}"

        known, offered = session.known(), session.offered()
        assert len(known) == counted(program), "all words are known"
        listed = {word for word in known if word.startswith(b"from:")}
        rows = (
            (b"", [name.encode() + (b" " if COMMANDS[name].parts else b"") for name in COMMANDS]),
            (b"pr", [b"props "]), (b"pw", [b"pwd"]), (b"  un", [b"unaxiom ", b"undo", b"untag "]),
            (b"xyz", []), (b"xyz a", []), (b"pwd a", []), (b"help rm", [b"rm", b"rmdir"]),
            (b"cd ", offered), (b"cd from:", listed), (b"cd /from:a", [b"/from:a@x"]), (b"cd old|!from:a", [b"old|!from:a@x"]),
            (b"cd !(old|from:b", [b"!(old|from:b@x"]),
            (b"cd .", [b".."]), (b"cd (old)", []), (b"mv f1 size>", [b"size>=40"]), (b"find w1|w1", [b"w1|w1", b"w1|w10", b"w1|w11"]),
            (b"cat ot", [b"other.txt"]), (b"get ot", [b"other.txt "]), (b"rename ot", [b"other.txt "]),
            (b"rename other.txt ", [b"other.txt"]), (b"cat f1 ", []),
            (b"create x w1", [b"w1 ", b"w10 ", b"w11 "]), (b"create x from:", []),
            (b"create x w1 year:199", [b"year:%d " % year for year in range(1990, 1996)]),
            (b"rmdir ol", [b"old"]), (b"axiom from:a", [b"from:a@x "]), (b"axiom w1 ol", [b"old"]), (b"mkdir ol", []),
            (b"ls ", offered), (b"ls -a w1", [b"w1", b"w10", b"w11"]), (b"grep x w1", [b"w1", b"w10", b"w11"]), (b"grep w1", []),
            (b"tag ot", [b"other.txt "]), (b"tag other.txt w1", [b"w1 ", b"w10 ", b"w11 "]), (b"untag w1 ot", [b"other.txt "]),
            (b"tag old in w1|w1", [b"w1|w1", b"w1|w10", b"w1|w11"]), (b"get in w1|w1", [b"w1|w1", b"w1|w10", b"w1|w11"]),
            (b"get in old in/s", [b"in/sub\\ dir/"]), (b"get in old in ", []),
            (b"put in", [b"in/"]), (b"put in/o", [b"in/on\\ two ", b"in/one.txt "]), (b"put in/.", [b"in/.hidden "]), (b"put nosuch/", []),
            (b"put in/one.txt ", [b"one.txt "]), (b"put -w in/one.txt o", [b"one.txt "]), (b"put in/one.txt x ol", [b"old "]),
            (b"get other.txt in/s", [b"in/sub\\ dir/"]),
        )
        for line, wanted in rows:
            completes(line, wanted)
        # The text to be replaced may begin after an escaped blank.
        assert completer.candidates(b"put in/on\\ t", len(b"put in/on\\ ")) == [b"two "], "behind a blank"
        assert completer.candidates(b"put in/sub\\ dir/", len(b"put in/sub\\ ")) == [b"dir/x "], "and in a folder"
        session.carry_out(b"cd w1")
        inner = {text for letter, text in program.ls().body if letter == b"d"}
        completes(b"cd ", inner, b"/w1")
        completes(b"cd /w1/", [b"/w1/" + word for word in inner])
        completes(b"cd w1/", [b"w1/" + word for word in inner])
        completes(b"cd /", [b"/" + word for word in offered], b"/w1")
        completes(b"cd nosuch/", [])
        session.carry_out(b"cd /w1")
        here = there(program, session.names)
        completes(b"cat m", [name for name in here if name.startswith(b"m")], b"/w1")
        completes(b"cat other", [], b"/w1")
        session.carry_out(b"cd /")
        session.carry_out(b"add new.eml 13", b"From: new@x\n\n\n")
        completes(b"cat new", [b"new.eml"])
        completes(b"cd from:n", [b"from:new@x"])
        session.carry_out(b"rename new.eml newer.eml")
        completes(b"cat new", [b"newer.eml"])
        session.carry_out(b"rm newer.eml")
        completes(b"cat new", [])
        completes(b"cd from:n", [])
        session.carry_out(b"mkdir jazz")
        completes(b"cd ja", [b"jazz"])
        session.carry_out(b"rmdir jazz")
        completes(b"cd ja", [])
