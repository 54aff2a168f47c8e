"""Scripts for the shell and their output, and an image to try it on. Only for its tests."""
import random

SMALL = ("64", "64", "8")
TAKEN = b"""\
mkdir music
mkdir live
mkdir year:
create gig music live year:2003
create album music year:2003
create single music year:1999
create notes
"""

# Scripts on an image of these: the output on both streams.
SCRIPTS = (
    ("nothing", b"", b"", ""),
    ("blanks", b" \t\n\r\n\n", b"", ""),
    ("a listing", b"ls\n", b"d live\nd music\nd year:\nf notes\n", ""),
    ("no line feed behind the last line, and CR", b"pwd\r\nls -c", b"w /\nd 1 live\nd 3 music\nd 3 year:\nf   notes\n", ""),
    ("places", b"cd music\npwd\ncd year:2003/!live\npwd\nls\ncd ..\npwd\ncd /\npwd\n",
     b"w music\nw music/year:2003/!live\nf album\nw music/year:2003\nw /\n", ""),
    ("all files", b"find\ncd music\nfind\nfind !live\nfind /notes/live\nfind /!music\nfind ..\npwd\n",
     b"album\ngig\nnotes\nsingle\nalbum\ngig\nsingle\nalbum\nsingle\nnotes\nalbum\ngig\nnotes\nsingle\nw music\n",
     "shell: notes: this is the name of a file, and no word\n"),
    ("changes", b"mkdir jazz\naxiom jazz music\ncreate blue jazz\nrename blue green\nmv green live\nprops green\nway green\nstat\nrm green\n"
     b"unaxiom jazz music\nrmdir jazz\nfind\n",
     b"p jazz\np live\np music\np size:\np size:empty\nd live\nd jazz\ns files 5\ns known 8\ns axioms 1\ns free 8\nalbum\ngig\nnotes\nsingle\n", ""),
    ("bytes", b"add x 6 live\nls\n\0\xff\n\ncat x\nwrite x 0\n\ncat x\nls -c\n",
     b"ls\n\0\xff\nd 2 live\nd 3 music\nd 3 year:\nf   notes\n", ""),
    ("no line feed behind the last bytes", b"create y\nadd z 0", b"", ""),
    ("no line feed behind more of them", b"add z 2\nab", b"", ""),
    ("refusals are told, and the lines behind them are carried out", b"frob\nmkdri x\ncat\nls x\nls -c x\npwd\n", b"w /\n",
     "shell: frob: there is no such command; `help` lists all\nshell: mkdri: there is no such command; is it `mkdir`?\n"
     "shell: cat: usage: cat NAME\nshell: x: this word is not known; `mkdir x` declares it\n"
     "shell: x: this word is not known; `mkdir x` declares it\n"),
    ("the end", b"exit x\nfind a b\nhelp a b\nhelp x\nquit x\npwd\nexit\npwd\n", b"w /\n",
     "shell: x: one word too many: usage: exit\nshell: find: a formula has no blanks, and `/` joins its words: `find a/b`\n"
     "shell: b: one word too many: usage: help [COMMAND]\nshell: x: there is no such command; `help` lists all\n"
     "shell: x: one word too many: usage: quit\n"),
    ("another end", b"pwd\nquit\npwd\n", b"w /\n", ""),
    ("one word too many", b"cat gig album\ncd music live\npwd gig\nrename gig a b\nls music live\nls -c music live\n", b"",
     "shell: album: one word too many: usage: cat NAME\nshell: cd: a formula has no blanks, and `/` joins its words: `cd music/live`\n"
     "shell: gig: one word too many: usage: pwd\nshell: b: one word too many: usage: rename NAME OTHER\n"
     + "shell: ls: a formula has no blanks, and `/` joins its words: `ls music/live`\n" * 2),
    ("a formula with blanks", b"find music / live\nfind music | ! live\nfind ( music live ) gig\nfind /music live\nfind music/ /live\nfind ! ( a | b\n"
     b"ls -a music live\nmv gig live music\ntag live in !live music\nuntag live in !live music/ x\ntag live in gig music\n", b"",
     "shell: find: a formula has no blanks, and `/` joins its words: `find music/live`\n"
     "shell: find: a formula has no blanks, and `/` joins its words: `find music|!live`\n"
     "shell: find: a formula has no blanks, and `/` joins its words: `find (music/live)/gig`\n"
     "shell: find: a formula has no blanks, and `/` joins its words: `find /music/live`\n"
     "shell: /live: one word too many: usage: find [FORMULA]\nshell: (: one word too many: usage: find [FORMULA]\n"
     "shell: ls: a formula has no blanks, and `/` joins its words: `ls music/live`\n"
     "shell: mv: a formula has no blanks, and `/` joins its words: `mv gig live/music`\n"
     "shell: tag: a formula has no blanks, and `/` joins its words: `tag live in !live/music`\n"
     "shell: untag: a formula has no blanks, and `/` joins its words: `untag live in !live/music/x`\n"
     "shell: in: this word is not known; `mkdir in` declares it\n"),
    ("a listing of another place", b"ls music\nls -a music/live\nls -c /music\npwd\ncd live\nls /\nls ..\npwd\nls music -c\n",
     b"d live\nd year:1999\nd year:2003\nf gig\nd 1 live\nd 1 year:1999\nd 2 year:2003\nw /\n"
     + b"d live\nd music\nd year:\nf notes\n" * 2 + b"w live\n", "shell: ls: usage: ls [-a] [-c] [PLACE]\n"),
    ("a byte that harms", b"cat \x1b[2J\n\x1b[2J\n", b"",
     "shell: ^[[2J: no name of a file, which has 1 to 60 letters, digits and _ - . + @\n"
     "shell: ^[[2J: there is no such command; `help` lists all\n"),
)

FORM = "1 to 60 letters, digits and _ - . + @"
NO_WORD = f"no word: `music`, `year:`, `year:2003` or a test, as `size>=1000`; a part has {FORM}"
NO_FORMULA = "no formula: words with `/` (and), `|` (or), `!` (not) and parentheses, without blanks"
NO_WORDS = "which has `|`, `!` or a test in it, and so no words to give it"
NOT_FROM = "one of them has `|`, `!` or a test in it, and so no words of its own"
ELSEWHERE = (10, "song: this file is not here, but elsewhere; all files are at `/`")
TOO_MANY = (18, "x: a file is given at most 16 words, those of the place counted")
FREE = "makes room once no program has it open"
MORE_WORDS = f"(at most 64 known words): take some back; or `tools/enlarge image 64 128 8` {FREE}"
MORE_AXIOMS = f"the image has no room for another axiom (at most 64 axioms): take one back; or `tools/enlarge image 64 128 8` {FREE}"
BY_THEMSELVES = "files have such words on their own, and nobody gives or declares them"
WORDS = [b"w%02d" % k for k in range(17)]
MANY = b"".join(b"mkdir %b\n" % word for word in WORDS)
FULL = b"".join(b"create f%02d\n" % k for k in range(64))
PAIRS = b"".join(b"axiom w%02d w%02d\n" % (k, m) for k in range(12) for m in range(k))
WIDE = b"mkdir w\n" + b"".join(b"mkdir a%d\naxiom w a%d\n" % (k, k) for k in range(128))

# Lines on an empty image of these limits, and the refused ones, each with its number and its sentence.
REFUSED = (
    (SMALL, b"add x a\n", (1, "a: no count of bytes")),
    (SMALL, b"add . 1\nx\n", (1, f".: no name of a file, which has {FORM}")),
    (SMALL, b"mkdir .a\n", (1, f".a: {NO_WORD}")),
    (SMALL, b"rename x\n", (1, "rename: usage: rename NAME OTHER")),
    (SMALL, b"create x" + b" a:b" * 16 + b" a/b\n", (1, f"a/b: {NO_WORD}")),
    (SMALL, b"mkdir " + b"x" * 1_019 + b"\n", (2, "mkdir: the line has more than 1,024 bytes")),
    (SMALL, b"add x 5\nab", (3, "the input ends within the bytes of a file")),
    (SMALL, b"add x 2\nabc\n", (4, "x: no line ends after its 2 bytes, so their count is wrong; the rest of that line is dropped")),
    (SMALL, b"mkdir a\ncd a/\ncreate x\nmv x a//b\n", (5, f"a/: {NO_FORMULA}"), (5, f"a//b: {NO_FORMULA}")),
    (SMALL, b"mkdir a\nmkdir rock\ncd a/(!b|size>=7|c:d)/rocks\n", (6, "b, c:d, rocks: these words are not known")),
    (SMALL, b"cd from:a@b\n", (6, "from:a@b: no file has it")),
    (SMALL, b"mkdir music\ncd musik\n", (6, "musik: this word is not known; is it `music`?")),
    (SMALL, b"create x year:2003\n", (6, "year:2003: this word is not known; `mkdir year:` declares it")),
    (SMALL, b"mkdir a\nmkdir b\ncd a\nrmdir a\ncreate x b\nmkdir c\n", (6, "a: this word is not known; `mkdir a` declares it"),
     (6, "a: this word of the place is not declared any more; `cd /` first")),
    (SMALL, b"mkdir a\ncreate x a\nmv x q/a\n", (6, "q: this word is not known; `mkdir q` declares it")),
    (SMALL, b"mkdir a\naxiom a b\naxiom c a\n", (6, "b: this word is not known; `mkdir b` declares it"),
     (6, "c: this word is not known; `mkdir c` declares it")),
    (SMALL, b"mkdir a\ncd " + b"/".join([b"a"] * 33) + b"\n",
     (7, "/".join("a" * 33) + ": too large: a place has at most 64 words and signs, and 1,024 bytes")),
    (SMALL, b"mkdir a\ncreate y\ncd !a\nmkdir b\ncreate x\nmv y a\nmv y /a|a\n",
     (8, "b: a word is declared at the root or at a place of plain words, and not at !a"), (8, f"x: no file is made at !a, {NO_WORDS}"),
     (8, f"y: not from !a to a: {NOT_FROM}"), (8, f"y: not from !a to /a|a: {NOT_FROM}")),
    (SMALL, b"create song\ncreate song\ncreate x\nrename x song\n", *[(9, "song: there is a file of this name already")] * 2),
    (SMALL, b"mkdir a\ncreate song\ncreate x a\ncat son\ncd a\ncat song\nrm song\nwrite song 1\nx\n",
     (10, "son: there is no file of this name; is it `song`?"), *[ELSEWHERE] * 3),
    (SMALL, b"mkdir music\ncat music\n", (10, "music: there is no file of this name; it is a word: `cd music`")),
    (SMALL, b"mkdir a\nmkdir a\n", (11, "a: this word is declared already")),
    (SMALL, b"mkdir music\nrmdir musik\nrmdir q\n", (12, "musik: no such word is declared; is it `music`?"),
     (12, "q: no such word is declared")),
    (SMALL, b"mkdir a\nmkdir b\naxiom a b\nmkdir c:\ncreate x c:1\nrmdir a\nrmdir b\nrmdir c:\n",
     (13, "a: an axiom names it: a entails b"), (13, "b: an axiom names it: a entails b"), (13, "c:: a file has this word: `find /c:`")),
    (SMALL, b"mkdir a:1\nrmdir a:1\nmkdir a:\nmkdir b\naxiom b a:\ncreate x a:\ncreate x size>=1\ncreate x b\nmv x a:\n",
     (14, "a:1: a value is not declared, but its head is: `mkdir a:`"),
     (14, "a:1: a value is not declared; it goes with the last file that has it"),
     (14, "a:: only a plain word can be entailed, and no head, value or test"), (14, "a:: a file is given a value of this head, as `a:x`"),
     (14, "size>=1: a file has this by its size, and is not given it"), (14, "a:: a file is given a value of this head, as `a:x`")),
    (SMALL, b"mkdir a\nmkdir b\naxiom a b\naxiom b a\naxiom a a\n", (15, "b, a: a entails b already, and this would be a circle"),
     (15, "a: a word entails itself")),
    (SMALL, b"mkdir a\nmkdir b\naxiom a b\naxiom a b\n", (16, "a, b: there is this axiom already")),
    (SMALL, b"unaxiom a b\n", (17, "a, b: there is no axiom that a entails b")),
    (SMALL, MANY + b"cd w16\ncreate x %b\ncd /\ncreate x %b\n" % (b" ".join(WORDS[:16]), b" ".join(WORDS)), TOO_MANY, TOO_MANY),
    (("64", "256", "8"), WIDE + b"create x w\n", (19, "x: it would have more than 128 words, with all that they entail")),
    (("64", "256", "8"), WIDE + b"unaxiom w a0\nunaxiom w a1\nunaxiom w a2\ncreate x w\naxiom w a0\n",
     (19, "w: some file would have more than 128 words, with all that they entail")),
    (SMALL, b"add x 65537\n" + bytes(65_537) + b"\n", (20, "x: it has 65,537 bytes, and a file of this image at most 65,536")),
    ((*SMALL, "v2"), b"add x 1048577\n" + bytes(1_048_577) + b"\n", (20, "x: it has 1,048,577 bytes, and a file of this image at most 1,048,576")),
    ((*SMALL, "v3"), b"add x 32769\n" + bytes(32_769) + b"\n", (20, "x: it has 32,769 bytes, and a file of this image at most 32,768")),
    ((*SMALL, "v3"), b"add x 67108866\n" + bytes(67_108_866) + b"\n",
     (20, "x: it has more than 67,108,864 bytes, and a file of this image at most 32,768")),
    (SMALL, FULL + b"create x\n", (21, f"x: the image has no room for another file (at most 64 files): `rm` one; or `tools/enlarge image 128 64 8` {FREE}")),
    (SMALL, b"".join(b"mkdir w%02d\n" % k for k in range(65)), (22, f"w64: the image has no room for more words {MORE_WORDS}")),
    (SMALL, MANY + PAIRS, (23, f"w11, w09: {MORE_AXIOMS}"), (23, f"w11, w10: {MORE_AXIOMS}")),
    (SMALL, b"add x 32769\n" + bytes(32_769) + b"\n",
     (24, f"x: the image has no room for its bytes (at most 8 blocks): `rm` files with bytes; or `tools/enlarge image 64 64 17` {FREE}")),
    (SMALL, b"mkdir size:\nrmdir ext:c\nmkdir a\ncreate x a ext:c size:small\n", (25, f"size:: {BY_THEMSELVES}"),
     (25, f"ext:c: {BY_THEMSELVES}"), (25, f"ext:c, size:small: {BY_THEMSELVES}")),
)

PLACES = (b"/", b"/w1", b"/w0/w5", b"/!w1", b"/w2|w3|year:1991", b"/ext:", b"/from:", b"/from:a@x/!subject:lunch", b"/size>=40", b"/year:",
          b"/w4/!w4", b"/old")


def library(count: int = 60) -> bytes:
    """Lines that make an image of N files with given words, a taxonomy, mails, sources and declared tests."""
    rng = random.Random(11)
    lines: list[bytes] = []
    words = [f"w{k}" for k in range(12)]
    for word in words + ["year:", "size>=40", "size<500", "old"]:
        lines.append(f"mkdir {word}\n".encode())
    lines += [f"axiom w{k} w{k // 2}\n".encode() for k in range(2, 12)] + [b"axiom from:a@x old\n"]
    for k in range(count):
        given = rng.sample(words, rng.randrange(4)) + [f"year:{rng.randrange(1990, 1996)}"] * rng.randrange(2)
        name, data = f"f{k}", b"x" * rng.choice((0, 10, 50, 2_000))
        if k % 3 == 0:
            header = f"From: {rng.choice('abc')}@x\nTo: me@y\nSubject: {rng.choice(('lunch', 'plan'))} {k % 4}\n\n"
            name, data = f"m{k}.eml", header.encode() + data
        elif k % 7 == 0:
            name, data = f"s{k}.c", b"#include <a%d.h>\nint f%d(void) { }\n" % (k % 2, k)
        lines.append(f"add {name} {len(data)} {' '.join(given)}\n".encode() + data + b"\n")
    return b"".join(lines)
