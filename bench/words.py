"""The words of the program, a row each: what a script must know about a word to try it. A new word is a row here.

A row is about the sample image, of LIMITS, on which SAMPLE ran. The forms of the words are only in the usage text of the program (`forms_of`).
`.ci/edges`, `bench/crashes`, `bench/memory` and `bench/hostile` read both.
"""
import re
import typing

LIMITS = ("64", "64", "8")
NOTES = b"alpha one\nbeta\n\nalpha two"
SAMPLE = b"mkdir music\nmkdir rock\nmkdir year:\naxiom rock music\ncreate song rock year:2003\nadd notes.txt 25\n" + NOTES + b"\n"

# A session that looks at what the rows change.
LOOK = b"ls\nstat\ncat notes.txt\nprops notes.txt\nprops tune\n"

# The image afterwards: there is none; it is an empty one; it is as any opening leaves it, or so except the byte of its version; or its state is
# another one.
NO_IMAGE, MADE, OPENED, UPGRADED, CHANGED = "no image", "an empty image", "an opened image", "an image of version 2", "a changed image"
# What an input is: a session, one of several rooms, or an edited view.
SESSION, ROOMS, VIEW = "session", "rooms", "view"


class Word(typing.NamedTuple):
    """A word, its arguments or those after its image, and their effects."""
    name: str
    leaves: str
    behind: tuple = ()
    # The kind of the input, and its parts, each of which runs before the next one is read; empty if no input is read.
    reads: str = ""
    parts: tuple = ()
    shows: bytes = b""
    # The most parts that run before the first of their replies begins to show.
    ahead: int = 1
    # A session that looks at what was changed, and what it shows.
    look: bytes = b"stat\n"
    looks: bytes = b""
    # Malformed arguments, or arguments after its image.
    wrong: tuple = ()

    @property
    def opens(self):
        """Whether it opens an image."""
        return self.leaves not in (NO_IMAGE, MADE)

    @property
    def input(self):
        return b"".join(self.parts)

    def words(self, image):
        return [self.name, *([] if self.leaves == NO_IMAGE else [image]), *self.behind]

    def wrongs(self, image):
        """Malformed words, each made from well-formed ones by one change."""
        right = self.words(image)
        yield from (right[:number] for number in range(1, len(right)))
        yield right + ["x"]
        yield [self.name.capitalize(), *right[1:]]
        yield from ([*right[:len(right) - len(self.behind)], *behind] for behind in self.wrong)


NO_LIMITS = (("65", "64", "8"), ("8192", "64", "8"), ("64", "63", "8"), ("64", "64", "0"), ("64", "64", "32769"), ("64", "64", "x"),
             ("64", "64", "-1"), ("000000000064", "64", "0000000000008"), (*LIMITS, "V2"), (*LIMITS, "v2", "v2"), ("v2", *LIMITS), (*LIMITS, "v4"), (*LIMITS, "v2|v3"), ("524288", "64", "8", "v3"),
             ("64", "1048640", "8", "v3"), ("64", "64", "16777217", "v3"), ("8192", "8256", "32769", "v2"), ("8192", "8256", "32769", "V3"))
NO_NAMES = (("", "f"), (".", "f"), ("..", "f"), ("a/b", "f"), ("a b", "f"), ("a" * 61, "f"))
WORDS = (
    Word("try", NO_IMAGE, LIMITS, SESSION, (b"mkdir music\n", b"create song music\n", b"ls\n"), b"ok\nok\nf song\nok\n", wrong=NO_LIMITS),
    Word("make", MADE, LIMITS, looks=b"s files 0\ns known 0\ns axioms 0\ns free 8\nok\n", wrong=NO_LIMITS),
    Word("run", CHANGED, (), SESSION, (b"mkdir jazz\n", b"axiom jazz music\n", b"add tune 5 jazz\nhello\n", b"rm song\n", b"ls\n"),
         b"ok\nok\nok\nok\nd ext:\nd music\nok\n", look=b"ls\ncat tune\n", looks=b"d ext:\nd music\nok\nb 5\nhello\nok\n"),
    Word("load", CHANGED, (), SESSION, (b"mkdir jazz\n", b"axiom jazz music\n", b"add tune 5 jazz\nhello\n", b"rm song\n", b"ls\n"),
         b"ok\nok\nok\nok\nd ext:\nd music\nok\n", ahead=256, look=b"ls\ncat tune\n", looks=b"d ext:\nd music\nok\nb 5\nhello\nok\n"),
    Word("upgrade", UPGRADED),
    Word("grow", CHANGED, ("7",), shows=b"replies 1241\nrefused 1127\nfiles 52\naxioms 16\nfree 0\nlisted 49\n",
         looks=b"s files 52\ns known 52\ns axioms 16\ns free 0\nok\n", wrong=(("2147483648",), ("x",), ("-1",), ("",))),
    Word("dump", OPENED, shows=b"mkdir music\nmkdir rock\nmkdir year:\nadd notes.txt 25\n" + NOTES + b"\nadd song 0 rock year:2003\n\naxiom rock music\n"),
    Word("rooms", CHANGED, (), ROOMS,
         (b"@7 mkdir jazz\n", b"@0 cd music\n", b"@0 create tune jazz\n", b"@0 pwd\n", b"@7 pwd\n", b"@7 rm song\n", b"@7 ls\n", b"ls\n", b"@7 add hi 2 rock\nhi\n"),
         b"ok\n@7\nok\n@0\nok\n@0\nw music\nok\n@0\nw /\nok\n@7\nok\n@7\nd ext:\nd jazz\nd music\nd size:empty\nd size:small\nok\n@7\nno 01 bad line\n@-\nok\n@7\n",
         look=b"cat hi\nprops tune\n", looks=b"b 2\nhi\nok\np jazz\np music\np size:\np size:empty\nok\n"),
    Word("view", OPENED, ("notes.txt", "word:alpha"), shows=b"+alpha one\n@1 2\n+alpha two\n!\n", wrong=NO_NAMES),
    # Its whole input is one part: it is read to its end before any of it is checked.
    Word("put", CHANGED, ("notes.txt", "word:alpha"), VIEW, (b"+alpha 1\n@1 2\n+alpha 2\n+end\n",), b"ok\n",
         look=b"cat notes.txt\n", looks=b"b 26\nalpha 1\nbeta\n\nalpha 2\nend\n\nok\n", wrong=NO_NAMES),
)


# The words that say a version, the newest last; without one it is version 1.
VERSIONS = {"v2": 2, "v3": 3}
# The most files, words and data blocks of a version.
MOST = {1: (4096, 8192, 32768), 2: (4096, 8192, 32768), 3: (262144, 1048576, 16777216)}

# The valid values of a word in capital letters in a form, in each version.
KINDS = {
    "IMAGE": lambda text, version: True,
    "FILES": lambda text, version: number_of(text) in [1 << k for k in range(6, 19) if 1 << k <= MOST[version][0]],
    "PROPS": lambda text, version: number_of(text) in range(64, MOST[version][1] + 1, 64),
    "BLOCKS": lambda text, version: number_of(text) in range(1, MOST[version][2] + 1),
    "N": lambda text, version: number_of(text) in range(1 << 31),
    "NAME": lambda text, version: re.fullmatch(r"[A-Za-z0-9_.+@-]{1,60}", text) is not None and text not in (".", ".."),
    "F": lambda text, version: True,
}

# What wrong use says about a word outside these.
RANGES = {
    "FILES": lambda version: f"a power of two from 64 to {MOST[version][0]} in version {version}",
    "PROPS": lambda version: f"a multiple of 64 from 64 to {MOST[version][1]} in version {version}",
    "BLOCKS": lambda version: f"a number from 1 to {MOST[version][2]} in version {version}",
    "N": lambda version: "a number from 0 to 2147483647",
    "NAME": lambda version: "1 to 60 letters, digits and _ - . + @, and neither . nor ..",
}


def number_of(text):
    """The number in a text, or one that is never in range."""
    return int(text) if re.fullmatch("[0-9]{1,12}", text) else -1


def forms_of(usage):
    """The forms in a usage text, each a list of words: those in capital letters have a kind, and the others are literal."""
    forms = []
    for line in usage.splitlines()[1:]:
        words = line.split()[1:]
        last = re.fullmatch(r"\[(.*)\]", words[-1])
        forms += [words[:-1], *(words[:-1] + [one] for one in last[1].split("|"))] if last else [words]
    return forms


def version_of(form):
    """The version of which a form is."""
    return VERSIONS.get(form[-1], 1)


def is_form(forms, words):
    return any(len(form) == len(words) and all(KINDS[part](word, version_of(form)) if part in KINDS else part == word for part, word in zip(form, words))
               for form in forms)


def told_of(usage, words):
    """What wrong use of these words says, by the text with all forms: what is out of its range, and the forms of the word."""
    head, *lines = usage.splitlines(keepends=True)
    own = [line for line in lines if words and line.split()[1] == words[0]]
    if not own:
        return head + (f"there is no word '{words[0]}'\n" if words else "") + "".join(lines)
    forms = [form for form in forms_of(head + "".join(own)) if len(form) == len(words)]
    told = []
    # A last word that says no version that the word may have counts as the newest.
    for form in [form for form in forms if form[-1] == words[-1]] or forms[-1:]:
        version = version_of(form)
        told = [(part, word, RANGES[part](version)) for part, word in zip(form, words) if part in RANGES and not KINDS[part](word, version)]
        if form[-1] in VERSIONS and form[-1] != words[-1]:
            told.append(("the last word", words[-1], f"{', '.join(form[-1] for form in forms)}, or left out"))
    return head + "".join(f"{part} is '{word}', and has to be {range_}\n" for part, word, range_ in told) + "".join(own)
