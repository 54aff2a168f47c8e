"""Limits, built-in heads and refusals of the program. `tools/make-constants` copies them from its sources: change those, and run it again."""

# The most files of an image of version 1 or 2.
MAX_FILES = 4_096
# The most words of an image of version 1 or 2.
MAX_PROPS = 8_192
# The most data blocks of an image of version 1 or 2.
MAX_BLOCKS = 32_768
# The most bytes of a file in version 1.
MAX_FILE = 65_536
# The most bytes of a file in version 2.
MAX_LARGE_FILE = 1_048_576
# The most files in version 3.
V3_MAX_FILES = 262_144
# The most words in version 3.
V3_MAX_PROPS = 1_048_576
# The most data blocks in version 3.
V3_MAX_BLOCKS = 16_777_216
# The most bytes of a file in version 3, if the data blocks have room for them.
V3_MAX_FILE = 67_108_864
# Bytes of a block.
BLOCK_LEN = 4_096
# The most blocks of a content whose numbers are in the slot of its file. A larger one has index blocks.
SLOT_BLOCKS = 16
# The most numbers that an index block has. If each has four bytes, they fill it.
NUMBERS_PER_INDEX = 1_024
# A file that has bytes, and fewer than this, is small.
SMALL_FILE = 1_024
# A file that is not small, and has fewer bytes than this, is a medium one.
MEDIUM_FILE = 16_384
# The most bytes of a word, and of the name of a file.
MAX_WORD = 60
# The most words that a file is given.
MAX_ASSIGNED = 16
# The most words that are derived from one file.
MAX_DERIVED = 48
# The most words that a file has: its own, those derived from it and the tests that it meets, and all that these entail.
MAX_DESCRIPTION = 128
# The most nodes of a working directory.
MAX_NODES = 64
# The most bytes of a working directory, as it is printed.
MAX_FORMULA = 1_024
# The most bytes of a line, without its line feed.
MAX_LINE = 1_024
# The most bytes of an edited view.
MAX_VIEW = 8_388_608
# Bits of a block.
BLOCK_BITS = 32_768
# Blocks that hold the journal's records in versions 1 and 2.
RECORD_BLOCKS = 576
# Blocks that hold the journal's records in version 3, besides one for each block of sets.
V3_RECORD_BLOCKS = 1_088
# How many words have their slots in one block.
PROPERTIES_PER_BLOCK = 64
# How many axioms have their slots in one block.
AXIOMS_PER_BLOCK = 512
# How many files have their slots in one block.
FILES_PER_BLOCK = 16
# How many files have their sets in one block, in version 3.
SETS_PER_BLOCK = 8
# The most digits of a count.
MAX_DIGITS = 12
# How many rooms there are.
ROOMS = 8
# The heads of words that files have by their name, their size and their bytes.
BUILT_IN_HEADS = (b"ext:", b"size:", b"from:", b"to:", b"subject:", b"includes:", b"defines:")

# The numbers of refusals, and the words that the program shows with them.
BAD_LINE = 1
LONG_LINE = 2
CUT_PAYLOAD = 3
PAYLOAD_END = 4
BAD_FORMULA = 5
UNKNOWN_PROPERTY = 6
LARGE_FORMULA = 7
NOT_A_PLACE = 8
NAME_TAKEN = 9
NO_FILE_HERE = 10
ALREADY_DECLARED = 11
NOT_DECLARED = 12
IN_USE = 13
NOT_ASSIGNABLE = 14
CYCLE = 15
AXIOM_THERE = 16
NO_AXIOM = 17
TOO_MANY_ASSIGNED = 18
LARGE_DESCRIPTION = 19
LARGE_FILE = 20
NO_FILE_ROOM = 21
NO_PROPERTY_ROOM = 22
NO_AXIOM_ROOM = 23
NO_SPACE = 24
BUILT_IN = 25
NOT_IN_FORM = 26
OTHER_MARKS = 27
REFUSAL_WORDS = {
    BAD_LINE: "bad line",
    LONG_LINE: "long line",
    CUT_PAYLOAD: "cut payload",
    PAYLOAD_END: "payload end",
    BAD_FORMULA: "formula",
    UNKNOWN_PROPERTY: "unknown property",
    LARGE_FORMULA: "formula too large",
    NOT_A_PLACE: "not a place",
    NAME_TAKEN: "name taken",
    NO_FILE_HERE: "no such file here",
    ALREADY_DECLARED: "already declared",
    NOT_DECLARED: "not declared",
    IN_USE: "in use",
    NOT_ASSIGNABLE: "not assignable",
    CYCLE: "cycle",
    AXIOM_THERE: "axiom there",
    NO_AXIOM: "no such axiom",
    TOO_MANY_ASSIGNED: "too many assigned",
    LARGE_DESCRIPTION: "description too large",
    LARGE_FILE: "file too large",
    NO_FILE_ROOM: "no file room",
    NO_PROPERTY_ROOM: "no property room",
    NO_AXIOM_ROOM: "no axiom room",
    NO_SPACE: "no space",
    BUILT_IN: "built-in attribute",
    NOT_IN_FORM: "not a view",
    OTHER_MARKS: "marks",
}
