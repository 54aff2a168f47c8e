"""What `view` shows of a content, and what `put` makes of an edited view, computed with lists and independently of the program.

It knows the refusals 5 and 7 of a formula, and 26 and 27 of an edited view: those that need no image.
"""
import re

PLAIN = rb"[A-Za-z0-9_.+@-]"
TEST = re.compile(rb"size(>=|<)([0-9]{1,12})(?![0-9])")
WORD = re.compile(rb"(?!\.)(?:%b+:%b*|%b+)" % (PLAIN, PLAIN, PLAIN))
MARK = re.compile(rb"@[1-9][0-9]* [1-9][0-9]*")
BAD_FORMULA, LARGE_FORMULA, NOT_A_VIEW, MARKS = b"no 05 formula\n", b"no 07 formula too large\n", b"no 26 not a view\n", b"no 27 marks\n"


class Refused(Exception):
    """A refusal; its argument is the line."""


def lines_of(content):
    """The texts of a content, and whether the last one has no line feed."""
    texts = content.split(b"\n")
    return (texts, True) if texts[-1] else (texts[:-1], False)


def words_of(text):
    """The words that a text has."""
    words = {b"line:", b"line:text" if text.strip(b" \t\r") else b"line:empty"}
    if text.lstrip(b" \t\r").startswith(b"#"):
        words.add(b"line:directive")
    runs = [run for run in re.findall(PLAIN + b"+", text) if len(run) <= 55]
    return words.union([b"word:"] if runs else [], (b"word:" + run for run in runs))


class Reader:
    """Parses a formula: nodes are a word or a test in bytes, or a sign and its one or two operands."""

    def __init__(self, text):
        self.text, self.at = text, 0

    def takes(self, sign):
        is_there = self.text.startswith(sign, self.at)
        self.at += len(sign) if is_there else 0
        return is_there

    def row(self, sign, part):
        parts = [part()]
        while self.takes(sign):
            parts.append(part())
        return parts

    def path(self):
        return self.row(b"/", self.alternative)

    def alternative(self):
        first, *others = self.row(b"|", self.operand)
        for other in others:
            first = (b"|", first, other)
        return first

    def operand(self):
        nots = 0
        while self.takes(b"!"):
            nots += 1
        node = self.closed() if self.takes(b"(") else self.word()
        for _ in range(nots):
            node = (b"!", node)
        return node

    def closed(self):
        first, *others = self.path()
        if not self.takes(b")"):
            raise Refused(BAD_FORMULA)
        for other in others:
            first = (b"/", first, other)
        return first

    def word(self):
        found = TEST.match(self.text, self.at) or WORD.match(self.text, self.at)
        if not found or found.re == WORD and len(found[0]) > 60:
            raise Refused(BAD_FORMULA)
        self.at = found.end()
        return found[0] if found.re == WORD else b"size%b%d" % (found[1], int(found[2]))


def steps_of(text):
    """The steps of a formula."""
    if len(text) > 1024:
        raise Refused(LARGE_FORMULA)
    reader = Reader(text)
    is_rooted = reader.takes(b"/")
    steps = [] if is_rooted and len(text) == 1 else reader.path()
    if reader.at < len(text):
        raise Refused(BAD_FORMULA)
    sizes = [size_of(step) for step in steps]
    if sum(nodes + 1 for nodes, _ in sizes) > 65 or sum(length + 1 for _, length in sizes) > 1025:
        raise Refused(LARGE_FORMULA)
    return steps


def size_of(node):
    """How many nodes it has, and how many bytes its printed form."""
    if isinstance(node, bytes):
        return 1, len(node)
    sizes = [size_of(operand) for operand in node[1:]]
    return 1 + sum(nodes for nodes, _ in sizes), (1 if node[0] == b"!" else 3) + sum(length for _, length in sizes)


def holds(node, words, size):
    if isinstance(node, bytes):
        test = TEST.fullmatch(node)
        if test:
            return (size >= int(test[2])) == (test[1] == b">=")
        return node in words
    truths = [holds(operand, words, size) for operand in node[1:]]
    return not truths[0] if node[0] == b"!" else any(truths) if node[0] == b"|" else all(truths)


def pieces_of(content, formula):
    """Each shown text as one item, and each run of hidden ones as a list, and whether the last text has no line feed."""
    steps, pieces = steps_of(formula), []
    texts, is_open = lines_of(content)
    for text in texts:
        words = words_of(text)
        if all(holds(step, words, len(text)) for step in steps):
            pieces.append(text)
        elif pieces and isinstance(pieces[-1], list):
            pieces[-1].append(text)
        else:
            pieces.append([text])
    return pieces, is_open


def marks_of(pieces):
    runs = [piece for piece in pieces if isinstance(piece, list)]
    return {b"@%d %d" % (number, len(run)): run for number, run in enumerate(runs, 1)}


def view_of(content, formula):
    pieces, is_open = pieces_of(content, formula)
    marks = iter(marks_of(pieces))
    lines = [next(marks) if isinstance(piece, list) else b"+" + piece for piece in pieces] + [b"!"] * is_open
    return b"".join(line + b"\n" for line in lines)


def edited(content, formula, view):
    """The content that an edited view of the old content makes."""
    marks = marks_of(pieces_of(content, formula)[0])
    lines, _ = lines_of(view)
    is_open = lines[-1:] == [b"!"]
    lines = lines[:-1] if is_open else lines
    texts = []
    for line in lines:
        if not line.startswith(b"+") and not MARK.fullmatch(line):
            raise Refused(NOT_A_VIEW)
        texts += [line[1:]] if line.startswith(b"+") else marks.get(line, [b"?"])
    if is_open and not (texts and texts[-1]):
        raise Refused(NOT_A_VIEW)
    if [line for line in lines if not line.startswith(b"+")] != list(marks):
        raise Refused(MARKS)
    return b"\n".join(texts) + (b"" if is_open or not texts else b"\n")
