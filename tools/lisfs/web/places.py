"""A place as a page shows it: its steps, and for each the parts that `|` joins, so that each can be taken out, negated and joined separately.

It is made from the program's text of a place (`pwd`), so a step with `|` is in parentheses and `!` binds one part. The program decides what the texts
that are made here mean.
"""
from lisfs.formulas import formula
from lisfs.index import File, Index
from lisfs.words import WORD


def split(text: bytes, mark: bytes) -> list[bytes]:
    """The pieces between the marks that are not in parentheses."""
    pieces, depth, begin = [], 0, 0
    for at in range(len(text)):
        byte = text[at:at + 1]
        depth += (byte == b"(") - (byte == b")")
        if byte == mark and not depth:
            pieces.append(text[begin:at])
            begin = at + 1
    return pieces + [text[begin:]]


def is_enclosed(text: bytes) -> bool:
    """Whether one pair of parentheses encloses all of it."""
    depth = 0
    for at in range(len(text)):
        depth += (text[at:at + 1] == b"(") - (text[at:at + 1] == b")")
        if not depth:
            return text[:1] == b"(" and at == len(text) - 1
    return False


def alternatives(step: bytes) -> list[bytes]:
    """The parts that `|` joins, in order: `((a|b)|c)` has three."""
    parts = split(step[1:-1], b"|") if is_enclosed(step) else [step]
    if len(parts) == 1:
        return [step]
    return [alternative for part in parts for alternative in alternatives(part)]


def negation(part: bytes) -> bytes:
    return part[1:] if part.startswith(b"!") else b"!" + part


class Place:
    def __init__(self, printed: bytes) -> None:
        self.steps: list[list[bytes]] = [] if printed == b"/" else [alternatives(step) for step in split(printed, b"/")]
        self.text = text_of(self.steps)
        # The words of a place that has only words, and else None.
        simple = [step[0] for step in self.steps if len(step) == 1 and WORD.fullmatch(step[0])]
        self.words: tuple[bytes, ...] | None = tuple(dict.fromkeys(simple)) if len(simple) == len(self.steps) else None

    # The texts of places nearby. `step` and `part` are numbers.

    def with_word(self, word: bytes) -> bytes:
        return text_of(self.steps + [[word]])

    def without(self, step: int, part: int) -> bytes:
        left = self.steps[step][:part] + self.steps[step][part + 1:]
        return text_of(self.steps[:step] + ([left] if left else []) + self.steps[step + 1:])

    def negated(self, step: int, part: int) -> bytes:
        parts = list(self.steps[step])
        parts[part] = negation(parts[part])
        return text_of(self.steps[:step] + [parts] + self.steps[step + 1:])

    def joined(self, step: int) -> bytes:
        """With `or` between a step and the next one."""
        return text_of(self.steps[:step] + [self.steps[step] + self.steps[step + 1]] + self.steps[step + 2:])

    def parted(self, step: int, part: int) -> bytes:
        """With `and` between a part and the next one."""
        parts = self.steps[step]
        return text_of(self.steps[:step] + [parts[:part + 1], parts[part + 1:]] + self.steps[step + 1:])

    def files(self, index: Index[File]) -> int:
        """The files of the place, as a row of bits. Raises `NotAFormula` if the text is none that the program prints."""
        found = index.everything
        for step in self.steps:
            row = 0
            for part in step:
                row |= formula(part).row(index)
            found &= row
        return found


def text_of(steps: list[list[bytes]]) -> bytes:
    """The formula of some steps, from the root on."""
    return b"/" + b"/".join(b"(" + b"|".join(step) + b")" if len(step) > 1 else step[0] for step in steps)
