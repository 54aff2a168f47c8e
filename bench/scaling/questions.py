"""What the systems are asked about a collection, and what they change, with the right answers by its facts."""
import collections
from collections.abc import Callable, Iterable, Iterator, Sequence
from typing import NamedTuple

from lisfs.words import head_of, is_head
from scaling.facts import Fact
from scaling.systems import MEANT, TAG, Counts, Names, Place, System, Term

# How many files are tagged at once, and the most months or folders that are named to find them.
TAGGED, MOST_NAMED = 1_000, 25
# The part of the files that are smaller than those of the question about sizes.
SMALLER = 9 / 10

Answer = Names | Counts | None


class Heads(NamedTuple):
    """The heads of words in questions, each with what a reader calls such a word: two by which files are found, one that groups them, one whose words
    cross these groups, and those of which three words of a file are named."""

    one: tuple[bytes, str]
    other: tuple[bytes, str]
    group: tuple[bytes, str]
    word: tuple[bytes, str]
    three: tuple[tuple[bytes, ...], str]


HEADS = {
    "mails": Heads((b"from:", "a sender"), (b"date:", "a month"), (b"list:", "a list"), (b"about:", "a word of its subjects"),
                   ((b"about:",), "three words of a subject")),
    "sources": Heads((b"includes:", "a header"), (b"in:", "a folder"), (b"in:", "a folder"), (b"includes:", "a header"), ((b"includes:",), "three headers")),
    "songs": Heads((b"artist:", "an artist"), (b"year:", "a year"), (b"genre:", "a genre"), (b"artist:", "an artist"),
                   ((b"artist:", b"genre:", b"year:"), "an artist, a genre and a year")),
    "made": Heads((b"defines:", "a word"), (b"in:", "a folder"), (b"in:", "a folder"), (b"defines:", "a word"), ((b"defines:",), "three words")),
}


class Question(NamedTuple):
    """`ask` returns what a system answers, or None if it can't, and `right` is the answer."""

    label: str
    ask: Callable[[System], Answer]
    right: Answer


class Change(NamedTuple):
    """`make` and `undo` return whether a system can. Files with the word that `look` finds are `right` between them, and none before and after."""

    label: str
    undo_label: str
    make: Callable[[System], bool]
    undo: Callable[[System], bool]
    look: Place
    right: Names


def questions_of(name: str, facts: Sequence[Fact]) -> Iterator[Question]:
    """The questions about the collection of this name."""
    heads, by_word = HEADS[name], files_by_word(facts)
    one, other, group = (most_frequent(by_word, head, len(facts)) for head, _ in heads[:3])
    inside = [fact for fact in facts if group in fact.words]
    beside = most_frequent(files_by_word(inside), heads.word[0], len(inside))
    yield finding(heads.one[1], facts, [Term((one,))])
    yield finding(heads.other[1], facts, [Term((other,))])
    yield finding(f"{heads.group[1]} without {heads.word[1]}", facts, [Term((group,)), Term((beside,), is_not=True)])
    yield finding(heads.three[1], facts, [Term((word,)) for word in three_words(facts, by_word, heads.three[0])])
    sizes = sorted(fact.size for fact in facts)
    least = sizes[int(SMALLER * len(sizes))]
    yield finding(f"{least:,} bytes and more", facts, [Term(least=least)])
    yield refining("the whole", facts, [])
    yield refining(heads.other[1], facts, [Term((other,))])
    yield refining(heads.one[1], facts, [Term((one,))])
    file = max(facts, key=lambda fact: (len(fact.words), fact.name))
    yield Question("all words of a file", lambda system: system.words(file.name), set(file.words))
    head = heads.other[0]
    counted = {word: len(files) for word, files in by_word.items() if word.startswith(head) and word != head}
    yield Question(f"how many files: {heads.other[1]}, each", lambda system: system.counts(head), counted)


def changes_of(name: str, facts: Sequence[Fact]) -> Iterator[Change]:
    """The changes of the collection of this name."""
    heads, by_word = HEADS[name], files_by_word(facts)
    place, names = many(by_word, heads.other[0])
    in_order = sorted(names)
    yield Change(f"tag {len(names):,} files of a question", "take the tag back", lambda system: system.tag(place, in_order),
                 lambda system: system.untag(in_order), [Term((TAG,))], names)
    one = most_frequent(by_word, heads.one[0], len(facts))
    yield Change(f"{heads.one[1]} means a word", "it no longer does", lambda system: system.mean(one), lambda system: system.unmean(one), [Term((MEANT,))],
                 set(by_word[one]))


def asked_word(name: str, facts: Sequence[Fact]) -> bytes:
    """The word of the first question."""
    return most_frequent(files_by_word(facts), HEADS[name].one[0], len(facts))


def finding(what: str, facts: Iterable[Fact], place: Place) -> Question:
    right = {fact.name for fact in facts if all(term.holds(fact) for term in place)}
    return Question(f"find {what}", lambda system: system.find(place), right)


def refining(what: str, facts: Iterable[Fact], place: Place) -> Question:
    """What refines a place: the words that some of its files have and not all, except values whose head is one of these words."""
    here = [fact for fact in facts if all(term.holds(fact) for term in place)]
    counts = collections.Counter(word for fact in here for word in fact.words)
    some = {word: count for word, count in counts.items() if count < len(here)}
    right = {word: count for word, count in some.items() if is_head(word) or head_of(word) not in some}
    return Question(f"refine {what}, with counts", lambda system: system.refine(place), right)


def files_by_word(facts: Iterable[Fact]) -> dict[bytes, list[bytes]]:
    found = collections.defaultdict(list)
    for fact in facts:
        for word in fact.words:
            found[word].append(fact.name)
    return found


def most_frequent(by_word: dict[bytes, list[bytes]], head: bytes, files: int) -> bytes:
    """The value of a head that the most files have. One that all of these files have is taken only if there is no other."""
    values = [word for word in by_word if word.startswith(head) and word != head]
    return max(values, key=lambda word: (len(by_word[word]) < files, len(by_word[word]), word))


def three_words(facts: Iterable[Fact], by_word: dict[bytes, list[bytes]], heads: Sequence[bytes]) -> list[bytes]:
    """Three words of these heads that a file has, which as many files as possible have each."""
    def best(fact: Fact) -> list[bytes]:
        words = [word for word in fact.words if word.startswith(tuple(heads)) and word not in heads]
        return sorted(words, key=lambda word: (-len(by_word[word]), word))[:3]

    return max((best(fact) for fact in facts), key=lambda words: (len(words), sum(len(by_word[word]) for word in words), words))


def many(by_word: dict[bytes, list[bytes]], head: bytes) -> tuple[Place, Names]:
    """A place of some values of a head, the most frequent first, and its files: no more than are tagged at once."""
    words: list[bytes] = []
    names: Names = set()
    for word in sorted((word for word in by_word if word.startswith(head) and word != head), key=lambda word: (-len(by_word[word]), word)):
        if len(words) < MOST_NAMED and len(names | set(by_word[word])) <= TAGGED:
            words.append(word)
            names |= set(by_word[word])
    return [Term(tuple(words))], names
