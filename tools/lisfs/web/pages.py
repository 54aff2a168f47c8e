"""The pages: what each shows of an image. The templates make HTML of it; each page works without a script, and has only addresses of these pages."""
from collections.abc import Iterable, Sequence
from typing import NamedTuple

from lisfs import derived
from lisfs.client import Retagged
from lisfs.constants import MAX_FORMULA
from lisfs.formulas import words_in
from lisfs.index import File
from lisfs.listings import TITLES, by_rank, groups_of, within

from lisfs.web.contents import SHOWN, Mail, cut, mail_of, text_of
from lisfs.web.image import Image, View
from lisfs.web.markup import address, counted, number, rendered, visible
from lisfs.web.places import Place
from lisfs.words import head_of, is_head

# The most words of a group, files of a list and words of a list on a page.
SOME, FILES, WORDS = 15, 100, 200
# What the page after a change says.
DONE = {
    "given": "The file has the word now.", "had": "The file had this word already.", "taken": "The file has the word no more.",
    "still": "The file still has the word: it comes with another word that it has.", "renamed": "The file has another name now.",
    "removed": "The file is removed.", "added": "The file is in the image.", "declared": "The word is declared.",
    "undeclared": "The word is declared no more.", "axiom": "The axiom holds from now on.", "unaxiom": "The axiom holds no more.",
    "tagged": "The word was given to {}.", "untagged": "The word was taken from {}.", "unchanged": "No file was changed.",
    "undone": "The last change is undone.",
}


class Link(NamedTuple):
    """A page, and its fields."""
    page: str
    given: dict[str, bytes | None]


class Part(NamedTuple):
    """A part of a step: its text with and without `!`, and the places nearby. `parted` is the one with `and` instead of `or` before it."""
    whole: bytes
    text: bytes
    is_not: bool
    negated: bytes
    without: bytes
    parted: bytes | None


class Step(NamedTuple):
    """`joined` is the place with `or` before this step, if one is before it."""
    parts: list[Part]
    joined: bytes | None


class Word(NamedTuple):
    """A word with the place to which it leads, and how many files it leaves. `shown` is what is shown under its head."""
    text: bytes
    at: bytes
    files: int = 0
    shown: bytes = b""
    is_given: bool = False


class Card(NamedTuple):
    """A group of a listing, and how many words it has. `more` leads to all of them, if there are more than are shown."""
    title: str
    words: list[Word]
    total: int
    more: str | None


class Turns(NamedTuple):
    """The labels and addresses from page to page of a list, and the text between them. One that leads nowhere has no address."""
    before: list[tuple[str, str | None]]
    told: str
    behind: list[tuple[str, str | None]]


class Content(NamedTuple):
    """What is shown of a file's bytes: a mail, or a text, which is empty if there are no bytes, or neither."""
    mail: Mail | None
    text: str | None
    is_cut: bool = False
    most: int = SHOWN


def word_of(text: bytes, is_given: bool = False, count: int = 0) -> Word:
    return Word(text, b"/" + text, count, text, is_given)


def title_of(group: bytes) -> str:
    return TITLES.get(group) or visible(group)


def steps_of(place: Place) -> list[Step]:
    """The steps of a place, each with its possible changes."""
    def part(step: int, at: int, text: bytes) -> Part:
        is_not = text.startswith(b"!")
        return Part(text, text[1:] if is_not else text, is_not, place.negated(step, at), place.without(step, at),
                    place.parted(step, at - 1) if at else None)

    return [Step([part(step, at, text) for at, text in enumerate(parts)], place.joined(step - 1) if step else None)
            for step, parts in enumerate(place.steps)]


def entries(place: Place, group: bytes, words: Iterable[tuple[bytes, int]]) -> list[Word]:
    """The words of a group of a listing at a place."""
    return [Word(word, place.with_word(word), count, within(group, word)) for word, count in words]


def card(place: Place, group: bytes, words: list[tuple[bytes, int]], wanted: bytes) -> Card:
    more = address("words", at=place.text, group=group, q=wanted or None) if len(words) > SOME else None
    return Card(title_of(group), entries(place, group, words[:SOME]), len(words), more)


def turns(at: int, size: int, length: int, page: str, /, **given: bytes | None) -> Turns | None:
    """The links from page to page of a list, if it has more than one."""
    last = max(0, (length - 1) // size)
    if not last:
        return None

    def way(label: str, to: int) -> tuple[str, str | None]:
        return label, address(page, page=to + 1, **given) if 0 <= to <= last and to != at else None

    return Turns([way("first", 0), way("previous", at - 1)], f"page {number(at + 1)} of {number(last + 1)}",
                 [way("next", at + 1), way("last", last)])


def described(file: File) -> list[tuple[str, list[Word]]]:
    """All words of a file, those that it was given first."""
    heads = {head for word in file.words if (head := head_of(word)) is not None}
    others = by_rank(word for word in file.words - file.given if word not in heads)
    bare = by_rank(head for head in heads if head in file.words
                   and not any(word != head and head_of(word) == head for word in file.words))
    above = by_rank(heads & file.words - set(bare) - file.given)
    return [(told, [word_of(word, word in file.given) for word in words]) for told, words in (
        ("given", by_rank(file.given)), ("on its own, or by another word", others + bare), ("their heads", above)) if words]


def content_of(file: File, content: bytes, as_text: bool) -> Content:
    """What is shown of a file's bytes."""
    if file.name.endswith(b".eml") and not as_text and (mail := mail_of(content)):
        return Content(mail, None)
    text = text_of(content)
    if text is None and as_text:
        text = content.decode("utf-8", "replace")
    return Content(None, None) if text is None else Content(None, *cut(text))


class Pages:
    def __init__(self, image: Image, name: str, can_write: bool, token: str) -> None:
        self.image, self.name, self.can_write, self.token = image, name, can_write, token

    def whole(self, template: str, title: str | bytes, /, place: Place | None = None, typed: bytes | None = None, done: str | None = None,
              **given: object) -> str:
        """A page. `typed` is the text in the field for a formula, and `done` says that a change was done."""
        at = typed if typed is not None else place.text if place else b"/"
        last = self.image.last
        return rendered(template, title=title, site=self.name, at=at, done=done, can_write=self.can_write, token=self.token,
                        undo=last.told if last else None, place=place, steps=steps_of(place) if place else [], **given)

    def told(self, title: str, sentence: str, back: Link | None = None, meant: Iterable[bytes] = ()) -> str:
        """A page with one sentence, and what it is about."""
        return self.whole("told.html", title, sentence=sentence, meant=list(meant), is_back=back is not None,
                          back=address(back.page, **back.given) if back else address(""))

    def refused(self, made: Retagged, back: Link) -> str:
        """A page that says for which files a change was refused."""
        done = f"{counted(len(made.done), 'file')} changed. " if made.done else ""
        rows = [(change.name, self.image.sentence(refused, "mv")) for change, refused in made.refused]
        return self.whole("refused.html", "Refused", told=f"{done}Refused: {counted(len(rows), 'file')}.", rows=rows, back=address(back.page, **back.given))

    def missing(self, words: list[bytes]) -> str | None:
        """Says that a search by these words can miss a file, if it can."""
        files = self.image.index.files.values()
        return joined(derived.told_of_misses(words, ((file.name, file.words) for file in files)),
                      derived.told_of_left_out(filter(self.image.is_assignable, words), ((file.given, file.words) for file in files)))

    def wrong_place(self, typed: bytes, sentence: str, meant: Sequence[bytes]) -> str:
        """A page that says why a formula is refused, and links the formulas that may have been meant."""
        return self.whole("wrong_place.html", "No such place", typed=typed, sentence=sentence, meant=meant, missing=self.missing(words_in(typed)))

    # A place.

    def place(self, view: View, wanted: bytes = b"", done: str | None = None) -> str:
        groups = groups_of(view.words, wanted)
        count = sum(len(group) for _, group in groups)
        told = f"{number(count)} of {counted(len(view.words), 'word')}" if wanted else counted(count, "word")
        told += ", each with how many files it leaves." if count else " here."
        if view.words and not view.locals and not wanted:
            told += " Each file here has one of them."
        # Heads, and words that files have automatically, are not given.
        given = [word for word in view.place.words or () if not is_head(word)
                 and (head_of(word) is None or head_of(word) in self.image.declared)]
        return self.whole(
            "place.html", view.place.text, place=view.place, done=done, whole=view.here.bit_count(), missing=self.missing(words_in(view.place.text)),
            has_words=bool(view.words), wanted=wanted, told=told, cards=[card(view.place, group, words, wanted) for group, words in groups],
            locals=view.locals, most_files=FILES, given=b" ".join(given), file_bytes=self.image.limits.file_bytes)

    def listed(self, view: View, page: str, files: list[File], title: str, wanted: bytes, at: int) -> str:
        """A list of files, in pages."""
        found = [file for file in files if wanted.lower() in file.name.lower()]
        at = min(at, max(0, (len(found) - 1) // FILES))
        told = f"{number(len(found))} of {counted(len(files), 'file')}" if wanted else counted(len(files), "file")
        return self.whole("files.html", title, place=view.place, page=page, wanted=wanted, told=told, files=found[at * FILES:][:FILES],
                          missing=self.missing(words_in(view.place.text)), turns=turns(at, FILES, len(found), page, at=view.place.text, q=wanted or None))

    def files(self, view: View, wanted: bytes, at: int) -> str:
        return self.listed(view, "files", self.image.index.of(view.here), "All files of this place", wanted, at)

    def rest(self, view: View, wanted: bytes, at: int) -> str:
        return self.listed(view, "rest", view.locals, "Files that no word covers", wanted, at)

    def words(self, view: View, group: bytes, wanted: bytes, at: int) -> str:
        """A group of a listing, in pages."""
        words = dict(groups_of(view.words, wanted)).get(group, [])
        at = min(at, max(0, (len(words) - 1) // WORDS))
        return self.whole(
            "words.html", title_of(group), place=view.place, group=group, wanted=wanted, missing=self.missing(words_in(view.place.text)),
            told=f"{counted(len(words), 'word')}, the most frequent first", words=entries(view.place, group, words[at * WORDS:][:WORDS]),
            turns=turns(at, WORDS, len(words), "words", q=wanted or None, at=view.place.text, group=group))

    # A file.

    def file(self, file: File, way: list[bytes], content: bytes, place: Place, as_text: bool = False, done: str | None = None) -> str:
        return self.whole(
            "file.html", file.name, place=place, done=done, file=file, file_size=len(content), groups=described(file),
            route=[(word, b"/" + b"/".join(way[:step + 1])) for step, word in enumerate(way)],
            # How many words it would have, if the program keeps no more of them, or that it can have no more.
            cut=joined(derived.told_of_cut(file.name, content) if derived.is_full(file.words) else None,
                       derived.told_of_no_room(file.given, file.words)),
            content=content_of(file, content, as_text))

    def removing(self, file: File, place: Place) -> str:
        return self.whole("removing.html", "Remove a file?", place=place, file=file)

    def declared(self, wanted: bytes, at: int, done: str | None = None) -> str:
        """The declared words and the axioms, in pages."""
        image, small = self.image, wanted.lower()
        words = sorted(word for word in image.declared if small in word.lower())
        axioms = sorted(pair for pair in image.axioms if any(small in word.lower() for word in pair))
        last = max(len(words), len(axioms), 1)
        at = min(at, (last - 1) // WORDS)
        counts, limits = image.counts(), image.limits
        return self.whole(
            "declared.html", "Words and axioms", done=done, wanted=wanted,
            limits=", ".join(f"{number(counts[name])} of {number(most)} {what}" for name, most, what in (
                ("files", limits.files, "files"), ("known", limits.words, "known words"), ("axioms", limits.words, "axioms"),
                ("free", limits.blocks, "blocks free"))),
            told=f"{counted(len(words), 'declared word')}, {counted(len(axioms), 'axiom')}", has_words=bool(words), has_axioms=bool(axioms),
            words=[word_of(word, count=image.index.having(word).bit_count()) for word in words[at * WORDS:][:WORDS]],
            axioms=[(word_of(left), word_of(right)) for left, right in axioms[at * WORDS:][:WORDS]],
            turns=turns(at, WORDS, last, "declared", q=wanted or None))


def joined(*sentences: str | None) -> str | None:
    """Those of some sentences that exist, as one text without a full stop at its end."""
    return ". ".join(filter(None, sentences)) or None


def place_of(text: bytes) -> Place:
    """The place to go back to, which a form or an address names: the program's text of a place, or else the root."""
    return Place(text.removeprefix(b"/") or b"/" if len(text) <= MAX_FORMULA + 1 else b"/")
