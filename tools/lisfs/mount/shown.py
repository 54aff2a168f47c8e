"""What a folder shows, so that a program that walks all folders ends.

A listing of the program has each word that narrows a place, so that the same files appear again for each order of their words. Here a folder shows
all of these only near its beginning: the mounted folder, `:by`, or a formula that no listing shows, such as `!live`. Below, it shows the words that
entail its last one, as the values of a head, and each file that these don't cover. What a listing leaves out opens by its name.
"""
from __future__ import annotations

from lisfs.formulas import Word
from lisfs.mount.image import Image, Listing
from lisfs.mount.nodes import Folder, Shows
from lisfs.words import head_of, is_head

# The most files of a small image, without and with derived words: files have more words with these.
SMALL = {Shows.GIVEN: 250, Shows.DERIVED: 50}
# How many independent words a path through listings can combine from its beginning, in a small image and in any other.
TOGETHER, TOGETHER_IF_LARGE = 2, 1


def shown(image: Image, folder: Folder) -> Listing:
    """The words and the files that a folder shows. If the image is not small, the values of a head are shown only in the folder of the head."""
    with_derived, is_small = folder.shows is Shows.DERIVED, len(image.files) <= SMALL[folder.shows]
    words = words_since_beginning(image, folder)
    is_near = together(image, words) < (TOGETHER if is_small else TOGETHER_IF_LARGE)
    if words and (is_head(words[-1]) or not is_near):
        return image.below(folder.place, words[-1], with_derived)
    listing = image.listing(folder.place, with_derived)
    return listing if is_small else Listing(sorted({head_of(word) or word for word in listing.words}), listing.files)


def words_since_beginning(image: Image, folder: Folder) -> list[bytes]:
    """The words of the path to a folder from its beginning on, which follows the last name that no listing shows."""
    words: list[bytes] = []
    for name, step in list(zip(folder.place.names, folder.place.steps))[folder.begin:]:
        if isinstance(step, Word):
            words.append(step.word)
        elif name in image.declared:
            words.append(name)
        else:
            words.clear()
    return words


def together(image: Image, words: list[bytes]) -> int:
    """How many independent words a path combines: a word that entails the word before it counts once with it."""
    return sum(not before or before not in image.entailed([word]) for before, word in zip([b"", *words], words))
