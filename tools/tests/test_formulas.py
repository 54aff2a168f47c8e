"""`lisfs.formulas`: formulas as texts."""
import random

import pytest

from lisfs.formulas import formula, joined, replaced, without
from lisfs.index import Index


@pytest.mark.parametrize("typed, wanted", (
    (b"a b", b"a/b"), (b"a", None), (b"a / b", b"a/b"), (b"a | ! b", b"a|!b"), (b"( a b ) c", b"(a/b)/c"), (b"/a b", b"/a/b"), (b"/ a b", b"/a/b"),
    (b"a: b:c size>=7", b"a:/b:c/size>=7"), (b"a !(b|c) d", b"a/!(b|c)/d"), (b"a/ b", b"a/b"), (b"a //b", None), (b"( a", None), (b".. a", None),
    (b"a b/", None), (b"a, b", None), (b"", None)))
def test_words_with_blanks_between_them(typed, wanted):
    assert joined(typed.split()) == wanted


@pytest.mark.parametrize("text, word, wanted", (
    (b"a", b"a", b"x:y"), (b"/b|!(a/aa)", b"a", b"/b|!(x:y/aa)"), (b"a:/a:b", b"a:", b"x:y/a:b"), (b"size>=7/a|a", b"a", b"size>=7/x:y|x:y"), (b"b", b"a", b"b")))
def test_another_word(text, word, wanted):
    assert replaced(text, word, b"x:y") == wanted


@pytest.mark.parametrize("text, wanted", (
    (b"a", b"a"), (b"a|b/c", b"a|b/c"), (b"(a|b)/c", b"a|b/c"), (b"a|(b/c)", b"a|(b/c)"), (b"((a|b)|c)", b"a|b|c"), (b"a|(b|c)", b"a|(b|c)"),
    (b"(a/b)/(c/d)", b"a/b/(c/d)"), (b"!!(!a)", b"!!!a"), (b"!(a/b)|c", b"!(a/b)|c"), (b"size>=007/(size<3)", b"size>=7/size<3"), (b"!(a|b:)", b"!(a|b:)")))
def test_texts(text, wanted):
    """As few parentheses as possible."""
    assert formula(text).text == wanted


# No file has `x`, `y` or `z:1`.
@pytest.mark.parametrize("text, wanted", (
    (b"a|x", b"a"), (b"x|a", b"a"), (b"/a|x", b"/a"), (b"x|y|a", b"a"), (b"a|x/b", b"a/b"), (b"b/(a|z:1)", b"b/a"), (b"a|(x/b)", b"a"), (b"!(a|x)/b", b"!a/b"),
    (b"a|(b/c)|y", b"a|(b/c)"), (b"!((a/b)|x)", b"!(a/b)"), (b"(a/b)|x/c", b"a/b/c"), (b"c/((a/b)|x)", b"c/(a/b)"), (b"a|!(b|y)", b"a|!b"),
    # Nothing is left, or it would be all files.
    (b"x", None), (b"a/x", None), (b"x|y", None), (b"a/(x|y)", None), (b"a|!x", None), (b"!x", None), (b"a|x/!y", None), (b"a|!(x/b)", None),
    # Not a formula, or no such word.
    (b"a|x/", None), (b"..", None), (b"/", None), (b"", None)))
def test_words_that_no_file_has(text, wanted):
    instead = without(text, (b"x", b"y", b"z:1"))
    assert (instead and instead.formula) == wanted and (instead is None or instead.unused == (b"x", b"y", b"z:1"))


def test_no_words_to_leave_out():
    assert without(b"a|b", ()) is None


def random_formula(chance, depth):
    kind = chance.choice("wwnoa") if depth else "w"
    if kind == "w":
        return chance.choice((b"a", b"b", b"c", b"x", b"y"))
    left, right = random_formula(chance, depth - 1), random_formula(chance, depth - 1)
    return b"!(%b)" % left if kind == "n" else b"(%b)%b(%b)" % (left, b"|" if kind == "o" else b"/", right)


def test_random_formulas():
    """A text is parsed as what it was written from, and a formula without words that no file has finds the same files and has none of these words."""
    chance, index, count = random.Random(3), Index(), 0
    for number in range(8):
        index.describe(index.add(b"%d" % number, 0, ()), frozenset(word for bit, word in enumerate((b"a", b"b", b"c")) if number >> bit & 1))
    for _ in range(2_000):
        text = random_formula(chance, 4)
        read = formula(text)
        assert formula(read.text).row(index) == read.row(index) and formula(read.text).text == read.text and len(read.text) <= len(text)
        if (instead := without(text, (b"x", b"y"))) is not None:
            left = formula(instead.formula)
            assert left.row(index) == read.row(index) and not {b"x", b"y"} & {*left.words} and len(instead.formula) <= len(read.text), text
            count += {b"x", b"y"} & {*read.words} != set()
    assert count > 100, "many had such words"
