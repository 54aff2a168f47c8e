"""`lisfs.showing`: what is harmless to a terminal."""
import io
import os

import pytest

from lisfs.showing import columns_of, cut_to, harmless, write_line

LETTER = "\N{GREEK SMALL LETTER PI}"
# Bytes, and how they are shown.
SHOWN = ((b"", ""), (b"plain ~", "plain ~"), (b"\0\x1b[0m\r\x7f", "^@^[[0m^M^?"), (b"\x1b]0;title\x07", "^[]0;title^G"), (b"\n\t", "^J^I"),
         (b"\xff\xc3", "\\xff\\xc3"), (b"\xc2\x9b2J", "\\x9b2J"), (b"\x9b2J", "\\x9b2J"), (b"\xc2\xa0", "\\xa0"), (b"\xe2\x80\xaex", "\\u202ex"),
         (f"{LETTER}\U000e0001".encode(), f"{LETTER}\\U000e0001"), (b"\xed\xa0\x80", "\\xed\\xa0\\x80"), (b"\xed\xb2\x9b", "\\xed\\xb2\\x9b"))


@pytest.mark.parametrize("data, wanted", SHOWN)
def test_bytes(data, wanted):
    assert harmless(data) == wanted


@pytest.mark.parametrize("data, wanted", SHOWN)
def test_a_name(data, wanted):
    assert harmless(os.fsdecode(data)) == wanted


def test_a_text_that_no_bytes_stand_for():
    assert harmless("\ud800\udc41") == "\\ud800\\udc41"


def test_what_is_kept():
    assert harmless(b"a\n\tb\r\x1b", "\n\t") == "a\n\tb^M^["


def test_no_byte_is_a_control():
    assert [byte for byte in range(256) if not harmless(bytes([byte])).isprintable()] == []


def test_no_character_is_a_control():
    assert harmless("".join(map(chr, range(0x110000)))).isprintable()


def test_large_contents():
    data = bytes(range(256)) * 40
    assert harmless(data) == "".join(harmless(bytes([byte])) for byte in data)


@pytest.mark.parametrize("encoding, wanted", (("utf-8", f"a^J\\xff{LETTER}\\u202e\n"), ("ascii", "a^J\\xff\\u03c0\\u202e\n"),
                                              ("latin-1", "a^J\\xff\\u03c0\\u202e\n")))
def test_lines_in_an_encoding(encoding, wanted):
    stream = io.TextIOWrapper(io.BytesIO(), encoding=encoding, newline="")
    for data in (f"a\n\udcff{LETTER}\u202e", b"a\n\xff" + LETTER.encode() + b"\xe2\x80\xae"):
        write_line(stream, data)
    stream.flush()
    assert stream.buffer.getvalue().decode(encoding) == 2 * wanted


def test_a_line_of_which_something_is_kept():
    stream = io.StringIO()
    write_line(stream, b"a\n\x1b", "\n")
    assert stream.getvalue() == "a\n^[\n"


WIDE, MARKED = "\N{CJK UNIFIED IDEOGRAPH-6F22}", "e\N{COMBINING ACUTE ACCENT}"


def test_columns():
    assert [columns_of(text) for text in ("", "plain", WIDE * 3, MARKED * 3, LETTER)] == [0, 5, 6, 3, 1]


@pytest.mark.parametrize("text, columns, wanted", (
    ("plain", 5, "plain"), ("plain", 4, "pl.."), ("plain", 2, ".."), ("plain", 1, "."), ("plain", 0, ""), ("plain", -1, ""), (WIDE * 3, 6, WIDE * 3),
    (WIDE * 3, 5, WIDE + ".."), (WIDE * 3, 4, WIDE + ".."), (WIDE * 3, 3, ".."), (MARKED * 5, 5, MARKED * 5), (MARKED * 5, 4, MARKED * 2 + "..")))
def test_cut(text, columns, wanted):
    assert cut_to(text, columns) == wanted
