"""Shows names, words and contents so that they do nothing to a terminal. All text that does not come from a tool itself is shown this way."""
import itertools
import re
from typing import TextIO

# The characters that every terminal shows as they are.
PLAIN = re.compile(r"[^ -~]")
# The code points of bytes that are not UTF-8, as Python reads a path or a name.
BYTES = 0xdc00


def harmless(data: bytes | str, kept: str = "") -> str:
    """Bytes, or a text, as characters that do nothing to a terminal. A control is shown as `^X` or `\\xNN`, a byte that is no UTF-8 as `\\xNN`, and
    any other invisible character, for example one that changes the direction of writing, as `\\xNN`, `\\uNNNN` or `\\UNNNNNNNN`. The characters
    `kept` stay as they are: a line feed and a tab if a content is shown, and none if a line must stay one line."""
    def shown(found: re.Match[str]) -> str:
        character = found[0]
        if character in kept or character.isprintable():
            return character
        number = ord(character)
        if number < 32 or number == 127:
            return "^" + chr(number ^ 64)
        if BYTES + 128 <= number < BYTES + 256:
            number -= BYTES
        return f"\\x{number:02x}" if number < 256 else f"\\u{number:04x}" if number < 65_536 else f"\\U{number:08x}"

    return PLAIN.sub(shown, data if isinstance(data, str) else data.decode("utf-8", "surrogateescape"))


def columns_of(text: str) -> int:
    """How many columns of a terminal a text takes that `harmless` has made."""
    return len(text) if text.isascii() else sum(map(width_of, text))


def width_of(letter: str) -> int:
    """The same for a letter: two if it is wide, and none if it is a mark over the letter before."""
    # Most texts need no table of letters.
    import unicodedata
    return 0 if unicodedata.combining(letter) else 2 if unicodedata.east_asian_width(letter) in "WF" else 1


def cut_to(text: str, columns: int) -> str:
    """A text, cut to a number of columns if it takes more; two full stops are its end then."""
    if columns_of(text) <= columns:
        return text
    end = ".."[:max(columns, 0)]
    room = columns - len(end)
    return text[:next(at for at, width in enumerate(itertools.accumulate(map(width_of, text))) if width > room)] + end


def write_line(stream: TextIO, data: bytes | str, kept: str = "") -> None:
    """Writes bytes, or a text, as a line of a text stream. Characters that the stream's encoding lacks are shown as escapes too."""
    encoding = stream.encoding or "utf-8"
    stream.write(harmless(data, kept).encode(encoding, "backslashreplace").decode(encoding) + "\n")
