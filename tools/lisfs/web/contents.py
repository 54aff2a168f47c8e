"""Which of a file's bytes a page shows: a mail by its header and its text parts, a text as it is, and nothing of what is not text.

Whatever the bytes are, it takes linear time, and a fraction of a second, since other pages wait meanwhile; and it returns only text.
"""
import email.errors
import email.header
import email.message
import email.parser
import re
from typing import NamedTuple

# The most characters of a text and of a header that are shown, the most headers, and the most parts of a mail.
SHOWN, HEADER, MOST_HEADERS, PARTS = 262_144, 1_000, 20, 64
HEADERS = ("From", "To", "Cc", "Date", "Subject")
# Limits of a mail; beyond one, it is shown as a text: the depth of nested parts, the lines that may begin a part, the lines, counted once or for each
# part that may contain them, and the length of a header with parameters, and of all these headers.
NESTED, BOUNDARIES, LINES, LINES_OF_PARTS, PARAMETERS, ALL_PARAMETERS = 16, 1_000, 25_000, 100_000, 2_048, 24_576
PARAMETER_LINES = re.compile(rb"\ncontent-(?:type|disposition):[^\n]*(?:\n[ \t][^\n]*)*")
# In a text at most one character in this many is not text.
RARE = 10
NO_TEXT = bytes((*range(9), *range(14, 27), *range(28, 32), 127))
# Character sets that are decoded. Others are taken for UTF-8.
CHARSET = re.compile(r"(utf-?8|us-ascii|ascii|iso-?8859-?[0-9]{1,2}|windows-125[0-9]|cp125[0-9]|koi8-[ru]|big5|gb2312|gbk|gb18030|shift_jis"
                     r"|euc-(jp|kr)|iso-2022-jp)", re.I)


class Part(NamedTuple):
    """A part of a mail: its type, the name of a file that it may be, its text, how many bytes it has, and whether its text was cut."""
    kind: str
    name: str | None
    text: str | None
    size: int
    is_cut: bool


class Mail(NamedTuple):
    headers: list[tuple[str, str]]
    parts: list[Part]


def text_of(content: bytes) -> str | None:
    """The text of some bytes, or None if they are not text. A text has no NUL."""
    if b"\0" in content:
        return None
    text = content.decode("utf-8", "replace")
    wrong = len(content) - len(content.translate(None, NO_TEXT)) + text.count("\ufffd")
    return text if RARE * wrong <= len(text) else None


def cut(text: str, most: int = SHOWN) -> tuple[str, bool]:
    """The part of a text that is shown, and whether that is not all."""
    return text[:most].replace("\r\n", "\n"), len(text) > most


def decoded(data: bytes, charset: str | None) -> str:
    known = charset if charset and CHARSET.fullmatch(charset) else "utf-8"
    try:
        return data.decode(known, "replace")
    except (LookupError, UnicodeError):
        return data.decode("utf-8", "replace")


def header_text(value: str) -> str:
    """A decoded header, in one line."""
    line = " ".join(value[:HEADER].encode("utf-8", "surrogateescape").decode("utf-8", "replace").split())
    if "=?" not in line:
        return line
    try:
        pieces = email.header.decode_header(line)
    except email.errors.MessageError:
        return line
    return "".join(piece if isinstance(piece, str) else decoded(piece, charset) for piece, charset in pieces)


def part_of(part: email.message.Message, most: int) -> Part:
    kind, name = part.get_content_type(), part.get_filename()
    data = part.get_payload(decode=True) or b""
    is_text = part.get_content_maintype() == "text" and not name
    text, is_cut = cut(decoded(data, part.get_content_charset()), most) if is_text else (None, False)
    return Part(kind, header_text(name) if name else None, text, len(data), is_cut)


class Message(email.message.Message):
    """A message that treats a delivery report as text: the package would make a message of each of its paragraphs."""

    def get_content_type(self) -> str:
        kind = super().get_content_type()
        return "text/plain" if kind == "message/delivery-status" else kind


def is_simple(content: bytes) -> bool:
    """Whether the package parses a mail in a bounded time: it makes an object of each part, reads each line once for each part that contains it, and
    reads the header of a part in quadratic time of its parameters."""
    small = b"\n" + content.lower().replace(b"\r\n", b"\n").replace(b"\r", b"\n")
    nested, lines = small.count(b"multipart/") + small.count(b"message/"), small.count(b"\n")
    if nested > NESTED or small.count(b"\n--") > BOUNDARIES or lines > LINES or lines * (1 + nested) > LINES_OF_PARTS:
        return False
    sizes = [len(found[0]) for found in PARAMETER_LINES.finditer(small)]
    return max(sizes, default=0) <= PARAMETERS and sum(sizes) <= ALL_PARAMETERS


def headers_of(message: email.message.Message) -> list[tuple[str, str]]:
    """The headers that are shown, in their order, each decoded."""
    given = [(name.lower(), value) for name, value in message.raw_items() if name.title() in HEADERS]
    found = [(wanted, value) for wanted in HEADERS for name, value in given if name == wanted.lower()]
    return [(name, header_text(value)) for name, value in found[:MOST_HEADERS]]


def mail_of(content: bytes) -> Mail | None:
    """The header and the parts of a mail, or None if it must not be parsed as one."""
    if not is_simple(content):
        return None
    try:
        message = email.parser.BytesParser(Message).parsebytes(content)
        headers, parts, most = headers_of(message), [], SHOWN
        for _, part in zip(range(PARTS), (part for part in message.walk() if not part.is_multipart())):
            parts.append(part_of(part, most))
            most -= len(parts[-1].text or "")
    except Exception:
        # The package promises not to raise on any bytes, but it does for some. Such a mail is shown as a text.
        return None
    return Mail(headers, parts) if headers else None
