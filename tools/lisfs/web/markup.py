"""HTML from templates, in which all that is not markup is escaped, and the addresses of pages.

A template writes its values only by `{{ }}`, and there each value is a text: invisible characters are made visible, and then it is escaped. No
template turns that off, and each attribute that shows a value is in quotes (`tools/tests/test_browse_parts.py` checks this).
"""
from __future__ import annotations

import functools
import re
import urllib.parse
from typing import TYPE_CHECKING

from lisfs.constants import MAX_WORD

if TYPE_CHECKING:
    import jinja2

CONTROLS = {code: 0x2400 + code for code in range(32) if code not in (9, 10)} | {0x7F: 0x2421} | {code: 0xFFFD
                                                                                                  for code in range(0x80, 0xA0)}
# Characters that reverse the direction of a text, so that it is read as another one.
CONTROLS |= {code: 0xFFFD for code in (*range(0x202A, 0x202F), *range(0x2066, 0x206A))}


# Most texts have none of these, nor a lone surrogate.
UNSEEN = re.compile("[" + "".join(map(re.escape, map(chr, CONTROLS))) + "\ud800-\udfff]")


def visible(text: str | bytes) -> str:
    """A text with its invisible characters replaced: a NUL and other controls by signs for them, and what is not UTF-8 by a replacement character."""
    if isinstance(text, bytes):
        text = text.decode(errors="replace")
    return text.translate(CONTROLS).encode("utf-8", "replace").decode() if UNSEEN.search(text) else text


def written(value: object) -> str:
    """What a template writes for a value, before it is escaped. Markup is the result of another part of a template."""
    import markupsafe
    if isinstance(value, markupsafe.Markup):
        return value
    if isinstance(value, (str, bytes)):
        return visible(value)
    if isinstance(value, int):
        return str(value)
    raise TypeError(f"no text: {value!r}")


def number(count: int) -> str:
    return f"{count:,}"


def counted(count: int, what: str) -> str:
    """A number of things with one name."""
    return f"{number(count)} {what}{'' if count == 1 else 's'}"


def address(page: str, /, **given: str | bytes | int | None) -> str:
    """The address of a page, with its fields. None is left out, and `_` at the end of a name is dropped."""
    def quoted(value: str | bytes | int) -> str:
        return urllib.parse.quote(str(value) if isinstance(value, int) else value, safe="/:@!(),")

    query = "&".join(f"{name.rstrip('_')}={quoted(value)}" for name, value in given.items() if value is not None)
    return f"{page or './'}?{query}" if query else page or "./"


@functools.cache
def environment() -> jinja2.Environment:
    import jinja2
    made = jinja2.Environment(loader=jinja2.PackageLoader("lisfs.web"), autoescape=True, finalize=written, undefined=jinja2.StrictUndefined,
                              trim_blocks=True, lstrip_blocks=True, auto_reload=False)
    made.globals.update(address=address, counted=counted, most_of_word=MAX_WORD)
    made.filters["number"] = number
    return made


def rendered(template: str, **given: object) -> str:
    """The result of a template with these values."""
    return environment().get_template(template).render(given)
