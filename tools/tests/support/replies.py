"""The results of calls of the client. Only for tests."""
from collections.abc import Callable
from typing import Any

from lisfs.client import LINES, Ended, Lines, NotAReply, NotSent, Refused
from lisfs.constants import MAX_LARGE_FILE

DONE = Lines(LINES, [])
CONTENTS = {
    "empty": b"",
    "a line feed": b"\n",
    "like a reply": b"ok\nno 01 bad line\nb 5\nok\n",
    "no line feed": b"\0\xff" * (MAX_LARGE_FILE // 2),
    "lines": b"ok\n" * (MAX_LARGE_FILE // 3) + b"\n",
}


def told_by(call: Callable[..., Any], *words: Any, **more: Any) -> Any:
    """The result of a call: the kind and the body of a reply, or the error with its fields."""
    try:
        return call(*words, **more)
    except Refused as refusal:
        return Refused, refusal.number, refusal.words
    except Ended as end:
        return type(end), end.status, end.text
    except (NotSent, NotAReply, RuntimeError) as error:
        return type(error)
