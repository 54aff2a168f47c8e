"""What the tests of `tools/browse` share: images, hostile files, and clients of the pages. Only for tests."""
import contextlib
import os
import re
import shutil
import socket
import tempfile
import urllib.parse
from collections.abc import Iterable, Iterator

import pytest

from lisfs.client import PROGRAM, Program, Refused, shown_by
from support import visitors
from support.visitors import Browsed, Seen
from support.waiting import LONG

# The most seconds of processor time of a page, since others wait for it, on the machine of `costs`.
COST = 0.5
EVIL = b"<script>alert('1')</script>\" ' & <img src=x onerror=alert(2)> \xff\xfe \xe2\x80\xae end\n"
MAIL = (b"From: Alice <alice@example.org>\r\nTo: bob@example.org\r\nSubject: =?utf-8?q?Gr=C3=BC=C3=9Fe?=\r\nMIME-Version: 1.0\r\n"
        b"Content-Type: multipart/mixed; boundary=x\r\n\r\n--x\r\nContent-Type: text/plain; charset=iso-8859-1\r\n\r\nSch\xf6n\r\n\r\n--x\r\n"
        b"Content-Type: text/html\r\n\r\n<b>x</b>\r\n\r\n--x\r\nContent-Type: application/pdf\r\nContent-Disposition: attachment; filename=\"a b.pdf\"\r\n"
        b"Content-Transfer-Encoding: base64\r\n\r\nJVBERg==\r\n--x--\r\n")
HOSTILE_MAILS = {
    "many parameters": b"Subject: x\nContent-Type: text/plain; a=\"" + b";" * 1_000_000 + b"\n\nx", "nothing": b"", "no header": b"\n\nx",
    "many parts": b"Subject: x\nContent-Type: multipart/mixed; boundary=b\n\n" + b"--b\n" * 250_000,
    "deep parts": b"Subject: x\n" + b"".join(b"Content-Type: multipart/mixed; boundary=b%d\n\n--b%d\n" % (k, k) for k in range(16_000)),
    "many headers": b"Subject: x\n" + b"a: b\n" * 190_000 + b"\nx", "a long header": b"Subject: " + b"=?utf-8?q?" * 100_000 + b"\n\nx",
    "messages in messages": b"Subject: x\nContent-Type: message/rfc822\n\n" * 20_000,
    "a code that is none": b"Subject: x\nContent-Type: text/plain; charset=zip\n\nx",
    "a slow code": b"Subject: x\nContent-Type: text/plain; charset=punycode\n\n" + b"a-" * 400_000,
    "continued parameters": b"Subject: x\nContent-Type: text/plain;\n" + b" a=b;\n" * 150_000 + b"\nx",
    "digests": b"Subject: x\nContent-Type: multipart/digest; boundary=b\n\n" + b"--b\n\nSubject: y\n\nz\n" * 400,
    "a report of lines": b"Subject: x\nContent-Type: message/delivery-status\n\n" + b"\n" * 1_048_000,
    "a report of fewer lines": b"Subject: x\nContent-Type: message/delivery-status\n\n" + b"a: b\n\n" * 12_000,
    "reports": b"Subject: x\nContent-Type: multipart/report; boundary=b\n\n" + b"--b\nContent-Type: message/delivery-status\n\n\n\n\n" * 15,
    "lines in deep parts": b"Subject: x\n" + b"".join(b"Content-Type: multipart/mixed; boundary=b%d\n\n--b%d\n" % (k, k) for k in range(15))
    + b"\n" * 1_000_000, "fewer lines in deep parts": b"Subject: x\n" + b"".join(
        b"Content-Type: multipart/mixed; boundary=b%d\n\n--b%d\n" % (k, k) for k in range(15)) + b"-\n" * 5_800,
    "lines": b"Subject: x\n\n" + b"\n" * 1_048_000, "other lines": b"Subject: x\n\n" + b"\r" * 1_048_000, "headers of one name": b"From: x\n" * 130_000 + b"\n",
    "fewer headers of one name": b"To:=?utf-8?q?b?=\n" * 24_000 + b"\nx", "a long field": b"Subject: " + b"=?" * 500_000,
    "parameters in each part": b"Subject: x\nContent-Type: multipart/mixed; boundary=b\n\n" + b"".join(
        b"--b\nContent-Type: text/plain; a=\"" + b";" * 8_000 + b"\n\nx\n" for _ in range(64)),
    "fewer parameters": b"Subject: x\nContent-Type: multipart/mixed; boundary=b\n\n" + b"".join(
        b"--b\nContent-Type: text/plain; a=\"" + b";" * 1_950 + b"\n\nx\n" for _ in range(12)),
    "names in pieces": b"Subject: x\nContent-Type: multipart/mixed; boundary=b\n\n" + b"".join(b"--b\nContent-Disposition: attachment; " + b"".join(
        b"filename*%d*=a;" % k for k in range(110)) + b"\n\nx\n" for _ in range(13)),
    "short lines of a code": b"Subject: x\nContent-Transfer-Encoding: base64\n\n" + b"A\n" * 24_000, "one line of a code":
    b"Subject: x\nContent-Transfer-Encoding: quoted-printable\n\n" + b"=0A" * 330_000, "another code":
    b"Subject: x\nContent-Transfer-Encoding: x-uuencode\n\nbegin 644 f\n" + b"#0V%T\n" * 24_000 + b"end\n",
    "signs": b"Subject: x\n\n" + b"<" * 1_000_000, "controls": b"\x01" * 1_000_000, "no UTF-8": b"\xff" * 1_048_576, "many of two bytes": b"\xc2\x85" * 500_000,
}


def adding(name: bytes, content: bytes, *words: bytes) -> bytes:
    """The lines that add a file."""
    return b" ".join((b"add", name, b"%d" % len(content), *words)) + b"\n" + content + b"\n"


MIXED = b"".join((
    b"mkdir music\nmkdir live\nmkdir year:\nmkdir size>=100\nmkdir size<5\nmkdir big\nmkdir unused\naxiom size>=100 big\naxiom live music\n",
    b"".join(adding(b"song%d" % k, b"la" * k * 3, *[b"music"] * (k % 2), *[b"live"] * (k % 3 == 0), b"year:%d" % (1999 + k % 5))
             for k in range(40)),
    b"".join(adding(b"mail%d.eml" % k, b"From: p%d@example.org\nTo: all@example.org\nSubject: plan number%d\n\nSee you.\n" % (k % 4, k))
             for k in range(20)),
    b"".join(adding(b"part%d.c" % k, b"#include <stdio.h>\nint part%d(void) { return %d; }\n" % (k, k)) for k in range(10)),
    adding(b"evil.txt", EVIL, b"music"), adding(b"evil.eml", b"From: <script>@x\nSubject: <script>alert(1)</script> \xff\0\n\n" + EVIL),
    adding(b"mail.eml", MAIL), adding(b"raw", bytes(range(256)) * 8), b"create empty\ncreate @-+._\n", adding(b"large", b"x" * 300_000)))


def make(image: str, data: bytes = b"", limits: tuple[str, ...] = ("256", "1024", "600", "v2")) -> str:
    """Makes an image on which these lines ran, none of which is refused. Returns its path."""
    Program([PROGRAM, "make", image, *limits]).close()
    replies = shown_by([PROGRAM, "run", image], data)
    assert set(replies.split(b"\n")) <= {b"ok", b""}, replies[:300]
    return image


def numbers_by_program(image: str, places: Iterable[bytes]) -> dict[bytes, int]:
    """How many files the program has at each of these places: all files are requested there."""
    dump = shown_by([PROGRAM, "dump", image])
    names = re.findall(rb"(?m)^add (\S+) [0-9]+", dump)
    found = {}
    with Program([PROGRAM, "run", image]) as program:
        for place in places:
            program.cd(place)
            for name in names:
                program.send(b"props", name)
            found[place] = 0
            for name in names:
                with contextlib.suppress(Refused):
                    program.receive()
                    found[place] += 1
    return found


class Visitor(visitors.Visitor):
    """Requests pages, and checks that each has nothing that no page may have."""

    def page(self, page: str = "", /, status: int = 200, **given: str | bytes | int) -> Seen:
        """A page, which has the expected status and nothing that no page may have."""
        answer = self.get(page, **given)
        seen = Seen(answer.data.decode())
        assert (answer.status, seen.wrong) == (status, []), seen.text[:200]
        assert "default-src 'none'" in answer.headers["Content-Security-Policy"]
        assert answer.headers["X-Content-Type-Options"] == "nosniff"
        return seen

    def does(self, page: str, given: dict[str, str], done: bool, *said: str) -> Seen:
        """Sends a form, and checks the page after it."""
        answer = self.post(page, given)
        told = Seen(self.ask("GET", answer.headers["Location"]).data.decode()) if answer.status == 303 else Seen(answer.data.decode())
        assert (answer.status, told.wrong) == (303 if done else 409, []), told.text[-400:]
        for text in said:
            assert text in told.text
        return told

    def token(self) -> dict[str, str]:
        """The token of forms, as a field."""
        return {"token": self.page().form("upload")["token"]}


def leads(seen: Seen, label: str) -> str | None:
    """Where the link of a label on a page leads."""
    return next((urllib.parse.unquote(href) for href, text, name in seen.links if label in (text, name)), None)


def whole(connection: socket.socket) -> bytes:
    """All that still comes."""
    got = b""
    with contextlib.suppress(ConnectionResetError):
        while more := connection.recv(1_048_576):
            got += more
    return got


def connected(port: int, data: bytes = b"") -> socket.socket:
    """A connection over which these bytes were sent."""
    connection = socket.create_connection(("127.0.0.1", port), LONG)
    connection.sendall(data)
    return connection


def raw(port: int, data: bytes, ends: bool = False) -> bytes:
    """The answer to some bytes."""
    with connected(port) as connection:
        with contextlib.suppress(OSError):
            connection.sendall(data)
            if ends:
                connection.shutdown(socket.SHUT_WR)
        return whole(connection)


def good_request(visitor: visitors.Visitor) -> bytes:
    """A request for the first page, as a browser sends one."""
    return f"GET {visitor.top} HTTP/1.1\r\nHost: {visitor.host}\r\nCookie: {visitor.cookie}\r\n\r\n".encode()


@contextlib.contextmanager
def in_memory() -> Iterator[str]:
    """A folder, in memory if possible, since thousands of changes are made, and each syncs."""
    folder = tempfile.mkdtemp(dir="/dev/shm" if os.access("/dev/shm", os.W_OK) else None)
    try:
        yield folder
    finally:
        shutil.rmtree(folder, ignore_errors=True)


# Fixtures. `conftest` names them.

@pytest.fixture(scope="session")
def web_program() -> str:
    """The path of the built program."""
    if not os.path.exists(PROGRAM):
        pytest.skip("the program is not built: ./lisfs try 64 64 8 </dev/null")
    return PROGRAM


@pytest.fixture(scope="module")
def web_mixed(web_program: str) -> Iterator[str]:
    """The path of an image of files of all kinds, which the tests of a module don't change."""
    with in_memory() as folder:
        yield make(os.path.join(folder, "image"), MIXED)


@pytest.fixture(scope="module")
def web_reading(web_mixed: str) -> Iterator[tuple[Browsed, Visitor]]:
    """Pages of that image which change nothing, and a client for them."""
    with Browsed(web_mixed) as browsed:
        yield browsed, Visitor(browsed)


@pytest.fixture(scope="module")
def web_writing(web_program: str) -> Iterator[tuple[Browsed, Visitor]]:
    """Pages which may change things, of an image with one file, and a client for them."""
    with in_memory() as folder, Browsed(make(os.path.join(folder, "other"), b"create f\n"), "--write") as browsed:
        yield browsed, Visitor(browsed)


@pytest.fixture
def web_folder(web_program: str) -> Iterator[str]:
    """An empty folder in memory, where the test runs."""
    with in_memory() as folder, contextlib.chdir(folder):
        yield folder
