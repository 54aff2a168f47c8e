"""Who may send requests to `tools/browse`, and which: a client without the token, one from elsewhere, or one that sends no valid request is refused,
and delays nobody."""
import contextlib
import random
import urllib.parse

import pytest

from lisfs.constants import MAX_LARGE_FILE
from support.costs import bounded, taken_by
from support.visitors import Browsed
from support.waiting import threads_of
from support.web import COST, MIXED, Visitor, connected, good_request, make, raw, whole


def test_address(web_reading):
    browsed, _ = web_reading
    assert urllib.parse.urlsplit(browsed.address).hostname == "127.0.0.1" and len(browsed.token()) >= 22


def test_the_token_becomes_a_cookie(web_reading):
    browsed, visitor = web_reading
    entry = visitor.ask("GET", f"/?token={browsed.token()}", Cookie=None)
    kept = entry.headers["Set-Cookie"]
    assert entry.status == 303 and "HttpOnly" in kept and "SameSite=Strict" in kept and f"Path={visitor.top}" in kept
    assert browsed.token() not in kept + entry.headers["Location"] and len(visitor.top) >= 16


@pytest.mark.parametrize("status, method, path, headers", (
    pytest.param(403, "GET", "{top}", {"Cookie": None}, id="no cookie"),
    pytest.param(403, "GET", "{top}", {"Cookie": "lisfs=x"}, id="a wrong cookie"),
    pytest.param(403, "GET", "{top}", {"Cookie": "{cookie}x"}, id="a longer cookie"),
    pytest.param(403, "GET", "{top}", {"Cookie": "lisfs={token}"}, id="the token as a cookie"),
    pytest.param(403, "GET", "{top}", {"Cookie": "{other}"}, id="the cookie of another run"),
    pytest.param(200, "GET", "{top}", {"Cookie": "a=b; {cookie}"}, id="one cookie among others"),
    pytest.param(403, "GET", "/?token=x", {"Cookie": None}, id="a wrong token"),
    pytest.param(403, "GET", "/?token=", {"Cookie": None}, id="an empty token"),
    pytest.param(403, "GET", "/", {"Cookie": None}, id="no token"), pytest.param(404, "GET", "/", {}, id="the root"),
    pytest.param(404, "GET", "/favicon.ico", {}, id="the icon of a site"),
    pytest.param(403, "GET", "{top}style.css", {"Cookie": None}, id="a style without a cookie"),
    pytest.param(403, "GET", "{top}", {"Host": "localhost:{port}"}, id="another host"),
    pytest.param(403, "GET", "{top}", {"Host": "example.org"}, id="a host elsewhere"),
    pytest.param(403, "GET", "{top}", {"Host": "127.0.0.1:1"}, id="a host at another port"),
    pytest.param(403, "GET", "{top}", {"Host": None}, id="no host"),
    pytest.param(403, "GET", "{top}", {"Host": "127.0.0.1:{port}.example.org"}, id="a host in front of another"),
    pytest.param(403, "GET", "/?token={token}", {"Host": "example.org"}, id="another host with the token"),
    pytest.param(403, "GET", "{top}", {"Origin": "http://example.org"}, id="an origin elsewhere"),
    pytest.param(403, "GET", "{top}", {"Origin": "null"}, id="no origin at all"),
    pytest.param(200, "GET", "{top}", {"Origin": "http://127.0.0.1:{port}"}, id="its own origin"),
    pytest.param(403, "GET", "{top}", {"Sec_Fetch_Site": "cross-site"}, id="a page elsewhere leads here"),
    pytest.param(403, "GET", "{top}", {"Sec_Fetch_Site": "same-site"}, id="a page of another port"),
    pytest.param(200, "GET", "{top}", {"Sec_Fetch_Site": "same-origin"}, id="its own page leads here"),
    pytest.param(200, "GET", "{top}", {"Sec_Fetch_Site": "none"}, id="an address that is typed"),
    pytest.param(303, "GET", "/?token={token}", {"Cookie": None, "Sec_Fetch_Site": "cross-site"}, id="a link elsewhere with the token"),
    pytest.param(405, "PUT", "{top}", {}, id="a wrong method"), pytest.param(405, "FROB", "{top}", {}, id="a method of no kind"),
    pytest.param(405, "OPTIONS", "*", {}, id="options"), pytest.param(404, "GET", "{top}../image", {}, id="a way up"),
    pytest.param(404, "GET", "{top}%2e%2e/%2e%2e/etc/passwd", {}, id="a way up in code"),
    pytest.param(404, "GET", "/etc/passwd", {}, id="a file of the system"),
    pytest.param(404, "GET", "{top}site.py", {}, id="a file beside"),
    pytest.param(404, "GET", "{top}templates/base.html", {}, id="a template"),
    pytest.param(404, "GET", "//example.org/", {}, id="two slashes"), pytest.param(404, "GET", "{top}..\\x", {}, id="a back slash"),
    pytest.param(404, "GET", "{top}style.css%00", {}, id="a NUL in code"),
    pytest.param(400, "GET", "http://example.org/", {}, id="a whole address"), pytest.param(404, "GET", "/x{rest}", {}, id="another path"),
    pytest.param(403, "POST", "{top}rename", {}, id="a form where nothing is written"),
    pytest.param(403, "GET", "{top}remove?name=song1", {}, id="asking to remove where nothing is written"),
    pytest.param(400, "GET", "{top}?" + "a=b&" * 99, {}, id="many fields"),
    pytest.param(200, "GET", "{top}files?page=-1", {}, id="a page of words")))
def test_who_may_ask(web_reading, web_writing, status, method, path, headers):
    browsed, visitor = web_reading
    known = {"top": visitor.top, "rest": visitor.top[1:], "port": visitor.port, "cookie": visitor.cookie, "token": browsed.token(),
             "other": web_writing[1].cookie}
    given = {name: value and value.format(**known) for name, value in headers.items()}
    answer = visitor.ask(method, path.format(**known), b"name=song1" if method == "POST" else None, **given)
    assert answer.status == status and (status != 403 or len(answer.data) < 2_000), answer.data[:200]


# A form is accepted only from its own page.

PLAIN = {"Content_Type": "application/x-www-form-urlencoded"}
GOOD = "token={token}&name=f&other=g"


def test_the_token_of_forms(web_writing):
    browsed, visitor = web_writing
    token = visitor.token()["token"]
    assert len(token) >= 22 and token not in browsed.address + visitor.cookie


@pytest.mark.parametrize("status, body, headers", (
    pytest.param(403, "name=f&other=g", PLAIN, id="no token"), pytest.param(403, "token=x&name=f&other=g", PLAIN, id="a wrong token"),
    pytest.param(403, GOOD, {**PLAIN, "Origin": None}, id="no origin"),
    pytest.param(403, GOOD, {**PLAIN, "Origin": "http://example.org"}, id="an origin elsewhere"),
    pytest.param(403, GOOD, {**PLAIN, "Origin": "null"}, id="no origin at all"),
    pytest.param(403, GOOD, {**PLAIN, "Origin": "https://127.0.0.1:{port}"}, id="its own origin, by another way"),
    pytest.param(403, GOOD, {**PLAIN, "Cookie": None}, id="no cookie"),
    pytest.param(403, GOOD, {**PLAIN, "Sec_Fetch_Site": "same-site"}, id="a page of another port"),
    pytest.param(415, GOOD, {"Content_Type": "text/plain"}, id="another type"), pytest.param(411, None, PLAIN, id="no length"),
    pytest.param(411, None, {**PLAIN, "Transfer_Encoding": "chunked"}, id="pieces"), pytest.param(413, "x" * 70_000, PLAIN, id="a large form"),
    pytest.param(400, GOOD, {"Content_Type": "multipart/form-data"}, id="a form with a file that is none"),
    pytest.param(400, "--e\r\n\r\n", {"Content_Type": "multipart/form-data; boundary=e"}, id="a form with a file that is cut")))
def test_form(web_writing, status, body, headers):
    _, visitor = web_writing
    known = {"port": visitor.port, **visitor.token()}
    given = {name: value and value.format(**known) for name, value in headers.items()}
    answer = visitor.ask("POST", visitor.top + "rename", None if body is None else body.format(**known).encode(), **given)
    assert answer.status == status, answer.data[:200]
    assert visitor.get("file", name="f").status == 200 and visitor.get("file", name="g").status == 404


def test_forms_that_are_none(web_writing):
    _, visitor = web_writing
    token = visitor.token()
    assert visitor.post("frob", token).status == 404
    # A change is no link.
    assert visitor.get("rename", **token, name="f", other="g").status == 404
    assert visitor.get("file", name="f").status == 200 and visitor.get("file", name="g").status == 404


def test_the_right_form(web_writing):
    _, visitor = web_writing
    assert visitor.post("rename", {**visitor.token(), "name": "f", "other": "g"}).status == 303
    assert visitor.get("file", name="g").status == 200
    assert visitor.post("rename", {**visitor.token(), "name": "g", "other": "f"}).status == 303


# Huge, slow, half and many requests: each is refused or served, and the next one is served.

@pytest.fixture(scope="module")
def large(web_program, tmp_path_factory):
    """Pages of an image, which may change it, and a client for them; at the end they have used little memory."""
    with Browsed(make(str(tmp_path_factory.mktemp("large") / "image"), MIXED), "--write") as browsed:
        yield browsed, Visitor(browsed)
        assert browsed.memory() < 300


def posting(length):
    return lambda good, host: good.replace(b"GET", b"POST").replace(b"Cookie", length + b"\r\nCookie")


@pytest.mark.parametrize("status, request_of", (
    pytest.param(431, lambda good, host: b"GET /" + b"x" * 70_000 + b" HTTP/1.1\r\n\r\n", id="a long line"),
    pytest.param(431, lambda good, host: b"G" * 1_000_000, id="a line without an end"),
    pytest.param(431, lambda good, host: b"GET / HTTP/1.1\r\nX: " + b"x" * 1_000_000 + b"\r\n\r\n", id="long headers"),
    pytest.param(431, lambda good, host: b"GET / HTTP/1.1\r\n" + b"a: b\r\n" * 2_000 + b"\r\n", id="many headers"),
    pytest.param(400, lambda good, host: b"\r\n\r\n", id="no words"), pytest.param(400, lambda good, host: b"frob\r\n\r\n", id="one word"),
    pytest.param(400, lambda good, host: b"\x16\x03\x01\x02\x00\x01\r\n\r\n", id="another protocol"),
    pytest.param(400, lambda good, host: good.replace(b"GET /", b"GET /\0"), id="a NUL"),
    pytest.param(505, lambda good, host: good.replace(b"/1.1", b"/9.9"), id="a later version"),
    pytest.param(200, lambda good, host: good.replace(b" HTTP/1.1", b""), id="no version"),
    pytest.param(400, lambda good, host: good.replace(b"Cookie", b"X: a\rCookie"), id="a CR alone"),
    pytest.param(400, lambda good, host: good.replace(b"Cookie", b"Host: example.org\r\nCookie"), id="two hosts"),
    pytest.param(400, posting(b"Content-Length: 1\r\nContent-Length: 2"), id="two lengths"),
    pytest.param(200, lambda good, host: good.replace(b"Cookie", b"X: a\r\n b\r\nCookie"), id="a folded header"),
    pytest.param(200, lambda good, host: good, id="a good one"),
    pytest.param(411, posting(b"Content-Length: -1"), id="a length that is none"),
    pytest.param(411, posting(b"Content-Length: 999999999999"), id="a huge length"),
    pytest.param(413, lambda good, host: posting(b"Origin: http://%s\r\nContent-Length: 5000000" % host)(good, host) + b"x" * 5_000_000,
                 id="a body that is refused")))
def test_request(large, status, request_of):
    browsed, visitor = large
    got = raw(browsed.port, request_of(good_request(visitor), visitor.host.encode()))
    assert got.startswith(b"HTTP/1.1 %d " % status), got[:200]


def test_half_a_request(large):
    browsed, visitor = large
    assert raw(browsed.port, good_request(visitor)[:-3], ends=True) == b""


@pytest.mark.parametrize("page, size", (("rename", 5_000_000), ("upload", 9_000_000)))
def test_who_sends_all_before_it_reads_sees_the_answer(large, page, size):
    assert large[1].ask("POST", large[1].top + page, bytes(size)).status == 413


@pytest.fixture
def crowd(large):
    """Connections on which nothing comes, or half a request, and some that read no answer; and a function that makes more."""
    browsed, visitor = large
    good = good_request(visitor)
    with contextlib.ExitStack() as opened:
        def one(data=b""):
            return opened.enter_context(connected(browsed.port, data))

        for data in [b""] * 25 + [good[:-2]] * 25 + [good.replace(b" HTTP", b"file?name=large HTTP")] * 20:
            one(data)
        yield one
    assert visitor.get().status == 200


def test_a_hundred_at_once(large, crowd):
    good = good_request(large[1])
    hundred = [crowd(good) for _ in range(100)]
    got = [whole(connection) for connection in hundred]
    assert len(got) == 100
    for data in got:
        assert data.startswith(b"HTTP/1.1 200 ") and data.endswith(b"</html>"), data[:300]


def test_a_page_beside_hundreds_that_wait(large, crowd):
    browsed, visitor = large
    for _ in range(250):
        crowd()
    assert visitor.get().status == 200
    assert threads_of(browsed.process.pid) == 1


# Requests during an upload, or for what was uploaded, wait no longer than others may wait, whatever is in the file.

def filled(begin, piece, end=b"\n\n"):
    """As many bytes as a file may have."""
    return begin + piece * ((MAX_LARGE_FILE - len(begin) - len(end)) // len(piece)) + end


def numbered(form):
    """Forty-eight pieces, each with a unique number."""
    return b"".join(form % number for number in range(48))


# Files in which the program looks for their words: in a mail, and in a source.
UPLOADS = {
    "one long Subject": ("x.eml", filled(b"Subject: ", b"x")), "quotes": ("x.eml", filled(b"From: ", b'"')),
    "one word of a Subject again and again": ("x.eml", filled(b"Subject: ", b"a ")),
    "words of a Subject": ("x.eml", (b"Subject: " + b"".join(b"%x " % number for number in range(180_000)))[:MAX_LARGE_FILE - 2] + b"\n\n"),
    "more words than are kept": ("x.eml", filled(b"Subject: " + numbered(b"w%d "), b"a ")),
    "long words": ("x.eml", filled(b"Subject: " + numbered(b"w" * 50 + b"%02d "), b"w" * 50 + b"xx ")),
    "a folded Subject": ("x.eml", filled(b"Subject: " + numbered(b"w%d "), b"\n a")),
    "addresses": ("x.eml", filled(b"From: " + numbered(b"a%d@b "), b"@ ")), "fields": ("x.eml", filled(b"Subject: x\n", b"subject:a\n")),
    "letters of a source": ("x.c", filled(b"", b"a ")), "functions": ("x.c", filled(numbered(b"f%d(){}"), b"f(){}")),
    "calls": ("x.c", filled(b"", b"f(")), "includes": ("x.h", filled(numbered(b"#include<a%d>\n"), b"#include<a>\n")),
    "includes between parentheses": ("x.c", filled(numbered(b"#include<a%d>\n")[:-100], b"f(\n#include<a>\n)")),
}


@pytest.fixture(scope="module")
def beside(web_program, tmp_path_factory):
    """Pages that accept uploads, and a client that sends them."""
    with open(web_program, "rb") as program:
        if b"__asan_" in program.read():
            # In that case it takes more than a hundred times as long.
            pytest.skip("the program has checks at run time")
    image = make(str(tmp_path_factory.mktemp("beside") / "image"), MIXED, ("256", "1024", "900", "v2"))
    with Browsed(image, "--write") as browsed:
        yield browsed, Visitor(browsed)


@pytest.mark.parametrize("title", UPLOADS)
def test_upload(beside, title):
    browsed, visitor = beside
    name, content = UPLOADS[title]
    processes, token = (browsed.process.pid, browsed.program()), visitor.token()

    def uploaded():
        answers = visitor.upload({**token, "at": "/"}, content, name.encode()), visitor.get("file", name=name), visitor.get()
        return [answer.status for answer in (*answers, visitor.post("remove", {**token, "name": name}))]

    statuses, is_little, told = bounded(uploaded, COST, lambda: taken_by(*processes))
    assert statuses == [303, 200, 200, 303]
    assert is_little, told


def goods_of(visitor):
    """Valid requests."""
    token, top = visitor.token()["token"], visitor.top.encode()
    host = f"Host: {visitor.host}\r\nOrigin: http://{visitor.host}\r\nCookie: {visitor.cookie}\r\n".encode()
    upload = (b'--edge\r\nContent-Disposition: form-data; name="token"\r\n\r\n%s\r\n--edge\r\nContent-Disposition: form-data; name="file"; '
              b'filename="x"\r\n\r\nbytes\r\n--edge--\r\n' % token.encode())
    form = b"token=%s&name=song1&other=song2&word=live&left=live&right=music&at=/music" % token.encode()
    goods = [b"GET %s%s HTTP/1.1\r\n%s\r\n" % (top, page, host) for page in (
        b"?at=/music/!live&q=2", b"file?name=mail.eml&at=/(a|b)/c", b"words?group=year:&at=/year:&page=1", b"files?page=1&q=song",
        b"declared?q=m")]
    return goods + [b"POST %s%s HTTP/1.1\r\n%sContent-Type: %s\r\nContent-Length: %d\r\n\r\n%s" % (top, page, host, kind, len(body), body)
                    for page, kind, body in ((b"upload", b"multipart/form-data; boundary=edge", upload), *(
                        (page, b"application/x-www-form-urlencoded", form)
                        for page in (b"rename", b"give", b"take", b"declare", b"axiom", b"unaxiom")))]


def test_damaged_requests(web_folder):
    """Random damage: each request is answered or closed, none causes an internal error, and the next good one is served."""
    chance, statuses = random.Random(11), set()
    with Browsed(make("image", MIXED), "--write") as browsed:
        visitor = Visitor(browsed)
        goods = goods_of(visitor)
        for _ in range(600):
            data = bytearray(chance.choice(goods))
            for _ in range(chance.randrange(1, 4)):
                at, piece = chance.randrange(len(data)), chance.choice((b"", b"\0", b"\xff", b"\r\n", b"/", b"(", b"|", b"!", b"%", b"&",
                                                                        b"=", b" ", b"<b>", b"9"))
                data[at:at + chance.randrange(3)] = piece
            statuses.add(raw(browsed.port, bytes(data), ends=True)[9:12])
        assert statuses <= {b"", b"200", b"303", b"400", b"403", b"404", b"405", b"409", b"411", b"413", b"415", b"505"} and len(statuses) > 6
        assert visitor.get().status == 200
        assert browsed.end() == (0, "")
