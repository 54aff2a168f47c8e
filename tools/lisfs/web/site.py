"""Who may send requests, and which page or change is requested.

Whoever knows the printed address may send requests, and nobody else: not another user of the machine, and not a foreign page in this user's browser.
The address has a token. The answer to it is a cookie and a redirect, so that the token stays in no address bar. All pages are below a path that is
random too, to which the cookie is bound: a browser sends a cookie to each port of a machine, and so to another user's server there, but not below
another path. A form has a separate token, since a browser sends the cookie with every request.

No path of a request is ever the path of a file: each page is in a table.
"""
import hmac
import http.server
import io
import os
import re
import secrets
import urllib.parse
from collections.abc import Callable
from typing import NamedTuple

from lisfs.client import Ended, NotAReply, NotSent, Refused, Retagged
from lisfs.constants import BAD_FORMULA, BAD_LINE, LARGE_FILE, LARGE_FORMULA, MAX_FORMULA, MAX_LINE, MAX_WORD, NO_FILE_HERE, NOT_A_PLACE
from lisfs.endings import say, say_fault
from lisfs.formulas import joined
from lisfs.refusals import left_out, sentence, sentence_about

from lisfs.web.image import Differs, Image, NothingToUndo, OtherBytes, View, WrongWord
from lisfs.web.markup import address, counted
from lisfs.web.pages import DONE, FILES, Link, Pages, place_of
from lisfs.words import FILE_NAME, mapped

# The most bytes of a request before its body; of a body without a file, and of one besides the file's own bytes; the most fields of either, besides
# the files that are chosen on a page.
HEAD, BODY, BESIDE, FIELDS = 16_384, 65_536, 65_536, 64
HTML, TEXT, BYTES = "text/html; charset=utf-8", "text/plain; charset=utf-8", "application/octet-stream"
STATIC = {"style.css": "text/css; charset=utf-8", "script.js": "text/javascript; charset=utf-8", "icon.svg": "image/svg+xml"}
POLICY = ("default-src 'none'; style-src 'self'; script-src 'self'; img-src 'self'; connect-src 'self'; form-action 'self'; base-uri 'none'; "
          "frame-ancestors 'none'")
ONCE = ("Host", "Origin", "Content-Length", "Content-Type", "Cookie", "Sec-Fetch-Site")
COOKIE, CHOSEN = "lisfs", "chosen"
TITLES = {404: "Not here", 409: "Refused", 500: "A mistake"}
# The fields of a form that a page about a refusal names.
MEANT = ("name", "other", "word", "words", "left", "right", CHOSEN)

# The fields of an address or a form.
Fields = dict[str, bytes]


class Answer(NamedTuple):
    """`headers` are pairs, besides those that each answer has."""
    status: int
    kind: str
    body: bytes
    headers: tuple[tuple[str, str], ...] = ()


class Wrong(Exception):
    """A request that is refused: a status, and a sentence for the sender. A known sender gets a page, with a link to the first one."""

    def __init__(self, status: int, told: str, is_known: bool = False) -> None:
        super().__init__(told)
        self.status, self.told, self.is_known = status, told, is_known


class Request(http.server.BaseHTTPRequestHandler):
    """The line and the headers of a request, parsed by the class of Python's own server, without a server."""

    def __init__(self, head: bytes) -> None:
        # Only the methods of the base are called that parse the head from memory.
        self.rfile, self.wfile, self.command = io.BytesIO(head), io.BytesIO(), ""
        self.wrong = Wrong(400, "This is no request.")
        self.page = self.query = ""
        self.raw_requestline = self.rfile.readline()
        if not self.parse_request():
            raise self.wrong

    def send_error(self, code: int, message: str | None = None, explain: str | None = None) -> None:
        self.wrong = Wrong(code, "This is no request that is served here.")

    def header(self, name: str) -> str | None:
        """The value of a header, or None if it is missing. A header that may occur once must occur once."""
        found: list[str] = self.headers.get_all(name, [])
        if len(found) > 1 and name in ONCE:
            raise Wrong(400, f"The request says {name} more than once.")
        return found[0] if found else None


def fields(text: str, most: int = FIELDS) -> Fields:
    """The fields of an address or a form, each as bytes, the first of each name; for the chosen files all names, separated by blanks."""
    try:
        pairs = urllib.parse.parse_qsl(text, keep_blank_values=True, encoding="utf-8", errors="surrogateescape", max_num_fields=most)
    except ValueError:
        raise Wrong(400, "There are too many fields.") from None
    found: Fields = {}
    for name, value in pairs:
        data = value.encode("utf-8", "surrogateescape")
        if name == CHOSEN and name in found:
            found[name] += b" " + data
        else:
            found.setdefault(name, data)
    return found


def parts(body: bytes, kind: str) -> Fields:
    """The fields of a form with a file, each as bytes, and the name of the file as `filename`."""
    boundary = re.search(r'boundary="?([A-Za-z0-9\'()+_,./:=?-]{1,70})"?', kind)
    if not boundary:
        raise Wrong(400, "The form has no boundary.")
    pieces = re.split(rb"\r\n--%s(?=\r\n|--)" % re.escape(boundary[1].encode()), b"\r\n" + body, maxsplit=FIELDS)
    found: Fields = {}
    if len(pieces) > FIELDS or pieces[-1][:2] != b"--":
        raise Wrong(400, "The form is cut off.")
    for piece in pieces[1:-1]:
        head, gap, value = piece.partition(b"\r\n\r\n")
        name = re.search(rb'(?i)\r\ncontent-disposition:[^\r\n]*; ?name="([^"\r\n]*)"(?:; ?filename="([^"\r\n]*)")?', head)
        if not gap or not name:
            raise Wrong(400, "The form is none.")
        found.setdefault(name[1].decode(errors="replace"), value)
        if name[2] is not None:
            found.setdefault("filename", name[2])
    return found


def same(given: str | None, wanted: str) -> bool:
    """Whether a secret is the right one, in a time that does not depend on it."""
    return hmac.compare_digest((given or "").encode("utf-8", "surrogateescape"), wanted.encode())


def number_in(given: Fields, name: str) -> int:
    """The number of a page, from 0 on."""
    text = given.get(name, b"1")
    return int(text) - 1 if re.fullmatch(rb"[1-9][0-9]{0,5}", text) else 0


def name_for(wanted: bytes) -> bytes:
    """The name of an uploaded file from its name elsewhere: each other byte becomes `_`, as `tools/import` does."""
    return mapped(re.split(rb"[/\\]", wanted)[-1])[-MAX_WORD:]


class Site:
    def __init__(self, image: Image, name: str, can_write: bool, port: int) -> None:
        self.image, self.can_write = image, can_write
        # Why the program has ended, once it has.
        self.end: str | None = None
        self.token, self.cookie, form = (secrets.token_urlsafe(24) for _ in range(3))
        self.top = f"/{secrets.token_urlsafe(12)}/"
        self.pages, self.form = Pages(image, name, can_write, form), form
        self.hosts = {f"127.0.0.1:{port}"} | ({"127.0.0.1"} if port == 80 else set())
        self.address = f"http://127.0.0.1:{port}/?token={self.token}"
        self.static: dict[str, Answer] = {}
        for file, kind in STATIC.items():
            with open(os.path.join(os.path.dirname(__file__), file), "rb") as data:
                self.static[file] = Answer(200, kind, data.read())
        self.shown: dict[str, Callable[[Fields], Answer]] = {
            "": self.place, "words": self.words, "files": self.files, "rest": self.rest, "file": self.file, "bytes": self.download,
            "remove": self.removing, "declared": self.declared}
        self.changed: dict[str, Callable[[Fields], Answer]] = {
            "give": self.give, "take": self.take, "rename": self.rename, "remove": self.remove, "upload": self.upload,
            "declare": self.declare, "undeclare": self.undeclare, "axiom": self.axiom, "unaxiom": self.unaxiom,
            "tag": self.tag, "untag": self.untag, "undo": self.undo}

    # Who may send requests.

    def admitted(self, head: bytes) -> tuple[Request, int]:
        """The request with this head, and how many bytes of a body it has. Raises `Wrong` if it must not be answered; before that nothing of its body
        is read."""
        if b"\0" in head or re.search(rb"\r(?!\n)", head):
            raise Wrong(400, "This is no request.")
        request = Request(head)
        if (host := request.header("Host")) is None or host not in self.hosts:
            raise Wrong(403, "This address is not served here. Open the address that tools/browse has printed.")
        if request.header("Origin") not in (None, "http://" + host):
            raise Wrong(403, "A page from elsewhere may not ask here.")
        if request.command not in ("GET", "POST"):
            raise Wrong(405, "Only pages and forms are served here.")
        if not request.path.startswith("/") or "#" in request.path:
            raise Wrong(400, "This is no address.")
        request.page, _, request.query = request.path.partition("?")
        is_entry = request.page == "/" and request.command == "GET" and same(fields(request.query).get("token", b"").decode("latin-1"),
                                                                             self.token)
        if not is_entry:
            self._must_be_known(request)
        try:
            return request, self._length(request)
        except Wrong as wrong:
            wrong.is_known = True
            raise

    def _must_be_known(self, request: Request) -> None:
        if request.header("Sec-Fetch-Site") not in (None, "same-origin", "none"):
            # A client that knows the path of the pages has come by the printed address, shown as a link somewhere. From here on our own page leads,
            # so that the browser sends its cookie.
            raise Wrong(403, "A page from elsewhere may not lead here. Open the address that tools/browse has printed.",
                        request.command == "GET" and request.page.startswith(self.top))
        cookies = [cookie.strip().partition("=") for cookie in (request.header("Cookie") or "").split(";")]
        if not any(name == COOKIE and same(value, self.cookie) for name, _, value in cookies):
            raise Wrong(403, "This page needs its token. Open the address that tools/browse has printed.")
        if not request.page.startswith(self.top):
            raise Wrong(404, "There is no such page.")

    def _length(self, request: Request) -> int:
        """How many bytes the body has."""
        if request.command == "GET":
            return 0
        said = request.header("Content-Length") or ""
        if request.header("Transfer-Encoding") is not None or not re.fullmatch(r"[0-9]{1,9}", said):
            raise Wrong(411, "The request does not say how long it is.")
        if request.header("Origin") is None:
            raise Wrong(403, "A form has to say where it comes from.")
        if not self.can_write:
            raise Wrong(403, "Nothing is changed here: tools/browse was started without --write.")
        is_upload = request.page == self.top + "upload"
        if (length := int(said)) > (self.image.limits.file_bytes + BESIDE if is_upload else BODY):
            raise Wrong(413, sentence(LARGE_FILE) if is_upload else "The form is too large.")
        return length

    # What is requested.

    def answer(self, request: Request, body: bytes) -> Answer:
        """The answer to a request that was admitted."""
        if request.page == "/":
            return Answer(303, TEXT, b"", (("Location", self.top),
                                           ("Set-Cookie", f"{COOKIE}={self.cookie}; Path={self.top}; HttpOnly; SameSite=Strict")))
        page = request.page[len(self.top):]
        if request.command == "GET" and page in self.static:
            return self.static[page]
        try:
            return self._found(request, page, body)
        except Wrong as wrong:
            wrong.is_known = True
            return self.refused(wrong)
        except Refused as refused:
            told, status = self.image.sentence(refused, refused.command or None), 404 if refused.number == NO_FILE_HERE else 409
        except WrongWord as wrong_word:
            told, status = sentence_about(BAD_LINE, None, [word for word in wrong_word.args if word]), 409
        except NothingToUndo:
            told, status = "There is no change to undo.", 409
        except OtherBytes:
            told, status = "The file has other bytes by now, which nothing would bring back. Remove it on its own page if you want to.", 409
        except NotSent:
            told, status = f"This can't be said in one line: a word has no blanks, and a line has {MAX_LINE:,} bytes.", 409
        except Differs:
            told, status = "The counts here do not agree with the program. Start tools/browse again, and tell its makers.", 500
        except NotAReply:
            # No later reply can be recognized, so nothing more may be asked.
            self.image.program.kill()
            return self._over("what it showed was no reply")
        except Ended as end:
            return self._over(": ".join(end.text.splitlines()) or str(end))
        except Exception:
            # An error in these pages ends one of them, and not the session.
            say_fault()
            told, status = "These pages have a mistake here, which standard error shows. It affects nothing else.", 500
        given = self._given(request, body)
        meant = [given[name] for name in MEANT if given.get(name)]
        return Answer(status, HTML, self.pages.told(TITLES[status], told, self._back(given), meant).encode())

    def refused(self, wrong: Wrong) -> Answer:
        """The answer to a request that is refused. To an unknown client it says nothing that not everybody may know."""
        if not wrong.is_known:
            return Answer(wrong.status, TEXT, f"{wrong.told}\n".encode())
        return Answer(wrong.status, HTML, self.pages.told("Not here" if wrong.status == 404 else "Refused", wrong.told).encode())

    def _over(self, cause: str) -> Answer:
        if not self.end:
            self.end = cause
            say(f"browse: the program has ended: {cause}")
        return Answer(503, HTML, self.pages.told(
            "The program has ended",
            f"The program that holds the image has ended: {self.end}. Each change that was done is kept. Of one under way it is "
            "not known. End tools/browse by Ctrl-C and start it again.").encode())

    def _found(self, request: Request, page: str, body: bytes) -> Answer:
        given = fields(request.query)
        self.image.catch_up()
        if request.command == "GET":
            if page not in self.shown:
                raise Wrong(404, "There is no such page.")
            return self.shown[page](given)
        if page not in self.changed:
            raise Wrong(404, "There is no such form.")
        given = self._form(request, body)
        if not same(given.get("token", b"").decode("latin-1"), self.form):
            raise Wrong(403, "The form is not of this run of tools/browse. Load its page again.")
        return self.changed[page](given)

    def _form(self, request: Request, body: bytes) -> Fields:
        kind = request.header("Content-Type") or ""
        if kind.startswith("multipart/form-data"):
            return parts(body, kind)
        if kind != "application/x-www-form-urlencoded":
            raise Wrong(415, "This is no form.")
        return fields(body.decode("latin-1"), FIELDS + FILES)

    def _given(self, request: Request, body: bytes) -> Fields:
        """The fields of a request that was checked before."""
        try:
            return self._form(request, body) if request.command == "POST" else fields(request.query)
        except Wrong:
            return {}

    def _back(self, given: Fields) -> Link:
        """Where a page about a refusal leads back to: the file or the place of the form."""
        if given.get("name", b"") in self.image.index.files:
            return Link("file", {"name": given["name"], "at": given.get("at")})
        return Link("declared", {}) if given.get("to") == b"declared" or "left" in given else Link("", {"at": given.get("at")})

    def _page(self, text: str, status: int = 200) -> Answer:
        return Answer(status, HTML, text.encode())

    def _done(self, page: str, done: str, **given: bytes | int | None) -> Answer:
        return Answer(303, TEXT, b"", (("Location", self.top + address(page, done=done, **given).removeprefix("./")),))

    # Pages.

    def _look(self, given: Fields) -> View:
        return self.image.look(given.get("at") or b"/")

    def place(self, given: Fields) -> Answer:
        typed = given.get("at", b"")
        try:
            view, instead = self.image.found(typed or b"/")
        except Refused as refused:
            return self._page(self.pages.wrong_place(typed, self.image.sentence(refused, refused.command or None), self.image.meant(refused, typed)), 404)
        except NotSent:
            # It has blanks, or is too long for a line.
            meant, number = joined(typed.split()), LARGE_FORMULA if len(typed) > MAX_FORMULA else BAD_FORMULA
            return self._page(self.pages.wrong_place(typed, sentence(number), [meant] if meant else []), 404)
        return self._page(self.pages.place(view, given.get("q", b""), f"{left_out(instead)}." if instead else self._told(given)))

    def _told(self, given: Fields) -> str | None:
        """The sentence for a change that was done, and for how many files, if an address says so."""
        told = DONE.get(given.get("done", b"").decode("latin-1"))
        count = given.get("count", b"")
        return told and told.format(counted(int(count) if re.fullmatch(rb"[0-9]{1,6}", count) else 1, "file"))

    def words(self, given: Fields) -> Answer:
        return self._page(self.pages.words(self._look(given), given.get("group", b"words"), given.get("q", b""), number_in(given, "page")))

    def files(self, given: Fields) -> Answer:
        return self._page(self.pages.files(self._look(given), given.get("q", b""), number_in(given, "page")))

    def rest(self, given: Fields) -> Answer:
        return self._page(self.pages.rest(self._look(given), given.get("q", b""), number_in(given, "page")))

    def file(self, given: Fields) -> Answer:
        file, way, content = self.image.file(given.get("name", b""))
        return self._page(self.pages.file(file, way, content, place_of(given.get("at", b"/")), given.get("as") == b"text",
                                          self._told(given)))

    def download(self, given: Fields) -> Answer:
        file, _, content = self.image.file(given.get("name", b""))
        # A file's name has letters, digits and six signs, none of which is special in a header.
        return Answer(200, BYTES, content, (("Content-Disposition", f'attachment; filename="{file.name.decode()}"'),))

    def removing(self, given: Fields) -> Answer:
        if not self.can_write:
            raise Wrong(403, "Nothing is changed here: tools/browse was started without --write.")
        file, _, _ = self.image.file(given.get("name", b""))
        return self._page(self.pages.removing(file, place_of(given.get("at", b"/"))))

    def declared(self, given: Fields) -> Answer:
        return self._page(self.pages.declared(given.get("q", b""), number_in(given, "page"), self._told(given)))

    # Changes.

    def give(self, given: Fields) -> Answer:
        had = self.image.give(given.get("name", b""), given.get("word", b""))
        return self._done("file", "had" if had else "given", name=given["name"], at=given.get("at"))

    def take(self, given: Fields) -> Answer:
        has = self.image.take(given.get("name", b""), given.get("word", b""))
        return self._done("file", "still" if has else "taken", name=given["name"], at=given.get("at"))

    def rename(self, given: Fields) -> Answer:
        self.image.rename(given.get("name", b""), given.get("other", b""))
        return self._done("file", "renamed", name=given["other"], at=given.get("at"))

    def remove(self, given: Fields) -> Answer:
        self.image.remove(given.get("name", b""))
        return self._done("", "removed", at=given.get("at"))

    def tag(self, given: Fields) -> Answer:
        return self._several(given, self.image.give_all, "tagged")

    def untag(self, given: Fields) -> Answer:
        return self._several(given, self.image.take_all, "untagged")

    def _several(self, given: Fields, change: Callable[[list[bytes], bytes], Retagged], done: str) -> Answer:
        """Changes the words of the files that were chosen."""
        names = list(dict.fromkeys(given.get(CHOSEN, b"").split()))
        if not names:
            raise Wrong(409, "No file is chosen: tick some, and say a word.")
        made, back = change(names, given.get("word", b"")), place_of(given.get("at", b"/")).text
        if not made.refused:
            return self._done("", done if made.done else "unchanged", at=back, count=len(made.done))
        return Answer(409, HTML, self.pages.refused(made, Link("", {"at": back})).encode())

    def undo(self, given: Fields) -> Answer:
        self.image.undo()
        return self._done("", "undone", at=place_of(given.get("at", b"/")).text)

    def upload(self, given: Fields) -> Answer:
        name, content = given.get("name") or name_for(given.get("filename", b"")), given.get("file", b"")
        if not FILE_NAME.fullmatch(name):
            raise WrongWord(name)
        self.image.add(name, content, list(dict.fromkeys(given.get("words", b"").split())))
        return self._done("file", "added", name=name, at=given.get("at"))

    def declare(self, given: Fields) -> Answer:
        place = place_of(given.get("at", b"/"))
        if place.words is None:
            raise Wrong(409, sentence(NOT_A_PLACE, "mkdir"))
        self.image.declare(given.get("word", b""), place)
        return self._done("declared", "declared") if given.get("to") == b"declared" else self._done("", "declared", at=place.text)

    def undeclare(self, given: Fields) -> Answer:
        self.image.take_back(given.get("word", b""))
        return self._done("declared", "undeclared")

    def axiom(self, given: Fields) -> Answer:
        self.image.axiom(given.get("left", b""), given.get("right", b""))
        return self._done("declared", "axiom")

    def unaxiom(self, given: Fields) -> Answer:
        self.image.unaxiom(given.get("left", b""), given.get("right", b""))
        return self._done("declared", "unaxiom")
