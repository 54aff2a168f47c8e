"""A client that requests pages of `tools/browse`, like a browser, and the contents of a page. Only for tests and measurements."""
from __future__ import annotations

import html.parser
import http.client
import re
import subprocess
import sys
import urllib.parse
from collections.abc import Mapping, Sequence
from typing import NamedTuple

from lisfs.client import PROGRAM
from support import tool
from support.running import Running
from support.waiting import LONG

BROWSE = tool("browse")
TAGS = set("html head meta title link script body a header form label input button main footer p h1 h2 h3 div section nav ol ul li span table thead "
           "tbody tr th td dl dt dd pre article details summary code".split())


class Browsed(Running):
    """`tools/browse` over an image, with the address that it printed."""

    def __init__(self, *words: str, program: str = PROGRAM, wait: bool = True) -> None:
        super().__init__([sys.executable, BROWSE, *words], program, output=subprocess.PIPE)
        assert self.process.stdout
        self.address = self.process.stdout.readline().decode().strip()
        self.port = urllib.parse.urlsplit(self.address).port or 0
        if wait and not self.port:
            raise TimeoutError(self.ended())

    def token(self) -> str:
        """The token of the address."""
        return urllib.parse.parse_qs(urllib.parse.urlsplit(self.address).query)["token"][0]


class Link(NamedTuple):
    """A link of a page: where it leads, its text, and its label or None."""

    href: str
    text: str
    label: str | None


class Answer(NamedTuple):
    """The answer to a request, with its whole body."""

    status: int
    headers: http.client.HTTPMessage
    data: bytes


class Seen(html.parser.HTMLParser):
    """The contents of a page: its links, its forms with their fields, and its text. `wrong` is what no page may have."""

    def __init__(self, text: str) -> None:
        super().__init__()
        self.links: list[Link] = []
        self.forms: list[tuple[str, dict[str, str]]] = []
        self.wrong: list[str] = []
        self.text, self.scripts, self._is_in_link = "", 0, False
        # The files that can be chosen, and the other actions of buttons.
        self.boxes: list[tuple[str, str, str]] = []
        self.actions: list[str] = []
        self.feed(text)
        if self.scripts != 1:
            self.wrong.append(f"{self.scripts} scripts")

    def handle_starttag(self, tag: str, attrs: list[tuple[str, str | None]]) -> None:
        given = {name: value or "" for name, value in attrs}
        self.wrong += [tag] * (tag not in TAGS) + [name for name in given if name.startswith("on") or name == "style"]
        self.wrong += [value for name, value in given.items() if name in ("href", "src", "action", "formaction") and re.match(r"[a-z]+:|//", value)]
        self.scripts += tag == "script" and given.get("src") == "script.js"
        if tag == "a":
            self.links.append(Link(given["href"], "", given.get("aria-label")))
            self._is_in_link = True
        elif tag == "form":
            self.forms.append((given["action"], {}))
        elif tag == "button" and "formaction" in given:
            self.actions.append(given["formaction"])
        elif tag == "input" and given.get("type") == "checkbox":
            self.boxes.append((given["name"], given["value"], given["form"]))
        elif tag == "input" and "name" in given:
            self.forms[-1][1][given["name"]] = given.get("value", "")

    def handle_endtag(self, tag: str) -> None:
        self._is_in_link = self._is_in_link and tag != "a"

    def handle_data(self, data: str) -> None:
        self.text += data
        if self._is_in_link:
            self.links[-1] = self.links[-1]._replace(text=self.links[-1].text + data)

    def counts(self) -> dict[bytes, int]:
        """For each word of the page the number of files that it leaves, as shown."""
        told = [re.fullmatch(r"(.+), ([0-9,]+) files?", link.label) for link in self.links if link.label]
        return {found[1].encode(): int(found[2].replace(",", "")) for found in told if found}

    def form(self, action: str, **values: str) -> dict[str, str]:
        """The fields of the first form of an action in which these have these values."""
        return dict(next(fields for name, fields in self.forms if name == action and values.items() <= fields.items()))


class Visitor:
    """Sends requests to a tool as a browser does that has opened the printed address."""

    def __init__(self, browsed: Browsed) -> None:
        self.port, self.host, self.top = browsed.port, f"127.0.0.1:{browsed.port}", "/"
        self.cookie: str | None = None
        answer = self.ask("GET", browsed.address.partition(self.host)[2])
        self.cookie, self.top = answer.headers["Set-Cookie"].partition(";")[0], answer.headers["Location"]

    def ask(self, method: str, path: str, body: bytes | None = None, **headers: str | None) -> Answer:
        given = {"Host": self.host, "Cookie": self.cookie, **({"Origin": f"http://{self.host}"} if method == "POST" else {}),
                 **{name.replace("_", "-"): value for name, value in headers.items()},
                 **({} if body is None else {"Content-Length": str(len(body))})}
        connection = http.client.HTTPConnection("127.0.0.1", self.port, timeout=LONG)
        try:
            connection.putrequest(method, path, skip_host=True, skip_accept_encoding=True)
            for name, value in given.items():
                if value is not None:
                    connection.putheader(name, value)
            connection.endheaders(body)
            answer = connection.getresponse()
            return Answer(answer.status, answer.headers, answer.read())
        finally:
            connection.close()

    def get(self, page: str = "", /, **given: str | bytes | int) -> Answer:
        query = urllib.parse.urlencode({name.rstrip("_"): value for name, value in given.items()})
        return self.ask("GET", f"{self.top}{page}?{query}")

    def post(self, page: str, given: Mapping[str, str | bytes | Sequence[str]]) -> Answer:
        body = urllib.parse.urlencode(given, doseq=True).encode()
        return self.ask("POST", self.top + page, body, Content_Type="application/x-www-form-urlencoded")

    def upload(self, given: Mapping[str, str], content: bytes, filename: bytes) -> Answer:
        rows = [f'--edge\r\nContent-Disposition: form-data; name="{name}"\r\n\r\n{value}\r\n'.encode() for name, value in given.items()]
        rows.append(b'--edge\r\nContent-Disposition: form-data; name="file"; filename="%s"\r\nContent-Type: text/plain\r\n\r\n%s\r\n--edge--\r\n' %
                    (filename, content))
        return self.ask("POST", self.top + "upload", b"".join(rows), Content_Type="multipart/form-data; boundary=edge")
