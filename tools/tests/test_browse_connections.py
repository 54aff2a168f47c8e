"""`tools/browse`: how many clients are served at once. Slow ones, and very many, delay nobody. No image is needed here."""
import contextlib
import os
import socket
import threading

import pytest

from lisfs.web import connections, site
from support.waiting import LONG, until
from support.web import connected, raw, whole


class Still:
    """A site that answers requests, without an image."""
    can_write = False

    def __init__(self):
        self.asked = []

    def admitted(self, head):
        if b"wrong" in head:
            raise site.Wrong(403, "No.")
        return head, 5 if b"body" in head else 0

    def refused(self, wrong):
        return site.Answer(wrong.status, site.TEXT, b"no")

    def answer(self, request, body):
        self.asked.append(request)
        return site.Answer(200, site.TEXT, bytes(30_000_000) if b"large" in request else body or b"x")


@pytest.fixture
def serving(request, monkeypatch):
    """A server of such a site in a thread, and where it listens. It accepts as many connections as the mark `most` says."""
    for name in ("REQUEST", "ANSWER", "END"):
        monkeypatch.setattr(connections, name, LONG)
    monkeypatch.setattr(connections, "MOST", getattr(request, "param", connections.MOST))
    come, sent = os.pipe()
    with socket.create_server(("127.0.0.1", 0)) as listener:
        server = connections.Connections(Still(), listener)
        server.watch(come, lambda: server.end(come))
        thread = threading.Thread(target=server.serve)
        thread.start()
        try:
            yield server, listener.getsockname()[1]
        finally:
            os.write(sent, b"x")
            thread.join(LONG)
            os.close(come)
            os.close(sent)


@pytest.mark.parametrize("data", (b"", b"GET / HTTP/1.1\r\n", b"body\r\n\r\nab"), ids=("nothing", "half a head", "half a body"))
def test_half_a_request_is_closed(serving, monkeypatch, data):
    monkeypatch.setattr(connections, "REQUEST", 0.2)
    assert raw(serving[1], data) == b""


@pytest.mark.parametrize("data, wanted", ((b"body\r\n\r\nabcdefg", b"abcde"), (b"x\r\n\r\n", b"x")), ids=("a body", "all"))
def test_a_whole_request_is_answered(serving, data, wanted):
    assert raw(serving[1], data).rpartition(b"\r\n\r\n")[2] == wanted


def test_who_takes_no_answer_is_closed(serving, monkeypatch):
    server, port = serving
    monkeypatch.setattr(connections, "ANSWER", 0.2)
    monkeypatch.setattr(connections, "END", 0.2)
    with connected(port, b"large\r\n\r\n"):
        assert until(lambda: len(server.site.asked) == 1 and not server.open), (server.site.asked, server.open)


def is_of(known, client):
    """Whether a connection of the server is this client's. It may be closed meanwhile."""
    with contextlib.suppress(OSError):
        return known.socket.getpeername() == client.getsockname()
    return False


@pytest.mark.parametrize("serving", (8,), indirect=True)
def test_crowded(serving):
    """If all connections are taken, one without an admitted request makes room, and no older one that has one."""
    server, port = serving
    with contextlib.ExitStack() as opened:
        def taken_in(data, wanted=lambda connection: True):
            """A connection that the server has accepted in the expected state."""
            one = opened.enter_context(connected(port, data))
            assert until(lambda: any(is_of(known, one) and wanted(known) for known in list(server.open.values()))), data
            return one

        slow = taken_in(b"body\r\n\r\nab", lambda connection: len(connection.given) == 2)
        taking = taken_in(b"large\r\n\r\n", lambda connection: connection.unsent)
        for data in [b"", b"GET / HTTP", b"wrong\r\n\r\n"] * 8:
            taken_in(data)
            assert len(server.open) <= 8
        # Other clients; a slow request that was admitted before them; an answer that is read slowly.
        assert raw(port, b"x\r\n\r\n").rpartition(b"\r\n\r\n")[2] == b"x"
        slow.sendall(b"cde")
        assert whole(slow).rpartition(b"\r\n\r\n")[2] == b"abcde"
        assert len(whole(taking).partition(b"\r\n\r\n")[2]) == 30_000_000
