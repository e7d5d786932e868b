"""The HTTP client against a real server on loopback: retries, limits, redirects, conditions."""

import gzip
import threading
import time
from collections.abc import Callable, Iterator
from email.utils import formatdate
from http.server import BaseHTTPRequestHandler, ThreadingHTTPServer
from pathlib import Path

import pytest

from clubcard.http import BACKOFF, Client, FetchError
from clubcard.version import version

Answer = Callable[["Handler"], None]


class Handler(BaseHTTPRequestHandler):
    """Answers each path by the next of its answers; the last one goes on."""

    protocol_version = "HTTP/1.1"
    server: "Server"

    def do_GET(self) -> None:  # pylint: disable=invalid-name
        self.server.asked.append((self.path, dict(self.headers.items())))
        answers = self.server.answers[self.path]
        (answers.pop(0) if len(answers) > 1 else answers[0])(self)

    def log_message(self, format: str, *args: object) -> None:  # pylint: disable=redefined-builtin
        """Says nothing."""

    def say(self, status: int, body: bytes = b"", **headers: str) -> None:
        """A whole answer."""
        self.send_response(status)
        for name, value in {"Content-Length": str(len(body)), **headers}.items():
            self.send_header(name.replace("_", "-"), value)
        self.end_headers()
        self.wfile.write(body)


class Server(ThreadingHTTPServer):
    """A server whose answers the test gives."""

    daemon_threads = True

    def __init__(self) -> None:
        super().__init__(("127.0.0.1", 0), Handler)
        self.answers: dict[str, list[Answer]] = {}
        self.asked: list[tuple[str, dict[str, str]]] = []

    def url(self, path: str, *answers: Answer) -> str:
        """The URL of a path that is answered so."""
        if answers:
            self.answers[path] = list(answers)
        return f"http://127.0.0.1:{self.server_port}{path}"


def says(status: int, body: bytes = b"", **headers: str) -> Answer:
    """An answer of this status, body and headers."""
    return lambda handler: handler.say(status, body, **headers)


def raw(octets: bytes) -> Answer:
    """An answer of exactly these bytes, and the end of the connection."""

    def answer(handler: Handler) -> None:
        handler.wfile.write(octets)
        handler.close_connection = True

    return answer


def drip(head: bytes, more: bytes) -> Answer:
    """An answer that goes on, a byte at a time, until the connection ends."""

    def answer(handler: Handler) -> None:
        handler.close_connection = True
        try:
            handler.wfile.write(head)
            for _ in range(500):
                handler.wfile.write(more)
                time.sleep(0.02)
        except OSError:
            pass

    return answer


@pytest.fixture
def server() -> Iterator[Server]:
    """A server on loopback."""
    made = Server()
    thread = threading.Thread(target=made.serve_forever, kwargs={"poll_interval": 0.02})
    thread.start()
    yield made
    made.shutdown()
    made.server_close()
    thread.join()


class Waits:
    """Notes what is waited for and doesn't wait."""

    def __init__(self) -> None:
        self.seconds: list[float] = []

    def __call__(self, seconds: float) -> None:
        self.seconds.append(seconds)


@pytest.fixture
def waits() -> Waits:
    """What the client waited for."""
    return Waits()


@pytest.fixture
def client(waits: Waits) -> Iterator[Client]:
    """A client that doesn't wait."""
    with Client(sleep=waits, clock=lambda: 1_000_000.0) as made:
        yield made


def test_body_and_headers(server: Server, client: Client) -> None:
    url = server.url("/a", says(200, b"body", ETag='"1"', Last_Modified="Thu, 01 Jan 1970 00:00:00 GMT"))
    answer = client.get(url, 100)
    assert (answer.status, answer.body, answer.etag) == (200, b"body", '"1"')
    assert answer.modified == "Thu, 01 Jan 1970 00:00:00 GMT"
    assert answer.headers["etag"] == '"1"'
    assert server.asked[0][1]["User-Agent"] == f"clubcard-publish/{version()}"


def test_conditions_that_cannot_be_sent(server: Server, client: Client) -> None:
    """An ETag may have bytes that aren't ASCII (RFC 9110, 8.8.3): the next call asks without it."""
    url = server.url("/a", says(200, b"body", ETag='"\xfc"'))
    answer = client.get(url, 100)
    assert answer.etag == '"\xfc"'
    assert client.get(url, 100, answer.etag, answer.modified).body == b"body"
    assert "If-None-Match" not in server.asked[1][1]


def test_not_modified(server: Server, client: Client) -> None:
    url = server.url("/a", says(304))
    answer = client.get(url, 100, etag='"1"', modified="then")
    assert (answer.status, answer.body, answer.etag, answer.modified) == (304, b"", '"1"', "then")
    assert server.asked[0][1]["If-None-Match"] == '"1"'
    assert server.asked[0][1]["If-Modified-Since"] == "then"


def test_not_modified_unasked(server: Server, client: Client) -> None:
    with pytest.raises(FetchError, match="status 304"):
        client.get(server.url("/a", says(304)), 100)


@pytest.mark.parametrize("status", [500, 502, 503, 429])
def test_retried(server: Server, client: Client, waits: Waits, status: int) -> None:
    url = server.url("/a", says(status), says(status), says(200, b"body"))
    assert client.get(url, 100).body == b"body"
    assert waits.seconds == list(BACKOFF)


def test_retries_end(server: Server, client: Client) -> None:
    with pytest.raises(FetchError, match="status 503") as caught:
        client.get(server.url("/a", says(503)), 100)
    assert caught.value.status == 503
    assert len(server.asked) == 3


@pytest.mark.parametrize(
    ("after", "wait"),
    [
        ("7", 7.0),
        ("3600", 60.0),
        (formatdate(1_000_009, usegmt=True), 9.0),
        (formatdate(0, usegmt=True), 0.0),
        ("soon", BACKOFF[0]),
        ("-5", BACKOFF[0]),
        ("9" * 5000, BACKOFF[0]),
    ],
)
def test_retry_after(server: Server, client: Client, waits: Waits, after: str, wait: float) -> None:
    url = server.url("/a", says(429, Retry_After=after), says(200, b"body"))
    assert client.get(url, 100).body == b"body"
    assert waits.seconds == [wait]


@pytest.mark.parametrize("status", [204, 206, 400, 403, 404, 410])
def test_other_statuses(server: Server, client: Client, status: int) -> None:
    with pytest.raises(FetchError, match=f"status {status}") as caught:
        client.get(server.url("/a", says(status)), 100)
    assert caught.value.status == status
    assert len(server.asked) == 1


@pytest.mark.parametrize(
    "octets",
    [
        b"\x00\x01garbage\r\n\r\n",
        b"HTTP/1.1 200 OK\r\nContent-Length: 100\r\n\r\ncut",
        b"HTTP/1.1 200 OK\r\nTransfer-Encoding: chunked\r\n\r\n5\r\nab",
        b"HTTP/1.1 200 OK\r\nContent-Length: x\r\n\r\n",
        b"HTTP/1.1 200 OK\r\nX: " + b"y" * 200_000,
        b"",
    ],
)
def test_broken_answers(server: Server, client: Client, octets: bytes) -> None:
    with pytest.raises(FetchError):
        client.get(server.url("/a", raw(octets)), 1000)
    assert len(server.asked) == 3


def test_broken_once(server: Server, client: Client) -> None:
    url = server.url("/a", raw(b"HTTP/1.1 200 OK\r\nContent-Length: 100\r\n\r\ncut"), says(200, b"whole"))
    assert client.get(url, 100).body == b"whole"


def test_too_long_by_its_length(server: Server, client: Client) -> None:
    url = server.url("/a", raw(b"HTTP/1.1 200 OK\r\nContent-Length: 11\r\n\r\n"))
    with pytest.raises(FetchError, match="longer than 10 bytes"):
        client.get(url, 10)
    assert len(server.asked) == 1


def test_too_long_without_length(server: Server, client: Client) -> None:
    url = server.url("/a", raw(b"HTTP/1.1 200 OK\r\nConnection: close\r\n\r\n" + b"x" * 11))
    with pytest.raises(FetchError, match="longer than 10 bytes"):
        client.get(url, 10)
    assert client.get(url, 11).body == b"x" * 11


def test_compressed(server: Server, client: Client) -> None:
    url = server.url("/a", says(200, gzip.compress(b"x" * 1000), Content_Encoding="gzip"))
    assert client.get(url, 1000).body == b"x" * 1000
    with pytest.raises(FetchError, match="longer than 999 bytes"):
        client.get(url, 999)


@pytest.mark.parametrize("coding", ["gzip, gzip", "GZIP,identity", "br", "deflate", "x-unknown", "g" * 99])
def test_other_codings(server: Server, client: Client, coding: str) -> None:
    """Only one gzip is decoded: of two, a body of a few hundred bytes would take gigabytes."""
    body = gzip.compress(gzip.compress(b"x" * 1000))
    with pytest.raises(FetchError, match="is encoded as .* gzip alone was asked for") as caught:
        client.get(server.url("/a", says(200, body, Content_Encoding=coding)), 10_000)
    assert caught.value.status == 200 and len(caught.value.why) < 120
    assert len(server.asked) == 1


@pytest.mark.parametrize("coding", ["", "identity", " GZip "])
def test_own_codings(server: Server, client: Client, coding: str) -> None:
    body = gzip.compress(b"body") if coding.strip() == "GZip" else b"body"
    assert client.get(server.url("/a", says(200, body, Content_Encoding=coding)), 100).body == b"body"


def test_wrongly_compressed(server: Server, client: Client) -> None:
    with pytest.raises(FetchError, match="DecodingError"):
        client.get(server.url("/a", says(200, b"no gzip", Content_Encoding="gzip")), 1000)


def test_redirects(server: Server, client: Client) -> None:
    for i in range(5):
        server.url(f"/{i}", says(302, b"x" * 10, Location=f"/{i + 1}"))
    server.url("/5", says(200, b"body"))
    assert client.get(server.url("/0"), 100).body == b"body"
    server.url("/5", says(301, Location="/6"))
    server.url("/6", says(200, b"body"))
    with pytest.raises(FetchError, match="more than 5 redirects"):
        client.get(server.url("/0"), 100)


@pytest.mark.parametrize("target", ["file:///etc/passwd", "ftp://127.0.0.1/a", "http://[", "gopher:x"])
def test_redirect_elsewhere(server: Server, client: Client, target: str) -> None:
    with pytest.raises(FetchError):
        client.get(server.url("/a", says(302, Location=target)), 100)


def test_no_connection(client: Client, waits: Waits) -> None:
    with pytest.raises(FetchError, match="ConnectError") as caught:
        client.get("http://127.0.0.1:1/", 100)
    assert caught.value.status is None
    assert waits.seconds == list(BACKOFF)


@pytest.mark.parametrize("url", ["file:///etc/passwd", "", "http://", "http://[::1", "http://a b/", "x"])
def test_no_url(client: Client, url: str) -> None:
    with pytest.raises(FetchError):
        client.get(url, 100)


def rest_of(client: Client, url: str, path: Path, length: int) -> bytes:
    """What a file holds once its rest was got."""
    with open(path, "ab+") as file:
        try:
            client.get_rest(url, file, length, lambda count: None)
        finally:
            file.close()
    return path.read_bytes()


def part(begin: int, body: bytes, total: object) -> Answer:
    """An answer with a part of a body, from an offset on."""
    return says(206, body, Content_Range=f"bytes {begin}-{begin + len(body) - 1}/{total}")


def test_rest(server: Server, client: Client, tmp_path: Path) -> None:
    """All of a body, what a file lacks of it, and what it lacks of a server that has no ranges."""
    url = server.url("/a", says(200, b"0123456789"), part(4, b"456789", 10), part(4, b"456789", "*"))
    assert rest_of(client, url, tmp_path / "0", 10) == b"0123456789"
    for name in "12":
        (tmp_path / name).write_bytes(b"abcd")
        assert rest_of(client, url, tmp_path / name, 10) == b"abcd456789"
    server.url("/a", says(200, b"0123456789"))
    (tmp_path / "3").write_bytes(b"abcd")
    assert rest_of(client, url, tmp_path / "3", 10) == b"0123456789"
    asked = [(headers.get("Range"), headers["Accept-Encoding"]) for _, headers in server.asked]
    assert asked == [(None, "identity"), *[("bytes=4-", "identity")] * 3]


def test_rest_that_is_cut(server: Server, client: Client, waits: Waits, tmp_path: Path) -> None:
    """Each retry goes on; what came stays in the file where they fail."""
    head = b"HTTP/1.1 200 OK\r\nContent-Length: 10\r\n\r\n0123"
    url = server.url("/a", raw(head), says(503), part(4, b"456789", 10))
    assert rest_of(client, url, tmp_path / "0", 10) == b"0123456789"
    assert waits.seconds == list(BACKOFF)
    server.url("/a", raw(head), says(503))
    with pytest.raises(FetchError, match="503"):
        rest_of(client, url, tmp_path / "1", 10)
    assert (tmp_path / "1").read_bytes() == b"0123"


@pytest.mark.parametrize(
    ("answer", "why"),
    [
        (part(3, b"3456789", 10), "isn't of the bytes from 4 of 10 on"),
        (part(4, b"456789", 11), "isn't of the bytes from 4 of 10 on"),
        (says(206, b"456789"), "isn't of the bytes from 4 of 10 on"),
        (part(4, b"456789x", 10), "longer than 10 bytes"),
        (says(200, b"012345678"), "ends at byte 9 of 10"),
        (says(200, b"x", Content_Encoding="gzip"), "is encoded"),
        (says(416), "status 416"),
        (says(304), "status 304"),
        (says(404), "status 404"),
    ],
)
def test_rest_that_is_none(server: Server, client: Client, tmp_path: Path, answer: Answer, why: str) -> None:
    (tmp_path / "file").write_bytes(b"0123")
    with pytest.raises(FetchError, match=why):
        rest_of(client, server.url("/a", answer), tmp_path / "file", 10)


def test_rest_that_is_late(server: Server, waits: Waits, tmp_path: Path) -> None:
    """Nothing is written once it was given up."""
    url = server.url("/a", drip(b"HTTP/1.1 200 OK\r\n\r\n", b"x"))
    with Client(longest=0.2, sleep=waits) as client, open(tmp_path / "file", "ab+") as file:
        with pytest.raises(FetchError, match="longer than 0.2 s"):
            client.get_rest(url, file, 10_000, lambda count: None)
        size = file.seek(0, 2)
        server.shutdown()
        assert file.seek(0, 2) == size < 500


def test_rest_on_a_full_disk(server: Server, client: Client) -> None:
    with open("/dev/full", "ab", buffering=0) as file, pytest.raises(OSError):
        client.get_rest(server.url("/a", says(200, b"0123456789")), file, 10, lambda count: None)


def test_silent_server(server: Server, waits: Waits) -> None:
    done = threading.Event()

    def answer(handler: Handler) -> None:
        done.wait(10)

    url = server.url("/a", answer)
    with Client(wait=0.05, sleep=waits) as client, pytest.raises(FetchError, match="ReadTimeout"):
        client.get(url, 100)
    done.set()


@pytest.mark.parametrize("head", [b"HTTP/1.1 200 OK\r\nX: ", b"HTTP/1.1 200 OK\r\n\r\n"])
def test_dripping_server(server: Server, waits: Waits, head: bytes) -> None:
    url = server.url("/a", drip(head, b"x"))
    with Client(longest=0.2, sleep=waits) as client, pytest.raises(FetchError, match="longer than 0.2 s"):
        client.get(url, 10_000)


def test_environment_is_no_proxy(server: Server, monkeypatch: pytest.MonkeyPatch) -> None:
    monkeypatch.setenv("http_proxy", "http://127.0.0.1:1")
    monkeypatch.setenv("ALL_PROXY", "http://127.0.0.1:1")
    with Client() as client:
        assert client.get(server.url("/a", says(200, b"body")), 100).body == b"body"


def test_no_cookies(server: Server, client: Client) -> None:
    url = server.url("/a", says(200, b"body", Set_Cookie="a=b"))
    client.get(url, 100)
    client.get(url, 100)
    assert "Cookie" not in server.asked[1][1]


def test_side_by_side(server: Server, client: Client) -> None:
    meet = threading.Barrier(8)

    def answer(handler: Handler) -> None:
        meet.wait(10)
        handler.say(200, b"body")

    url = server.url("/a", answer)
    threads = [threading.Thread(target=client.get, args=(url, 100)) for _ in range(8)]
    for thread in threads:
        thread.start()
    for thread in threads:
        thread.join()
    assert not meet.broken
