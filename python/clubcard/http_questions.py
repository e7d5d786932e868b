"""What the HTTP client asks for, and how it reads the answers: a page, or the rest of a file (RFC 9110, 14)."""

import contextlib
import io
import re
import threading
from collections.abc import Callable, Iterator, Mapping
from dataclasses import dataclass
from typing import BinaryIO, Generic, TypeVar

import httpx

Said = TypeVar("Said")
_CONTENT_RANGE = re.compile(r"bytes ([0-9]{1,20})-[0-9]{1,20}/([0-9]{1,20}|\*)", re.ASCII)
_CODINGS = ("", "identity", "gzip")
"""The content codings that are read (RFC 9110, 8.4.1). Of several, one behind the other, each would multiply how much a
small body takes in memory before its limit is seen."""


class FetchError(Exception):
    """Nothing usable came from a URL. `why` is one line; `status` is the last answer's, or None where none came."""

    def __init__(self, why: str, status: int | None = None) -> None:
        super().__init__(why)
        self.why = why
        self.status = status


class TooLong(FetchError):
    """The body has more bytes than the caller takes; where it can, it asks for less."""


class Again(Exception):
    """A fault after which a retry may do; `wait` is what the server asked for, in seconds."""

    def __init__(self, fault: FetchError, wait: float | None = None) -> None:
        super().__init__(fault.why)
        self.fault = fault
        self.wait = wait


@dataclass(frozen=True)
class Response:
    """An answer: 200 with its whole body, or 304 where what the caller has is still the newest."""

    status: int
    """200, or 304 where `etag` or `modified` was given; then the body is empty."""
    body: bytes
    headers: Mapping[str, str]
    """Names are in lower case."""
    etag: str | None
    """For the next call."""
    modified: str | None
    """The Last-Modified header as it stands, for the next call."""


class Late:
    """Whether a try was given up. Nothing is done `in_time` behind that, also by a thread that still reads."""

    def __init__(self) -> None:
        self._lock, self._late = threading.Lock(), False

    def give_up(self) -> None:
        """It is too late from now on. What is being done in time is waited for."""
        with self._lock:
            self._late = True

    @contextlib.contextmanager
    def in_time(self) -> Iterator[None]:
        """Does what stands in it, or raises FetchError where it is too late."""
        with self._lock:
            if self._late:
                raise FetchError("the answer was given up")
            yield


class Question(Generic[Said]):
    """What is asked of a URL."""

    url: str

    def headers(self) -> dict[str, str]:
        """The headers of the next try."""
        raise NotImplementedError

    def read(self, response: httpx.Response, late: Late) -> Said:
        """What an answer says, which has a status below 500 that isn't 429. Raises FetchError, or Again."""
        raise NotImplementedError


@dataclass(frozen=True)
class Page(Question[Response]):
    """A whole body of at most so many bytes; with `etag` or `modified` only where there is a newer one."""

    url: str
    most_bytes: int
    etag: str | None
    modified: str | None

    def headers(self) -> dict[str, str]:
        """What makes it a question for something newer. What isn't ASCII can't be sent, and isn't."""
        given = {"If-None-Match": self.etag, "If-Modified-Since": self.modified}
        return {name: value for name, value in given.items() if value is not None and value.isascii()}

    def read(self, response: httpx.Response, late: Late) -> Response:
        """The body, by the status."""
        status, headers = response.status_code, response.headers
        etag, modified = headers.get("etag"), headers.get("last-modified")
        if status == 304 and self.headers():
            return Response(304, b"", dict(headers), etag or self.etag, modified or self.modified)
        if status != 200:
            raise FetchError(f"status {status}", status)
        return Response(200, self._body(response, late), dict(headers), etag, modified)

    def _body(self, response: httpx.Response, late: Late) -> bytes:
        """The whole body, where it has at most so many bytes."""
        too_long = TooLong(f"the body is longer than {self.most_bytes} bytes")
        length, coding = (response.headers.get(name, "").strip() for name in ("content-length", "content-encoding"))
        if coding.lower() not in _CODINGS:
            raise FetchError(f"the body is encoded as {coding[:40]!r}, and gzip alone was asked for", 200)
        if length.isdecimal() and not coding and int(length) > self.most_bytes:
            raise too_long
        body = io.BytesIO()
        for chunk in response.iter_bytes():
            with late.in_time():
                body.write(chunk)
            if body.tell() > self.most_bytes:
                raise too_long
        return body.getvalue()


@dataclass(frozen=True)
class Rest(Question[None]):
    """What a file lacks of a body that never changes and has `length` bytes. What comes is written behind the file's
    end, also of a try that fails, so that the next one goes on there. `told` is called with how many bytes came."""

    url: str
    file: BinaryIO
    length: int
    told: Callable[[int], None]

    def _size(self) -> int:
        return self.file.seek(0, 2)

    def headers(self) -> dict[str, str]:
        """The bytes that are wanted (RFC 9110, 14.2), as they stand in the body."""
        size = self._size()
        wanted = {"Range": f"bytes={size}-"} if size else {}
        return {"Accept-Encoding": "identity", **wanted}

    def read(self, response: httpx.Response, late: Late) -> None:
        """Writes what comes. A server may answer with the whole body instead; then the file begins anew."""
        if "content-encoding" in response.headers:
            raise FetchError("the body is encoded, and it was asked for as it stands", response.status_code)
        begin = self._begin(response)
        with late.in_time():
            self.file.seek(begin)
            self.file.truncate()
        for chunk in response.iter_raw():
            with late.in_time():
                if self._size() + len(chunk) > self.length:
                    raise TooLong(f"the body is longer than {self.length} bytes")
                self.file.write(chunk)
                self.file.flush()
            self.told(len(chunk))
        if self._size() < self.length:
            raise Again(FetchError(f"the body ends at byte {self._size()} of {self.length}"))

    def _begin(self, response: httpx.Response) -> int:
        """Where in the file the first byte of the body belongs."""
        status, size = response.status_code, self._size()
        if status == 200:
            return 0
        if status != 206 or not size:
            raise FetchError(f"status {status}", status)
        found = _CONTENT_RANGE.fullmatch(response.headers.get("content-range", ""))
        if found is None or int(found[1]) != size or found[2] not in ("*", str(self.length)):
            raise FetchError(f"the answer isn't of the bytes from {size} of {self.length} on", status)
        return size
