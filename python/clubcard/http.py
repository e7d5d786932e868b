"""The HTTP client: one pool of connections for all threads, limits on time and bytes, and retries.

Neither proxies nor cookies nor passwords are taken from the environment.
"""

import threading
import time
from collections.abc import Callable
from concurrent.futures import Future
from email.utils import parsedate_to_datetime
from http.cookiejar import CookieJar, DefaultCookiePolicy
from typing import BinaryIO

import httpx

from .http_questions import Again, FetchError, Late, Page, Question, Response, Rest, Said, TooLong
from .version import version

__all__ = ["BACKOFF", "Client", "FetchError", "MIB", "MOST_CRL", "MOST_WAIT", "Response", "TooLong"]

MIB = 1 << 20
MOST_CRL = 64 * MIB
"""The most bytes that a CRL may have."""
BACKOFF = (1.0, 4.0)
"""How many seconds are waited for before each retry, where the server doesn't say."""
MOST_WAIT = 60.0
"""The most seconds for which a Retry-After is waited for."""
MOST_REDIRECTS = 5


class Client:
    """A client that many threads use at once."""

    def __init__(
        self,
        *,
        wait: float = 30.0,
        longest: float = 600.0,
        sleep: Callable[[float], None] = time.sleep,
        clock: Callable[[], float] = time.time,
        agent: str = "clubcard-publish",
    ) -> None:
        """`wait` is the limit in seconds on each connect, read and write; `longest` that on a whole answer. `sleep`
        waits for seconds, and `clock` says the seconds since 1970 UTC (for a Retry-After that is a date). `agent` is
        the program's name, which servers are told."""
        self._longest, self._sleep, self._clock = longest, sleep, clock
        self._client = httpx.Client(
            headers={"User-Agent": f"{agent}/{version()}", "Accept": "*/*", "Accept-Encoding": "gzip"},
            timeout=httpx.Timeout(wait, pool=longest),
            limits=httpx.Limits(max_connections=64, max_keepalive_connections=32),
            cookies=CookieJar(DefaultCookiePolicy(allowed_domains=())),
            follow_redirects=False,
            trust_env=False,
        )

    def get(self, url: str, most_bytes: int, etag: str | None = None, modified: str | None = None) -> Response:
        """Gets a URL. With `etag` or `modified` of an earlier answer it asks whether there is a newer one.

        Two retries follow a fault of the connection, a status of 5xx and 429; a Retry-After is waited for up to 60 s.
        At most five redirects are followed, to http and https. Raises FetchError for each status but 200 and 304, for
        a body of more than `most_bytes`, and where the retries fail.
        """
        return self._tried(Page(url, most_bytes, etag, modified))

    def get_rest(self, url: str, file: BinaryIO, length: int, told: Callable[[int], None]) -> None:
        """Gets what a file lacks of a body that never changes and has `length` bytes, and writes it behind the file's
        end. `told` is called with how many bytes came, by another thread.

        Retries and redirects are those of `get`; each retry, and each call, goes on where the one before stopped.
        Raises FetchError, also for a body that has more or fewer bytes, and OSError where the file can't be written.
        """
        self._tried(Rest(url, file, length, told))

    def _tried(self, question: Question[Said]) -> Said:
        """What comes of a question and its retries."""
        for backoff in BACKOFF:
            try:
                return self._in_time(question)
            except Again as again:
                self._sleep(backoff if again.wait is None else again.wait)
        try:
            return self._in_time(question)
        except Again as again:
            raise again.fault from again

    def close(self) -> None:
        """Closes the pool."""
        self._client.close()

    def __enter__(self) -> "Client":
        return self

    def __exit__(self, *_: object) -> None:
        self.close()

    def _in_time(self, question: Question[Said]) -> Said:
        """One try, which is given up where it takes too long. It has a thread of its own, since a name that isn't
        found for a long time, or headers that come byte by byte, end by no limit on a single read."""
        future: Future[Said] = Future()
        late = Late()

        def work() -> None:
            try:
                future.set_result(self._once(question, late))
            except BaseException as fault:
                future.set_exception(fault)

        threading.Thread(target=work, daemon=True).start()
        try:
            return future.result(self._longest)
        except TimeoutError:
            late.give_up()
            raise FetchError(f"the answer took longer than {self._longest:g} s") from None

    def _once(self, question: Question[Said], late: Late) -> Said:
        """One try. Raises FetchError, or Again where a retry may do."""
        try:
            return self._redirected(question, late)
        except (httpx.UnsupportedProtocol, httpx.LocalProtocolError) as fault:
            raise FetchError(_said(fault)) from fault
        except httpx.TransportError as fault:
            raise Again(FetchError(_said(fault))) from fault
        except (httpx.HTTPError, httpx.InvalidURL, httpx.StreamError, ValueError) as fault:
            raise FetchError(_said(fault)) from fault

    def _redirected(self, question: Question[Said], late: Late) -> Said:
        """The answer behind at most so many redirects."""
        request = self._client.build_request("GET", question.url, headers=question.headers())
        for _ in range(MOST_REDIRECTS + 1):
            response = self._client.send(request, stream=True)
            try:
                if response.next_request is None:
                    return self._read(response, question, late)
                request = response.next_request
            finally:
                response.close()
        raise FetchError(f"more than {MOST_REDIRECTS} redirects")

    def _read(self, response: httpx.Response, question: Question[Said], late: Late) -> Said:
        """What an answer says."""
        status = response.status_code
        if status == 429 or status >= 500:
            raise Again(FetchError(f"status {status}", status), self._asked(response.headers.get("retry-after")))
        return question.read(response, late)

    def _asked(self, after: str | None) -> float | None:
        """For how many seconds a Retry-After (RFC 9110, 10.2.3) is waited for, or None where it says nothing."""
        if after is None:
            return None
        try:
            seconds = int(after) if after.isdecimal() else parsedate_to_datetime(after).timestamp() - self._clock()
        except (ValueError, TypeError, OverflowError):
            return None
        return min(max(float(seconds), 0.0), MOST_WAIT)


def _said(fault: Exception) -> str:
    """What a fault of the library says, in one line."""
    text = " ".join(str(fault).split())
    kind = type(fault).__name__
    return f"{kind}: {text}" if text else kind
