"""Asking logs for pages of entries, several side by side, within a bound on memory."""

import threading
from collections import deque
from collections.abc import Callable, Generator
from concurrent.futures import Future, ThreadPoolExecutor
from typing import NamedTuple

from ..http import FetchError
from .heads import LogFault
from .sources import RawEntry, Source

AHEAD = 6
"""How many pages of one log are asked for, or wait to be read."""
MOST_MORE = 10
"""How many pages all logs together ask for, or have waiting, beside one of each log."""
MOST_OCTETS = 3 << 20
"""How many bytes of entries a page has at most, but for a single entry that has more."""


class Page(NamedTuple):
    """Entries that follow one another, and why the rest of the page didn't come, where it didn't."""

    entries: list[RawEntry]
    fault: FetchError | LogFault | None


class Stopped(Exception):
    """The run ends, since another log's step failed for a reason that isn't the log's."""


class Pages:
    """Asks for pages, for all logs of a run. Each log has threads of its own, so that a slow one holds up no other.
    What is asked for at once has a bound over all logs, which doesn't count one page of each."""

    def __init__(self, has_time: Callable[[], bool]) -> None:
        """`has_time` says whether the run goes on asking."""
        self.has_time = has_time
        self._more = threading.Semaphore(MOST_MORE)
        self._stopped = threading.Event()

    def stop(self) -> None:
        """Makes each `read` that goes on end with Stopped, at its next page."""
        self._stopped.set()

    def read(self, source: Source, start: int, end: int, size: int) -> Generator[list[RawEntry], None, None]:
        """The entries from `start` to before `end` of a log whose tree has `size` entries, in pages, in their order.
        Raises FetchError and LogFault behind the last entry that comes."""
        threads = ThreadPoolExecutor(AHEAD, thread_name_prefix="page")
        asked: deque[Future[Page]] = deque()
        try:
            while start < end or asked:
                while start < end and self._may_ask(len(asked)):
                    stop = min(end, (start // source.page + 1) * source.page)
                    asked.append(threads.submit(self._page, source, start, stop, size))
                    start = stop
                page = asked[0].result()
                if self._stopped.is_set():
                    raise Stopped
                asked.popleft()
                self._answered(len(asked))
                if page.entries:
                    yield page.entries
                if page.fault is not None:
                    raise page.fault
        finally:
            for left in range(len(asked)):
                self._answered(left)
            # A page that is still asked for ends by itself; nobody waits for it.
            threads.shutdown(wait=False, cancel_futures=True)

    def _may_ask(self, asked: int) -> bool:
        """Whether a log that asks for so many pages may ask for another one."""
        return asked == 0 or (asked < AHEAD and self._more.acquire(blocking=False))

    def _answered(self, left: int) -> None:
        """Notes that a log has one page fewer; of its last one nothing was noted."""
        if left:
            self._more.release()

    def _page(self, source: Source, start: int, end: int, size: int) -> Page:
        """A page of entries. A log that answers fewer at once, or very long ones, has smaller pages from then on."""
        entries: list[RawEntry] = []
        most = 0
        while start + len(entries) < end:
            part = self._part(source, start + len(entries), end, size)
            entries += part.entries
            most = max(most, len(part.entries))
            if part.fault is not None:
                return Page(entries, part.fault)
        octets = sum(len(entry.leaf) + len(entry.extra) for entry in entries)
        if octets > MOST_OCTETS:
            most = max(1, min(most, len(entries) * MOST_OCTETS // octets))
        if most < end - start:
            source.page = min(source.page, most)
        return Page(entries, None)

    def _part(self, source: Source, start: int, end: int, size: int) -> Page:
        """What a log answers at once."""
        if self._stopped.is_set() or not self.has_time():
            return Page([], FetchError("the time of this run is over; the next one goes on"))
        try:
            return Page(source.entries(start, end, size), None)
        except (FetchError, LogFault) as fault:
            return Page([], fault)
