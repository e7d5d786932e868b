"""Fetching from all logs of CONFIG, side by side: new tree heads and new entries, verified, into the spool."""

import time
from collections.abc import Callable, Mapping
from concurrent.futures import Future, ThreadPoolExecutor, wait
from dataclasses import dataclass

from ..http import FetchError
from ..progress import Progress
from .alarms import Alarms
from .config import Config, Log
from .following import Follower
from .heads import LogFault, LogKey
from .paging import Pages, Stopped
from .points import tell_unknown
from .rfc6962 import Rfc6962
from .sources import Client, Source
from .spool import LogRow, named_log
from .state import State
from .tiles import Tiles

LOGS = 16
"""How many logs are followed at once."""
LONGEST = 3600.0
"""For how many seconds a run takes entries; it stops between two batches, and the next run goes on there."""


@dataclass(frozen=True)
class LogFetch:
    """What became of a log in this run."""

    log: bytes
    """The log's id (RFC 6962, 3.2)."""
    followed: bool
    """Whether all entries of its newest tree head are taken. One that is as old as the known one, or older, is none."""
    entries: int
    """How many entries were taken."""
    why: str | None
    """Why the log isn't followed, where it isn't."""


@dataclass(frozen=True)
class _Run:
    """What the steps of one run share."""

    config: Config
    state: State
    moment: int
    client: Client
    progress: Progress
    pages: Pages
    rows: Mapping[bytes, LogRow]
    """What is known of each log, by its id."""

    def fetch(self, log: Log) -> LogFetch:
        """Follows one log. What fails for another reason than the log's stops the others."""
        try:
            return self._follow(log)
        except BaseException:
            self.pages.stop()
            raise

    def _follow(self, log: Log) -> LogFetch:
        row, source = self.rows[log.id], source_of(log, self.client)
        follower = Follower(self.state, row, source, self.pages, self.progress)
        try:
            why = follower.follow(self.moment)
        except (LogFault, FetchError) as fault:
            why = str(fault)
        except (ArithmeticError, LookupError, TypeError, ValueError) as fault:
            # What nobody foresaw of one log's bytes stops no other log.
            why = f"its answer can't be read ({type(fault).__name__}: {fault})"
        return LogFetch(log.id, why is None, follower.row.taken - row.taken, why)

    def fetch_all(self) -> list[LogFetch]:
        """Follows all logs of CONFIG, in its order."""
        with ThreadPoolExecutor(LOGS, thread_name_prefix="log") as threads:
            try:
                steps = [threads.submit(self.fetch, log) for log in self.config.logs]
                wait(steps)
            finally:
                self.pages.stop()
        # Of faults, that one is raised which stopped the others.
        for step in sorted(steps, key=_was_stopped):
            step.result()
        return [step.result() for step in steps]


def _was_stopped(step: "Future[LogFetch]") -> bool:
    return isinstance(step.exception(), Stopped)


def source_of(log: Log, client: Client) -> Source:
    """What asks a log, by its kind."""
    key = LogKey.read(log.key)
    if log.kind == "rfc6962":
        return Rfc6962(client, log.url, key)
    return Tiles(client, log.url, log.origin, key)


def fetch_logs(
    config: Config,
    state: State,
    moment: int,
    client: Client,
    alarms: Alarms,
    progress: Progress,
    clock: Callable[[], float] = time.monotonic,
) -> dict[bytes, LogFetch]:
    """Takes what is new in each log of CONFIG, by its id. `moment` is the run's, in milliseconds since 1970; `clock`
    counts seconds.

    A log's new tree head has a verified signature, isn't ahead of the moment by more than a minute, and continues the
    one before. Its entries are taken in batches; each is verified against the tree head before it is kept. Of a log
    that fails nothing is kept but the batches that were verified before, and an alarm says why. A tree head that is as
    old as the known one, or older, is no fault.
    """
    end = clock() + LONGEST
    rows = {log.id: named_log(state, log) for log in config.logs}
    found = _Run(config, state, moment, client, progress, Pages(lambda: clock() < end), rows).fetch_all()
    for log, fetch in zip(config.logs, found):
        if fetch.why is not None:
            alarms.add("log", f"{log.name} ({log.url}) isn't followed in this epoch: {fetch.why}")
        first = rows[log.id].first
        if first != log.first:
            alarms.add("log", f"{log.name}: entries from {first} on are taken; CONFIG's `first` has to be that")
    tell_unknown(config, state, moment, alarms)
    return {fetch.log: fetch for fetch in found}
