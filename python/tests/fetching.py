"""Runs that fetch from logs of the tests' own, what they leave in the state, and runs that are killed at a step."""

import contextlib
import dataclasses
import io
import os
from collections.abc import Callable, Iterator
from pathlib import Path
from typing import Any
from unittest import mock

from clubcard.progress import Silent
from clubcard.publish.alarms import Alarms
from clubcard.publish.config import Config, Issuer
from clubcard.publish.logs import LogFetch, fetch_logs
from clubcard.publish.merkle import CompactRange
from clubcard.publish.spool import LogRow, log_rows
from clubcard.publish.state import State
from fake_log import MMD, FakeClient, FakeLog, config_of

Spooled = tuple[int, int, bytes, bytes, bytes | None, bytes | None, int | None, str | None]


class Killed(BaseException):
    """Stands for the end of the process."""


@dataclasses.dataclass
class Runs:
    """Runs over one state and some logs."""

    folder: Path
    logs: tuple[FakeLog, ...]
    client: FakeClient
    config: Config
    clock: Callable[[], float] = lambda: 0.0
    alarms: list[str] = dataclasses.field(default_factory=list)
    """Those of the last run."""

    def fetch(self, moment: int | None = None) -> list[LogFetch]:
        """One run, at the time of the newest tree head where none is given; gives what became of the logs."""
        state = State.open(self.folder)
        alarms = Alarms(io.StringIO())
        try:
            state.sweep()
            now = max(log.time for log in self.logs) if moment is None else moment
            found = fetch_logs(self.config, state, now, self.client, alarms, Silent(), self.clock)
        finally:
            self.alarms = [str(alarm) for alarm in alarms.raised]
            state.close()
        return [found[log.id] for log in self.config.logs]

    def rows(self) -> list[LogRow]:
        state = State.open(self.folder)
        try:
            return log_rows(state)
        finally:
            state.close()

    def spooled(self, place: int = 0) -> list[Spooled]:
        """The entries of a log in their order: index, time, leaf, extra data, issuer, serial, date, why set aside."""
        state = State.open(self.folder)
        query = """SELECT place, time, file, start, entry.length, issuer.key, serial, until, aside, log.key FROM entry
            JOIN segment ON segment.id = segment JOIN log ON log.id = log LEFT JOIN issuer ON issuer.id = issuer
            WHERE log.key = ? ORDER BY place"""
        rows = state.db.execute(query, (self.logs[place].id,)).fetchall()
        state.close()
        octets = {name: (self.folder / name).read_bytes() for name in {row[2] for row in rows}}
        out: list[Spooled] = []
        for index, time, name, start, length, issuer, serial, until, aside, key in rows:
            record = octets[name][start : start + length]
            assert record[:33] == b"\3" + key
            end = 36 + int.from_bytes(record[33:36], "big")
            assert int.from_bytes(record[end : end + 3], "big") == len(record) - end - 3
            out.append((index, time, record[36:end], record[end + 3 :], issuer, serial, until, aside))
        return out

    def check(self, place: int = 0, first: int = 0) -> None:
        """All entries of a log's tree head are there, and its row says so."""
        log = self.logs[place]
        (row,) = [row for row in self.rows() if row.key == log.id]
        wanted = [(leaf, b"" if leaf[10:12] == b"\0\1" else extra) for leaf, extra in log.entries[: log.size]]
        assert [(entry[2], entry[3]) for entry in self.spooled(place)] == wanted[first:]
        assert [entry[0] for entry in self.spooled(place)] == list(range(first, log.size))
        front = CompactRange()
        front.extend(log.tree.hashes[: log.size])
        assert row.head is not None and row.front == front
        assert (row.head.time, row.head.size, row.head.root) == (log.time, log.size, front.root())
        assert (row.first, row.taken) == (first, log.size)
        assert row.latest == max((entry[1] for entry in self.spooled(place)), default=None)

    def everything(self) -> tuple[object, ...]:
        """All that the state holds."""
        state = State.open(self.folder)
        tables = ("log", "entry", "segment", "issuer", "point")
        found = tuple(state.db.execute(f"SELECT * FROM {table}").fetchall() for table in tables)
        state.close()
        files = {path.name: path.read_bytes() for path in (self.folder / "spool").iterdir()}
        return *found, files


def made_runs(folder: Path, *logs: FakeLog, first: int = 0, mmd: int = MMD, issuers: tuple[Issuer, ...] = ()) -> Runs:
    """Runs over a new state and these logs, all of them with the same `first`."""
    config = config_of(*[log.conf(first, mmd) for log in logs], issuers=issuers)
    return Runs(folder, logs, FakeClient(*logs), config)


def renamed(config: Config, **changes: Any) -> Config:
    """CONFIG with its logs changed."""
    logs = tuple(dataclasses.replace(log, **changes) for log in config.logs)
    return dataclasses.replace(config, logs=logs)


@contextlib.contextmanager
def killed_at(step: int) -> Iterator[list[int]]:
    """Ends what runs in it at a step: before or behind a transaction or a sync of the disk, counted from 0. Gives the
    count of steps."""
    count = [0]
    transaction, fsync = State.transaction, os.fsync

    def check() -> None:
        count[0] += 1
        if count[0] > step:
            raise Killed

    @contextlib.contextmanager
    def watched(self: State) -> Iterator[object]:
        check()
        with transaction(self) as db:
            yield db
            check()
        check()

    def synced(number: int) -> None:
        check()
        fsync(number)

    with mock.patch.object(State, "transaction", watched), mock.patch("os.fsync", synced):
        yield count
