"""What is kept of the logs: one row each, and their entries, in segments of records as a job has them.

A batch of entries is written to a new segment, which is synced; one transaction then names it, adds a row for each
entry, and moves the log's row on. So a run that is killed loses the batch that it was at, and nothing else.
"""

import sqlite3
from collections.abc import Sequence
from dataclasses import dataclass
from typing import Any

from ..entries import EntryFacts, read_entry
from ..jobs import entry_record
from .config import Log
from .heads import MOST, TreeHead
from .merkle import CompactRange
from .points import Watch
from .sources import RawEntry
from .state import State

_LONGEST = (1 << 24) - 1
"""The most bytes of a leaf and of extra data that a record has."""
FIRST_RUN = 256
"""How many entries from `first` on say by when those below `first` were merged."""
_COLUMNS = """id, key, name, mmd, first, taken, head_time, head_size, head_root, latest, bound, compact, bound_head,
    first_time"""
_INSERT = "INSERT INTO entry (log, place, time, issuer, serial, until, start, length, aside, segment) VALUES "
_VALUES = "(?, ?, ?, ?, ?, ?, ?, ?, ?, ?)"
_ROWS = 64
"""How many entries' rows one statement adds: one for each takes nearly twice the time."""


@dataclass(frozen=True)
class LogRow:
    """What is known of a log. Times are milliseconds since 1970."""

    id: int
    """The row's number."""
    key: bytes
    """The log's id (RFC 6962, 3.2)."""
    name: str
    mmd: int
    """The greatest maximum merge delay that CONFIG said."""
    first: int
    """The index of the first entry that is taken."""
    taken: int
    """The index behind the last entry that is taken."""
    head: TreeHead | None
    """The newest verified tree head."""
    latest: int | None
    """The greatest time among the entries that are taken, and not above that of the tree head that they were in."""
    bound: int | None
    """Entries below `first` have a time of at most this one. None where `first` is 0, or nothing is known."""
    front: CompactRange | None
    """The compact range of the entries from 0 to `taken`. None where nothing is known of those before `first`."""
    bound_head: int | None = None
    """The least time of a verified tree head with all entries below `first`."""
    first_time: int | None = None
    """The greatest time among the first FIRST_RUN entries that are taken, where one of them has a time."""

    def bounded(self, mmd: int) -> int | None:
        """By which time all entries below `first` were merged, which no time of theirs exceeds: that of a tree head
        that has them, or that of an entry behind them and the delay by which it was merged. Of the entries behind them
        FIRST_RUN are looked at, once all of these are taken, and the greatest time counts: so one of them that its log
        merged within the delay is enough."""
        is_run_whole = self.taken >= self.first + FIRST_RUN
        by_entries = [self.first_time + mmd] if is_run_whole and self.first_time is not None else []
        by_head = [] if self.bound_head is None else [self.bound_head]
        return min(by_entries + by_head, default=None)


def _row(columns: tuple[Any, ...]) -> LogRow:
    """A row of the table, whose columns are those of _COLUMNS."""
    number, key, name, mmd, first, taken, time, size, root, latest, bound, compact, *least = columns
    head = None if time is None else TreeHead(time, size, root)
    front = None if compact is None else CompactRange.read(taken, compact)
    return LogRow(number, key, name, mmd, first, taken, head, latest, bound, front, *least)


def log_rows(state: State) -> list[LogRow]:
    """What is known of each log that CONFIG named once, by its number."""
    return [_row(columns) for columns in state.db.execute(f"SELECT {_COLUMNS} FROM log ORDER BY id")]


def log_row(state: State, key: bytes) -> LogRow | None:
    """What is known of a log, by its id."""
    columns = state.db.execute(f"SELECT {_COLUMNS} FROM log WHERE key = ?", (key,)).fetchone()
    return None if columns is None else _row(columns)


def named_log(state: State, log: Log) -> LogRow:
    """The row of a log of CONFIG, made where there is none, with its name and the greatest MMD that CONFIG said. CONFIG
    may change `first` as long as no entry is taken, and nothing is covered by what is known."""
    known = log_row(state, log.id)
    if known is not None and known.name == log.name and known.mmd >= log.mmd and not _may_begin(known, log):
        return known
    with state.transaction() as db:
        compact = b"" if log.first == 0 else None
        if known is None:
            words = (log.id, log.name, log.mmd, log.first, log.first, compact)
            db.execute("INSERT INTO log (key, name, mmd, first, taken, compact) VALUES (?, ?, ?, ?, ?, ?)", words)
        else:
            mmd = max(known.mmd, log.mmd)
            bound = known.bound if known.mmd == mmd else known.bounded(mmd)
            db.execute("UPDATE log SET name = ?, mmd = ?, bound = ? WHERE id = ?", (log.name, mmd, bound, known.id))
        if known is not None and _may_begin(known, log):
            bound = known.head.time if known.head and 0 < log.first <= known.head.size else None
            change = "UPDATE log SET first = ?, taken = ?, compact = ?, bound = ?, bound_head = ? WHERE id = ?"
            db.execute(change, (log.first, log.first, compact, bound, bound, known.id))
    made = log_row(state, log.id)
    assert made is not None
    return made


def _may_begin(known: LogRow, log: Log) -> bool:
    """Whether CONFIG names another first entry, and no entry is taken yet. A later one leaves a gap where some time may
    be covered already."""
    may_cover = known.head is not None if known.first == 0 else known.bound is not None
    return known.taken == known.first != log.first and (log.first < known.first or not may_cover)


def save_log(db: sqlite3.Connection, row: LogRow) -> None:
    """Writes what is known of a log into its row; the caller's transaction surrounds it."""
    head = row.head
    columns = (head.time, head.size, head.root) if head else (None, None, None)
    change = """UPDATE log SET taken = ?, head_time = ?, head_size = ?, head_root = ?, latest = ?, bound = ?,
        compact = ?, bound_head = ?, first_time = ? WHERE id = ?"""
    front = None if row.front is None else row.front.octets()
    least = (row.bound_head, row.first_time)
    db.execute(change, (row.taken, *columns, row.latest, row.bound, front, *least, row.id))


class Batch:
    """Entries of a log that follow one another, in a new segment. It is kept by `commit`; else its file goes."""

    def __init__(self, state: State, row: LogRow, limit: int) -> None:
        """The entries from `row.taken` on. `limit`: greater times don't count for `latest`."""
        self._state, self._row, self._limit = state, row, limit
        self._path = state.new_file("spool", ".entries")
        self._file = open(self._path, "xb", buffering=1 << 20)
        self._entries: list[tuple[int, int, bytes | None, bytes | None, int | None, int, int, str | None]] = []
        self._watch = Watch()
        self.length = 0
        """How many bytes the records have."""
        self.latest = row.latest
        """The greatest time of an entry that is taken."""
        self.first_time = row.first_time
        """The greatest time among the log's first FIRST_RUN entries that are taken."""

    @property
    def end(self) -> int:
        """The index behind the last entry."""
        return self._row.taken + len(self._entries)

    def add(self, page: Sequence[RawEntry]) -> None:
        """Writes the next entries."""
        for place, (leaf, extra) in enumerate(page, self.end):
            facts = read_entry(leaf, extra)
            record = b""
            if len(leaf) <= _LONGEST and len(extra) <= _LONGEST:
                record = entry_record(self._row.key, leaf, extra)
            self._file.write(record)
            self._note(place, leaf, facts if record else None, len(record))
            self.length += len(record)

    def _note(self, place: int, leaf: bytes, facts: EntryFacts | None, length: int) -> None:
        """Notes the row of an entry, and its time where its leaf has one."""
        if facts is not None:
            time, issuer, serial, until, _ = facts
            time = min(time, MOST)
            self._entries.append((place, time, issuer, serial, until, self.length, length, None))
            self._watch.look(facts, place)
        else:
            has_time = leaf[:2] == b"\0\0" and len(leaf) >= 10
            time = min(int.from_bytes(leaf[2:10], "big"), MOST) if has_time else 0
            self._entries.append((place, time, None, None, None, self.length, length, "unread"))
            if not has_time:
                return
        if place < self._row.first + FIRST_RUN:
            self.first_time = max(time, self.first_time or 0)
        if time <= self._limit and (self.latest is None or time > self.latest):
            self.latest = time

    def commit(self, row: LogRow) -> None:
        """Keeps the entries, the distribution points that they name, and what is known of the log with them."""
        self._file.close()
        self._state.keep(self._path)
        with self._state.transaction() as db:
            named = (self._state.named(self._path), self.length)
            segment = db.execute("INSERT INTO segment (file, length) VALUES (?, ?)", named).lastrowid
            keys = {entry[2] for entry in self._entries if entry[2] is not None}
            issuers = {key: self._state.issuer_id(key) for key in sorted(keys)}
            for at in range(0, len(self._entries), _ROWS):
                part = self._entries[at : at + _ROWS]
                words: list[Any] = []
                for place, time, key, serial, until, start, length, aside in part:
                    words += row.id, place, time, key and issuers[key], serial, until, start, length, aside, segment
                db.execute(_INSERT + ", ".join([_VALUES] * len(part)), words)
            self._watch.save(db, row.id, issuers)
            save_log(db, row)

    def drop(self) -> None:
        """Removes the segment, where it isn't kept."""
        self._file.close()
        self._path.unlink(missing_ok=True)
