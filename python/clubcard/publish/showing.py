"""What an epoch shows: chosen by SQL over sets into temporary tables, and copied from the spool's segments into a job.

Nothing here grows in memory with the entries. Issuers and logs go by their numbers in the state.
"""

import os
from collections.abc import Collection, Iterator, Mapping
from dataclasses import dataclass

from ..jobs import JobWriter
from ..places import WHOLE, Places
from . import rules
from .state import State, StateError

_TABLES = {
    "covered": "log INTEGER PRIMARY KEY, low INTEGER NOT NULL, high INTEGER NOT NULL",
    "enrolled": "issuer INTEGER PRIMARY KEY",
    "late": "id INTEGER PRIMARY KEY",
    "aside": "id INTEGER PRIMARY KEY",
    "shown": "id INTEGER PRIMARY KEY",
    "placed": "id INTEGER PRIMARY KEY, place TEXT NOT NULL",
}


@dataclass(frozen=True)
class Run:
    """Records that lie one behind another: the segment's number, and where they begin and end in it."""

    segment: int
    start: int
    end: int


class Showing:
    """What the next job shows, as temporary tables: `shown` holds the entries (id), `late` those that are late, `aside`
    those that the program counts otherwise; `placed` has their places, where these were asked for; `covered` and
    `enrolled` say by what they are chosen."""

    def __init__(self, state: State, generation: int, cut: int) -> None:
        """For the newest chain, of which `generation` is the number; what expired before `cut` isn't shown."""
        self._state, self._db = state, state.db
        self._words = {"generation": generation, "cut": cut}
        for name, columns in _TABLES.items():
            self._db.execute(f"DROP TABLE IF EXISTS temp.{name}")
            self._db.execute(f"CREATE TEMP TABLE {name} ({columns})")

    def cover(self, ranges: Mapping[int, rules.Range]) -> None:
        """What is covered of each log."""
        self._db.execute("DELETE FROM temp.covered")
        self._db.executemany("INSERT INTO temp.covered VALUES (?, ?, ?)", ((log, *r) for log, r in ranges.items()))

    def enrol(self, issuers: Collection[int]) -> None:
        """Whom the epoch enrols; finds out what is late of theirs."""
        self._db.execute("DELETE FROM temp.enrolled")
        self._db.executemany("INSERT INTO temp.enrolled VALUES (?)", ((issuer,) for issuer in issuers))
        self._db.execute("DELETE FROM temp.late")
        self._db.execute(f"INSERT INTO temp.late SELECT id FROM ({rules.late()})", self._words)

    def put_aside(self, low: int, high: int) -> None:
        """Shows the entries between these two, both included, no more."""
        self._db.execute("INSERT INTO temp.aside SELECT id FROM temp.shown WHERE id BETWEEN ? AND ?", (low, high))

    def count(self) -> int:
        """How many entries would be shown."""
        return int(self._db.execute(f"SELECT count(*) FROM ({self._chosen()})", self._words).fetchone()[0])

    def sizes(self) -> dict[int, int]:
        """How many entries of each issuer would be shown."""
        query = f"SELECT issuer, count(*) FROM ({self._chosen()}) GROUP BY issuer"
        return dict(self._db.execute(query, self._words))

    def fresh(self, places: Places | None) -> dict[str, int]:
        """How many identities that no ledger holds would be shown, by places."""
        query = f"""
            SELECT DISTINCT e.issuer, e.serial, c.place AS place FROM ({self._at(places)}) c
            CROSS JOIN entry e ON e.id = c.id
            WHERE NOT EXISTS (SELECT 1 FROM identity k WHERE k.issuer = e.issuer AND k.serial = e.serial)"""
        return self._counted(query)

    def entries(self, places: Places | None) -> dict[str, int]:
        """How many entries would be shown, by places."""
        return self._counted(self._at(places))

    def _counted(self, query: str) -> dict[str, int]:
        """How many rows of a query are at each place."""
        return dict(self._db.execute(f"SELECT place, count(*) FROM ({query}) GROUP BY place", self._words))

    def _at(self, places: Places | None) -> str:
        """The query of what would be shown (id, place). An entry's place, which takes long, is found once."""
        if places is None:
            return f"SELECT id, '{WHOLE}' AS place FROM ({self._chosen()})"
        self._db.create_function("place_of", 2, places.place_of, deterministic=True)
        self._db.execute(
            f"""INSERT INTO temp.placed SELECT c.id, place_of(i.key, e.serial) FROM ({self._chosen()}) c
            CROSS JOIN entry e ON e.id = c.id CROSS JOIN issuer i ON i.id = e.issuer
            WHERE c.id NOT IN (SELECT id FROM temp.placed)""",
            self._words,
        )
        return f"SELECT c.id AS id, a.place AS place FROM ({self._chosen()}) c CROSS JOIN temp.placed a ON a.id = c.id"

    def select(self) -> int:
        """Chooses what is shown; how many entries these are."""
        self._db.execute("DELETE FROM temp.shown")
        cursor = self._db.execute(f"INSERT INTO temp.shown SELECT id FROM ({self._chosen()}) ORDER BY id", self._words)
        return cursor.rowcount

    def _chosen(self) -> str:
        """The query of what would be shown (id, issuer)."""
        return f"""SELECT id, issuer FROM ({rules.candidates()})
            WHERE id NOT IN (SELECT id FROM temp.late) AND id NOT IN (SELECT id FROM temp.aside)"""

    def at(self, place: int) -> int:
        """The entry (id) at a place of what is shown, from 0."""
        query = "SELECT id FROM temp.shown ORDER BY id LIMIT 1 OFFSET ?"
        return int(self._db.execute(query, (place,)).fetchone()[0])

    def slices(self, size: int, low: int = 0, high: int | None = None) -> list[tuple[int, int]]:
        """Of what is shown, from a place (0) up to another one (the end), slices of so many entries at most, in order:
        the first and the last entry (ids) of each."""
        if high is None:
            (high,) = self._db.execute("SELECT count(*) FROM temp.shown").fetchone()
        return [(self.at(start), self.at(min(start + size, high) - 1)) for start in range(low, high, size)]

    def runs(self, low: int, high: int) -> Iterator[Run]:
        """The records of what is shown from the entry `low` to `high` (ids), in this order."""
        rows = self._db.execute(
            "SELECT e.segment, e.start, e.length FROM temp.shown s CROSS JOIN entry e ON e.id = s.id"
            " WHERE s.id BETWEEN ? AND ? ORDER BY s.id",
            (low, high),
        )
        now, start, end = -1, 0, 0
        for segment, begin, length in rows:
            if segment == now and begin == end:
                end += length
                continue
            if end:
                yield Run(now, start, end)
            now, start, end = segment, begin, begin + length
        if end:
            yield Run(now, start, end)

    def copy(self, job: JobWriter, low: int, high: int) -> None:
        """Writes what is shown, from the entry `low` to `high` (ids), into a job."""
        with _Segments(self._state) as segments:
            for run in self.runs(low, high):
                segments.copy(run, job)


class _Segments:
    """Segments that are read, one of them open."""

    def __init__(self, state: State) -> None:
        self._state, self._segment, self._file = state, -1, -1

    def __enter__(self) -> "_Segments":
        return self

    def __exit__(self, *_: object) -> None:
        if self._file >= 0:
            os.close(self._file)

    def copy(self, run: Run, job: JobWriter) -> None:
        """Writes a run of records into a job."""
        if run.segment != self._segment:
            self._open(run.segment)
        try:
            job.copy(self._file, run.start, run.end)
        except EOFError as error:
            raise StateError(f"segment {run.segment} of the spool is shorter than its entries say") from error

    def _open(self, segment: int) -> None:
        """Opens a segment in place of the one that is open."""
        self.__exit__()
        self._file = -1
        (name,) = self._state.db.execute("SELECT file FROM segment WHERE id = ?", (segment,)).fetchone()
        self._file, self._segment = os.open(self._state.path(name), os.O_RDONLY), segment
