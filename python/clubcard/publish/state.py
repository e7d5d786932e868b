"""The publisher's state: an SQLite database, and the files that its rows name.

A step writes files under new names, syncs them, and names them in one transaction. So a run that is killed leaves files
that no row names, and never a row whose file isn't whole; the next run sweeps them away.
"""

import contextlib
import secrets
import shutil
import sqlite3
import threading
from collections.abc import Iterator
from dataclasses import dataclass, field
from importlib import resources
from pathlib import Path
from typing import Literal

from ..places import WHOLE, Places
from ..placing import make_folder, sync

Folder = Literal["spool", "crls", "chain", "work"]
FORMAT = "1"
PLACED = "2"
"""The format of a state whose history is cut into places, which earlier programs don't read."""
CACHE = 65536
"""How much memory the database takes for its pages, in KiB."""
# Where rows name files: table, column.
_NAMES = [
    ("segment", "file"),
    ("crl", "file"),
    ("chain", "ledger"),
    ("chain", "store"),
    ("part", "file"),
    ("part", "job"),
    ("place_chain", "ledger"),
    ("place_chain", "store"),
    ("place_part", "file"),
    ("place_part", "job"),
]


class StateError(Exception):
    """The state can't be used; the text says why and what to do."""


def _schema(name: str) -> str:
    """The statements in a file of this package."""
    return resources.files(__package__).joinpath(f"{name}.sql").read_text(encoding="utf-8")


@dataclass
class State:
    """An open state. `db` is in autocommit mode: what belongs together stands in `transaction`. Threads share it, and
    one waits for another's transaction."""

    folder: Path
    db: sqlite3.Connection
    lock: threading.RLock = field(default_factory=threading.RLock, repr=False)

    @classmethod
    def open(cls, folder: Path) -> "State":
        """Opens the state in a folder, or begins one."""
        for name in ("spool", "crls", "chain", "work"):
            (folder / name).mkdir(parents=True, exist_ok=True)
        db = sqlite3.connect(folder / "state.sqlite", isolation_level=None, check_same_thread=False)
        db.execute("PRAGMA journal_mode = WAL")
        db.execute("PRAGMA synchronous = FULL")
        db.execute("PRAGMA foreign_keys = ON")
        db.execute(f"PRAGMA cache_size = -{CACHE}")
        state = cls(folder, db)
        state._begin()
        return state

    def _begin(self) -> None:
        """Makes the tables of a new state, and tests the format of an old one, which may lack those of places."""
        if not self._has("meta"):
            begun = f"{_schema('schema')}; INSERT INTO meta VALUES ('format', '{FORMAT}')"
            self.db.executescript(f"BEGIN IMMEDIATE; {begun}; {_schema('places')}; COMMIT;")
        if self.meta("format") not in (FORMAT, PLACED):
            raise StateError(f"{self.folder}: a state of format {self.meta('format')}, and this program reads {PLACED}")
        if not self._has("any_part"):
            self.db.executescript(f"BEGIN IMMEDIATE; {_schema('places')}; COMMIT;")

    def _has(self, name: str) -> bool:
        """Whether there is a table or a view of a name."""
        return self.db.execute("SELECT 1 FROM sqlite_master WHERE name = ?", (name,)).fetchone() is not None

    def close(self) -> None:
        self.db.close()

    @contextlib.contextmanager
    def transaction(self) -> Iterator[sqlite3.Connection]:
        """All changes in it, or none."""
        with self.lock:
            self.db.execute("BEGIN IMMEDIATE")
            try:
                yield self.db
                self.db.execute("COMMIT")
            except BaseException:
                # Where the disk is full SQLite has rolled back by itself.
                if self.db.in_transaction:
                    self.db.execute("ROLLBACK")
                raise

    def meta(self, key: str) -> str | None:
        """What is noted under a key."""
        row = self.db.execute("SELECT value FROM meta WHERE key = ?", (key,)).fetchone()
        return None if row is None else str(row[0])

    def set_meta(self, key: str, value: str) -> None:
        """Notes a value under a key."""
        self.db.execute(
            "INSERT INTO meta VALUES (?, ?) ON CONFLICT (key) DO UPDATE SET value = excluded.value", (key, value)
        )

    def issuer_id(self, key: bytes) -> int:
        """The number of an issuer, which is made where there is none."""
        self.db.execute("INSERT OR IGNORE INTO issuer (key) VALUES (?)", (key,))
        row = self.db.execute("SELECT id FROM issuer WHERE key = ?", (key,)).fetchone()
        return int(row[0])

    def places(self) -> Places | None:
        """The plan by which the state's history is cut; None where it isn't."""
        text = self.meta("places")
        return None if text is None else Places.of_text(text)

    def new_file(self, folder: Folder, suffix: str, place: str = WHOLE) -> Path:
        """A name that no file had before, where the history is cut in a folder of the place. It counts once a row names
        it."""
        inner = self.folder / folder
        if place != WHOLE:
            inner = inner / place
            make_folder(inner)
        return inner / f"{secrets.token_hex(8)}{suffix}"

    def named(self, path: Path) -> str:
        """How a row names a file."""
        return str(path.relative_to(self.folder))

    def path(self, name: str) -> Path:
        """The file that a row names."""
        return self.folder / name

    def keep(self, path: Path) -> None:
        """Waits until a new file is on the disk, with its name."""
        sync(path)
        sync(path.parent)

    def sweep(self) -> None:
        """Removes what a killed run left: files that no row names."""
        held = {
            str(name)
            for table, column in _NAMES
            for (name,) in self.db.execute(f"SELECT {column} FROM {table}")
            if name
        }
        for folder in ("spool", "crls", "chain"):
            for path in list((self.folder / folder).rglob("*")):
                if not path.is_dir() and self.named(path) not in held:
                    path.unlink()
        for path in (self.folder / "work").iterdir():
            shutil.rmtree(path) if path.is_dir() else path.unlink()
