"""What the steps of an epoch share: what they work on, the limits of the program, and how an epoch fails."""

import contextlib
import sqlite3
from collections.abc import Iterator
from dataclasses import dataclass, field
from pathlib import Path

from ..engine import Engine, EngineError
from ..progress import Progress
from .alarms import Alarms
from .config import Config
from .rules import WAITS
from .state import State, StateError


class NoEpoch(Exception):
    """No epoch was made, and the state is as before; the text says why, `remedy` what to do."""

    def __init__(self, why: str, remedy: str) -> None:
        super().__init__(f"{why}: {remedy}")
        self.why, self.remedy = why, remedy


@dataclass(frozen=True)
class Limits:
    """What the program takes: the ranges, the CRLs, their serials and the entries of a job, the identities of a ledger,
    the parts of a chain, and the issuers that one call leaves out (docs/FORMATS.md, "Job", "Ledger", "Words")."""

    ranges: int = 1024
    crls: int = 65_535
    entries: int = 4_194_304
    serials: int = 16_777_216
    identities: int = 4_194_304
    parts: int = 64
    without: int = 1024


@dataclass
class Making:
    """One epoch in the making."""

    config: Config
    state: State
    engine: Engine
    moment: int
    alarms: Alarms
    progress: Progress
    limits: Limits = field(default_factory=Limits)
    former: list[Path] = field(default_factory=list)
    """Files that no row names any more, once the step's transaction is done."""

    @property
    def db(self) -> sqlite3.Connection:
        return self.state.db

    def waiting(self) -> int:
        """How many entries wait."""
        query = f"SELECT count(*) FROM entry e INDEXED BY entry_waiting WHERE {WAITS}"
        return int(self.db.execute(query).fetchone()[0])

    def issuer_name(self, number: int) -> str:
        """How an alarm names an issuer, by its number in the state."""
        (key,) = self.db.execute("SELECT key FROM issuer WHERE id = ?", (number,)).fetchone()
        name = {issuer.key: issuer.name for issuer in self.config.issuers}.get(key)
        return f"{name} ({key.hex()})" if name else f"{key.hex()}, which CONFIG doesn't name,"

    @contextlib.contextmanager
    def step(self) -> Iterator[None]:
        """A step that ends in one transaction. Faults of the program, of files and of the database are told as a
        NoEpoch; what was written then is named by no row, and the next run sweeps it away. Behind the transaction the
        files go away that no row names any more."""
        try:
            yield
        except Exception as error:
            self.former.clear()
            told = _told(error)
            if told is None:
                raise
            raise told from error
        for path in self.former:
            path.unlink(missing_ok=True)
        self.former.clear()


def _told(error: BaseException) -> NoEpoch | None:
    """Why no epoch is made, of a fault that this program knows."""
    if isinstance(error, EngineError):
        return NoEpoch(f"clubcard {error.command}: {error.line or 'no line'} (status {error.status})", error.remedy)
    if isinstance(error, (OSError, sqlite3.OperationalError)):
        return NoEpoch(str(error), "look at the disk's room and the rights of the state's folder, and run again")
    if isinstance(error, (StateError, sqlite3.DatabaseError)):
        return NoEpoch(str(error), "take the state's folder back from a backup, or begin a new state and a new site")
    return None
