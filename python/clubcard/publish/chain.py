"""Reading what is published: the newest release, what each epoch came to, what waits, and chains of the past.

Times are milliseconds since 1970 UTC; issuers, logs and digests are 32 bytes.
"""

import json
from dataclasses import asdict, dataclass
from pathlib import Path
from typing import Any

from ..places import Places, is_split, told
from .alarms import Alarm
from .config import Config
from .rules import Range
from .state import State, StateError


@dataclass(frozen=True)
class PartRow:
    """A part of a chain, in its file below the state's folder."""

    kind: str
    """snapshot or delta."""
    epoch: int
    length: int
    sha256: bytes
    file: Path


@dataclass(frozen=True)
class PlaceRow:
    """The chain of a place that is published: its parts in order, and the store that these make."""

    name: str
    parts: tuple[PartRow, ...]
    store: Path
    store_length: int
    store_sha256: bytes


@dataclass(frozen=True)
class Coverage:
    """What is covered of a log: the times from `low` to `high`, both included."""

    log: bytes
    name: str
    low: int
    high: int


@dataclass(frozen=True)
class IssuerRow:
    """An issuer of CONFIG in an epoch."""

    issuer: bytes
    name: str
    enrolled: bool
    """Whether this epoch enrolled it."""
    enrolled_at: int | None
    """The moment of the last epoch that enrolled it."""
    reason: str | None
    """Why it isn't enrolled; None exactly where it is."""
    universe: int
    """How many of its identities the chain holds."""
    revoked: int
    """How many of these are revoked."""


@dataclass(frozen=True)
class EpochRow:
    """What an epoch came to, as it was published: nothing in it changes with a later CONFIG."""

    epoch: int
    moment: int
    generation: int
    """Of the chain that was published at its end: of the new one, where a rebase followed."""
    kind: str
    """snapshot or delta: of the part that was published, of the rebase's where one followed."""
    length: int
    """Its bytes; of those of all places, where the history is cut."""
    parts: int
    """How many parts the chain has at its end, or that of each place."""
    shown: int
    """How many entries its job showed; all were accepted."""
    waiting: int
    """How many entries wait behind it, the late ones among them."""
    late: int
    """How many waiting entries are late: their logs merged them too late for this chain."""
    universe: int
    """How many identities the chain holds."""
    revoked: int
    """How many of these are revoked."""
    name: str
    """Of the chain, in the manifest."""
    valid_until: int
    next_key: str | None
    """The announced next public key, as Base64."""
    issuers: tuple[IssuerRow, ...]
    """Those of CONFIG, in its order."""
    coverage: tuple[Coverage, ...]
    """By ascending log."""
    alarms: tuple[Alarm, ...]
    """All of the epoch's run."""
    rebased: bool
    """Whether a rebase followed."""


@dataclass(frozen=True)
class Release:
    """What clients are to have: the newest epoch, and the chains of all places, or the one."""

    generation: int
    epoch: int
    moment: int
    chains: tuple[PlaceRow, ...]
    row: EpochRow
    places: Places | None = None

    @property
    def parts(self) -> tuple[PartRow, ...]:
        """The parts of all chains."""
        return tuple(part for chain in self.chains for part in chain.parts)

    @property
    def store_length(self) -> int:
        """How many bytes the stores have together."""
        return sum(chain.store_length for chain in self.chains)


@dataclass(frozen=True)
class Held:
    """What the publisher keeps of a place's chain."""

    ledger: Path
    store: Path
    jobs: tuple[Path, ...] | None
    """The jobs of all of its parts in order; None where a rebase began it."""

    @property
    def files(self) -> list[Path]:
        """What goes once the chain goes on."""
        return [self.ledger, self.store]


@dataclass(frozen=True)
class Newest:
    """The newest chain, as the next part goes on from it."""

    generation: int
    parts: int
    """How many it has."""
    epoch: int
    """Of the newest part."""
    places: dict[str, Held]
    """By the name of the place, in their order; one of the whole where the history isn't cut."""
    ranges: dict[int, Range]
    """What the newest part covers of each log, by the log's number in the state."""
    held: int
    """For how many epochs waiting entries have held its rebase back."""


@dataclass(frozen=True)
class Waiting:
    """Entries of a log and an issuer that no published job accepted yet. Those that can't be read aren't counted."""

    log: bytes
    issuer: bytes
    count: int
    since: int
    """The least time of them."""


@dataclass(frozen=True)
class Former:
    """A chain that is no longer published. It is forgotten once it ended `keep` before an epoch's moment."""

    generation: int
    ended: int
    parts: tuple[PartRow, ...]


def _parts(state: State, generation: int) -> dict[str, list[PartRow]]:
    """The parts of a chain, in order, by places."""
    query = "SELECT name, kind, epoch, length, sha256, file FROM any_part WHERE generation = ? ORDER BY name, place"
    found: dict[str, list[PartRow]] = {}
    for name, kind, epoch, length, sha256, file in state.db.execute(query, (generation,)):
        found.setdefault(name, []).append(PartRow(kind, epoch, length, sha256, state.path(file)))
    return found


def test_places(config: Config, state: State, splits: bool = False) -> None:
    """Refuses another plan of places than that of the state's chain; where that is to be split, one of which it can't
    become."""
    begun = state.db.execute("SELECT 1 FROM chain LIMIT 1").fetchone() is not None
    held, can_split = state.places(), is_split(state.places(), config.places)
    if begun and held != config.places and not (splits and can_split):
        was = f"the chain in {config.state} has {told(held)}, and CONFIG has {told(config.places)}"
        remedy = "write the same [places], or begin a new chain, with another `name`, `state` and `site`"
        if can_split:
            remedy = f"run `clubcard-publish split {config.path}`, or write the same [places]"
        raise StateError(f"{config.path}: {was}: {remedy}")


def newest_epoch(state: State) -> EpochRow | None:
    """What the newest epoch came to; None where none was published yet."""
    row = state.db.execute("SELECT facts FROM epoch ORDER BY epoch DESC LIMIT 1").fetchone()
    return None if row is None else from_facts(row[0])


def newest(state: State) -> Newest | None:
    """The newest chain; None where no part was published yet."""
    row = state.db.execute("SELECT generation, held FROM chain ORDER BY generation DESC LIMIT 1").fetchone()
    if row is None:
        return None
    generation, held = row
    query = "SELECT epoch FROM part WHERE generation = ? ORDER BY place"
    epochs = [epoch for (epoch,) in state.db.execute(query, (generation,))]
    ranges = state.db.execute(
        "SELECT log, low, high FROM part_range WHERE generation = ? AND place = ?", (generation, len(epochs) - 1)
    )
    covered = {log: (low, high) for log, low, high in ranges}
    return Newest(generation, len(epochs), epochs[-1], _held(state, generation), covered, held)


def _held(state: State, generation: int) -> dict[str, Held]:
    """What is kept of a chain, by places."""
    jobs: dict[str, list[str | None]] = {}
    query = "SELECT name, job FROM any_part WHERE generation = ? ORDER BY name, place"
    for name, job in state.db.execute(query, (generation,)):
        jobs.setdefault(name, []).append(job)
    query = "SELECT name, ledger, store FROM any_chain WHERE generation = ? ORDER BY name"
    return {
        name: Held(
            state.path(ledger),
            state.path(store),
            None if jobs[name][0] is None else tuple(state.path(job) for job in jobs[name] if job is not None),
        )
        for name, ledger, store in state.db.execute(query, (generation,)).fetchall()
    }


def release(state: State) -> Release | None:
    """The newest release; None where no epoch was published yet."""
    row = newest_epoch(state)
    if row is None:
        return None
    parts = _parts(state, row.generation)
    query = "SELECT name, store, store_length, store_sha256 FROM any_chain WHERE generation = ? ORDER BY name"
    chains = tuple(
        PlaceRow(name, tuple(parts[name]), state.path(store), length, sha256)
        for name, store, length, sha256 in state.db.execute(query, (row.generation,))
    )
    return Release(row.generation, row.epoch, row.moment, chains, row, state.places())


def history(state: State, last: int) -> list[EpochRow]:
    """What each of the last so many epochs came to, the oldest first."""
    rows = state.db.execute("SELECT facts FROM epoch ORDER BY epoch DESC LIMIT ?", (last,)).fetchall()
    return [from_facts(facts) for (facts,) in reversed(rows)]


def epochs_since(state: State, moment: int) -> frozenset[int]:
    """The epochs whose moment is this one or later."""
    return frozenset(epoch for (epoch,) in state.db.execute("SELECT epoch FROM epoch WHERE moment >= ?", (moment,)))


def waiting(state: State) -> list[Waiting]:
    """What waits, by log and issuer."""
    rows = state.db.execute(
        """
        SELECT l.key, i.key, w.count, w.since FROM (
            SELECT log, issuer, count(*) AS count, min(time) AS since FROM entry INDEXED BY entry_waiting
            WHERE epoch IS NULL AND aside IS NULL GROUP BY issuer, log) w
        JOIN log l ON l.id = w.log JOIN issuer i ON i.id = w.issuer ORDER BY l.key, i.key"""
    )
    return [Waiting(*row) for row in rows]


def former(state: State) -> list[Former]:
    """The chains that are no longer published, the oldest first."""
    query = "SELECT generation, ended FROM chain WHERE ended IS NOT NULL ORDER BY generation"
    rows = state.db.execute(query).fetchall()
    return [
        Former(generation, ended, tuple(part for parts in _parts(state, generation).values() for part in parts))
        for generation, ended in rows
    ]


def to_facts(row: EpochRow) -> str:
    """An epoch's row as JSON, with keys and digests in hexadecimal."""
    return json.dumps(asdict(row), default=bytes.hex, sort_keys=True)


def from_facts(facts: str) -> EpochRow:
    """The epoch's row of which `to_facts` made a text."""
    fields: dict[str, Any] = json.loads(facts)
    fields["issuers"] = tuple(IssuerRow(**_with_key(each, "issuer")) for each in fields["issuers"])
    fields["coverage"] = tuple(Coverage(**_with_key(each, "log")) for each in fields["coverage"])
    fields["alarms"] = tuple(Alarm(**each) for each in fields["alarms"])
    return EpochRow(**fields)


def _with_key(fields: dict[str, Any], name: str) -> dict[str, Any]:
    """Fields of which one is a key in hexadecimal, which is read."""
    return fields | {name: bytes.fromhex(fields[name])}
