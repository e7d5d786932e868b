"""What one transaction writes behind a new part: names of files, marks of entries, identities, and the epoch's row."""

import hashlib
from collections.abc import Mapping
from dataclasses import dataclass
from pathlib import Path

from ..places import WHOLE
from . import rules
from .chain import Coverage, EpochRow, IssuerRow, Newest, to_facts
from .fitting import Plan, listed_in
from .making import Making
from .publishing import Made
from .state import PLACED


@dataclass(frozen=True)
class FileFacts:
    """A file that is on the disk: how the state names it, its length, and its SHA-256."""

    name: str
    length: int
    sha256: bytes


def kept(making: Making, path: Path) -> FileFacts:
    """Waits until a new file is on the disk."""
    making.state.keep(path)
    with open(path, "rb") as file:
        digest = hashlib.file_digest(file, "sha256").digest()
    return FileFacts(making.state.named(path), path.stat().st_size, digest)


@dataclass(frozen=True)
class Files:
    """What the new part of a place brings."""

    part: FileFacts
    ledger: str
    store: FileFacts
    job: str | None


def name_part(making: Making, newest: Newest | None, made: Made, files: Mapping[str, Files]) -> None:
    """Makes the parts of all places the newest of their chains."""
    db, generation = making.db, newest.generation if newest else 1
    if newest is None:
        begin_chain(making, generation)
    else:
        making.former += [path for held in newest.places.values() for path in held.files]
    place, kind = (newest.parts, "delta") if newest else (0, "snapshot")
    point_to(making, generation, files)
    add_part(making, (generation, place), kind, made.epoch, files)
    ranges = ((generation, place, log, low, high) for log, (low, high) in made.plan.ranges.items())
    db.executemany("INSERT INTO part_range VALUES (?, ?, ?, ?, ?)", ranges)
    issuers = ((generation, place, issuer) for issuer in made.plan.crls)
    db.executemany("INSERT INTO part_issuer VALUES (?, ?, ?)", issuers)
    enrolled = ((making.moment, issuer) for issuer in made.plan.crls)
    db.executemany("UPDATE issuer SET enrolled_at = ? WHERE id = ?", enrolled)


def begin_chain(making: Making, generation: int) -> None:
    """Begins a chain whose files aren't named yet, and notes by which places the history is cut from here on."""
    making.db.execute("INSERT INTO chain VALUES (?, '', '', 0, x'', 0, NULL)", (generation,))
    if making.config.places is not None:
        making.state.set_meta("places", making.config.places.text())
        making.state.set_meta("format", PLACED)


def point_to(making: Making, generation: int, files: Mapping[str, Files]) -> None:
    """Names the newest ledger and store of each place."""
    for name, each in files.items():
        row = (each.ledger, each.store.name, each.store.length, each.store.sha256, generation)
        if name == WHOLE:
            change = "UPDATE chain SET ledger = ?, store = ?, store_length = ?, store_sha256 = ? WHERE generation = ?"
            making.db.execute(change, row)
        else:
            columns = "(ledger, store, store_length, store_sha256, generation, name)"
            making.db.execute(f"INSERT OR REPLACE INTO place_chain {columns} VALUES (?, ?, ?, ?, ?, ?)", (*row, name))


def add_part(making: Making, at: tuple[int, int], kind: str, epoch: int, files: Mapping[str, Files]) -> None:
    """Names the parts of all places behind the others of their chains: `at` is generation and place."""
    rows = {name: (each.part.name, each.part.length, each.part.sha256, each.job) for name, each in files.items()}
    whole = rows.pop(WHOLE, ("", 0, b"", None))
    making.db.execute("INSERT INTO part VALUES (?, ?, ?, ?, ?, ?, ?, ?)", (*at, kind, epoch, *whole))
    placed = ((*at, name, *row) for name, row in rows.items())
    making.db.executemany("INSERT INTO place_part VALUES (?, ?, ?, ?, ?, ?, ?)", placed)


def accept(making: Making, made: Made) -> None:
    """Marks what the job showed as accepted, makes identities of it, and marks what is set aside or late."""
    db, words = making.db, {"epoch": made.epoch}
    db.execute("UPDATE entry SET epoch = :epoch WHERE id IN (SELECT id FROM temp.shown)", words)
    db.execute("UPDATE entry SET aside = 'count' WHERE id IN (SELECT id FROM temp.aside)")
    db.execute("UPDATE entry SET late = :epoch WHERE late IS NULL AND id IN (SELECT id FROM temp.late)", words)
    db.execute(
        """INSERT INTO identity (issuer, serial, birth, until, entry)
        SELECT e.issuer, e.serial, :epoch, e.until, e.id FROM temp.shown s CROSS JOIN entry e WHERE e.id = s.id
        ORDER BY e.issuer, e.serial
        ON CONFLICT (issuer, serial) DO UPDATE SET until = iif(
            until IS NULL OR excluded.until IS NULL, NULL, max(until, excluded.until))
        WHERE until IS NOT excluded.until""",
        words,
    )


def revoke(making: Making, plan: Plan, epoch: int) -> None:
    """Marks the identities that the CRLs of the enrolled issuers list, and that no one listed before."""
    change = "UPDATE identity SET revoked = ? WHERE issuer = ? AND serial = ? AND revoked IS NULL"
    for issuer, crl in ((issuer, crl) for issuer, crls in plan.crls.items() for crl in crls):
        making.db.executemany(change, ((epoch, issuer, serial) for serial in listed_in(crl)))


def forget(making: Making, generation: int, cut: int) -> None:
    """Forgets waiting entries of certificates that expired before `cut`, segments that nothing needs any more, and
    chains that ended `keep` before the epoch's moment."""
    db, state = making.db, making.state
    words = {"generation": generation, "cut": cut}
    db.execute(f"DELETE FROM entry WHERE id IN ({rules.expired()})", words)
    drop_segments(making)
    ended = "SELECT generation FROM chain WHERE ended < ?"
    before = (making.moment - making.config.keep,)
    rows = db.execute(f"SELECT file FROM any_part WHERE generation IN ({ended})", before)
    making.former += [state.path(name) for (name,) in rows]
    for table in ("part", "place_part", "place_chain"):
        db.execute(f"DELETE FROM {table} WHERE generation IN ({ended})", before)
    db.execute("DELETE FROM chain WHERE ended < ?", before)


def drop_segments(making: Making) -> None:
    """Forgets the segments of which no entry is left."""
    gone = "NOT EXISTS (SELECT 1 FROM entry WHERE segment = segment.id)"
    rows = making.db.execute(f"SELECT file FROM segment WHERE {gone}")
    making.former += [making.state.path(name) for (name,) in rows]
    making.db.execute(f"DELETE FROM segment WHERE {gone}")


Sizes = dict[int, tuple[int, int]]
"""How many identities of each issuer the chain holds, and how many of these are revoked."""


def sizes(making: Making) -> Sizes:
    """What the chain holds of each issuer."""
    held = making.db.execute("SELECT issuer, count(*) FROM identity GROUP BY issuer").fetchall()
    listed = making.db.execute("SELECT issuer, count(*) FROM identity WHERE revoked IS NOT NULL GROUP BY issuer")
    revoked = dict(listed)
    return {issuer: (universe, revoked.get(issuer, 0)) for issuer, universe in held}


def enrolled_universe(making: Making, plan: Plan) -> int:
    """How many identities the chain holds of the issuers that a plan enrols."""
    return sum(universe for issuer, (universe, _) in sizes(making).items() if issuer in plan.crls)


def epoch_row(making: Making, newest: Newest | None, made: Made, files: Mapping[str, Files]) -> EpochRow:
    """What an epoch came to."""
    config, counted = making.config, sizes(making)
    (late,) = making.db.execute("SELECT count(*) FROM temp.late").fetchone()
    return EpochRow(
        epoch=made.epoch,
        moment=making.moment,
        generation=newest.generation if newest else 1,
        kind="delta" if newest else "snapshot",
        length=sum(each.part.length for each in files.values()),
        parts=newest.parts + 1 if newest else 1,
        shown=made.shown,
        waiting=making.waiting(),
        late=late,
        universe=sum(universe for universe, _ in counted.values()),
        revoked=sum(revoked for _, revoked in counted.values()),
        name=config.name,
        valid_until=making.moment + config.valid_for,
        next_key=config.next_key,
        issuers=_issuer_rows(making, made.plan, counted),
        coverage=_coverage(making, made.plan),
        alarms=tuple(making.alarms.raised),
        rebased=False,
    )


def _issuer_rows(making: Making, plan: Plan, counted: Sizes) -> tuple[IssuerRow, ...]:
    """The issuers of CONFIG, in its order."""
    known = {key: (number, at) for number, key, at in making.db.execute("SELECT id, key, enrolled_at FROM issuer")}
    rows = []
    for issuer in making.config.issuers:
        number, at = known.get(issuer.key, (0, None))
        reason = None if number in plan.crls else plan.left.get(number, "no CRL of it was accepted yet")
        rows.append(IssuerRow(issuer.key, issuer.name, reason is None, at, reason, *counted.get(number, (0, 0))))
    return tuple(rows)


def _coverage(making: Making, plan: Plan) -> tuple[Coverage, ...]:
    """What is covered, by ascending log."""
    rows = making.db.execute("SELECT id, key, name FROM log ORDER BY key")
    return tuple(Coverage(key, name, *plan.ranges[number]) for number, key, name in rows if number in plan.ranges)


def write_row(making: Making, row: EpochRow, done: bool) -> None:
    """Writes an epoch's row, or writes it anew."""
    making.db.execute(
        "INSERT INTO epoch VALUES (?, ?, ?, ?)"
        " ON CONFLICT (epoch) DO UPDATE SET done = excluded.done, facts = excluded.facts",
        (row.epoch, row.moment, int(done), to_facts(row)),
    )
