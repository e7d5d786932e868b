"""`clubcard-publish status`: the chain, its last epochs, what waits and since when, issuers and logs.

Times are ISO 8601 in UTC; issuers and logs are hexadecimal.
"""

import dataclasses
import json
from collections.abc import Iterator
from dataclasses import dataclass

from ..times import nearest_iso, to_iso
from . import chain
from .config import Config, Issuer
from .kept import kept_crls, tries
from .spool import log_rows
from .state import State

LAST = 10
"""How many epochs are shown."""


@dataclass(frozen=True)
class CrlStatus:
    """A CRL of an issuer: the kept one, and the last try."""

    url: str
    number: int | None
    this_update: str | None
    next_update: str | None
    tried: str | None
    why: str | None
    """Why the last try took nothing; null where it did, or there was none."""


@dataclass(frozen=True)
class IssuerStatus:
    """An issuer of CONFIG in the newest epoch, and its CRLs now."""

    issuer: str
    name: str
    enrolled: bool
    enrolled_at: str | None
    reason: str | None
    crls: tuple[CrlStatus, ...]


@dataclass(frozen=True)
class LogStatus:
    """A log: its newest verified tree head, how many entries are taken, and what the newest epoch covers."""

    log: str
    name: str
    head_time: str | None
    head_size: int | None
    taken: int
    covered_from: str | None
    covered_to: str | None


@dataclass(frozen=True)
class WaitingStatus:
    """Entries of a log and an issuer that wait: how many, and the least of their times."""

    log: str
    issuer: str
    name: str | None
    """The issuer's in CONFIG; null where CONFIG doesn't name it."""
    count: int
    since: str


@dataclass(frozen=True)
class EpochStatus:
    """An epoch."""

    epoch: int
    moment: str
    generation: int
    kind: str
    length: int
    parts: int
    shown: int
    waiting: int
    late: int
    universe: int
    revoked: int
    rebased: bool
    alarms: tuple[str, ...]


@dataclass(frozen=True)
class Status:
    """All that `status` says."""

    name: str
    newest: EpochStatus | None
    """null where no epoch was published yet."""
    valid_until: str | None
    is_valid: bool
    """Whether the manifest is still valid."""
    store_length: int | None
    """Of the stores of all places together, where the history is cut."""
    store_sha256: str | None
    """null where the history is cut."""
    places: str | None
    """By what it is cut; null where it isn't."""
    issuers: tuple[IssuerStatus, ...]
    logs: tuple[LogStatus, ...]
    waiting: tuple[WaitingStatus, ...]
    epochs: tuple[EpochStatus, ...]
    """The last ones, the newest first."""


def gather(config: Config, state: State, now: int) -> Status:
    """What the state says at a moment."""
    release, epochs = chain.release(state), chain.history(state, LAST)
    row = None if release is None else release.row
    names = {issuer.key: issuer.name for issuer in config.issuers}
    return Status(
        name=config.name,
        newest=None if row is None else _epoch(row),
        valid_until=None if row is None else to_iso(row.valid_until),
        is_valid=row is not None and now <= row.valid_until,
        store_length=None if release is None else release.store_length,
        store_sha256=None if release is None or release.places else release.chains[0].store_sha256.hex(),
        places=None if release is None or release.places is None else str(release.places),
        issuers=tuple(_issuer(state, issuer, row) for issuer in config.issuers),
        logs=tuple(_logs(state, row)),
        waiting=tuple(
            WaitingStatus(
                each.log.hex(), each.issuer.hex(), names.get(each.issuer), each.count, nearest_iso(each.since)
            )
            for each in chain.waiting(state)
        ),
        epochs=tuple(_epoch(each) for each in reversed(epochs)),
    )


def _epoch(row: chain.EpochRow) -> EpochStatus:
    known = {field.name: getattr(row, field.name) for field in dataclasses.fields(EpochStatus)}
    known |= {"moment": to_iso(row.moment), "alarms": tuple(str(alarm) for alarm in row.alarms)}
    return EpochStatus(**known)


def _iso(time: int | None) -> str | None:
    return None if time is None else nearest_iso(time)


def _issuer(state: State, issuer: Issuer, row: chain.EpochRow | None) -> IssuerStatus:
    kept, last = kept_crls(state, issuer), tries(state, issuer)
    crls = []
    for url in issuer.crls:
        crl, (when, why) = kept.get(url), last.get(url, (None, None))
        times = (None, None, None) if crl is None else (crl.number, _iso(crl.this_update), _iso(crl.next_update))
        crls.append(CrlStatus(url, *times, _iso(when), why))
    found = next((each for each in row.issuers if each.issuer == issuer.key), None) if row is not None else None
    if found is None:
        return IssuerStatus(issuer.key.hex(), issuer.name, False, None, "no epoch with it yet", tuple(crls))
    at = _iso(found.enrolled_at)
    return IssuerStatus(issuer.key.hex(), issuer.name, found.enrolled, at, found.reason, tuple(crls))


def _logs(state: State, row: chain.EpochRow | None) -> Iterator[LogStatus]:
    covered = {} if row is None else {each.log: each for each in row.coverage}
    for log in log_rows(state):
        time, size = (None, None) if log.head is None else (log.head.time, log.head.size)
        span = covered.get(log.key)
        low, high = (None, None) if span is None else (to_iso(span.low), to_iso(span.high))
        yield LogStatus(log.key.hex(), log.name, _iso(time), size, log.taken, low, high)


def to_json(status: Status) -> str:
    """The status as JSON."""
    return json.dumps(dataclasses.asdict(status), indent=2, sort_keys=True, ensure_ascii=False)


def lines(status: Status) -> Iterator[str]:
    """The status for people."""
    new = status.newest
    if new is None:
        yield f"{status.name}: no epoch was published yet"
    else:
        yield f"{status.name}: epoch {new.epoch} of {new.moment}, generation {new.generation}, {new.parts} parts"
        yield f"  {new.universe} certificates, {new.revoked} of them revoked; store of {status.store_length} bytes"
        if status.places is not None:
            yield f"  at places: {status.places}"
        yield f"  valid until {status.valid_until}" + ("" if status.is_valid else ": it isn't any more")
        yield from (f"  {alarm}" for alarm in new.alarms)
    for issuer in status.issuers:
        yield f"issuer {issuer.name}: " + ("enrolled" if issuer.enrolled else f"not enrolled: {issuer.reason}")
        yield from (f"  {_crl_line(crl)}" for crl in issuer.crls)
    for log in status.logs:
        head = f"of {log.head_time} with {log.head_size} entries" if log.head_time else "none"
        yield f"log {log.name}: {log.taken} entries taken; tree head: {head}"
        yield f"  covered from {log.covered_from} to {log.covered_to}" if log.covered_to else "  not covered yet"
    logs = {log.log: log.name for log in status.logs}
    for each in status.waiting:
        who = each.name or f"{each.issuer} (not in CONFIG)"
        yield f"waiting: {each.count} of log {logs.get(each.log, each.log)} and issuer {who}, since {each.since}"
    for epoch in status.epochs:
        yield f"epoch {epoch.epoch} {epoch.moment}: {_epoch_line(epoch)}"


def _crl_line(crl: CrlStatus) -> str:
    kept = "none accepted yet"
    if crl.this_update is not None:
        number = "" if crl.number is None else f"number {crl.number} "
        kept = f"{number}of {crl.this_update}, next {crl.next_update or 'not said'}"
    last = f"; last try {crl.tried}: {crl.why}" if crl.why else ""
    return f"{crl.url}: {kept}{last}"


def _epoch_line(epoch: EpochStatus) -> str:
    behind = ", rebase" if epoch.rebased else ""
    counts = f"{epoch.shown} shown, {epoch.waiting} waiting, {epoch.revoked} of {epoch.universe} revoked"
    return f"{epoch.kind} of {epoch.length} bytes{behind}, {counts}, {len(epoch.alarms)} alarms"
