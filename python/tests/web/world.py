"""A world of authorities, logs and certificates, as data that can be printed, cut down and made again.

All times are milliseconds since 1970 UTC, but `until` (seconds). Epochs, issuers, logs and partitions count from 0.
"""

from collections.abc import Iterator
from dataclasses import dataclass, field
from typing import Literal

SECOND = 1000
MINUTE = 60 * SECOND
HOUR = 60 * MINUTE
DAY = 24 * HOUR
T = 1_788_220_800_000  # 2026-09-01 00:00:00 UTC: the worlds' hour 0
LONG = T // 1000 + 10**8

CrlFault = Literal[
    "missing", "cut", "garbage", "stale", "edge", "swap", "foreign", "delta", "indirect", "older", "unnamed", "twice"
]
"""What stands at a CRL's URL in an epoch: missing: nothing; cut: its front; garbage: no CRL; stale: one out of date by
2 seconds; edge: one out of date by less than a second; swap: another partition's; unnamed: the same without an issuing
distribution point; foreign: an empty one that another key signed; delta, indirect: an empty one of this kind; older:
that of two epochs before; twice: the first partition's, whose issuing distribution point names all URLs of the issuer:
by an RSA key the same bytes at each of them."""

LogFault = Literal[
    "silent", "busy", "garbage", "unsigned", "old", "short", "fork", "branch", "ahead", "grows", "shrinks"
]
"""What a log does in an epoch: silent: no answer; busy: status 429 to all; garbage: no tree head; unsigned: other new
entries, under a tree head that another key signed; old: an earlier tree head; short: only a front of the entries comes;
fork: other entries, from the last known one on, under a signed tree head; branch: behind a short one, other entries
than those that didn't come in it, under a signed tree head; ahead: a tree head whose time lies 48 hours
ahead; grows: a new tree head at each answer, and entries behind it; shrinks: a smaller tree of a later time."""


@dataclass(frozen=True)
class Entry:
    """An entry of a log: its timestamp, and when the log merged it (None: never)."""

    log: int
    time: int
    merged: int | None
    whole: bool = False
    """The certificate itself is logged, and this timestamp isn't embedded."""
    unread: bool = False
    """What is logged is no entry that anybody can read."""


@dataclass(frozen=True)
class Cert:
    """A certificate, and when it is revoked: from `on` until `off` (None: for good), of which the former is a hold."""

    issuer: int
    serial: int
    until: int
    entries: tuple[Entry, ...]
    revs: tuple[tuple[int, int | None], ...] = ()
    crl: int = 0
    keeps: bool = True
    """The authority lists it behind its expiry too."""
    point: str | None = None
    """A CRL distribution point that it names instead of its partition's."""

    def listed(self, at: int) -> bool:
        """Whether its authority's CRL lists it at a time."""
        if not self.keeps and self.until * 1000 < at:
            return False
        return any(on <= at and (off is None or at < off) for on, off in self.revs)


@dataclass(frozen=True)
class Log:
    """A log, with what CONFIG says of it and from which epoch on (join) until before which (leave)."""

    mmd: int = MINUTE
    kind: Literal["rfc6962", "static"] = "rfc6962"
    every: int = SECOND
    """It makes a tree head at each multiple of this."""
    join: int = 0
    leave: int | None = None
    first_at: int | None = None
    """CONFIG's `first` is the size of its tree at this time (None: 0)."""
    conf: tuple[tuple[int, int], ...] = ()
    """From an epoch on CONFIG has a greater MMD."""
    bad: tuple[tuple[int, LogFault], ...] = ()

    def fault(self, epoch: int) -> LogFault | None:
        return dict(self.bad).get(epoch)

    def mmd_at(self, epoch: int) -> int:
        """The MMD that CONFIG says in an epoch."""
        return max([self.mmd, *(mmd for at, mmd in self.conf if at <= epoch)])


@dataclass(frozen=True)
class Issuer:
    """An authority, with what CONFIG says of it and from which epoch on (join, None: never) until before which."""

    crls: int = 1
    key: Literal["ec", "rsa"] = "ec"
    kind: Literal["root", "intermediate", "crossed"] = "root"
    """root: a certificate of its own; intermediate: one by a root; crossed: one of its own and one by a root."""
    old: int | None = None
    """The issuer whose name it has, with a key of its own."""
    points: Literal["url", "named", "none"] = "url"
    """What the CRLs' issuing distribution point names: the URL; another one, which CONFIG maps; or there is none."""
    join: int | None = 0
    leave: int | None = None
    valid: int | None = None
    """From thisUpdate to nextUpdate (None: no nextUpdate)."""
    gone: tuple[int, int | None] | None = None
    """All of its CRLs are missing from an epoch on until before another one."""
    bad: tuple[tuple[int, int, CrlFault], ...] = ()
    """Epoch, partition, fault."""
    drops: tuple[tuple[int, int], ...] = ()
    """Epoch, partition: CONFIG doesn't name this CRL in it."""
    split: bool = False
    """CONFIG has an [[issuer]] for each of its CRLs."""

    def fault(self, epoch: int, partition: int) -> CrlFault | None:
        if self.gone is not None and self.gone[0] <= epoch and (self.gone[1] is None or epoch < self.gone[1]):
            return "missing"
        return {(at, place): kind for at, place, kind in self.bad}.get((epoch, partition))


@dataclass(frozen=True)
class World:
    """The epochs' moments, ascending, and all that is there. `clock`: what the publisher's clock says, where it is
    wrong."""

    moments: tuple[int, ...]
    logs: tuple[Log, ...]
    issuers: tuple[Issuer, ...]
    certs: tuple[Cert, ...]
    clock: tuple[tuple[int, int], ...] = ()
    rebase_after: int = 40
    grace: int = 0
    patience: int = 8
    max_away: int = 10 * DAY
    workers: int = 1
    more: dict[str, str] = field(default_factory=dict)
    """Further lines of CONFIG: key and value."""

    def now(self, epoch: int) -> int:
        """What the publisher's clock says in an epoch."""
        return dict(self.clock).get(epoch, self.moments[epoch])


def named(thing: Log | Issuer, epoch: int) -> bool:
    """Whether CONFIG names a log or an issuer in an epoch."""
    if thing.join is None or epoch < thing.join:
        return False
    return thing.leave is None or epoch < thing.leave


def at(hours: float) -> int:
    """A time, by hours behind T."""
    return T + round(hours * HOUR)


def when(time: int) -> str:
    return f"{(time - T) / HOUR:+.2f}h"


def _of_logs(world: World) -> Iterator[tuple[int, str]]:
    for place, log in enumerate(world.logs):
        begins = world.moments[min(log.join, len(world.moments) - 1)] - 1
        first = "0" if log.first_at is None else f"the size at {when(log.first_at)}"
        head = f"mmd {log.mmd / HOUR:g}h, a head each {log.every / SECOND:g}s, first {first}"
        yield begins, f"CONFIG names log {place} ({log.kind}): {head}"
        if log.leave is not None and log.leave < len(world.moments):
            yield world.moments[log.leave] - 1, f"CONFIG names log {place} no more"
        yield from ((world.moments[e] - 1, f"log {place} is {kind} in epoch {e}") for e, kind in log.bad)
        yield from ((world.moments[e] - 1, f"CONFIG: the mmd of log {place} is {mmd / HOUR:g}h") for e, mmd in log.conf)


def _of_issuers(world: World) -> Iterator[tuple[int, str]]:
    for place, issuer in enumerate(world.issuers):
        if issuer.join is not None and issuer.join < len(world.moments):
            begins = world.moments[issuer.join] - 1
            kind = f"{issuer.key}, {issuer.kind}, {issuer.crls} CRLs, points {issuer.points}"
            yield begins, f"CONFIG names issuer {place} ({kind}, valid {issuer.valid})"
        if issuer.leave is not None and issuer.leave < len(world.moments):
            yield world.moments[issuer.leave] - 1, f"CONFIG names issuer {place} no more"
        for epoch in range(len(world.moments)):
            faults = [(p, issuer.fault(epoch, p)) for p in range(issuer.crls)]
            yield from ((world.moments[epoch] - 1, f"issuer {place}: CRL {p} is {f}") for p, f in faults if f)


def _of_certs(world: World) -> Iterator[tuple[int, str]]:
    for place, cert in enumerate(world.certs):
        name = f"certificate {place} (issuer {cert.issuer}, serial {cert.serial:x}, CRL {cert.crl}"
        name += f", until {when(cert.until * 1000)}{'' if cert.keeps else ', then not listed'})"
        for entry in cert.entries:
            merged = "never merged" if entry.merged is None else f"merged {when(entry.merged)}"
            kind = " as x509" * entry.whole + " unread" * entry.unread
            yield entry.time, f"{name}: timestamp of log {entry.log}{kind}, {merged}"
        for on, off in cert.revs:
            yield on, f"certificate {place} revoked" + ("" if off is None else f", lifted {when(off)}")


def told(world: World) -> list[str]:
    """A world as a list of events, in the order of time."""
    rows = [*_of_logs(world), *_of_issuers(world), *_of_certs(world)]
    for epoch, moment in enumerate(world.moments):
        clock = world.now(epoch)
        rows.append((moment, f"EPOCH {epoch}" + ("" if clock == moment else f", the clock says {when(clock)}")))
    rows.sort(key=lambda row: row[0])
    first = f"rebase_after {world.rebase_after}, grace {world.grace / HOUR:g}h, patience {world.patience}"
    return [first, *(f"{when(time):>10} {text}" for time, text in rows)]
