"""What the site shows of the state: the chain, its history, what waits, and the newest CRLs and logs. Only reads."""

from dataclasses import dataclass

from . import chain
from .config import Config
from .state import State

EPOCHS = 120
"""How many of the last epochs are told."""


@dataclass(frozen=True)
class CrlRow:
    """One URL of an issuer: its newest accepted CRL, where there is one, and the last try to fetch it."""

    issuer: bytes
    url: str
    number: str | None
    this_update: int | None
    next_update: int | None
    tried: int | None
    why: str | None
    """Why the last try brought no CRL; None where it did, or where none was made."""


@dataclass(frozen=True)
class LogRow:
    """A log that CONFIG named once: how many of its entries were taken, and its newest verified tree head."""

    log: bytes
    name: str
    entries: int
    head_time: int | None
    head_size: int | None


@dataclass(frozen=True)
class Aside:
    """Entries that are shown to no job: of which log, why, how many, and the first one's index."""

    log: bytes
    why: str
    count: int
    first: int


@dataclass(frozen=True)
class Overview:
    """All that the page and the metrics say, of one moment of the state."""

    release: chain.Release
    history: tuple[chain.EpochRow, ...]
    """The last epochs, the oldest first."""
    waiting: tuple[chain.Waiting, ...]
    crls: tuple[CrlRow, ...]
    logs: tuple[LogRow, ...]
    asides: tuple[Aside, ...]


_CRLS = """
    SELECT issuer.key, url, number, this_update, next_update, tried, why FROM (
        SELECT crl.issuer AS owner, crl.url AS url, number, this_update, next_update, tried, why
        FROM crl LEFT JOIN crl_try ON crl_try.issuer = crl.issuer AND crl_try.url = crl.url
        UNION ALL
        SELECT issuer, url, NULL, NULL, NULL, tried, why FROM crl_try
        WHERE NOT EXISTS (SELECT 1 FROM crl WHERE crl.issuer = crl_try.issuer AND crl.url = crl_try.url)
    ) JOIN issuer ON issuer.id = owner
    ORDER BY issuer.key, url
"""
_LOGS = "SELECT key, name, taken - first, head_time, head_size FROM log ORDER BY key"
_ASIDES = """
    SELECT log.key, aside, count(*), min(place) FROM entry JOIN log ON log.id = entry.log
    WHERE aside IS NOT NULL GROUP BY log.key, aside ORDER BY log.key, aside
"""


def read(config: Config, state: State, release: chain.Release) -> Overview:
    """Reads the state as it is now. CRLs that CONFIG no longer names aren't told."""
    named = {(issuer.key, url) for issuer in config.issuers for url in issuer.crls}
    crls = [CrlRow(*row) for row in state.db.execute(_CRLS)]
    return Overview(
        release=release,
        history=tuple(chain.history(state, EPOCHS)),
        waiting=tuple(sorted(chain.waiting(state), key=lambda held: (held.log, held.issuer))),
        crls=tuple(crl for crl in crls if (crl.issuer, crl.url) in named),
        logs=tuple(LogRow(*row) for row in state.db.execute(_LOGS)),
        asides=tuple(Aside(*row) for row in state.db.execute(_ASIDES)),
    )
