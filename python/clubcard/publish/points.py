"""Distribution points that certificates name and CONFIG doesn't have: the sign that a partition was added.

What an authority lists there alone reads `good`. So the points of all issuers are noted as entries come, also of those
that CONFIG names later or whose URLs it drops later, and each run tells the ones that CONFIG doesn't have, as long as
certificates that name them haven't expired.
"""

import json
import sqlite3
from collections.abc import Collection, Iterator, Mapping
from typing import NamedTuple

from ..entries import EntryFacts
from ..pki import point_urls
from .alarms import Alarms
from .config import Config, Issuer
from .state import State

MOST_TOLD = 20
"""How many are told one by one in a run."""


class Named(NamedTuple):
    """Where a value of the extension was named: the index of the first entry, and the greatest notAfter (in seconds
    since 1970) of all such entries; None where one has none."""

    place: int
    until: int | None


class Watch:
    """The distribution points of the entries of one batch."""

    def __init__(self) -> None:
        self._named: dict[tuple[bytes, bytes], Named] = {}

    def look(self, facts: EntryFacts, place: int) -> None:
        """Notes those of an entry, by its issuer and the value of its extension."""
        if facts.points is None:
            return
        key = facts.issuer, facts.points
        known = self._named.get(key)
        if known is None:
            self._named[key] = Named(place, facts.until)
        elif known.until is not None and (facts.until is None or facts.until > known.until):
            self._named[key] = Named(known.place, facts.until)

    def save(self, db: sqlite3.Connection, log: int, issuers: Mapping[bytes, int]) -> None:
        """Writes them as points that entries of a log named; `issuers` has the numbers of all issuers. The caller's
        transaction surrounds it."""
        insert = """INSERT INTO point (issuer, urls, log, place, until) VALUES (?, ?, ?, ?, ?)
            ON CONFLICT (issuer, urls) DO UPDATE SET until =
            CASE WHEN until IS NOT NULL AND excluded.until IS NOT NULL THEN max(until, excluded.until) END"""
        for (issuer, points), (place, until) in self._named.items():
            urls = point_urls(points)
            if urls:
                db.execute(insert, (issuers[issuer], json.dumps(urls), log, place, until))


def is_unknown(issuer: Issuer, urls: Collection[str]) -> bool:
    """Whether none of a certificate's distribution points is that of a CRL that CONFIG has of its issuer."""
    return not {*issuer.crls, *issuer.names.values()}.intersection(urls)


def unknown(config: Config, state: State, moment: int) -> Iterator[str]:
    """A line for each distribution point that CONFIG doesn't have, of certificates of its issuers which hadn't expired
    before the moment less `grace`."""
    query = """SELECT urls, log.name, place FROM point JOIN issuer ON issuer.id = issuer JOIN log ON log.id = log
        WHERE issuer.key = ? AND (until IS NULL OR until * 1000 >= ?) ORDER BY log.key, place, urls"""
    for issuer in config.issuers:
        for spelt, log, place in state.db.execute(query, (issuer.key, moment - config.grace)):
            urls = json.loads(spelt)
            if is_unknown(issuer, urls):
                yield f"{issuer.name}: entry {place} of {log} names {' '.join(urls)}"


def tell_unknown(config: Config, state: State, moment: int, alarms: Alarms) -> None:
    """An alarm for each distribution point that CONFIG doesn't have."""
    texts = list(unknown(config, state, moment))
    for text in texts[:MOST_TOLD]:
        alarms.add("point", f"{text}; add the CRL to `crls`, or its name to `names`")
    if len(texts) > MOST_TOLD:
        alarms.add("point", f"{len(texts) - MOST_TOLD} more distribution points aren't in CONFIG")
