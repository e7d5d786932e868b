"""The kept CRLs: the newest accepted one of each URL of an issuer, and what the last try to fetch it came to."""

import hashlib
import sqlite3
from dataclasses import dataclass
from pathlib import Path

from ..telling import one_line
from .config import Issuer
from .state import State


@dataclass(frozen=True)
class KeptCrl:
    """The newest accepted CRL of a URL, in a file of the state."""

    issuer: bytes
    """The issuer hash."""
    url: str
    file: Path
    """Its DER, below the state's folder."""
    number: int | None
    """Its CRL number (RFC 5280, 5.2.3)."""
    this_update: int
    """Milliseconds since 1970 UTC."""
    next_update: int | None
    """1000 times nextUpdate in seconds."""
    sha256: bytes
    asked: bytes = b""
    """The digest of what CONFIG said of the issuer when it was accepted."""


@dataclass(frozen=True)
class Tried:
    """What a try to fetch a CRL came to: why nothing was taken, or a new CRL, or neither where there is none."""

    url: str
    etag: str | None = None
    modified: str | None = None
    new: KeptCrl | None = None
    why: str | None = None


def in_time(next_update: int | None, moment: int) -> bool:
    """Whether a CRL is in time for a job of this moment, by the program's rule."""
    return next_update is None or next_update >= moment


def is_older(new: KeptCrl, kept: KeptCrl, moment: int) -> bool:
    """Whether a CRL was issued before the kept one: by their numbers, and where these say nothing by thisUpdate.

    Where the kept one is out of time, thisUpdate alone counts: an authority that numbers anew isn't away for ever.
    """
    if new.number is None or kept.number is None or new.number == kept.number or not in_time(kept.next_update, moment):
        return new.this_update < kept.this_update
    return new.number < kept.number


def kept_crls(state: State, issuer: Issuer) -> dict[str, KeptCrl]:
    """The kept CRLs of an issuer's URLs in CONFIG, whose files are there and hold what was accepted."""
    rows = state.db.execute(
        "SELECT url, file, number, this_update, next_update, sha256, asked FROM crl"
        " JOIN issuer ON issuer.id = crl.issuer WHERE key = ?",
        (issuer.key,),
    ).fetchall()
    found = {}
    for url, file, number, this_update, next_update, sha256, asked in rows:
        path, whole = state.path(file), None if number is None else int(number)
        if url in issuer.crls and _holds(path, sha256):
            found[url] = KeptCrl(issuer.key, url, path, whole, this_update, next_update, sha256, asked)
    return found


def _holds(path: Path, sha256: bytes) -> bool:
    """Whether a file is there with this digest. One that isn't is fetched anew."""
    try:
        return hashlib.sha256(path.read_bytes()).digest() == sha256
    except FileNotFoundError:
        return False


def said_before(state: State, issuer: Issuer) -> dict[str, tuple[str | None, str | None]]:
    """What servers said of the kept CRLs' files: their ETag and Last-Modified."""
    query = "SELECT url, etag, modified FROM crl_try JOIN issuer ON issuer.id = crl_try.issuer WHERE key = ?"
    return {url: (etag, modified) for url, etag, modified in state.db.execute(query, (issuer.key,)).fetchall()}


def tries(state: State, issuer: Issuer) -> dict[str, tuple[int, str | None]]:
    """The moment of the last try of each URL, and why it took nothing; None where it did."""
    query = "SELECT url, tried, why FROM crl_try JOIN issuer ON issuer.id = crl_try.issuer WHERE key = ?"
    return {url: (tried, why) for url, tried, why in state.db.execute(query, (issuer.key,)).fetchall()}


def note(db: sqlite3.Connection, state: State, issuer: int, moment: int, tried: Tried) -> Path | None:
    """Writes the rows of a try, and names the file that no row names any more. Where nothing was taken, what the server
    said of the kept CRL stays."""
    why = None if tried.why is None else one_line(tried.why)
    row = (issuer, tried.url, moment, tried.etag, tried.modified, why)
    db.execute(
        "INSERT INTO crl_try (issuer, url, tried, etag, modified, why) VALUES (?, ?, ?, ?, ?, ?)"
        " ON CONFLICT (issuer, url) DO UPDATE SET tried = excluded.tried, why = excluded.why,"
        " etag = CASE WHEN excluded.why IS NULL THEN excluded.etag ELSE etag END,"
        " modified = CASE WHEN excluded.why IS NULL THEN excluded.modified ELSE modified END",
        row,
    )
    new = tried.new
    if new is None:
        return None
    old = db.execute("SELECT file FROM crl WHERE issuer = ? AND url = ?", (issuer, tried.url)).fetchone()
    digits, times = None if new.number is None else str(new.number), (new.this_update, new.next_update)
    db.execute(
        "INSERT OR REPLACE INTO crl (issuer, url, file, sha256, number, this_update, next_update, fetched, asked)"
        " VALUES (?, ?, ?, ?, ?, ?, ?, ?, ?)",
        (issuer, new.url, state.named(new.file), new.sha256, digits, *times, moment, new.asked),
    )
    return None if old is None else state.path(old[0])
