"""CONFIG: what the operator says once, of the chain, its issuers and its logs.

`load` reads it and tests what can be tested without a network. Whatever is wrong is told with its place and a remedy.
"""

import base64
import hashlib
import os
from collections.abc import Mapping
from dataclasses import dataclass
from pathlib import Path
from typing import Literal, cast

from .. import pki
from .. import minisign
from ..jobs import MOST_CRLS, MOST_RANGES
from ..places import Places
from ..places_table import read_places
from ..tables import ConfigError, Table, read_config
from ..times import MINUTE
from .heads import MOST, LogKey

__all__ = ["Config", "ConfigError", "Issuer", "Log", "LogKind", "hints", "load"]

LogKind = Literal["rfc6962", "static"]
MOST_PARTS = 64
"""How many parts a chain has at most."""
_KEYS = (
    "name state site key next_key program workers valid_for rebase_after patience max_away grace keep places"
    " issuer log"
).split()
_ISSUER_KEYS = ("name", "certificate", "crls", "names")
_LOG_KEYS = ("name", "kind", "url", "key", "mmd", "first", "origin")


@dataclass(frozen=True)
class Issuer:
    """An authority: one key, with the certificates that hold it and all of its CRLs."""

    name: str
    """What people call it; in the manifest, the report and alarms."""
    key: bytes
    """The issuer hash: SHA-256 of the SubjectPublicKeyInfo of its certificates, 32 bytes."""
    certificates: tuple[bytes, ...]
    """Its certificates in DER, at least one; all hold the one key."""
    crls: tuple[str, ...]
    """The URLs of all of its CRLs (http, https), at least one. Together they list each certificate that it revoked."""
    names: Mapping[str, str]
    """For URLs of `crls`: the URL that the CRL's issuing distribution point has, where that is another one."""


@dataclass(frozen=True)
class Log:
    """A certificate transparency log."""

    name: str
    """What people call it."""
    id: bytes
    """SHA-256 of `key` (RFC 6962, 3.2), 32 bytes."""
    kind: LogKind
    """rfc6962: get-sth and get-entries of RFC 6962; static: checkpoint and tiles (c2sp.org/static-ct-api)."""
    url: str
    """The log's URL; ends in a slash."""
    key: bytes
    """The DER of its SubjectPublicKeyInfo."""
    mmd: int
    """The maximum merge delay in milliseconds, at least 60,000."""
    first: int
    """The index of the first entry that is taken."""
    origin: str
    """The origin line of a static log's checkpoints: where CONFIG has none, the URL without scheme and last slash."""


@dataclass(frozen=True)
class Config:
    """One chain of parts: where it is kept and published, and of which issuers and logs it is. All durations are
    milliseconds, and all paths are absolute."""

    path: Path
    """CONFIG itself."""
    name: str
    """The chain's name in the manifest. Once it is published it stays: clients refuse a chain of another one."""
    state: Path
    """The folder of the spool, the database, the chain and the lock."""
    site: Path
    """The folder that a web server serves."""
    key: Path
    """minisign's secret key file, without a password."""
    next_key: str | None
    """The announced next public key: the second line (Base64) of minisign's public key file."""
    program: str
    """The program: a name that is found by PATH, or a path where it has a slash."""
    workers: int
    """How many threads the program's calls use, 1 to 64."""
    valid_for: int
    """How long behind its epoch's moment a manifest is valid."""
    rebase_after: int
    """How many parts a chain has at least before it begins anew by a rebase, 1 to 64."""
    patience: int
    """How many epochs waiting entries may hold a rebase back."""
    max_away: int
    """How long an issuer may be away before a chain begins anew without it."""
    grace: int
    """How long a certificate is kept behind its notAfter."""
    keep: int
    """How long parts of chains stay in the site that are no longer published."""
    issuers: tuple[Issuer, ...]
    logs: tuple[Log, ...]
    places: Places | None = None
    """Into which places the history is cut; None where it isn't."""


def load(path: Path) -> Config:
    """Reads CONFIG. Raises ConfigError."""
    table, base = Table(str(path), read_config(path)), path.absolute().parent
    table.only(_KEYS)
    issuers = tuple(_issuer(each, base) for each in table.tables("issuer"))
    logs = tuple(_log(each) for each in table.tables("log"))
    _refuse_twice(path, "issuer", [(each.key, each.name) for each in issuers])
    _refuse_twice(path, "log", [(each.id, each.name) for each in logs])
    _refuse_more(path, "[[log]]", len(logs), MOST_RANGES)
    _refuse_more(path, "URLs in crls", sum(len(issuer.crls) for issuer in issuers), MOST_CRLS)
    config = Config(
        path=path.absolute(),
        name=table.text("name", '"example"'),
        state=base / table.text("state", '"state"', "state"),
        site=base / table.text("site", '"site"', "site"),
        key=base / table.text("key", '"publisher.key"', "publisher.key"),
        next_key=_next_key(table, base),
        program=_program(table, base),
        workers=table.number("workers", 4, 1, 64),
        valid_for=table.duration("valid_for", "24h", MINUTE),
        rebase_after=table.number("rebase_after", 40, 1, MOST_PARTS),
        patience=table.number("patience", 8, 0, 1_000_000),
        max_away=table.duration("max_away", "10d"),
        grace=table.duration("grace", "7d"),
        keep=table.duration("keep", "30d"),
        issuers=issuers,
        logs=logs,
        places=read_places(table),
    )
    _test_folders(table, config)
    return config


def hints(config: Config) -> list[str]:
    """What in CONFIG is allowed and rarely meant, a line each."""
    found = []
    if not config.issuers:
        found.append("there is no [[issuer]]: the chain says nothing of any certificate")
    if not config.logs:
        found.append("there is no [[log]]: no new certificate comes into the chain")
    if config.rebase_after + config.patience > MOST_PARTS:
        most = f"a chain has at most {MOST_PARTS} parts"
        found.append(
            f"rebase_after and patience are more than {MOST_PARTS} together: {most}, and none is made behind it"
        )
    return found


def _next_key(table: Table, base: Path) -> str | None:
    """The public key that each manifest announces."""
    if "next_key" not in table.values:
        return None
    try:
        return minisign.public_line(base / table.text("next_key", '"next.pub"'))
    except (minisign.MinisignError, ValueError) as fault:
        raise table.wrong("next_key", str(fault)) from None


def _program(table: Table, base: Path) -> str:
    """The program, with its path where it has a slash."""
    program = table.text("program", '"clubcard"', "clubcard")
    return str(base / program) if "/" in program else program


def _test_folders(table: Table, config: Config) -> None:
    """Refuses folders where a web server would show what is secret, and a key that can't sign unattended."""
    site, state = (Path(os.path.realpath(place)) for place in (config.site, config.state))
    for key, place in (("state", state), ("key", Path(os.path.realpath(config.key)))):
        if place.is_relative_to(site):
            raise table.wrong(key, f"{place} is in the site, which a web server shows: name another place")
    if site.is_relative_to(state):
        raise table.wrong("site", f"{site} is in the state's folder: name another place")
    try:
        minisign.check_key(config.key)
    except (minisign.MinisignError, ValueError) as fault:
        raise table.wrong("key", str(fault)) from None


def _refuse_more(path: Path, what: str, count: int, most: int) -> None:
    """Refuses more than a job takes."""
    if count > most:
        raise ConfigError(f"{path}: it has {count} {what}, and a job takes {most}: make two chains of it")


def _refuse_twice(path: Path, kind: str, found: list[tuple[bytes, str]]) -> None:
    """Refuses a key that stands in two tables."""
    first: dict[bytes, str] = {}
    for key, name in found:
        if key in first:
            remedy = "list all its certificates in one of them" if kind == "issuer" else "take one of them out"
            raise ConfigError(f'{path}: [[{kind}]] "{first[key]}" and "{name}" have one key: {remedy}')
        first[key] = name


def _issuer(table: Table, base: Path) -> Issuer:
    """An [[issuer]]."""
    table.only(_ISSUER_KEYS)
    name = table.text("name", '"Example CA"')
    certificates = _certificates(table, base)
    urls = table.texts("crls", '["http://crl.example/r1.crl"], with all CRLs of this issuer')
    crls = tuple(table.tested("crls", url) for url in urls)
    key = pki.issuer_hash(certificates[0])
    return Issuer(name, key, certificates, crls, _names(table, crls))


def _certificates(table: Table, base: Path) -> tuple[bytes, ...]:
    """The certificates of an issuer, all of one key."""
    found: dict[bytes, str] = {}
    try:
        for name in table.texts("certificate", '["r1.pem"]'):
            found |= {der: name for der in pki.certificates_of(base / name)}
        keys = {pki.issuer_hash(der): name for der, name in found.items()}
    except (pki.PkiError, OSError) as fault:
        raise table.wrong("certificate", str(fault)) from None
    if len(keys) > 1:
        names = ", ".join(dict.fromkeys(keys.values()))
        remedy = "certificates of another key belong to an [[issuer]] of their own"
        raise table.wrong("certificate", f"these hold {len(keys)} different keys ({names}): {remedy}")
    return tuple(found)


def _names(table: Table, crls: tuple[str, ...]) -> dict[str, str]:
    """By which URLs the distribution points go, where these are others."""
    names = table.value("names", dict, '{ "http://127.0.0.1/r1.crl" = "http://crl.example/r1.crl" }', {})
    for url, point in names.items():
        if url not in crls:
            raise table.wrong("names", f"{url!r} is none of this issuer's crls: name one of them")
        if not isinstance(point, str) or not point.strip():
            raise table.wrong("names", f"{point!r} is no URL: write the URL of the CRL's distribution point")
    points = [names.get(url, url) for url in crls]
    for point in points:
        if points.count(point) > 1:
            raise table.wrong("names", f"two of the crls go by {point!r}: each has a distribution point of its own")
    return dict(names)


def _log(table: Table) -> Log:
    """A [[log]]."""
    table.only(_LOG_KEYS)
    kind = table.text("kind", '"rfc6962"', "rfc6962")
    if kind not in ("rfc6962", "static"):
        raise table.wrong("kind", f'{kind!r} is no kind of log: write "rfc6962" or "static"')
    url = table.url("url", '"https://log.example/2026/"')
    if "?" in url:
        raise table.wrong("url", f"{url!r} has a query: write the part before the question mark")
    url = url if url.endswith("/") else f"{url}/"
    origin = url.split("://", 1)[1].rstrip("/")
    if "origin" in table.values:
        if kind != "static":
            raise table.wrong("origin", 'only logs of kind "static" have one: take it out')
        origin = table.text("origin", f'"{origin}"')
    key = _log_key(table)
    return Log(
        name=table.text("name", '"Example log 2026"'),
        id=hashlib.sha256(key).digest(),
        kind=cast(LogKind, kind),
        url=url,
        key=key,
        mmd=max(MINUTE, table.duration("mmd", "24h")),
        first=table.number("first", 0, 0, MOST),
        origin=origin,
    )


def _log_key(table: Table) -> bytes:
    """A log's key, of a kind with which logs sign (RFC 6962, 2.1.4)."""
    remedy = "take the key of the log list, the Base64 of a DER SubjectPublicKeyInfo"
    try:
        octets = base64.b64decode(table.text("key", '"BASE64"'), validate=True)
        LogKey.read(octets)
    except ValueError as fault:
        raise table.wrong("key", f"it can't be taken ({fault}): {remedy}") from None
    return octets
