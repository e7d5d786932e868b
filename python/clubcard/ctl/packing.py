"""Packs jobs, pages and query files (docs/FORMATS.md)."""

import base64
import json
from collections.abc import Iterable, Sequence
from dataclasses import dataclass

from ..jobs import MOST_CRLS, MOST_ENTRIES, MOST_RANGES, JobWriter
from .files import crl_of, draft, octets_of, x509_entry
from .words import Wrong, log_id, milliseconds, number, octets

MOST_QUERIES = 65536
_LONGEST = (1 << 24) - 1
_MOST_SIGHTINGS = 64
Words = Sequence[tuple[str, ...]]


@dataclass(frozen=True)
class JobWords:
    """The words of a job: of each range LOG FROM TO, of each CRL ISSUERCERT CRLFILE, of each certificate CERT
    ISSUERCERT LOG TIME, and of each entry LOG LEAFFILE EXTRAFILE."""

    epoch: str
    moment: str
    ranges: Words
    crls: Words
    certificates: Words
    entries: Words


def _ranges(words: Words) -> list[tuple[bytes, int, int]]:
    """The ranges in the order of their logs, of which each has one."""
    by_log: dict[bytes, tuple[int, int]] = {}
    for log, start, end in words:
        low, high = milliseconds(start, "a range from"), milliseconds(end, "a range to")
        if low > high:
            raise Wrong(f"{start} {end}: a range ends before it starts")
        if log_id(log) in by_log:
            raise Wrong(f"{log}: two ranges of one log")
        by_log[log_id(log)] = low, high
    return [(log, *by_log[log]) for log in sorted(by_log)]


def _test_limits(words: JobWords) -> None:
    """Tests that there is no more than a job takes."""
    for what, given, most in (
        ("ranges", len(words.ranges), MOST_RANGES),
        ("CRLs", len(words.crls), MOST_CRLS),
        ("entries", len(words.certificates) + len(words.entries), MOST_ENTRIES),
    ):
        if given > most:
            raise Wrong(f"{given} {what}, and a job has at most {most}")


def _put_entries(job: JobWriter, words: JobWords) -> None:
    """Writes the entries: those of certificates, and those that stand in files."""
    for name, issuer_name, log, time in words.certificates:
        key, seen = log_id(log), milliseconds(time, f"the time of {name}")
        job.entry(key, *x509_entry(name, issuer_name, seen))
    for log, leaf_name, extra_name in words.entries:
        job.entry(log_id(log), *(_short(each) for each in (leaf_name, extra_name)))


def _short(name: str) -> bytes:
    """The bytes of a file of a leaf or of extra data."""
    found = octets_of(name)
    if len(found) > _LONGEST:
        raise Wrong(f"{name}: {len(found)} bytes are more than a length of 24 bits can say")
    return found


def pack_job(name: str, words: JobWords) -> str:
    """Writes a job, and gives the line on it."""
    _test_limits(words)
    epoch, moment = number(words.epoch), milliseconds(words.moment, "--moment")
    ranges = _ranges(words.ranges)
    with draft(name) as file, JobWriter(file) as job:
        job.header(epoch, moment)
        for log, low, high in ranges:
            job.range(log, low, high)
        for issuer_name, crl_name in words.crls:
            job.crl(*crl_of(issuer_name, crl_name))
        _put_entries(job, words)
    counts = f"ranges {len(ranges)} crls {len(words.crls)} entries {len(words.certificates) + len(words.entries)}"
    return f"job {name} epoch {epoch} moment {moment} {counts} bytes {job.size}"


def pack_page(name: str, certificates: Words) -> str:
    """Writes a page of certificates, each CERT ISSUERCERT TIME, and gives the line on it."""
    entries = []
    for certificate_name, issuer_name, time in certificates:
        seen = milliseconds(time, f"the time of {certificate_name}")
        leaf, extra = x509_entry(certificate_name, issuer_name, seen)
        item = {"leaf_input": base64.b64encode(leaf).decode(), "extra_data": base64.b64encode(extra).decode()}
        entries.append(item)
    with draft(name) as file:
        file.write(json.dumps({"entries": entries}).encode("ascii"))
    return f"page {name} entries {len(entries)}"


def _query(words: Sequence[str]) -> bytes:
    """The bytes of the query that some words are."""
    if len(words) < 4 or len(words) % 2 or len(words) > 2 + 2 * _MOST_SIGHTINGS:
        raise Wrong(f"a query is ISSUER SERIAL, then 1 to {_MOST_SIGHTINGS} pairs LOG TIME")
    issuer, serial = octets(words[0], 32, 32, "an issuer"), octets(words[1], 1, 32, "a serial")
    pieces = [issuer, bytes([len(serial)]), serial, bytes([len(words) // 2 - 1])]
    for log, time in zip(words[2::2], words[3::2]):
        pieces += [log_id(log), number(time).to_bytes(8, "big")]
    return b"".join(pieces)


def pack_queries(name: str, lines: Iterable[str]) -> str:
    """Writes a query file, of which each line is one query, and gives the line on it."""
    queries = []
    for place, line in enumerate(lines, 1):
        try:
            queries += [_query(line.split())] if line.split() else []
        except Wrong as error:
            raise Wrong(f"line {place}: {error.message}") from error
    if len(queries) > MOST_QUERIES:
        raise Wrong(f"{len(queries)} queries, and at most {MOST_QUERIES} can be asked")
    with draft(name) as file:
        file.write(b"CLUBQRY1" + len(queries).to_bytes(4, "big") + b"".join(queries))
    return f"queries {name} {len(queries)}"
