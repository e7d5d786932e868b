"""What a chain that begins anew holds, as a job: behind a rebase an audit reads it in place of all jobs before.

It is read from the old ledger (docs/FORMATS.md, "Ledger" and "A chain begun anew") and not from what the program made
of it, which is so held against it: each issuer has CRLs of what is revoked, and each certificate an entry.
"""

import mmap
import tempfile
from collections.abc import Iterator
from dataclasses import dataclass
from pathlib import Path
from typing import NamedTuple

from clubcard.engine_lines import Range
from clubcard.jobs import JobWriter, entry_record
from clubcard.places import Places

_KEY, _NONE = 32, 255
_AT_MOST = 1_000_000
"""How many serials a CRL has at most: its bytes are then below their limit."""
_TIME = b"\x17\x0d231114221320Z"
_ALGORITHM = bytes.fromhex("300a06082a8648ce3d040302")


class Item(NamedTuple):
    """A certificate of a ledger: whether it is revoked, and until when it is valid (seconds since 1970)."""

    issuer: bytes
    serial: bytes
    is_revoked: bool
    until: int | None

    def is_kept(self, moment: int) -> bool:
        """Whether a rebase at a moment keeps it (milliseconds since 1970)."""
        return self.until is None or 1000 * self.until >= moment


@dataclass(frozen=True)
class Ledger:
    """A ledger, which the program tests: its newest part's epoch and ranges, and the issuers of all parts."""

    octets: mmap.mmap
    epoch: int
    ranges: tuple[Range, ...]
    issuers: frozenset[bytes]
    first: int
    """Where the certificates begin."""

    def items(self) -> Iterator[Item]:
        """The certificates, by issuers."""
        octets, at, is_dated = self.octets, self.first + 4, self.octets[8] == 2
        for _ in range(_number(octets, self.first, 4)):
            end = at + _KEY + 1 + octets[at + _KEY]
            has_date = is_dated and octets[end + 2] == 1
            until = int.from_bytes(octets[end + 3 : end + 11], "big", signed=True) if has_date else None
            yield Item(octets[at : at + _KEY], octets[at + _KEY + 1 : end], octets[end + 1] != _NONE, until)
            at = end + 2 + is_dated + 8 * has_date


@dataclass(frozen=True)
class Held:
    """How many issuers there are, how many certificates, and how many of these are revoked."""

    issuers: int
    universe: int
    revoked: int


def read_ledger(path: Path) -> Ledger:
    """What a ledger says of its parts."""
    with open(path, "rb") as file:
        octets = mmap.mmap(file.fileno(), 0, access=mmap.ACCESS_READ)
    at, epoch = 10, 0
    ranges: tuple[Range, ...] = ()
    issuers: set[bytes] = set()
    for _ in range(octets[9]):
        epoch, many, at = _number(octets, at, 8), _number(octets, at + 40, 2), at + 42
        ranges = tuple(_range(octets, at + 48 * each) for each in range(many))
        at += 48 * many
        many, at = _number(octets, at, 4), at + 4
        issuers.update(octets[at + _KEY * each : at + _KEY * (each + 1)] for each in range(many))
        at += _KEY * many
    return Ledger(octets, epoch, ranges, frozenset(issuers), at)


def _number(octets: mmap.mmap, at: int, width: int) -> int:
    return int.from_bytes(octets[at : at + width], "big")


def _range(octets: mmap.mmap, at: int) -> Range:
    return Range(octets[at : at + _KEY], _number(octets, at + _KEY, 8), _number(octets, at + _KEY + 8, 8))


def held_of(ledger: Ledger, moment: int) -> Held:
    """What a rebase at a moment keeps of a ledger."""
    kept = [item.is_revoked for item in ledger.items() if item.is_kept(moment)]
    return Held(len(ledger.issuers), len(kept), sum(kept))


def write_base(ledger: Ledger, moment: int, places: Places | None, place: str, path: Path) -> Held:
    """Writes what a place has of it as a job."""
    issuers = {each for each in ledger.issuers if places is None or places.has_issuer(place, each)}
    kept = (item for item in ledger.items() if item.issuer in issuers and item.is_kept(moment))
    revoked: dict[bytes, list[bytes]] = {issuer: [] for issuer in issuers}
    universe = 0
    # The file of entries has no name: it goes with the task, whoever ends that.
    with tempfile.TemporaryFile(dir=path.parent) as entries, open(path, "wb") as file, JobWriter(file) as job:
        for item in kept:
            if places is None or places.place_of(item.issuer, item.serial) == place:
                universe += 1
                entries.write(_entry(item, ledger.ranges[0]))
                if item.is_revoked:
                    revoked[item.issuer].append(item.serial)
        _write_head(job, ledger, moment, revoked)
        entries.flush()
        job.copy(entries.fileno(), 0, entries.tell())
    return Held(len(issuers), universe, sum(map(len, revoked.values())))


def _write_head(job: JobWriter, ledger: Ledger, moment: int, revoked: dict[bytes, list[bytes]]) -> None:
    """The records before the entries."""
    job.header(ledger.epoch, moment)
    for each in ledger.ranges:
        job.range(each.log, each.low, each.high)
    for issuer, serials in sorted(revoked.items()):
        for at in range(0, max(1, len(serials)), _AT_MOST):
            job.crl(issuer, _crl(serials[at : at + _AT_MOST]))


def _entry(item: Item, seen: Range) -> bytes:
    """The record of an entry of a precertificate (RFC 6962, 3.4), of which no more stands there than is read."""
    tbs = _der(0x30, _der(0x02, item.serial))
    leaf = b"\0\0" + seen.low.to_bytes(8, "big") + b"\0\1" + item.issuer + len(tbs).to_bytes(3, "big") + tbs + b"\0\0"
    return entry_record(seen.log, leaf, b"")


def _crl(serials: list[bytes]) -> bytes:
    """A CRL (RFC 5280, 5.1) without a next update. It isn't signed."""
    listed = [_der(0x30, _der(0x02, serial), _TIME) for serial in serials]
    tbs = _der(0x30, b"\x02\1\1", _ALGORITHM, b"\x30\0", _TIME, *([_der(0x30, *listed)] if listed else []))
    return _der(0x30, tbs, _ALGORITHM, b"\x03\1\0")


def _der(tag: int, *contents: bytes) -> bytes:
    """An element of DER."""
    octets = b"".join(contents)
    if len(octets) < 128:
        return bytes((tag, len(octets))) + octets
    length = len(octets).to_bytes((len(octets).bit_length() + 7) // 8, "big")
    return bytes((tag, 0x80 | len(length))) + length + octets
