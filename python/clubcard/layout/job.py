"""A job (docs/FORMATS.md, "Job")."""

from dataclasses import dataclass, field

from .. import der as elements
from ..crls import Crl, CrlRefused
from ..engine_lines import Range
from ..jobs import LONGEST_CRL, MAGIC, MOST_CRLS, MOST_ENTRIES, MOST_RANGES
from .fields import KEY, Fields
from .part import read_range

__all__ = ["MAGIC", "CrlsFound", "EntriesFound", "JobFound", "read_job"]

_RANGE, _CRL, _ENTRY = 1, 2, 3
_KINDS = "0 the end, 1 a range, 2 a CRL or 3 an entry"
# A leaf begins with its version, its type and its time (RFC 6962, 3.4).
_TIME = slice(2, 10)
_TURN = 4096


@dataclass
class CrlsFound:
    """The CRLs of an issuer: how many, with how many bytes, and how many serials they list together, None where one of
    them isn't read."""

    count: int = 0
    size: int = 0
    serials: int | None = 0


@dataclass
class EntriesFound:
    """The entries of a log: how many; and the first and the last time of their leaves, in milliseconds since 1970, None
    where each leaf is too short for one."""

    count: int = 0
    first: int | None = None
    last: int | None = None


@dataclass
class JobFound:
    """What was read of a job, up to the first field that is wrong. moment: in milliseconds since 1970; crls: by issuer;
    entries: by log."""

    epoch: int | None = None
    moment: int | None = None
    ranges: list[Range] = field(default_factory=list)
    crls: dict[bytes, CrlsFound] = field(default_factory=dict)
    entries: dict[bytes, EntriesFound] = field(default_factory=dict)

    def crl_count(self) -> int:
        """How many CRLs there are."""
        return sum(each.count for each in self.crls.values())

    def entry_count(self) -> int:
        """How many entries there are."""
        return sum(each.count for each in self.entries.values())


def read_job(fields: Fields, found: JobFound) -> None:
    """Reads a job. Where a field is wrong, it raises `LayoutFault`. How many serials its CRLs keep together isn't
    tested, since that depends on which of them the program accepts."""
    fields.magic("job.magic", MAGIC)
    found.epoch = fields.number("job.epoch", 8)
    found.moment = fields.number("job.moment", 8)
    before, counts = 0, [0, 0, 0, 0]
    limits = {_RANGE: ("ranges", MOST_RANGES), _CRL: ("crls", MOST_CRLS), _ENTRY: ("entries", MOST_ENTRIES)}
    while kind := _kind(fields, before):
        what, most = limits[kind]
        if counts[kind] == most:
            fields.at -= 1
            raise fields.fault("record.kind", 1, "limit", f"at most {most} {what}", f"limit {what} {most}")
        counts[kind] += 1
        if kind == _RANGE:
            read_range(fields, found.ranges)
        elif kind == _CRL:
            _read_crl(fields, found)
        else:
            _read_entry(fields, found)
        if counts[kind] % _TURN == 0 or kind == _CRL:
            fields.tell()
        before = kind
    fields.whole()


def _kind(fields: Fields, before: int) -> int:
    """The kind of the next record, behind one of a kind."""
    octets = fields.data[fields.at : min(fields.at + 1, fields.end)]
    if octets and (octets[0] == 0 or before <= octets[0] <= _ENTRY):
        fields.at += 1
        return octets[0]
    expected = _KINDS if before <= _RANGE else f"{_KINDS}, and no lower one than that before but 0, {before}"
    fields.take("record.kind", 1, lambda _: False, expected)
    raise AssertionError("a field that fails its test is a fault")


def _read_crl(fields: Fields, found: JobFound) -> None:
    """Reads the record of a CRL behind its kind."""
    issuer = fields.take("crl.issuer", KEY)
    crl = fields.take("crl.bytes", fields.number("crl.length", 4, 0, LONGEST_CRL))
    crls = found.crls.setdefault(issuer, CrlsFound())
    crls.count += 1
    crls.size += len(crl)
    serials = _serials(crl)
    crls.serials = None if serials is None or crls.serials is None else crls.serials + serials


def _serials(crl: bytes) -> int | None:
    """How many serials a CRL lists; None where it isn't read."""
    try:
        return sum(1 for _ in Crl(crl, None, 0, None, ()).listed())
    except (elements.Malformed, CrlRefused):
        return None


def _read_entry(fields: Fields, found: JobFound) -> None:
    """Reads the record of an entry behind its kind."""
    log = fields.take("entry.log", KEY)
    length = fields.number("entry.leaf_length", 3)
    fields.need("entry.leaf", length)
    octets = fields.data[fields.at : fields.at + min(length, _TIME.stop)]
    fields.at += length
    fields.skip("entry.extra", fields.number("entry.extra_length", 3))
    entries = found.entries.setdefault(log, EntriesFound())
    entries.count += 1
    if len(octets) == _TIME.stop:
        time = int.from_bytes(octets[_TIME], "big")
        entries.first = time if entries.first is None else min(entries.first, time)
        entries.last = time if entries.last is None else max(entries.last, time)
