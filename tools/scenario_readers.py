"""What files hold, read by the layouts and rules of docs/FORMATS.md: jobs with their CRLs and entries, stores,
and certificates with their timestamps. Parts, ledgers and queries are read by tools/reference_files.py, and pages by
tools/scenario_pages.py."""

import calendar
import datetime
import functools
from collections.abc import Callable
from dataclasses import dataclass, field
from typing import NoReturn

import reference_files
from der_walk import Malformed, Walk
from reference import Job, Part, Refused, sha
from reference_files import Fields
from scenario_publishing import CRLS, ENTRIES, RANGES, SERIALS, Limit
from scenario_words import Identity, Key, Sighting

# The most bytes that a CRL and a certificate may have.
CRL_BYTES, CERTIFICATE_BYTES = 67108864, 1048576


@dataclass
class Fed:
    """The bytes of a file, which come by reads. A read is asked for a piece at a place, of at most 4,096 bytes, and is
    made where bytes are wanted that haven't come; one that gives nothing finds the end."""

    read: Callable[[int, int], bytes]
    come: bytearray = field(default_factory=bytearray)
    taken: int = 0
    has_ended: bool = False

    def more(self) -> None:
        """Reads once."""
        piece = self.read(len(self.come), 4096)
        self.come += piece
        self.has_ended = not piece

    def __getitem__(self, where: slice) -> bytes:
        stop = where.stop if where.stop is None or where.stop >= 0 else None
        while (stop is None or len(self.come) < stop) and not self.has_ended:
            self.more()
        self.taken = max(self.taken, len(self.come) if stop is None else min(stop, len(self.come)))
        return bytes(self.come[where])

    def __len__(self) -> int:
        if len(self.come) == self.taken and not self.has_ended:
            self.more()
        return len(self.come)

    def __eq__(self, other: object) -> bool:
        return self.come == other


# ---------- DER ----------
def only(walk: Walk) -> None:
    """Nothing is left of a walk."""
    if walk.left:
        raise Malformed("something is left")


def elements(octets: bytes, tag: int | None = None) -> list[bytes]:
    """The contents of the elements that some octets are."""
    walk = Walk(octets)
    found: list[bytes] = []
    while walk.left:
        found.append(walk.take("an element", tag)[0])
    return found


def whole(octets: bytes, tag: int) -> bytes:
    """The contents of the one element that some octets are."""
    walk = Walk(octets)
    contents = take(walk, "an element", tag)
    only(walk)
    return contents


def take(walk: Walk, what: str, tag: int | None = None) -> bytes:
    """The contents of the next element."""
    contents: bytes = walk.take(what, tag)[0]
    return contents


def time_in(octets: bytes, tag: int) -> int:
    """A time's seconds since 1970."""
    if len(octets) != (13 if tag == 0x17 else 15) or octets[-1:] != b"Z" or not octets[:-1].isdigit():
        raise Malformed("no time")
    text = octets.decode()
    if tag == 0x17:
        text = ("19" if text[:2] >= "50" else "20") + text
    year, month, day, hour, minute, second = (
        int(text[a:b]) for a, b in zip((0, 4, 6, 8, 10, 12), (4, 6, 8, 10, 12, 14))
    )
    if not (1 <= month <= 12 and 1 <= day and hour < 24 and minute < 60 and second < 60):
        raise Malformed("no time")
    # The calendar comes again after 400 years, which have 146,097 days. Python's has the years 1 to 9999 alone.
    cycle, like = year // 400, 2000 + year % 400
    if day > calendar.monthrange(like, month)[1]:
        raise Malformed("no time")
    at = datetime.datetime(like, month, day, hour, minute, second) - datetime.datetime(1970, 1, 1)
    return (at.days + (cycle - 5) * 146097) * 86400 + at.seconds


def has_time(walk: Walk) -> bool:
    """Whether a time stands next."""
    return walk.left[:1] in (b"\x17", b"\x18")


def take_time(walk: Walk) -> int:
    """The seconds since 1970 of the time that stands next."""
    if not has_time(walk):
        raise Malformed("no time")
    tag = walk.left[0]
    return time_in(take(walk, "a time"), tag)


@dataclass(frozen=True)
class Extension:
    """An extension: the digits of its OID, its criticality and its value."""

    oid: str
    is_critical: bool
    value: bytes


def extensions(octets: bytes) -> list[Extension]:
    """The extensions that the contents of an element hold."""
    return [extension(contents) for contents in elements(octets, 0x30)]


def extension(contents: bytes) -> Extension:
    """The extension that the contents of an element hold."""
    walk, is_critical = Walk(contents), False
    oid = take(walk, "an OID", 0x06)
    if walk.left[:1] == b"\x01":
        is_critical = is_true(take(walk, "a flag", 0x01))
    value = take(walk, "a value", 0x04)
    only(walk)
    return Extension(oid.hex(), is_critical, value)


def is_true(flag: bytes) -> bool:
    """What a BOOLEAN says."""
    if flag not in (b"\0", b"\xff"):
        raise Malformed("no flag")
    return flag == b"\xff"


# ---------- CRLs ----------
IN_CRL = ("551d14", "551d23", "551d2e", "551d12", "551d1c", "551d1b")
IN_ENTRY = ("551d15", "551d18", "551d1d")
POINT, DELTA, ISSUER = "551d1c", "551d1b", "551d1d"


def is_indirect(value: bytes) -> bool:
    """Whether an issuing distribution point says that a CRL is indirect."""
    walk = Walk(whole(value, 0x30))
    flags: list[bool] = []
    while walk.left:
        tag = walk.left[0]
        contents = take(walk, "a field")
        if tag == 0x84:
            flags.append(is_true(contents))
    return any(flags)


@dataclass
class FoundCrl:
    """A CRL that was read: its fault, or the serials that it lists, its thisUpdate in seconds and its nextUpdate in
    milliseconds."""

    octets: bytes
    fault: str | None = None
    serials: list[bytes] = field(default_factory=list)
    this: int | None = None
    next_ms: int | None = None

    def __post_init__(self) -> None:
        try:
            self.read(self.octets)
        except Malformed:
            self.fault = "malformed"
        if self.fault:
            self.serials, self.next_ms = [], None
        self.listed = frozenset(self.serials)

    def read(self, octets: bytes) -> None:
        """Reads the whole CRL, and then what its extensions say of it."""
        outer = Walk(whole(octets, 0x30))
        walk = Walk(take(outer, "tbsCertList", 0x30))
        take(outer, "an algorithm", 0x30)
        take(outer, "a signature", 0x03)
        only(outer)
        if walk.left[:1] == b"\x02" and take(walk, "a version") != b"\x01":
            raise Malformed("no version")
        take(walk, "an algorithm", 0x30)
        take(walk, "an issuer", 0x30)
        self.this = take_time(walk)
        if has_time(walk):
            self.next_ms = 1000 * take_time(walk)
        inner = self.read_entries(take(walk, "entries")) if walk.left[:1] == b"\x30" else []
        outside = extensions(whole(take(walk, "extensions", 0xA0), 0x30)) if walk.left else []
        only(walk)
        self.fault = fault_of(outside, inner)

    def read_entries(self, octets: bytes) -> list[Extension]:
        """Reads the entries, and gives their extensions."""
        found: list[Extension] = []
        for entry in elements(octets, 0x30):
            walk = Walk(entry)
            serial = take(walk, "a serial", 0x02)
            if not serial or not has_time(walk):
                raise Malformed("no entry")
            take(walk, "a date")
            if walk.left:
                found += extensions(take(walk, "extensions", 0x30))
            only(walk)
            if len(serial) <= 32:
                self.serials.append(serial)
        return found


def fault_of(outside: list[Extension], inner: list[Extension]) -> str | None:
    """Why a CRL with these extensions, and these of its entries, isn't accepted."""
    points = [is_indirect(extension.value) for extension in outside if extension.oid == POINT]
    if any(extension.oid == DELTA for extension in outside):
        return "delta"
    if any(points) or any(extension.oid == ISSUER for extension in inner):
        return "indirect"
    for known, found in ((IN_CRL, outside), (IN_ENTRY, inner)):
        if any(extension.is_critical and extension.oid not in known for extension in found):
            return "critical"
    return None


@functools.lru_cache(maxsize=64)
def found_crl(octets: bytes) -> FoundCrl:
    """The CRL of these bytes; one that comes again and again is read once."""
    return FoundCrl(octets)


# ---------- entries ----------
@dataclass
class FoundEntry:
    """An entry that was read: its identity (None: it is unread), the time of its sighting and its date (None: it has
    none)."""

    log: Key
    leaf: bytes
    extra: bytes
    id: Identity | None = None
    time: int = 0
    until: int | None = None

    def __post_init__(self) -> None:
        try:
            self.read()
        except Malformed:
            self.id = None

    def read(self) -> None:
        """Reads the leaf, and of an entry of a certificate its chain."""
        counted = Counted(self.leaf)
        if counted.take(2) != b"\0\0":
            raise Malformed("no leaf")
        self.time = int.from_bytes(counted.take(8), "big")
        kind = counted.take(2)
        if kind == b"\0\0":
            tbs = take(Walk(whole(counted.counted(3, 1), 0x30)), "a TBS", 0x30)
            issuer = issuer_hash(first_of(self.extra))
        elif kind == b"\0\1":
            issuer = counted.take(32)
            tbs = whole(counted.counted(3, 1), 0x30)
        else:
            raise Malformed("no kind")
        counted.counted(2)
        counted.end()
        serial, behind = serial_in(tbs)
        self.id, self.until = (issuer, len(serial), serial), date_in(behind)


def first_of(chain: bytes) -> bytes:
    """The first certificate of a chain."""
    counted = Counted(chain)
    certificates = Counted(counted.counted(3))
    counted.end()
    first = certificates.counted(3, 1)
    while certificates.left:
        certificates.counted(3, 1)
    return first


@dataclass
class Counted:
    """Takes octets, and octets that are counted."""

    left: bytes

    def take(self, count: int) -> bytes:
        """The next octets."""
        if len(self.left) < count:
            raise Malformed("short")
        taken, self.left = self.left[:count], self.left[count:]
        return taken

    def counted(self, width: int, least: int = 0) -> bytes:
        """As many octets as a number of this width says, and no fewer than the least."""
        count = int.from_bytes(self.take(width), "big")
        if count < least:
            raise Malformed("too few")
        return self.take(count)

    def end(self) -> None:
        """Nothing is left."""
        if self.left:
            raise Malformed("something is left")


def serial_in(tbs: bytes) -> tuple[bytes, Walk]:
    """The serial of the contents of a TBS, and the walk behind it."""
    walk = Walk(tbs)
    walk.skip("a version", 0xA0)
    serial = take(walk, "a serial", 0x02)
    if not 1 <= len(serial) <= 32:
        raise Malformed("no serial")
    return serial, walk


def date_in(walk: Walk) -> int | None:
    """The date of a TBS from behind its serial, or None."""
    try:
        take(walk, "an element")
        take(walk, "an element")
        validity = Walk(take(walk, "a validity", 0x30))
        take(validity, "a time")
        until = take_time(validity)
        only(validity)
        return until
    except Malformed:
        return None


def issuer_hash(certificate: bytes) -> Key:
    """The SHA-256 of the whole subjectPublicKeyInfo of a certificate."""
    _, walk = serial_in(take(Walk(whole(certificate, 0x30)), "a TBS", 0x30))
    for _ in range(4):
        take(walk, "an element")
    key: Key = sha(walk.take("a key", 0x30)[1])
    return key


# ---------- jobs ----------
class FoundJob(Job):
    """A job that was read, with how many serials its CRLs keep."""

    serials = 0


def read_job(data: Fed | bytes, counts_serials: bool = True, crls: int = CRLS) -> FoundJob:
    """The job of a file, with so many CRLs at most."""
    fields = Fields(data)
    fields.magic("job.magic", b"CLUBJOB1")
    job = FoundJob(fields.number("job.epoch", 8), fields.number("job.moment", 8), [], [], [])
    before = 0
    while True:
        kind = fields.number("record.kind", 1, lambda kind: kind == 0 or before <= kind <= 3)
        if kind == 0:
            break
        before = kind
        if kind == 1:
            read_range(fields, job)
        elif kind == 2:
            read_crl(fields, job, counts_serials, crls)
        else:
            read_entry(fields, job)
    fields.end()
    return job


def read_range(fields: Fields, job: FoundJob) -> None:
    """Reads the record of a range behind its kind."""
    if len(job.ranges) == RANGES:
        raise Limit("ranges", RANGES)
    job.ranges.append(reference_files.read_range(fields, job.ranges[-1][0] if job.ranges else None))


def read_crl(fields: Fields, job: FoundJob, counts_serials: bool, most: int) -> None:
    """Reads the record of a CRL behind its kind."""
    if len(job.crls) == most:
        raise Limit("crls", most)
    issuer = fields.take("crl.issuer", 32)
    length = fields.number("crl.length", 4, lambda length: length <= CRL_BYTES)
    crl = found_crl(fields.take("crl.bytes", length))
    job.serials += len(crl.serials)
    if counts_serials and job.serials > SERIALS:
        raise Limit("serials", SERIALS)
    job.crls.append((issuer, crl))


def read_entry(fields: Fields, job: FoundJob) -> None:
    """Reads the record of an entry behind its kind."""
    if len(job.entries) == ENTRIES:
        raise Limit("entries", ENTRIES)
    log = fields.take("entry.log", 32)
    leaf = fields.take("entry.leaf", fields.number("entry.leaf_length", 3))
    job.entries.append(FoundEntry(log, leaf, fields.take("entry.extra", fields.number("entry.extra_length", 3))))


# ---------- stores ----------
def chain_fault(held: Part | None, part: Part) -> None:
    """Refuses a part that doesn't go on behind the newest part of a store (None: there is none)."""
    if held is None:
        if part.kind == 1:
            raise Refused(5, "chain not-snapshot")
        return
    if part.kind == 0:
        raise Refused(5, "chain not-delta")
    if part.parent != held.trailer:
        raise Refused(5, f"chain parent {held.trailer.hex()} {part.parent.hex()}")
    if part.epoch <= held.epoch:
        raise Refused(5, f"chain epoch {held.epoch} {part.epoch}")
    for span in held.ranges:
        if not reference_files.lies_in(span, part.ranges):
            raise Refused(5, f"chain coverage {span[0].hex()}")


def read_store(data: Fed | bytes) -> list[Part]:
    """The parts of a store."""
    fields = Fields(data)
    parts: list[Part] = []
    fields.magic("store.magic", b"CLUBSTOR")
    fields.number("store.version", 1, lambda version: version == 1)
    for _ in range(fields.number("store.count", 1, lambda count: 1 <= count <= 64)):
        part = reference_files.take_part(fields)
        chain_fault(parts[-1] if parts else None, part)
        parts.append(part)
    fields.end()
    return parts


# ---------- certificates ----------
TIMESTAMPS = "2b06010401d679020402"


def timestamps_in(value: bytes) -> list[Sighting]:
    """The sightings of the timestamps of version 1 of an extension's value."""
    found: list[Sighting] = []
    listed = Counted(whole(value, 0x04))
    items = Counted(listed.counted(2, 1))
    listed.end()
    while items.left:
        item = Counted(items.counted(2, 1))
        if item.take(1) != b"\0":
            continue
        log, time = item.take(32), int.from_bytes(item.take(8), "big")
        item.counted(2)
        item.take(2)
        item.counted(2)
        item.end()
        found.append((log, time))
    return found


def serial_and_extensions(data: bytes) -> tuple[bytes, list[Extension]]:
    """The serial of a certificate, and its extensions."""
    if len(data) > CERTIFICATE_BYTES:
        raise Malformed("too long")
    serial, walk = serial_in(take(Walk(whole(data, 0x30)), "a TBS", 0x30))
    for _ in range(4):
        take(walk, "an element")
    take(walk, "a key", 0x30)
    held: list[Extension] | None = None
    while walk.left:
        tag = walk.left[0]
        contents = take(walk, "an element")
        if tag == 0xA3 and held is None:
            held = extensions(whole(contents, 0x30))
    return serial, held or []


def read_certificate(data: bytes) -> tuple[bytes, list[Sighting]]:
    """The serial and the sightings of a certificate."""
    try:
        serial, held = serial_and_extensions(data)
    except Malformed:
        refuse_certificate("malformed")
    values = [extension.value for extension in held if extension.oid == TIMESTAMPS]
    if not values:
        refuse_certificate("no-scts")
    try:
        found = timestamps_in(values[0])
    except Malformed:
        refuse_certificate("scts")
    if not found:
        refuse_certificate("no-scts")
    if len(found) > 64:
        refuse_certificate("many")
    return serial, found


def refuse_certificate(why: str) -> NoReturn:
    """Refuses a certificate."""
    raise Refused(12, f"cert {why}") from None


def read_issuer(data: bytes) -> Key:
    """The issuer hash of an issuer's certificate."""
    try:
        if len(data) > CERTIFICATE_BYTES:
            raise Malformed("too long")
        return issuer_hash(data)
    except Malformed:
        refuse_certificate("malformed")
