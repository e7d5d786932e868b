"""A ledger (docs/FORMATS.md, "Ledger")."""

import os
from dataclasses import dataclass, field
from pathlib import Path

from ..engine_lines import Range
from .fields import KEY, Fields
from .part import MOST_ISSUERS, read_key, read_ranges
from .store import MOST_PARTS, not_within, told

MAGIC = b"CLUBLEDG"
MOST_IDENTITIES = 4194304
MAX_SERIAL = 32
NONE = 255
# The bytes of the longest identity, and how many identities are read between two looks at who watches.
_LONGEST = KEY + 1 + MAX_SERIAL + 3 + 8
_TURN = 4096


@dataclass
class PartKept:
    """What a ledger remembers of a part. issuers: how many it has; born: how many identities were accepted first in
    its job; last: how many were revoked in its filter and in no later one."""

    epoch: int
    trailer: bytes
    ranges: list[Range] = field(default_factory=list)
    issuers: int = 0
    born: int = 0
    last: int = 0


@dataclass
class Counts:
    """How many identities there are, how many of them are revoked in some part, and how many have a date."""

    identities: int = 0
    revoked: int = 0
    dated: int = 0


@dataclass
class LedgerFound:
    """What was read of a ledger, up to the first field that is wrong. count and identities: how many parts and
    identities it says that it has. issuers: all that a part or an identity has, with the counts of each."""

    version: int | None = None
    count: int | None = None
    parts: list[PartKept] = field(default_factory=list)
    identities: int | None = None
    issuers: dict[bytes, Counts] = field(default_factory=dict)
    digest: bytes | None = None

    def total(self) -> Counts:
        """The counts of all issuers together."""
        counts = self.issuers.values()
        return Counts(*(sum(getattr(each, name) for each in counts) for name in ("identities", "revoked", "dated")))


def identities_in(path: Path) -> int:
    """How many identities a ledger says that it has. Of what stands before only the counts are read, and nothing is
    tested: 0 where the file is too short."""
    with open(path, "rb") as file:
        for _ in range(int.from_bytes(file.read(len(MAGIC) + 2)[-1:], "big")):
            file.seek(8 + KEY, os.SEEK_CUR)
            for width, size in ((2, KEY + 16), (4, KEY)):
                file.seek(int.from_bytes(file.read(width), "big") * size, os.SEEK_CUR)
        return int.from_bytes(file.read(4), "big")


def read_ledger(fields: Fields, found: LedgerFound) -> None:
    """Reads a ledger. Where a field is wrong, it raises `LayoutFault`."""
    first = fields.at
    fields.magic("ledger.magic", MAGIC)
    found.version = fields.number("ledger.version", 1, 1, 2)
    found.count = fields.number("ledger.parts", 1, 1, MOST_PARTS)
    for _ in range(found.count):
        _read_part(fields, found)
    found.identities = fields.number("ledger.identities", 4, 0, MOST_IDENTITIES)
    _read_identities(fields, found, found.version == 2)
    found.digest = fields.digest("ledger.digest", first)
    fields.whole()


def _read_part(fields: Fields, found: LedgerFound) -> None:
    """Reads the next part."""
    before = found.parts[-1] if found.parts else None
    least, expected = 0, ""
    if before is not None:
        least, expected = before.epoch + 1, f"an epoch that is greater than the one before, {before.epoch}"
    part = PartKept(fields.number("ledger.epoch", 8, least, None, expected), fields.take("ledger.part_trailer", KEY))
    found.parts.append(part)
    read_ranges(fields, "ledger.ranges", part.ranges)
    missing = not_within(before.ranges, part.ranges) if before is not None else None
    if missing is not None:
        raise fields.fault("ledger.coverage", 0, "value", f"ranges that hold that of the part before: {told(missing)}")
    issuer = None
    count = fields.number("ledger.issuers", 4, 0, MOST_ISSUERS)
    for _ in range(count):
        issuer = read_key(fields, "ledger.issuer", issuer)
        found.issuers.setdefault(issuer, Counts())
        part.issuers += 1


def _read_identities(fields: Fields, found: LedgerFound, may_date: bool) -> None:
    """Reads all identities, and counts those that are right up to the first one that isn't."""
    parts, before, issuer, counts = len(found.parts), b"", b"", Counts()
    births, lasts = [0] * parts, [0] * (NONE + 1)
    try:
        for number in range(found.identities or 0):
            before, birth, last, is_dated = _identity(fields, before, parts, may_date)
            if before[:KEY] != issuer:
                issuer = before[:KEY]
                counts = found.issuers.setdefault(issuer, Counts())
            counts.identities += 1
            counts.revoked += last != NONE
            counts.dated += is_dated
            births[birth] += 1
            lasts[last] += 1
            if number % _TURN == 0:
                fields.tell()
    finally:
        for part, born, last in zip(found.parts, births, lasts):
            part.born, part.last = born, last


def _identity(fields: Fields, before: bytes, parts: int, may_date: bool) -> tuple[bytes, int, int, int]:
    """The next identity: issuer, length and serial as they stand; birth, last, and 1 where it has a date. There may be
    millions of them, so one that is right is read at once, and field by field what isn't, or what is near the end."""
    at = fields.at
    piece = fields.data[at : min(at + _LONGEST, fields.end)]
    if len(piece) == _LONGEST:
        end = KEY + 1 + piece[KEY]
        # The order is that of bytes, since the length stands before the serial.
        if KEY + 1 < end <= KEY + 1 + MAX_SERIAL and piece[:end] > before:
            birth, last, dated = piece[end], piece[end + 1], piece[end + 2] if may_date else 0
            if birth < parts and (last == NONE or birth <= last < parts) and dated < 2:
                fields.at = at + end + 2 + may_date + 8 * dated
                return piece[:end], birth, last, dated
    return _by_fields(fields, before, parts, may_date)


def _by_fields(fields: Fields, before: bytes, parts: int, may_date: bool) -> tuple[bytes, int, int, int]:
    """The same, field by field."""
    expected = f"an issuer that isn't less than the one before, {before[:KEY].hex()}"
    head = fields.take("identity.issuer", KEY, before[:KEY].__le__, expected)
    head += fields.take("identity.length", 1, lambda octets: 1 <= octets[0] <= MAX_SERIAL, f"1 to {MAX_SERIAL}")
    expected = f"an identity that is greater than the one before, {before[:KEY].hex()} {before[KEY + 1:].hex()}"
    serial = fields.take("identity.serial", head[KEY], lambda octets: head + octets > before, expected)
    birth = fields.number("identity.birth", 1, 0, parts - 1)
    last = fields.take(
        "identity.last",
        1,
        lambda octets: octets[0] == NONE or birth <= octets[0] < parts,
        f"{birth} to {parts - 1}, or {NONE} for none",
    )[0]
    dated = fields.number("identity.dated", 1, 0, 1) if may_date else 0
    if dated:
        fields.skip("identity.until", 8)
    return head + serial, birth, last, dated
