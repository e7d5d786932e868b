"""What an entry of a log says (RFC 6962, 3.1, 3.2, 3.4 and 4.6), read as the program reads it (docs/FORMATS.md).

Entries come by millions, so places in the bytes are handed on, and not the bytes.
"""

import hashlib
import struct
from functools import lru_cache
from typing import NamedTuple

from .der import INTEGER, OCTET_STRING, SEQUENCE, Malformed, header, seconds

_VERSION = 0xA0
_EXTENSIONS = 0xA3
# The OID 2.5.29.31, as an element: CRL distribution points.
_POINTS = bytes.fromhex("0603551d1f")
_HEAD = struct.Struct(">BBQH")
_X509, _PRECERTIFICATE = 0, 1
_KEY = 32
_LONGEST_SERIAL = 32
# An issuer's certificate up to this length is remembered with its hash.
_REMEMBERED = 1 << 13


class EntryFacts(NamedTuple):
    """What is read of an entry.

    time: of the sighting, in milliseconds since 1970; issuer: 32 bytes; serial: the octets of serialNumber as they
    stand, 1 to 32; until: notAfter in seconds since 1970, None where the entry has no date; points: the value of the
    certificate's extension of CRL distribution points (RFC 5280, 4.2.1.13), None where it isn't found.
    """

    time: int
    issuer: bytes
    serial: bytes
    until: int | None
    points: bytes | None


def read_entry(leaf: bytes, extra: bytes) -> EntryFacts | None:
    """What an entry says: its leaf and its extra data in binary. None exactly where the program counts it as unread."""
    try:
        version, kind, time, entry_type = _HEAD.unpack_from(leaf)
        if version or kind or entry_type > _PRECERTIFICATE:
            return None
        at = _HEAD.size + _KEY * entry_type
        start, end = at + 3, at + 3 + int.from_bytes(leaf[at : at + 3], "big")
        if len(leaf) != end + 2 + int.from_bytes(leaf[end : end + 2], "big"):
            return None
        tbs, tbs_end = _sequence(leaf, start, end)
        if entry_type == _X509:
            tbs, tbs_end = _first_sequence(leaf, tbs, tbs_end)
            issuer = _chain_hash(extra)
        else:
            issuer = leaf[_HEAD.size : at]
        serial, behind = _serial(leaf, tbs, tbs_end)
    except (Malformed, struct.error):
        return None
    until, points = _date_and_points(leaf, behind, tbs_end)
    return EntryFacts(time, issuer, serial, until, points)


def _first_sequence(octets: bytes, at: int, end: int) -> tuple[int, int]:
    """Where the contents of the SEQUENCE at a place begin and end."""
    tag, start, stop = header(octets, at, end)
    if tag != SEQUENCE:
        raise Malformed("there is no SEQUENCE")
    return start, stop


def _sequence(octets: bytes, at: int, end: int) -> tuple[int, int]:
    """The same of a SEQUENCE behind which nothing stands."""
    start, stop = _first_sequence(octets, at, end)
    if stop != end:
        raise Malformed("more stands behind the SEQUENCE")
    return start, stop


def _serial(octets: bytes, at: int, end: int) -> tuple[bytes, int]:
    """The serial in the contents of a TBS, and where it ends."""
    tag, start, stop = header(octets, at, end)
    if tag == _VERSION:
        tag, start, stop = header(octets, stop, end)
    if tag != INTEGER or not 1 <= stop - start <= _LONGEST_SERIAL:
        raise Malformed("there is no serial")
    return octets[start:stop], stop


def _date_and_points(octets: bytes, at: int, end: int) -> tuple[int | None, bytes | None]:
    """The date of a TBS behind whose serial stands this, and the value of its CRL distribution points."""
    until = None
    try:
        _, _, at = header(octets, at, end)
        _, _, at = header(octets, at, end)
        tag, start, stop = header(octets, at, end)
        if tag == SEQUENCE:
            until = _second_time(octets, start, stop)
        place = octets.find(_POINTS, stop, end)
        return until, None if place < 0 else _points(octets, stop, end)
    except Malformed:
        return until, None


def _second_time(octets: bytes, at: int, end: int) -> int | None:
    """The time of the second of two elements."""
    try:
        _, _, at = header(octets, at, end)
        tag, start, stop = header(octets, at, end)
        return seconds(tag, octets[start:stop]) if stop == end else None
    except Malformed:
        return None


def _points(octets: bytes, at: int, end: int) -> bytes | None:
    """The value of the CRL distribution points of a TBS behind whose validity stands this."""
    tag, start, stop = header(octets, at, end)
    while tag != _EXTENSIONS:
        tag, start, stop = header(octets, stop, end)
    at, end = _sequence(octets, start, stop)
    while at < end:
        _, start, stop = header(octets, at, end)
        if octets.startswith(_POINTS, start):
            return _value(octets, start + len(_POINTS), stop)
        at = stop
    return None


def _value(octets: bytes, at: int, end: int) -> bytes | None:
    """The value of an extension behind whose OID stands this: a BOOLEAN that there may be, and an OCTET STRING."""
    tag, start, stop = header(octets, at, end)
    if stop < end:
        tag, start, stop = header(octets, stop, end)
    return octets[start:stop] if tag == OCTET_STRING else None


def _chain_hash(extra: bytes) -> bytes:
    """The issuer hash of the first certificate of a chain, which is cut exactly into certificates."""
    at, end, first = 3, len(extra), 0
    if end < at or int.from_bytes(extra[:3], "big") != end - at:
        raise Malformed("there is no chain")
    while at < end:
        stop = at + 3 + int.from_bytes(extra[at : at + 3], "big")
        if stop == at + 3 or stop > end:
            raise Malformed("a chain isn't cut into certificates")
        first = first or stop
        at = stop
    # Without any, these are no bytes, which are no certificate.
    certificate = extra[6:first]
    return _remembered_hash(certificate) if len(certificate) <= _REMEMBERED else issuer_hash(certificate)


def issuer_hash(certificate: bytes) -> bytes:
    """The SHA-256 of the whole subjectPublicKeyInfo of a certificate in DER. Else it raises `Malformed`."""
    start, end = _sequence(certificate, 0, len(certificate))
    start, end = _first_sequence(certificate, start, end)
    _, at = _serial(certificate, start, end)
    for _ in range(4):
        _, _, at = header(certificate, at, end)
    _, stop = _first_sequence(certificate, at, end)
    return hashlib.sha256(certificate[at:stop]).digest()


_remembered_hash = lru_cache(maxsize=1024)(issuer_hash)
