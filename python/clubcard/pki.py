"""Certificates: those of a file, an issuer's hash, identities, timestamps, who issued whom, distribution points."""

import base64
import binascii
import hashlib
import os
import re
from collections.abc import Iterator
from dataclasses import dataclass
from typing import NamedTuple

from . import der as elements
from .extensions import BASIC_CONSTRAINTS, KEY_USAGE, TIMESTAMPS, Extension, point_urls, read_extensions, value_of
from .names import are_same
from .signatures import Unverified, verify

__all__ = [
    "Certificate",
    "Identity",
    "LONGEST_FILE",
    "PkiError",
    "Sighting",
    "certificates_of",
    "identity",
    "is_authority",
    "issued_by",
    "issuer_hash",
    "may_sign",
    "pem_blocks",
    "point_urls",
    "read_certificate",
    "timestamps",
    "why_not_issued",
]

LONGEST_FILE = 1 << 24
"""A file of certificates has so many bytes at most."""
_VERSION = 0xA0
_EXTENSIONS = 0xA3
# What the program reads of a certificate, and of its timestamps (docs/FORMATS.md, "Timestamps of a certificate").
_LONGEST = 1 << 20
_LONGEST_SERIAL = 32
_MOST_TIMESTAMPS = 64
_KEY_CERT_SIGN = 0x04
_GIVE = "give a file in PEM or DER (openssl x509 -in FILE -text)"


class PkiError(Exception):
    """A file or a certificate isn't what was asked for. `remedy` says what to do, and may be empty."""

    def __init__(self, text: str, remedy: str = "") -> None:
        super().__init__(f"{text}; {remedy}" if remedy else text)
        self.remedy = remedy


@dataclass(frozen=True)
class Identity:
    """A certificate's identity: its issuer's hash (32 bytes), and its serial's octets as they stand (1 to 32)."""

    issuer: bytes
    serial: bytes


class Sighting(NamedTuple):
    """When a log saw a certificate: its id (32 bytes, RFC 6962, 3.2), and milliseconds since 1970."""

    log: bytes
    time: int


@dataclass(frozen=True)
class Certificate:
    """What is read of a certificate (RFC 5280, 4.1). Issuer, subject and key are whole elements, the key is its
    subjectPublicKeyInfo, and the tail is what stands behind that in the TBS."""

    der: bytes
    serial: bytes
    issuer: bytes
    subject: bytes
    key: bytes
    tail: bytes

    def key_hash(self) -> bytes:
        """The key by which an issuer goes: the SHA-256 of its whole subjectPublicKeyInfo."""
        return hashlib.sha256(self.key).digest()

    def extensions(self) -> list[Extension]:
        """Its extensions, also none. Another form is `Malformed`."""
        tail = list(elements.elements(self.tail))
        explicit = next((element.contents for element in tail if element.tag == _EXTENSIONS), None)
        return [] if explicit is None else read_extensions(elements.only(explicit, elements.SEQUENCE))


def read_certificate(der: bytes) -> Certificate:
    """The certificate that these bytes are, as the program reads it. Else it raises `PkiError`."""
    try:
        walk = elements.Walk(elements.Walk(elements.only(der, elements.SEQUENCE)).take(elements.SEQUENCE).contents)
        walk.take_if(_VERSION)
        serial = walk.take(elements.INTEGER).contents
        walk.take()
        issuer = walk.take().whole
        walk.take()
        subject = walk.take().whole
        key = walk.take(elements.SEQUENCE).whole
    except elements.Malformed as error:
        raise PkiError(f"there is no certificate in it ({error})", _GIVE) from error
    if not 1 <= len(serial) <= _LONGEST_SERIAL:
        raise PkiError(f"serialNumber has {len(serial)} octets, and 1 to {_LONGEST_SERIAL} can be asked for")
    return Certificate(der, serial, issuer, subject, key, walk.rest())


def _pem_texts(octets: bytes, labels: tuple[bytes, ...]) -> Iterator[bytes]:
    """What stands in the PEM blocks with one of these labels. The time is that of one pass, whatever the bytes are."""
    begins, at, endless = re.compile(rb"-----BEGIN (%b)-----" % b"|".join(labels)), 0, set[bytes]()
    while len(endless) < len(labels) and (begin := begins.search(octets, at)) is not None:
        at, label = begin.end(), begin[1]
        if label in endless:
            continue
        stop = octets.find(b"-----END %b-----" % label, at)
        if stop < 0:
            endless.add(label)
            continue
        yield octets[at:stop]
        at = stop + len(label) + 14


def pem_blocks(octets: bytes, *labels: bytes) -> list[bytes]:
    """The contents of the PEM blocks with one of these labels (RFC 7468), in their order. Else it raises `PkiError`."""
    try:
        return [base64.b64decode(b"".join(block.split()), validate=True) for block in _pem_texts(octets, labels)]
    except binascii.Error as error:
        raise PkiError(f"a PEM block isn't Base64 ({error})", "fetch the file again") from error


def certificates_of(path: str | os.PathLike[str]) -> list[bytes]:
    """The DER of each certificate in a file in PEM (RFC 7468) or DER, one or more. Else it raises `PkiError`."""
    try:
        with open(path, "rb") as file:
            octets = file.read(LONGEST_FILE + 1)
    except (OSError, ValueError) as error:
        why = "there is no such file" if isinstance(error, FileNotFoundError) else f"it can't be read ({error})"
        raise PkiError(f"{path}: {why}", "look at its name and rights") from error
    if len(octets) > LONGEST_FILE:
        raise PkiError(f"{path}: it has more than {LONGEST_FILE} bytes", "give its certificates in several files")
    try:
        is_der = octets[:1] == bytes([elements.SEQUENCE])
        found = [octets] if is_der else pem_blocks(octets, b"CERTIFICATE", b"X509 CERTIFICATE")
        if not found:
            raise PkiError("there is no certificate in it", _GIVE)
        return [_certificate_alone(each) for each in found]
    except PkiError as error:
        raise PkiError(f"{path}: {error}") from error


def _certificate_alone(der: bytes) -> bytes:
    """The DER of a certificate. A CRL, whose fields the program would take for those of one, is none."""
    certificate = read_certificate(der)
    if {certificate.issuer[0], certificate.subject[0]} != {elements.SEQUENCE}:
        raise PkiError("there is no certificate in it", _GIVE)
    return der


def issuer_hash(der: bytes) -> bytes:
    """The key by which an issuer goes: the SHA-256 of its certificate's whole subjectPublicKeyInfo."""
    return read_certificate(der).key_hash()


def identity(der: bytes, issuer_der: bytes) -> Identity:
    """The identity of a certificate under its issuer's. Whether the one issued the other isn't looked at."""
    return Identity(issuer_hash(issuer_der), read_certificate(der).serial)


def _vectors(octets: bytes) -> list[bytes]:
    """The vectors that bytes are, each of a 2-byte length of at least 1 and its bytes."""
    found, at = [], 0
    while at < len(octets):
        start, length = at + 2, int.from_bytes(octets[at : at + 2], "big")
        at = start + length
        if not length or at > len(octets):
            raise elements.Malformed("a list isn't cut into timestamps")
        found.append(octets[start:at])
    return found


def _sighting(timestamp: bytes) -> Sighting:
    """What a timestamp of version 1 says (RFC 6962, 3.2)."""
    algorithms = 43 + int.from_bytes(timestamp[41:43], "big")
    signature = algorithms + 4
    if len(timestamp) != signature + int.from_bytes(timestamp[signature - 2 : signature], "big"):
        raise elements.Malformed("a timestamp isn't of its form")
    return Sighting(timestamp[1:33], int.from_bytes(timestamp[33:41], "big"))


def timestamps(der: bytes) -> list[Sighting]:
    """The timestamps of version 1 in a certificate (RFC 6962, 3.3), in their order, also none. Where the program reads
    none for another reason, or they are more than 64, it raises `PkiError`."""
    if len(der) > _LONGEST:
        raise PkiError(f"a certificate of {len(der)} bytes, and {_LONGEST} are read at most")
    try:
        value = value_of(read_certificate(der).extensions(), TIMESTAMPS)
        if value is None:
            return []
        lists = _vectors(elements.only(value, elements.OCTET_STRING))
        if len(lists) != 1:
            raise elements.Malformed("there isn't one list")
        found = [_sighting(timestamp) for timestamp in _vectors(lists[0]) if timestamp[0] == 0]
    except elements.Malformed as error:
        raise PkiError(f"the certificate's extensions or timestamps aren't read ({error})") from error
    if len(found) > _MOST_TIMESTAMPS:
        raise PkiError(f"{len(found)} timestamps, and {_MOST_TIMESTAMPS} are read at most")
    return found


def may_sign(der: bytes) -> bool:
    """Whether a certificate's key usage, where it has one, has the signing of certificates (RFC 5280, 4.2.1.3)."""
    try:
        value = value_of(read_certificate(der).extensions(), KEY_USAGE)
        return value is None or bool(elements.only(value, elements.BIT_STRING)[1] & _KEY_CERT_SIGN)
    except (elements.Malformed, IndexError):
        return False


def is_authority(certificate: Certificate) -> bool:
    """Whether a certificate's basic constraints say that it is an authority's (RFC 5280, 4.2.1.9)."""
    try:
        value = value_of(certificate.extensions(), BASIC_CONSTRAINTS)
        walk = elements.Walk(b"" if value is None else elements.only(value, elements.SEQUENCE))
        flag = walk.take_if(elements.BOOLEAN)
        return flag is not None and elements.truth(flag.contents)
    except elements.Malformed:
        return False


def why_not_issued(der: bytes, issuer_der: bytes) -> str | None:
    """Why the second certificate didn't issue the first, and None where it did: its subject is the first's issuer, and
    its key verifies the first's signature. Dates and extensions aren't looked at."""
    issued, issuer = read_certificate(der), read_certificate(issuer_der)
    if not are_same(issued.issuer, issuer.subject):
        return "its subject is another name than the issuer's"
    try:
        walk = elements.Walk(elements.only(der, elements.SEQUENCE))
        signed = walk.take(elements.SEQUENCE).whole
        algorithm, signature = walk.take(elements.SEQUENCE), walk.take(elements.BIT_STRING)
        walk.end()
        verify(issuer.key, algorithm.contents, signature.contents, signed)
    except (elements.Malformed, Unverified) as error:
        return str(error)
    return None


def issued_by(der: bytes, issuer_der: bytes) -> bool:
    """Whether the second certificate issued the first (`why_not_issued`)."""
    return why_not_issued(der, issuer_der) is None
