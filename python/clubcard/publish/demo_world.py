"""What the demonstration publishes of: authorities, certificates with timestamps, and a log (RFC 5280, RFC 6962)."""

import hashlib
from base64 import b64encode
from dataclasses import dataclass, field
from datetime import datetime, timedelta
from typing import Any

from cryptography import x509
from cryptography.hazmat.primitives import hashes
from cryptography.hazmat.primitives.asymmetric import ec
from cryptography.hazmat.primitives.serialization import Encoding, PublicFormat

from ..times import DAY, MINUTE, SECOND
from .merkle import CompactRange, leaf_hash

_TIMESTAMPS = x509.ObjectIdentifier("1.3.6.1.4.1.11129.2.4.2")
_SHA256 = hashes.SHA256()
_PRECERTIFICATE = b"\0\1"


def _vector(octets: bytes, width: int) -> bytes:
    """A vector of TLS: its length in so many bytes, and its bytes."""
    return len(octets).to_bytes(width, "big") + octets


def _octet_string(octets: bytes) -> bytes:
    """An OCTET STRING in DER of less than 256 bytes."""
    return b"\4" + (b"" if len(octets) < 128 else b"\x81") + bytes([len(octets)]) + octets


def _date(moment: int) -> datetime:
    """A time as `cryptography` takes it: UTC without a zone, in whole seconds."""
    return datetime(1970, 1, 1) + timedelta(seconds=moment // SECOND)


def _spki(key: ec.EllipticCurvePrivateKey) -> bytes:
    return key.public_key().public_bytes(Encoding.DER, PublicFormat.SubjectPublicKeyInfo)


def _sign(key: ec.EllipticCurvePrivateKey, octets: bytes) -> bytes:
    """A digitally-signed struct: SHA-256 and ECDSA (RFC 5246, 4.7)."""
    return b"\4\3" + _vector(key.sign(octets, ec.ECDSA(_SHA256)), 2)


def _at(url: str) -> list[x509.GeneralName]:
    return [x509.UniformResourceIdentifier(url)]


@dataclass(frozen=True)
class Certificate:
    """A certificate with the log's timestamp in it."""

    serial: int
    time: int
    der: bytes


@dataclass
class DemoLog:
    """A log of RFC 6962 whose key is drawn anew. `entries` are those that it has merged: leaf and extra data."""

    key: ec.EllipticCurvePrivateKey = field(default_factory=lambda: ec.generate_private_key(ec.SECP256R1()))
    entries: list[tuple[bytes, bytes]] = field(default_factory=list)
    head: dict[str, Any] = field(default_factory=dict)

    @property
    def spki(self) -> bytes:
        """The DER of its SubjectPublicKeyInfo."""
        return _spki(self.key)

    def timestamp(self, time: int, issuer: bytes, tbs: bytes) -> bytes:
        """A SignedCertificateTimestamp for a precertificate (RFC 6962, 3.2)."""
        body = _PRECERTIFICATE + issuer + _vector(tbs, 3) + _vector(b"", 2)
        signature = _sign(self.key, b"\0\0" + time.to_bytes(8, "big") + body)
        return b"\0" + hashlib.sha256(self.spki).digest() + time.to_bytes(8, "big") + _vector(b"", 2) + signature

    def merge(self, time: int, issuer: bytes, tbs: bytes, chain: tuple[bytes, bytes]) -> None:
        """Takes an entry in (RFC 6962, 3.4): the precertificate and its issuer's certificate are its extra data."""
        body = _PRECERTIFICATE + issuer + _vector(tbs, 3) + _vector(b"", 2)
        extra = _vector(chain[0], 3) + _vector(_vector(chain[1], 3), 3)
        self.entries.append((b"\0\0" + time.to_bytes(8, "big") + body, extra))

    def sign_head(self, time: int) -> None:
        """Signs a tree head over all entries (RFC 6962, 3.5)."""
        tree = CompactRange()
        tree.extend(leaf_hash(leaf) for leaf, _ in self.entries)
        signed = b"\0\1" + time.to_bytes(8, "big") + tree.size.to_bytes(8, "big") + tree.root()
        self.head = {
            "tree_size": tree.size,
            "timestamp": time,
            "sha256_root_hash": b64encode(tree.root()).decode(),
            "tree_head_signature": b64encode(_sign(self.key, signed)).decode(),
        }

    def page(self, start: int, end: int) -> dict[str, Any]:
        """What get-entries answers (RFC 6962, 4.6)."""
        found = self.entries[start : end + 1]
        return {"entries": [{"leaf_input": _base64(leaf), "extra_data": _base64(extra)} for leaf, extra in found]}


def _base64(octets: bytes) -> str:
    return b64encode(octets).decode("ascii")


class Authority:
    """An authority whose CRL stands at a URL."""

    def __init__(self, name: str, url: str, begin: int) -> None:
        self.name, self.url, self.begin = name, url, begin
        self.key = ec.generate_private_key(ec.SECP256R1())
        self.issuer = hashlib.sha256(_spki(self.key)).digest()
        self.subject = x509.Name([x509.NameAttribute(x509.NameOID.COMMON_NAME, name)])
        self.revoked: dict[int, int] = {}
        self.certificate = self._own()

    def _own(self) -> x509.Certificate:
        """Its self-signed certificate, which signs certificates and CRLs."""
        usage = x509.KeyUsage(True, False, False, False, False, True, True, False, False)
        builder = x509.CertificateBuilder(
            self.subject, self.subject, self.key.public_key(), x509.random_serial_number()
        )
        builder = builder.not_valid_before(_date(self.begin - 365 * DAY)).not_valid_after(
            _date(self.begin + 3650 * DAY)
        )
        builder = builder.add_extension(x509.BasicConstraints(True, None), True).add_extension(usage, True)
        return builder.sign(self.key, _SHA256)

    def der(self) -> bytes:
        """Its certificate in DER."""
        return self.certificate.public_bytes(Encoding.DER)

    def issue(self, serial: int, time: int, log: DemoLog) -> Certificate:
        """Issues a certificate: the log sees its precertificate at this time, and says so in it."""
        name = x509.Name([x509.NameAttribute(x509.NameOID.COMMON_NAME, f"{serial:x}.example")])
        point = x509.DistributionPoint(_at(self.url), None, None, None)
        builder = x509.CertificateBuilder(self.subject, name, self.key.public_key(), serial)
        builder = builder.not_valid_before(_date(time - MINUTE)).not_valid_after(_date(time + 90 * DAY))
        builder = builder.add_extension(x509.CRLDistributionPoints([point]), False)
        tbs = builder.sign(self.key, _SHA256).tbs_certificate_bytes
        precertificate = builder.add_extension(x509.PrecertPoison(), True).sign(self.key, _SHA256)
        timestamp = log.timestamp(time, self.issuer, tbs)
        log.merge(time, self.issuer, tbs, (precertificate.public_bytes(Encoding.DER), self.der()))
        listed = x509.UnrecognizedExtension(_TIMESTAMPS, _octet_string(_vector(_vector(timestamp, 2), 2)))
        builder = builder.add_extension(listed, False)
        return Certificate(serial, time, builder.sign(self.key, _SHA256).public_bytes(Encoding.DER))

    def crl(self, moment: int, number: int) -> bytes:
        """Its CRL of a moment in DER, valid for two days."""
        point = x509.IssuingDistributionPoint(_at(self.url), None, False, False, None, False, False)
        builder = x509.CertificateRevocationListBuilder(self.subject, _date(moment), _date(moment + 2 * DAY))
        builder = builder.add_extension(x509.CRLNumber(number), False).add_extension(point, True)
        for serial, time in self.revoked.items():
            one = x509.RevokedCertificateBuilder(serial, _date(time)).build()
            builder = builder.add_revoked_certificate(one)
        return builder.sign(self.key, _SHA256).public_bytes(Encoding.DER)
