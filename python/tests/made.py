"""Certificates, CRLs, entries and jobs for tests, made by `cryptography` and by the second program of tools/."""

import datetime
import importlib
import sys
from collections.abc import Sequence
from dataclasses import dataclass
from pathlib import Path
from typing import Any

from cryptography import x509
from cryptography.hazmat.primitives import hashes, serialization
from cryptography.hazmat.primitives.asymmetric import ec, ed25519
from cryptography.x509.oid import NameOID

TOP = Path(__file__).resolve().parents[2]
PROGRAM = str(TOP / "release" / "clubcard-x86_64-linux")
LOG = b"\xaa" * 32
MOMENT = 1700000000000
BEGIN = datetime.datetime(2023, 11, 1)


def second_program(module: str) -> Any:
    """A module of the second program, which has nothing of this package."""
    tools = str(TOP / "tools")
    if tools not in sys.path:
        sys.path.append(tools)
    return importlib.import_module(module)


def name_of(text: str) -> x509.Name:
    """A name with one common name."""
    return x509.Name([x509.NameAttribute(NameOID.COMMON_NAME, text)])


def vector(octets: bytes, width: int) -> bytes:
    """The bytes behind their length."""
    return len(octets).to_bytes(width, "big") + octets


def der_of(signed: Any) -> bytes:
    """The DER of a certificate or a CRL."""
    octets: bytes = signed.public_bytes(serialization.Encoding.DER)
    return octets


def pem_of(signed: Any) -> bytes:
    """The PEM of a certificate or a CRL."""
    octets: bytes = signed.public_bytes(serialization.Encoding.PEM)
    return octets


def digest_for(key: Any) -> Any:
    """The hash with which a key signs."""
    return None if isinstance(key, ed25519.Ed25519PrivateKey) else hashes.SHA256()


@dataclass
class Authority:
    """An authority: its name, its key, and its own certificate."""

    name: x509.Name
    key: Any
    certificate: x509.Certificate

    @classmethod
    def of(cls, name: str, key: Any = None, extensions: Sequence[tuple[x509.ExtensionType, bool]] = ()) -> "Authority":
        """A new one, which signs its own certificate."""
        secret = key or ec.generate_private_key(ec.SECP256R1())
        certificate = build(name_of(name), name_of(name), secret.public_key(), 1, list(extensions))
        return cls(name_of(name), secret, certificate.sign(secret, digest_for(secret)))

    @property
    def der(self) -> bytes:
        """Its certificate."""
        return der_of(self.certificate)

    def issue(
        self, serial: int, extensions: Sequence[tuple[x509.ExtensionType, bool]] = (), key: Any = None
    ) -> x509.Certificate:
        """A certificate of a site."""
        public = (key or self.key).public_key()
        builder = build(self.name, name_of(f"site {serial}"), public, serial, list(extensions))
        return builder.sign(self.key, digest_for(self.key))

    def crl(
        self,
        serials: Sequence[int],
        extensions: Sequence[tuple[x509.ExtensionType, bool]] = (),
        of_entries: Sequence[tuple[x509.ExtensionType, bool]] = (),
    ) -> x509.CertificateRevocationList:
        """A CRL that lists these serials."""
        builder = x509.CertificateRevocationListBuilder().issuer_name(self.name)
        builder = builder.last_update(BEGIN).next_update(BEGIN + datetime.timedelta(days=400))
        for serial in serials:
            entry = x509.RevokedCertificateBuilder().serial_number(serial).revocation_date(BEGIN)
            for extension, critical in of_entries:
                entry = entry.add_extension(extension, critical)
            builder = builder.add_revoked_certificate(entry.build())
        for extension, critical in extensions:
            builder = builder.add_extension(extension, critical)
        return builder.sign(self.key, digest_for(self.key))


def build(
    issuer: x509.Name, subject: x509.Name, key: Any, serial: int, extensions: list[tuple[x509.ExtensionType, bool]]
) -> x509.CertificateBuilder:
    """A certificate that isn't signed yet. It ends as many days after its beginning as its serial's last digits say."""
    builder = x509.CertificateBuilder().issuer_name(issuer).subject_name(subject).public_key(key)
    end = BEGIN + datetime.timedelta(days=1 + serial % 90)
    builder = builder.serial_number(serial).not_valid_before(BEGIN).not_valid_after(end)
    for extension, critical in extensions:
        builder = builder.add_extension(extension, critical)
    return builder


def points(*urls: str) -> x509.CRLDistributionPoints:
    """CRL distribution points, each of one URL."""
    return x509.CRLDistributionPoints(
        [x509.DistributionPoint([x509.UniformResourceIdentifier(url)], None, None, None) for url in urls]
    )


def x509_entry(certificate: bytes, chain: Sequence[bytes], time: int) -> tuple[bytes, bytes]:
    """The leaf and the extra data of a certificate."""
    leaf = bytes(2) + time.to_bytes(8, "big") + bytes(2) + vector(certificate, 3) + bytes(2)
    return leaf, vector(b"".join(vector(each, 3) for each in chain), 3)


def precertificate_entry(tbs: bytes, issuer: bytes, time: int) -> tuple[bytes, bytes]:
    """The leaf of a precertificate, without extra data."""
    return bytes(2) + time.to_bytes(8, "big") + b"\x00\x01" + issuer + vector(tbs, 3) + bytes(2), b""


def unsigned_crl(serials: Sequence[bytes]) -> bytes:
    """A CRL that nobody signed, which the program takes."""
    octets: bytes = second_program("reference").Crl(list(serials)).bytes
    return octets
