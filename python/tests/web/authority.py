"""Authorities: keys, certificates and CRLs, made by `cryptography`."""

import datetime
import functools
import hashlib
from typing import Literal

from cryptography import x509
from cryptography.hazmat.primitives import hashes, serialization
from cryptography.hazmat.primitives.asymmetric import ec, rsa

from .octets import SCT_LIST
from .world import LONG, T, Cert, CrlFault, Issuer

Key = ec.EllipticCurvePrivateKey | rsa.RSAPrivateKey
_BEGIN = datetime.datetime(2020, 1, 1)
_END = datetime.datetime(2045, 1, 1)
_KEEPS = x509.ReasonFlags.key_compromise
_HOLD = x509.ReasonFlags.certificate_hold


@functools.lru_cache(None)
def key_of(kind: Literal["ec", "rsa"], number: int) -> Key:
    """A key, made once in a process."""
    if kind == "rsa":
        return rsa.generate_private_key(65537, 2048)
    return ec.generate_private_key(ec.SECP256R1())


def spki(key: Key) -> bytes:
    """The DER of its SubjectPublicKeyInfo."""
    form = serialization.PublicFormat.SubjectPublicKeyInfo
    return key.public_key().public_bytes(serialization.Encoding.DER, form)


def der_of(thing: x509.Certificate | x509.CertificateRevocationList) -> bytes:
    return thing.public_bytes(serialization.Encoding.DER)


def pem_of(certificate: x509.Certificate) -> bytes:
    return certificate.public_bytes(serialization.Encoding.PEM)


def date(seconds: int) -> datetime.datetime:
    """A time as `cryptography` takes it: UTC, without a zone."""
    return datetime.datetime(1970, 1, 1) + datetime.timedelta(seconds=seconds)


def _name(text: str) -> x509.Name:
    return x509.Name([x509.NameAttribute(x509.NameOID.COMMON_NAME, text)])


def _at_urls(*urls: str) -> list[x509.GeneralName]:
    return [x509.UniformResourceIdentifier(url) for url in urls]


def authority_certificate(subject: x509.Name, key: Key, issuer: x509.Name, by: Key) -> x509.Certificate:
    """A certificate of an authority."""
    return (
        x509.CertificateBuilder()
        .subject_name(subject)
        .issuer_name(issuer)
        .public_key(key.public_key())
        .serial_number(x509.random_serial_number())
        .not_valid_before(_BEGIN)
        .not_valid_after(_END)
        .add_extension(x509.BasicConstraints(True, None), True)
        .add_extension(x509.SubjectKeyIdentifier.from_public_key(key.public_key()), False)
        .add_extension(x509.AuthorityKeyIdentifier.from_issuer_public_key(by.public_key()), False)
        .sign(by, hashes.SHA256())
    )


class Authority:
    """An authority of a world. `base` is the URL under which its CRLs stand."""

    def __init__(self, place: int, spec: Issuer, base: str) -> None:
        self.place, self.spec, self.base = place, spec, base
        self.key = key_of(spec.key, place)
        self.hash = hashlib.sha256(spki(self.key)).digest()
        self.name = _name(f"Authority {place if spec.old is None else spec.old}")
        own = authority_certificate(self.name, self.key, self.name, self.key)
        root_key, root_name = key_of("ec", 500 + place), _name(f"Root {place}")
        by_root = authority_certificate(self.name, self.key, root_name, root_key)
        root = authority_certificate(root_name, root_key, root_name, root_key)
        self.certificates = {"root": [own], "intermediate": [by_root], "crossed": [own, by_root]}[spec.kind]
        self.anchors = [root] if spec.kind == "intermediate" else [own]

    def url(self, partition: int) -> str:
        """Where a CRL is fetched."""
        return f"{self.base}crl/{self.place}/{partition}.crl"

    def point(self, partition: int) -> str:
        """What certificates and the issuing distribution point name."""
        if self.spec.points == "named":
            return f"http://crl.example/{self.place}/{partition}.crl"
        return self.url(partition)

    def _leaf(self, cert: Cert) -> x509.CertificateBuilder:
        point = cert.point or self.point(cert.crl)
        begin = min([T] + [entry.time for entry in cert.entries]) // 1000 - 3600
        return (
            x509.CertificateBuilder()
            .subject_name(_name(f"leaf {self.place} {cert.serial:x}"))
            .issuer_name(self.name)
            .public_key(key_of("ec", -1).public_key())
            .serial_number(cert.serial)
            .not_valid_before(date(min(begin, cert.until - 60)))
            .not_valid_after(date(cert.until))
            .add_extension(x509.AuthorityKeyIdentifier.from_issuer_public_key(self.key.public_key()), False)
            .add_extension(
                x509.CRLDistributionPoints([x509.DistributionPoint(_at_urls(point), None, None, None)]), False
            )
        )

    def precertificate(self, cert: Cert) -> x509.Certificate:
        return self._leaf(cert).add_extension(x509.PrecertPoison(), True).sign(self.key, hashes.SHA256())

    def certificate(self, cert: Cert, timestamps: bytes | None) -> x509.Certificate:
        """A certificate with the list of embedded timestamps."""
        builder = self._leaf(cert)
        if timestamps is not None:
            listed = x509.UnrecognizedExtension(x509.ObjectIdentifier(SCT_LIST), timestamps)
            builder = builder.add_extension(listed, False)
        return builder.sign(self.key, hashes.SHA256())

    def crl(self, certs: list[Cert], partition: int, moment: int, fault: CrlFault | None, number: int) -> bytes:
        """The CRL of a partition at a moment: of `certs`, those that it lists. `fault` is as in world.CrlFault, where
        it changes what is signed."""
        partition = (partition + 1) % self.spec.crls if fault in ("swap", "unnamed") else partition
        partition, named = (0, range(self.spec.crls)) if fault == "twice" else (partition, (partition,))
        listed = [cert for cert in certs if cert.issuer == self.place and cert.crl == partition and cert.listed(moment)]
        listed = [] if fault in ("foreign", "delta", "indirect") else listed
        this, following = self._times(moment, fault)
        builder = x509.CertificateRevocationListBuilder().issuer_name(self.name).last_update(date(this))
        builder = builder.next_update(date(following))
        key = key_of("ec", -2) if fault == "foreign" else self.key
        identifier = x509.AuthorityKeyIdentifier.from_issuer_public_key(key.public_key())
        builder = builder.add_extension(identifier, False).add_extension(x509.CRLNumber(number), False)
        if fault == "delta":
            builder = builder.add_extension(x509.DeltaCRLIndicator(1), True)
        if self.spec.points != "none" and fault != "unnamed" or fault == "indirect":
            point = x509.IssuingDistributionPoint(
                _at_urls(*map(self.point, named)), None, False, False, None, fault == "indirect", False
            )
            builder = builder.add_extension(point, True)
        for cert in {cert.serial: cert for cert in listed}.values():
            builder = builder.add_revoked_certificate(self._revoked(cert, moment))
        return der_of(builder.sign(key, hashes.SHA256()))

    def _times(self, moment: int, fault: CrlFault | None) -> tuple[int, int]:
        """thisUpdate and nextUpdate in seconds."""
        if fault == "stale":
            return moment // 1000 - 7200, (moment - 2000) // 1000
        if fault == "edge":
            return moment // 1000 - 7200, (moment - 1) // 1000
        if self.spec.valid is None:
            return moment // 1000, LONG
        return moment // 1000, max((moment + self.spec.valid) // 1000, moment // 1000 + 1)

    @staticmethod
    def _revoked(cert: Cert, moment: int) -> x509.RevokedCertificate:
        on, off = [rev for rev in cert.revs if rev[0] <= moment and (rev[1] is None or moment < rev[1])][0]
        reason = x509.CRLReason(_KEEPS if off is None else _HOLD)
        builder = x509.RevokedCertificateBuilder().serial_number(cert.serial).revocation_date(date(on // 1000))
        return builder.add_extension(reason, False).build()
