"""Files: certificates and CRLs that are read, entries that are made of them, and what is written in their place."""

import contextlib
import os
from collections.abc import Iterator
from pathlib import Path
from typing import BinaryIO

from ..crls import CrlRefused, issuer_of, read_crl
from ..jobs import LONGEST_CRL
from ..names import text_of
from ..pki import Certificate, PkiError, certificates_of, may_sign, read_certificate, why_not_issued
from .words import Wrong

_LONGEST = (1 << 24) - 1


@contextlib.contextmanager
def draft(name: str) -> Iterator[BinaryIO]:
    """A file that gets its name once it is whole. Until then it stands in NAME.draft; where a fault comes, the name is
    as before."""
    path = f"{name}.draft"
    try:
        with open(path, "wb") as file:
            yield file
        os.replace(path, name)
    except BaseException as error:
        with contextlib.suppress(OSError):
            os.remove(path)
        if isinstance(error, OSError):
            raise Wrong(
                f"{name}: it can't be written ({error.strerror}); look at the folder's room and rights"
            ) from error
        raise


def octets_of(name: str) -> bytes:
    """The bytes of a file."""
    try:
        return Path(name).read_bytes()
    except OSError as error:
        raise Wrong(f"{name}: it can't be read ({error.strerror}); look at its name and rights") from error


def first_certificate(name: str) -> Certificate:
    """The certificate in a file, DER or PEM; of several the first."""
    try:
        return read_certificate(certificates_of(name)[0])
    except PkiError as error:
        raise Wrong(str(error)) from error


def named_pair(name: str, issuer_name: str) -> tuple[Certificate, Certificate]:
    """A certificate, and that of its issuer, whose subject is the first's issuer, byte for byte. No signature is
    verified."""
    certificate, issuer = first_certificate(name), first_certificate(issuer_name)
    if certificate.issuer != issuer.subject:
        raise Wrong(f"{name}: its issuer's name isn't the subject of {issuer_name}")
    return certificate, issuer


def _why_no_pair(certificate: Certificate, issuer: Certificate) -> str | None:
    """Why the second certificate didn't issue the first, and None where it did: also its key usage, where it has one,
    has the signing of certificates."""
    why = why_not_issued(certificate.der, issuer.der)
    if why is None and not may_sign(issuer.der):
        why = "its key usage leaves out the signing of certificates"
    return why


def is_pair(certificate: Certificate, issuer: Certificate) -> bool:
    """Whether the second certificate issued the first."""
    return _why_no_pair(certificate, issuer) is None


def why_no_pair(certificate: Certificate, name: str, issuer: Certificate, issuer_name: str) -> str | None:
    """Why the second certificate didn't issue the first, with what to do, and None where it did."""
    why = _why_no_pair(certificate, issuer)
    if why is None:
        return None
    text = f"the certificate in {issuer_name} didn't issue the one in {name} ({why}); "
    if why_not_issued(issuer.der, certificate.der) is None:
        return f"{text}it is the other way round: give the issuer's certificate last"
    named = text_of(certificate.issuer)
    return f"{text}give the certificate of its issuer, {named}: the next one in the chain that its server sends"


def issued_pair(name: str, issuer_name: str) -> tuple[Certificate, Certificate]:
    """A certificate, and that of its issuer, which signed it."""
    certificate, issuer = first_certificate(name), first_certificate(issuer_name)
    why = why_no_pair(certificate, name, issuer, issuer_name)
    if why is not None:
        raise Wrong(why)
    return certificate, issuer


def crl_of(issuer_name: str, name: str) -> tuple[bytes, bytes]:
    """The issuer hash of a CRL's issuer, and the CRL in DER. Its issuer's name is the subject of the certificate, byte
    for byte; no signature is verified."""
    issuer, octets = first_certificate(issuer_name), octets_of(name)
    try:
        der = read_crl(octets)
        named = issuer_of(der)
    except CrlRefused as error:
        raise Wrong(f"{name}: {error}") from error
    if named != issuer.subject:
        raise Wrong(f"{name}: its issuer's name isn't the subject of {issuer_name}")
    if len(der) > LONGEST_CRL:
        raise Wrong(f"{name}: {len(der)} bytes, and a CRL of a job has at most {LONGEST_CRL}")
    return issuer.key_hash(), der


def _vector(octets: bytes, what: str) -> bytes:
    """The bytes behind their length, of three octets."""
    if len(octets) > _LONGEST:
        raise Wrong(f"{what}: {len(octets)} bytes are more than a length of 24 bits can say")
    return len(octets).to_bytes(3, "big") + octets


def x509_entry(name: str, issuer_name: str, time: int) -> tuple[bytes, bytes]:
    """The leaf and the extra data of a certificate that a log saw at a time (RFC 6962, 3.4 and 4.6). The chain is the
    issuer's certificate alone."""
    certificate, issuer = named_pair(name, issuer_name)
    version_and_type, x509_type, extensions = bytes(2), bytes(2), bytes(2)
    leaf = version_and_type + time.to_bytes(8, "big") + x509_type + _vector(certificate.der, name) + extensions
    return leaf, _vector(_vector(issuer.der, issuer_name), issuer_name)
