"""CRLs (RFC 5280, 5): reading one as the program does (docs/FORMATS.md, "CRL"), and vetting one that a server sent."""

from collections.abc import Iterator, Mapping, Sequence
from dataclasses import dataclass

from . import der as elements
from .extensions import (
    AUTHORITY_KEY,
    CERTIFICATE_ISSUER,
    CRL_NUMBER,
    DELTA_INDICATOR,
    FRESHEST,
    INVALIDITY_DATE,
    ISSUER_NAME,
    ISSUING_POINT,
    REASON_CODE,
    Extension,
    IssuingPoint,
    issuing_point,
    read_extensions,
    value_of,
)
from .jobs import LONGEST_CRL
from .names import are_same
from .pki import PkiError, pem_blocks, read_certificate
from .signatures import Unverified, verify

_EXTENSIONS = 0xA0
_TIMES = (elements.UTC_TIME, elements.GENERALIZED_TIME)
_LONGEST_SERIAL = 32
_LONGEST_NUMBER = 32
_KNOWN = (CRL_NUMBER, AUTHORITY_KEY, FRESHEST, ISSUER_NAME, ISSUING_POINT, DELTA_INDICATOR)
_KNOWN_IN_ENTRY = (REASON_CODE, INVALIDITY_DATE)
_SCOPES = {
    "reasons": "it is one of some reasons alone (onlySomeReasons)",
    "authority": "it is one of authorities' certificates alone (onlyContainsCACerts)",
    "attribute": "it is one of attribute certificates alone (onlyContainsAttributeCerts)",
    "indirect": "it is indirect: it lists other issuers' certificates too",
}


class CrlRefused(Exception):
    """A CRL isn't accepted; the text says why."""


@dataclass(frozen=True)
class Crl:
    """A CRL. Times are in milliseconds since 1970.

    number: of its extension CRL number, None where it has none; next_update: None where it has none; point: the URLs of
    its issuing distribution point, none where it has no such extension.
    """

    der: bytes
    number: int | None
    this_update: int
    next_update: int | None
    point: tuple[str, ...]

    def serials(self) -> set[bytes]:
        """The serials that it lists: their octets as they stand, without those of more than 32 octets."""
        return set(self.listed())

    def listed(self) -> Iterator[bytes]:
        """The same one after the other, as they stand in it; one may come again."""
        return _serials(_read(self.der).revoked)


@dataclass(frozen=True)
class _Form:
    """What is read of a CRL: what is signed, the algorithm that is named in it, the issuer's name, as whole elements;
    thisUpdate and nextUpdate in seconds; the contents of revokedCertificates and of the extensions; algorithm and
    signature."""

    signed: bytes
    inner: bytes
    issuer: bytes
    this_update: int
    next_update: int | None
    revoked: bytes
    extensions: bytes
    algorithm: elements.Element
    signature: bytes


def _read(der: bytes) -> _Form:
    """The form of a CRL. Its entries aren't read."""
    outer = elements.Walk(elements.only(der, elements.SEQUENCE))
    signed, algorithm = outer.take(elements.SEQUENCE), outer.take(elements.SEQUENCE)
    signature = outer.take(elements.BIT_STRING).contents
    outer.end()
    walk = elements.Walk(signed.contents)
    version = walk.take_if(elements.INTEGER)
    if version is not None and version.contents != b"\x01":
        raise elements.Malformed("its version isn't 2")
    inner, issuer = walk.take(elements.SEQUENCE).whole, walk.take(elements.SEQUENCE).whole
    this, following = walk.take(), walk.take_if(*_TIMES)
    revoked, explicit = walk.take_if(elements.SEQUENCE), walk.take_if(_EXTENSIONS)
    walk.end()
    return _Form(
        signed.whole,
        inner,
        issuer,
        elements.seconds(this.tag, this.contents),
        None if following is None else elements.seconds(following.tag, following.contents),
        b"" if revoked is None else revoked.contents,
        b"" if explicit is None else elements.only(explicit.contents, elements.SEQUENCE),
        algorithm,
        signature,
    )


def _serials(revoked: bytes) -> Iterator[bytes]:
    """The serials of the contents of revokedCertificates. An entry that the program doesn't accept is `Malformed` or
    `CrlRefused`."""
    at, end = 0, len(revoked)
    seen: set[bytes] = set()
    while at < end:
        tag, start, stop = elements.header(revoked, at, end)
        serial_tag, first, last = elements.header(revoked, start, stop)
        date_tag, _, behind = elements.header(revoked, last, stop)
        if tag != elements.SEQUENCE or serial_tag != elements.INTEGER or first == last or date_tag not in _TIMES:
            raise elements.Malformed("an entry isn't a serial and a date")
        # Of a million entries' extensions few differ.
        if behind < stop and (extensions := revoked[behind:stop]) not in seen:
            _test_entry(extensions)
            seen.add(extensions)
        if last - first <= _LONGEST_SERIAL:
            yield revoked[first:last]
        at = stop


def _test_entry(octets: bytes) -> None:
    """Tests the extensions of an entry."""
    for extension in read_extensions(elements.only(octets, elements.SEQUENCE)):
        if extension.oid == CERTIFICATE_ISSUER:
            raise CrlRefused("it is indirect: an entry names another issuer")
        if extension.critical and extension.oid not in _KNOWN_IN_ENTRY:
            raise CrlRefused(f"it has an entry with an unknown critical extension (OID {extension.oid.hex()})")


def read_crl(octets: bytes) -> bytes:
    """The DER of the CRL that these bytes are, in DER or as one PEM block. Else it raises `CrlRefused`. What the DER
    holds isn't read."""
    if octets[:1] == bytes([elements.SEQUENCE]):
        return octets
    try:
        blocks = pem_blocks(octets, b"X509 CRL")
    except PkiError as error:
        raise CrlRefused(str(error)) from error
    if len(blocks) != 1:
        raise CrlRefused(f"it is neither DER nor one PEM block X509 CRL, it has {len(blocks)}")
    return blocks[0]


def issuer_of(der: bytes) -> bytes:
    """The issuer's name of a CRL in DER, as a whole element. What stands behind it isn't read."""
    try:
        walk = elements.Walk(elements.Walk(elements.only(der, elements.SEQUENCE)).take(elements.SEQUENCE).contents)
        walk.take_if(elements.INTEGER)
        walk.take(elements.SEQUENCE)
        return walk.take(elements.SEQUENCE).whole
    except elements.Malformed as error:
        raise CrlRefused(f"it isn't a CRL ({error})") from error


def vet(octets: bytes, certificates: Sequence[bytes], url: str, names: Mapping[str, str], alone: bool) -> Crl:
    """The CRL that an issuer's server sent for a URL, where it is to be accepted. Else it raises `CrlRefused`.

    certificates: the DER of the issuer's, of which one key; names: of some URLs the one by which the CRL's issuing
    distribution point names them; alone: whether the URL is the issuer's only one, where a point may be missing.
    """
    der = read_crl(octets)
    if len(der) > LONGEST_CRL:
        raise CrlRefused(f"it has {len(der)} bytes, and {LONGEST_CRL} are taken at most")
    try:
        form = _read(der)
        # Before the signature is verified, nothing is read of which there may be millions.
        _test_signature(form, certificates)
        extensions = read_extensions(form.extensions)
        number = value_of(extensions, CRL_NUMBER)
        value = value_of(extensions, ISSUING_POINT)
        point = IssuingPoint(False, (), frozenset()) if value is None else issuing_point(value)
        _test_extensions(extensions)
        for _ in _serials(form.revoked):
            pass
    except elements.Malformed as error:
        raise CrlRefused(f"it isn't a CRL ({error})") from error
    except PkiError as error:
        raise CrlRefused(f"it can't be verified: a certificate of its issuer isn't read ({error})") from error
    _test_point(point, names.get(url, url), alone)
    following = None if form.next_update is None else 1000 * form.next_update
    return Crl(der, None if number is None else _number(number), 1000 * form.this_update, following, point.urls)


def _number(value: bytes) -> int:
    """A CRL number (RFC 5280, 5.2.3), of at most so many octets."""
    try:
        octets = elements.only(value, elements.INTEGER)
    except elements.Malformed as error:
        raise CrlRefused(f"it has a CRL number that isn't read ({error})") from error
    if len(octets) > _LONGEST_NUMBER:
        raise CrlRefused(f"its CRL number has {len(octets)} octets, and {_LONGEST_NUMBER} are read at most")
    return int.from_bytes(octets, "big", signed=True)


def _test_signature(form: _Form, certificates: Sequence[bytes]) -> None:
    """Tests that one of the issuer's certificates has the CRL's issuer as its subject, and that its key signed it."""
    issuers = [read_certificate(each) for each in certificates]
    named = [issuer for issuer in issuers if are_same(form.issuer, issuer.subject)]
    if not named:
        raise CrlRefused("it is another issuer's: its issuer's name isn't the subject of the certificate")
    if form.inner != form.algorithm.whole:
        raise CrlRefused("it names one algorithm where it is signed and another one beside the signature")
    try:
        verify(named[0].key, form.algorithm.contents, form.signature, form.signed)
    except Unverified as error:
        raise CrlRefused(f"it isn't signed by the issuer: {error}") from error


def _test_extensions(extensions: Sequence[Extension]) -> None:
    """Tests that a CRL is whole, and that all that must be known of it is. No extension stands there twice (RFC 5280,
    4.2), since of two distribution points one alone would be looked at."""
    if len({extension.oid for extension in extensions}) < len(extensions):
        raise CrlRefused("it has an extension twice")
    for extension in extensions:
        if extension.oid == DELTA_INDICATOR:
            raise CrlRefused("it is a delta CRL")
        if extension.critical and extension.oid not in _KNOWN:
            raise CrlRefused(f"it has an unknown critical extension (OID {extension.oid.hex()})")


def _test_point(point: IssuingPoint, name: str, alone: bool) -> None:
    """Tests that a CRL has all of its issuer's certificates, or those of the point with this name."""
    for field, why in _SCOPES.items():
        if field in point.scope:
            raise CrlRefused(why)
    if not point.has_name and not alone:
        raise CrlRefused("it names no distribution point, and the issuer has several URLs")
    if point.has_name and name not in point.urls:
        told = ", ".join(point.urls) or "no URL"
        raise CrlRefused(f"it is another point's: its issuing distribution point names {told}, and not {name}")
