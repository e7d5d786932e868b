"""Extensions of certificates and CRLs (RFC 5280, 4.2 and 5.2), and the distribution points that they name."""

from collections.abc import Iterator
from typing import NamedTuple

from . import der

# The contents of the OIDs, 2.5.29.n for id-ce, and of the timestamps of RFC 6962, 3.3.
KEY_USAGE = bytes.fromhex("551d0f")
CRL_NUMBER = bytes.fromhex("551d14")
REASON_CODE = bytes.fromhex("551d15")
INVALIDITY_DATE = bytes.fromhex("551d18")
DELTA_INDICATOR = bytes.fromhex("551d1b")
ISSUING_POINT = bytes.fromhex("551d1c")
CERTIFICATE_ISSUER = bytes.fromhex("551d1d")
ISSUER_NAME = bytes.fromhex("551d12")
AUTHORITY_KEY = bytes.fromhex("551d23")
BASIC_CONSTRAINTS = bytes.fromhex("551d13")
FRESHEST = bytes.fromhex("551d2e")
TIMESTAMPS = bytes.fromhex("2b06010401d679020402")

# Tags of a DistributionPointName, its full name, and a URL in that.
_POINT, _FULL_NAME, _URL = 0xA0, 0xA0, 0x86
_POINT_TAGS = {"user": 0x81, "authority": 0x82, "reasons": 0x83, "indirect": 0x84, "attribute": 0x85}


class Extension(NamedTuple):
    """An extension: the contents of its OID, whether it is critical, and its value."""

    oid: bytes
    critical: bool
    value: bytes


class IssuingPoint(NamedTuple):
    """An issuing distribution point (RFC 5280, 5.2.5): whether it names a point, the URLs of that, and which of its
    fields make the CRL one of fewer certificates than the authority's, or of more."""

    has_name: bool
    urls: tuple[str, ...]
    scope: frozenset[str]


def read_extension(contents: bytes) -> Extension:
    """The extension that the contents of an element hold. Else `der.Malformed` is raised, here and below."""
    walk = der.Walk(contents)
    oid = walk.take(der.OID).contents
    flag = walk.take_if(der.BOOLEAN)
    critical = flag is not None and der.truth(flag.contents)
    value = walk.take(der.OCTET_STRING).contents
    walk.end()
    return Extension(oid, critical, value)


def read_extensions(octets: bytes) -> list[Extension]:
    """The extensions that the contents of a SEQUENCE are, one behind the other."""
    found = []
    for element in der.elements(octets):
        if element.tag != der.SEQUENCE:
            raise der.Malformed("an extension is no SEQUENCE")
        found.append(read_extension(element.contents))
    return found


def value_of(extensions: list[Extension], oid: bytes) -> bytes | None:
    """The value of the first extension with this OID."""
    return next((extension.value for extension in extensions if extension.oid == oid), None)


def _urls_of_name(name: bytes) -> Iterator[str]:
    """The URLs of a DistributionPointName."""
    for form in der.elements(name):
        for general in der.elements(form.contents) if form.tag == _FULL_NAME else ():
            if general.tag == _URL:
                yield general.contents.decode("latin-1")


def point_urls(points: bytes) -> tuple[str, ...]:
    """The URLs of an extension of CRL distribution points (RFC 5280, 4.2.1.13), in their order, each once. A value of
    another form has none."""
    urls: dict[str, None] = {}
    try:
        for point in der.elements(der.only(points, der.SEQUENCE)):
            names = [field.contents for field in der.elements(point.contents) if field.tag == _POINT]
            urls.update((url, None) for name in names for url in _urls_of_name(name))
    except der.Malformed:
        return ()
    return tuple(urls)


def issuing_point(value: bytes) -> IssuingPoint:
    """What the value of an issuing distribution point says."""
    fields = list(der.elements(der.only(value, der.SEQUENCE)))
    names = [field.contents for field in fields if field.tag == _POINT]
    scope = {
        name
        for name, tag in _POINT_TAGS.items()
        for field in fields
        if field.tag == tag and (name == "reasons" or der.truth(field.contents))
    }
    return IssuingPoint(bool(names), tuple(url for name in names for url in _urls_of_name(name)), frozenset(scope))
