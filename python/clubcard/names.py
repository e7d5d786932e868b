"""Names of issuers and subjects (RFC 5280, 4.1.2.4): as text, and whether two are the same (7.1)."""

from . import der

# How the strings of a name are encoded, by their tags: UTF8String, PrintableString, TeletexString, IA5String,
# UniversalString and BMPString.
_ENCODINGS = {0x0C: "utf-8", 0x13: "ascii", 0x14: "latin-1", 0x16: "ascii", 0x1C: "utf-32-be", 0x1E: "utf-16-be"}
_LABELS = {
    "550403": "CN",
    "550406": "C",
    "550407": "L",
    "550408": "ST",
    "55040a": "O",
    "55040b": "OU",
    "0992268993f22c640119": "DC",
}
Attribute = tuple[bytes, int, str]


def _attribute(contents: bytes) -> Attribute:
    """An attribute: the contents of its OID; the tag of its value, 0 where it is a string; and its text."""
    walk = der.Walk(contents)
    oid, value = walk.take(der.OID).contents, walk.take()
    walk.end()
    try:
        return oid, 0, value.contents.decode(_ENCODINGS[value.tag])
    except (KeyError, UnicodeDecodeError):
        return oid, value.tag, value.contents.hex()


def read_name(name: bytes) -> list[list[Attribute]]:
    """The attributes of a name, which is a whole element, in its order. Else it raises `der.Malformed`."""
    sets = der.elements(der.only(name, der.SEQUENCE))
    return [[_attribute(each.contents) for each in der.elements(one.contents)] for one in sets]


def text_of(name: bytes) -> str:
    """A name as text, as people write it; its bytes in hexadecimal where it isn't one."""
    try:
        attributes = [attribute for one in read_name(name) for attribute in one]
    except der.Malformed:
        return name.hex()
    return ", ".join(f"{_LABELS.get(oid.hex(), oid.hex())}={text}" for oid, _, text in attributes)


def are_same(one: bytes, other: bytes) -> bool:
    """Whether two names are the same: byte for byte, or by their texts, in which blanks and case don't count."""
    if one == other:
        return True
    try:
        return _comparable(one) == _comparable(other)
    except der.Malformed:
        return False


def _comparable(name: bytes) -> list[set[Attribute]]:
    """A name, of which the same ones are equal."""
    return [{(oid, tag, " ".join(text.split()).casefold()) for oid, tag, text in one} for one in read_name(name)]
