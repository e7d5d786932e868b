"""Serials, logs, issuers, times and durations as other programs print them."""

import base64
import binascii
import datetime
import os
import re
from dataclasses import dataclass

from ..octets import KEY, MAX_SERIAL, serial_from_int
from ..pki import PkiError, certificates_of, issuer_hash
from ..times import MINUTE, SECOND, duration, from_iso
from .words import FIRST_MILLISECOND, Wrong, milliseconds

_NAMED = re.compile(r"\s*serial(?: ?number)?\s*[=:]\s*", re.IGNORECASE)
_BOTH = re.compile(r"([0-9]+) \(0x([0-9a-f]+)\)", re.IGNORECASE)
_PARTED = re.compile(r"[0-9a-f]{2}(?:[: ][0-9a-f]{2})+", re.IGNORECASE)
_HEXADECIMAL = re.compile(r"[0-9a-f]+", re.IGNORECASE)
_DECIMAL = re.compile(r"[0-9]+")
# The time of day behind a date, and what may stand behind it.
_CLOCK = re.compile(r"[T ][0-9]{2}:?[0-9]{2}(:?[0-9]{2})?([.,][0-9]+)?(?:Z|[+-][0-9:]+| [0-9]{4})?$", re.IGNORECASE)
_AS_OPENSSL = "%b %d %H:%M:%S.%f %Y"
_LATEST = (1 << 64) - 1
_FORMS = "write it as 04:d0:0a, 0x04d00a, 04D00A, serial=04D00A, or as a number in decimal digits"


@dataclass(frozen=True)
class Serial:
    """The octets of a serial's number, with the 00 in front where the number wants one; and those of the other number
    that the same word would be, where it may be hexadecimal too."""

    octets: bytes
    other: bytes | None = None


def _octets_of(word: str, digits: str, base: int) -> bytes:
    """The octets of a serial's number."""
    if len(digits) > 3 * MAX_SERIAL:
        raise Wrong(f"{word}: a serial has {MAX_SERIAL} octets at most")
    try:
        return serial_from_int(int(digits, base))
    except ValueError as error:
        raise Wrong(f"{word}: {error}") from error


def _serial_of_digits(word: str, digits: str) -> Serial:
    """A serial of decimal digits alone: a number, but with a 0 in front, as no number is printed, hexadecimal ones. The
    digits may be hexadecimal ones too, as `openssl x509 -serial` prints them behind `serial=`."""
    if digits.startswith("0") and len(digits) > 1:
        return Serial(_octets_of(word, digits, 16))
    octets = _octets_of(word, digits, 10)
    try:
        return Serial(octets, serial_from_int(int(digits, 16)))
    except ValueError:
        return Serial(octets)


def serial(word: str) -> Serial:
    """A serial as openssl, browsers and crt.sh print it: pairs of hexadecimal digits with colons or blanks between
    them, hexadecimal digits (behind `serial=` or 0x, or with a letter among them), `53258 (0xd00a)`, or a number in
    decimal digits. A number below 0 is refused."""
    named = _NAMED.match(word)
    text = word[named.end() :].strip() if named else word.strip()
    if "-" in text or "negative" in text.lower():
        raise Wrong(f"{word}: a serial below 0 is asked about by the certificate's file, or by `clubcard query`")
    if (both := _BOTH.fullmatch(text)) is not None:
        if int(both[1]) != int(both[2], 16):
            raise Wrong(f"{word}: the two numbers differ")
        return Serial(_octets_of(word, both[2], 16))
    if _PARTED.fullmatch(text):
        return Serial(_octets_of(word, re.sub("[: ]", "", text), 16))
    if text[:2] in ("0x", "0X") and _HEXADECIMAL.fullmatch(text[2:]):
        return Serial(_octets_of(word, text[2:], 16))
    if _DECIMAL.fullmatch(text) and not (named and "=" in named[0]):
        return _serial_of_digits(word, text)
    if _HEXADECIMAL.fullmatch(text):
        return Serial(_octets_of(word, text, 16))
    raise Wrong(f"{word}: this is no serial; {_FORMS}")


def _key(word: str) -> bytes | None:
    """32 bytes, in hexadecimal digits with or without colons; None for another word."""
    digits = word.replace(":", "")
    return bytes.fromhex(digits) if len(digits) == 2 * KEY and _HEXADECIMAL.fullmatch(digits) else None


def log_id(word: str) -> bytes:
    """A log id: 64 hexadecimal digits, also with colons as openssl prints them, or Base64 as lists of logs have it."""
    found = _key(word)
    if found is None:
        try:
            found = base64.b64decode(word, validate=True)
        except (binascii.Error, ValueError):
            found = b""
    if len(found) != KEY:
        raise Wrong(f"{word}: a log id has 64 hexadecimal digits, or is the Base64 of 32 bytes (RFC 6962, 3.2)")
    return found


def issuer(word: str) -> bytes:
    """An issuer's key hash: 64 hexadecimal digits, or that of the first certificate in a file of this name."""
    found = _key(word)
    if found is not None and not os.path.exists(word):
        return found
    try:
        return issuer_hash(certificates_of(word)[0])
    except PkiError as error:
        why = "an issuer is a file with its certificate, or the SHA-256 of its SubjectPublicKeyInfo in 64 hexadecimal"
        raise Wrong(f"{error}; {why} digits, as `clubcardctl identity` prints it") from error


def _as_openssl(text: str) -> int | None:
    """The time of a text such as `Nov 14 22:13:20.123 2023`."""
    try:
        found = datetime.datetime.strptime(text, _AS_OPENSSL if "." in text else _AS_OPENSSL.replace(".%f", ""))
    except ValueError:
        return None
    return from_iso(found.isoformat())


def moment(word: str, what: str) -> tuple[int, int]:
    """A log's time: milliseconds since 1970, ISO 8601 (without an offset in UTC), or as openssl prints a timestamp. It
    is the first and the last millisecond of the second or minute, where no more is given; a date alone is refused."""
    text = " ".join(word.split())
    if _DECIMAL.fullmatch(text):
        return milliseconds(text, what), milliseconds(text, what)
    text = re.sub(" ?(?:UTC|GMT)$", "", text)
    how = "write 2026-11-30T19:00:00.000Z, or milliseconds since 1970"
    try:
        found = _as_openssl(text)
        found = from_iso(text) if found is None else found
    except (ValueError, OverflowError) as error:
        raise Wrong(f"{what} {word}: this is no time; {how}") from error
    if found < FIRST_MILLISECOND:
        raise Wrong(f"{what} {word}: no log of certificates is as old as this; look at the date")
    clock = _CLOCK.search(text)
    if clock is None:
        raise Wrong(f"{what} {word}: there is no time of day to the minute behind the date; {how}")
    return found, found if clock[2] else found + (SECOND if clock[1] else MINUTE) - 1


def away(word: str) -> int:
    """How long an issuer may be away, in milliseconds."""
    found = duration(word)
    if found is None:
        raise Wrong(f"--max-away {word}: a duration is a number and s, m, h or d, as 10d")
    return found
