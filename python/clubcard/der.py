"""Elements of DER (ITU-T X.690) as the program reads them (docs/FORMATS.md, "DER"): tags of one byte, lengths in the
least form of at most four octets."""

from collections.abc import Iterator
from functools import lru_cache
from typing import NamedTuple

BOOLEAN = 0x01
INTEGER = 0x02
BIT_STRING = 0x03
OCTET_STRING = 0x04
OID = 0x06
UTC_TIME = 0x17
GENERALIZED_TIME = 0x18
SEQUENCE = 0x30

_DAYS = (31, 28, 31, 30, 31, 30, 31, 31, 30, 31, 30, 31)


class Malformed(ValueError):
    """The bytes aren't of the form that was asked for."""


class Element(NamedTuple):
    """An element: its tag, its contents, and the whole of it as it stands."""

    tag: int
    contents: bytes
    whole: bytes


def header(octets: bytes, at: int, end: int) -> tuple[int, int, int]:
    """The tag of the element that begins at a place, and where its contents begin and end. It must end before `end`."""
    start = at + 2
    if start > end:
        raise Malformed("an element is cut short")
    tag, length = octets[at], octets[at + 1]
    if tag & 0x1F == 0x1F:
        raise Malformed("a tag has more than one byte")
    if length >= 0x80:
        at, start = start, start + length - 0x80
        if not 0x81 <= length <= 0x84 or start > end:
            raise Malformed("the length of an element is wrong")
        length = int.from_bytes(octets[at:start])
        if octets[at] == 0 or length < 0x80:
            raise Malformed("the length of an element isn't in its least form")
    stop = start + length
    if stop > end:
        raise Malformed("an element is cut short")
    return tag, start, stop


def elements(octets: bytes) -> Iterator[Element]:
    """The elements that these bytes are, one behind the other. Where they are none, `Malformed` is raised behind those
    before."""
    at = 0
    while at < len(octets):
        tag, start, stop = header(octets, at, len(octets))
        yield Element(tag, octets[start:stop], octets[at:stop])
        at = stop


class Walk:
    """Takes elements from the front of some bytes, one by one."""

    def __init__(self, octets: bytes, at: int = 0) -> None:
        self.octets = octets
        self.at = at

    def take(self, tag: int | None = None) -> Element:
        """The next element, which has this tag, where one is given. Else `Malformed` is raised."""
        found, start, stop = header(self.octets, self.at, len(self.octets))
        if tag is not None and found != tag:
            raise Malformed(f"an element has the tag {found:02x} in place of {tag:02x}")
        element = Element(found, self.octets[start:stop], self.octets[self.at : stop])
        self.at = stop
        return element

    def take_if(self, *tags: int) -> Element | None:
        """The next element, where there is one with one of these tags."""
        return self.take() if self.octets[self.at : self.at + 1] in [bytes([tag]) for tag in tags] else None

    def rest(self) -> bytes:
        """What stands behind the elements that were taken."""
        return self.octets[self.at :]

    def end(self) -> None:
        """Tests that nothing stands behind the elements that were taken."""
        if self.at != len(self.octets):
            raise Malformed("more stands behind the last element")


def only(octets: bytes, tag: int) -> bytes:
    """The contents of the one element that these bytes are."""
    walk = Walk(octets)
    element = walk.take(tag)
    walk.end()
    return element.contents


def truth(contents: bytes) -> bool:
    """What the contents of a BOOLEAN say."""
    if contents not in (b"\x00", b"\xff"):
        raise Malformed("a BOOLEAN is neither 00 nor ff")
    return contents == b"\xff"


def days(year: int, month: int, day: int) -> int:
    """The days from 1970-01-01 to a day of the Gregorian calendar, which runs back to the year 0."""
    is_leap = year % 4 == 0 and (year % 100 != 0 or year % 400 == 0)
    if not 1 <= month <= 12 or not 1 <= day <= _DAYS[month - 1] + (is_leap and month == 2):
        raise Malformed("the calendar has no such day")
    # The year begins in March, so that a leap day is its last one.
    since = year - (month < 3)
    in_year = (153 * ((month + 9) % 12) + 2) // 5 + day - 1
    return 365 * since + since // 4 - since // 100 + since // 400 + in_year - 719468


@lru_cache(maxsize=4096)
def seconds(tag: int, contents: bytes) -> int:
    """The seconds since 1970-01-01 00:00:00 UTC of a UTCTime or a GeneralizedTime, without fraction and offset."""
    digits = contents[:-1]
    if not digits.isdigit() or contents[-1:] != b"Z":
        raise Malformed("a time isn't of digits and Z")
    if tag == UTC_TIME and len(digits) == 12:
        year = int(digits[:2])
        year += 1900 if year >= 50 else 2000
    elif tag == GENERALIZED_TIME and len(digits) == 14:
        year = int(digits[:4])
    else:
        raise Malformed("there is no time")
    hour, minute, second = int(digits[-6:-4]), int(digits[-4:-2]), int(digits[-2:])
    if hour > 23 or minute > 59 or second > 59:
        raise Malformed("the day has no such second")
    return 86400 * days(year, int(digits[-10:-8]), int(digits[-8:-6])) + 3600 * hour + 60 * minute + second
