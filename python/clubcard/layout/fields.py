"""Fields one behind the other, each with its width and its test, and the first one that is wrong."""

import hashlib
import mmap
from collections.abc import Callable
from dataclasses import dataclass
from typing import Literal

Octets = bytes | mmap.mmap
Why = Literal["short", "value", "digest", "chain", "limit"]

KEY = 32
# How many bytes are hashed at a time, and behind how many more who watches is told.
_PIECE = 1 << 20
# So many bytes of a field that is wrong are kept: a plane may have more than half a million.
SHOWN = 64


@dataclass(frozen=True)
class Fault:
    """A field that is wrong.

    field: its name in docs/FORMATS.md; at: the offset of its first byte from the beginning of the file; why: bytes of
    it are missing (`short`), it fails its test (`value`, of a digest `digest`), it doesn't go on with the parts before
    (`chain`), or there is more than a file may have (`limit`); octets: its bytes as far as they are there, at most
    `SHOWN` of them; width: how many bytes it has; expected: what was expected.
    line: what the program prints of the file, before its name; start: the offset from which it counts there, which is
    that of the store in a slot of a device, and else 0.
    """

    field: str
    at: int
    why: Why
    octets: bytes
    width: int
    expected: str
    line: str
    start: int = 0


class LayoutFault(Exception):
    """A field of a file is wrong."""

    def __init__(self, fault: Fault) -> None:
        super().__init__(fault)
        self.fault = fault

    def __str__(self) -> str:
        fault = self.fault
        return f"{fault.field} at {fault.at} ({fault.why}): {fault.octets.hex() or 'no bytes'}; {fault.expected}"


class Fields:
    """The fields of some bytes, from one offset to another. What holds no field is never copied.

    start: where the file begins whose fields these are, from which the program counts; at: where the next field is;
    watch: is told of how many more bytes were read.
    """

    def __init__(
        self, data: Octets, start: int = 0, end: int | None = None, watch: Callable[[int], None] | None = None
    ) -> None:
        self.data = data
        self.start = self.at = self._told = start
        self.end = len(data) if end is None else min(end, len(data))
        self.watch = watch

    def fault(self, field: str, width: int, why: Why, expected: str, line: str = "") -> LayoutFault:
        """Of the next field that it is wrong."""
        octets = self.data[self.at : min(self.at + min(width, SHOWN), self.end)]
        line = line or f"layout {self.at - self.start} {field} {why}"
        return LayoutFault(Fault(field, self.at, why, octets, width, expected, line, self.start))

    def tell(self) -> None:
        """Tells who watches how many more bytes were read."""
        if self.watch is not None and self.at - self._told >= _PIECE:
            self.watch(self.at - self._told)
            self._told = self.at

    def need(self, field: str, width: int) -> None:
        """Tests that all bytes of the next field are there."""
        if self.at + width > self.end:
            there = max(0, self.end - self.at)
            raise self.fault(field, width, "short", f"{width} bytes, and {there} are there")

    def take(self, field: str, width: int, passes: Callable[[bytes], bool] | None = None, expected: str = "") -> bytes:
        """The bytes of the next field, which pass a test."""
        self.need(field, width)
        octets = self.data[self.at : self.at + width]
        if passes is not None and not passes(octets):
            raise self.fault(field, width, "value", expected)
        self.at += width
        return octets

    def number(self, field: str, width: int, least: int = 0, most: int | None = None, expected: str = "") -> int:
        """The number of the next field, in these bounds."""
        self.need(field, width)
        value = int.from_bytes(self.data[self.at : self.at + width], "big")
        if value < least or (most is not None and value > most):
            bounds = f"{least} or more" if most is None else f"{least} to {most}"
            raise self.fault(field, width, "value", expected or f"a number of {bounds}, and it is {value}")
        self.at += width
        return value

    def magic(self, field: str, magic: bytes) -> None:
        """The bytes by which a file is known."""
        self.take(field, len(magic), magic.__eq__, f"{magic.hex()} ({magic.decode('ascii')})")

    def skip(self, field: str, width: int) -> None:
        """Passes over the next field, whose bytes are there and aren't read."""
        self.need(field, width)
        self.at += width

    def digest(self, field: str, first: int) -> bytes:
        """The next field, which is the SHA-256 of the bytes from an offset up to it."""
        self.need(field, KEY)
        wanted = hashlib.sha256()
        for at in range(first, self.at, _PIECE):
            wanted.update(self.data[at : min(at + _PIECE, self.at)])
        if self.data[self.at : self.at + KEY] != wanted.digest():
            what = f"the SHA-256 of the {self.at - first} bytes from {first} on"
            raise self.fault(field, KEY, "digest", f"{what}, {wanted.hexdigest()}")
        self.at += KEY
        return wanted.digest()

    def whole(self) -> None:
        """Tests that no byte follows."""
        if self.at < self.end:
            raise self.fault("end", self.end - self.at, "value", "no byte behind the last field")
