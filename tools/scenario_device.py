"""A store in two slots of a disk, by docs/FORMATS.md ("Device", and the commands on a device)."""

from collections.abc import Callable
from dataclasses import dataclass

from reference import Part, Refused, be, store
from scenario_readers import read_store

MAGIC, VERSION, GREATEST = b"CLUBSLOT", b"\1", 2**40


@dataclass(frozen=True)
class Slot:
    """The picked slot: its number, the place of its bytes and their length; and the capacity of the device."""

    capacity: int
    gate: int
    at: int
    length: int


@dataclass
class Device:
    """The bytes of a disk, and what runs before each call of it."""

    data: bytes
    call: Callable[[], None]

    def sync(self) -> None:
        self.call()

    def read(self, at: int, count: int) -> bytes:
        self.call()
        return self.data[at : at + count]

    def write(self, at: int, octets: bytes) -> None:
        self.call()
        self.data = self.data[:at].ljust(at, b"\0") + octets + self.data[at + len(octets) :]

    def field(self, at: int, width: int, passes: Callable[[bytes], bool]) -> bytes:
        """The bytes of a field, which pass a test."""
        octets = self.read(at, width)
        if len(octets) < width or not passes(octets):
            raise Refused(14, f"device {at}")
        return octets

    def number(self, at: int, width: int, least: int, most: int) -> int:
        """The number of a field, in these bounds."""
        octets = self.field(at, width, lambda octets: least <= int.from_bytes(octets, "big") <= most)
        return int.from_bytes(octets, "big")

    def picked(self) -> Slot:
        """Syncs, and tests the header and the picked slot."""
        self.sync()
        gate = self.number(0, 1, 0, 255) & 1
        self.field(1, 8, lambda octets: octets == MAGIC)
        self.field(9, 1, lambda octets: octets == VERSION)
        capacity = self.number(10, 8, 1, GREATEST)
        at = 4096 + gate * (8 + capacity)
        length = self.number(at, 8, 0, capacity)
        if length and not self.read(at + 8 + length - 1, 1):
            raise Refused(14, f"device {at}")
        return Slot(capacity, gate, at + 8, length)

    def held(self) -> tuple[Slot, list[Part]]:
        """The picked slot and the parts in it."""
        slot = self.picked()
        return slot, read_store(self.read(slot.at, slot.length))

    def format(self, capacity: int, parts: list[Part]) -> None:
        """Writes a device that holds these parts."""
        data = fitting(parts, capacity)
        self.write(0, b"\0" + MAGIC + VERSION)
        self.write(10, be(capacity, 8))
        self.write(4096, be(len(data), 8))
        self.write(4104, data)
        self.sync()

    def install(self, slot: Slot, parts: list[Part]) -> None:
        """Writes these parts into the other slot, and then picks it."""
        data = fitting(parts, slot.capacity)
        other = 1 - slot.gate
        at = 4096 + other * (8 + slot.capacity)
        self.write(at, be(len(data), 8))
        self.write(at + 8, data)
        self.sync()
        self.write(0, bytes([other]))
        self.sync()


def fitting(parts: list[Part], capacity: int) -> bytes:
    """The bytes of a store, which a slot holds."""
    data: bytes = store(parts)
    if len(data) > capacity:
        raise Refused(15, f"device-full {capacity}")
    return data
