"""A device (docs/FORMATS.md, "Device"): a store in one of two slots."""

from dataclasses import dataclass, field

from .fields import Fault, Fields, LayoutFault
from .store import StoreFound, read_store

MAGIC = b"CLUBSLOT"
MAGIC_AT = 1
GREATEST = 1 << 40
_FIRST_SLOT = 4096
_LENGTH = 8


@dataclass
class SlotFound:
    """What was read of a slot: its number, the offset of its bytes and their length, its store, and what is wrong.
    is_picked: whether the gate picks it; only such a one is read by the program."""

    number: int
    offset: int
    is_picked: bool
    length: int | None = None
    store: StoreFound = field(default_factory=StoreFound)
    fault: Fault | None = None


@dataclass
class DeviceFound:
    """What was read of a device, up to the first field that is wrong. gate: the byte that picks a slot; slots: in the
    order of their numbers."""

    gate: int | None = None
    capacity: int | None = None
    slots: list[SlotFound] = field(default_factory=list)


def read_device(fields: Fields, found: DeviceFound) -> None:
    """Reads a device and its picked slot, where a field that is wrong raises `LayoutFault`; and before that the other
    slot, where it doesn't."""
    found.gate = _number(fields, 0, "gate", 1, 0, 255)
    _field(fields, MAGIC_AT, "magic", MAGIC)
    _field(fields, 9, "version", b"\x01")
    found.capacity = _number(fields, 10, "capacity", 8, 1, GREATEST)
    for number in (0, 1):
        offset = _FIRST_SLOT + number * (_LENGTH + found.capacity) + _LENGTH
        found.slots.append(SlotFound(number, offset, number == found.gate & 1))
    other, picked = sorted(found.slots, key=lambda slot: slot.is_picked)
    try:
        _read_slot(fields, other, found.capacity)
    except LayoutFault as error:
        other.fault = error.fault
    try:
        _read_slot(fields, picked, found.capacity)
    except LayoutFault as error:
        picked.fault = error.fault
        raise


def _field(fields: Fields, at: int, name: str, wanted: bytes) -> None:
    """Tests the field at an offset, which has these bytes."""
    _go(fields, at, name, len(wanted))
    if fields.data[at : at + len(wanted)] != wanted:
        raise _fault(fields, name, len(wanted), wanted.hex())


def _number(fields: Fields, at: int, name: str, width: int, least: int, most: int) -> int:
    """The number of the field at an offset, in these bounds."""
    _go(fields, at, name, width)
    value = int.from_bytes(fields.data[at : at + width], "big")
    if not least <= value <= most:
        raise _fault(fields, name, width, f"a number of {least} to {most}, and it is {value}")
    return value


def _go(fields: Fields, at: int, name: str, width: int) -> None:
    """Goes to the field at an offset, whose bytes are there."""
    fields.at = at
    if at + width > fields.end:
        there = max(0, fields.end - at)
        expected = f"{width} bytes, and {there} are there"
        raise fields.fault(f"device.{name}", width, "short", expected, f"device {at}")


def _fault(fields: Fields, name: str, width: int, expected: str) -> LayoutFault:
    """Of the next field that it is wrong. The program says its offset alone."""
    return fields.fault(f"device.{name}", width, "value", expected, f"device {fields.at}")


def _read_slot(fields: Fields, slot: SlotFound, capacity: int) -> None:
    """Reads a slot, and its bytes as a store, of which offsets count from its first byte."""
    at = slot.offset - _LENGTH
    name = f"slot{slot.number}.length"
    length = _number(fields, at, name, _LENGTH, 0, capacity)
    if slot.offset + length > fields.end:
        there = max(0, fields.end - slot.offset)
        raise _fault(fields, name, _LENGTH, f"at most as many as the bytes behind it, {there}, and it is {length}")
    slot.length = length
    read_store(Fields(fields.data, slot.offset, slot.offset + length, fields.watch), slot.store)
