"""A store (docs/FORMATS.md, "Store"), and its parts."""

from collections.abc import Sequence
from dataclasses import dataclass, field

from ..engine_lines import Kind, Range
from .fields import KEY, Fields, LayoutFault, Octets
from .part import (
    EPOCH_AT,
    KIND_AT,
    KINDS,
    MAGIC as PART_MAGIC,
    MOST_ISSUERS,
    MOST_RANGES,
    PARENT_AT,
    RANGES_AT,
    PartFound,
    read_part,
)
from .sizes import GREATEST_STARTS, MOST_PLANES, words_for

MAGIC = b"CLUBSTOR"
MOST_PARTS = 64


@dataclass
class StoreFound:
    """What was read of a store, up to the first field that is wrong. count: how many parts it says that it has."""

    count: int | None = None
    parts: list[PartFound] = field(default_factory=list)


def read_store(fields: Fields, found: StoreFound) -> None:
    """Reads a store and its chain. Where a field is wrong, it raises `LayoutFault`."""
    fields.magic("store.magic", MAGIC)
    fields.number("store.version", 1, 1, 1)
    found.count = fields.number("store.count", 1, 1, MOST_PARTS)
    for place in range(found.count):
        found.parts.append(PartFound(fields.at))
        read_part(fields, found.parts[-1])
        _test_chain(fields, found.parts[-2] if place else None, found.parts[-1])
        fields.tell()
    fields.whole()


def _test_chain(fields: Fields, held: PartFound | None, part: PartFound) -> None:
    """Tests that a whole part goes on with the one before it, where there is one."""
    if held is None:
        if part.kind != "snapshot":
            raise _broken(
                fields, part.offset + KIND_AT, "part.kind", 1, "0: a store begins with a snapshot", "not-snapshot"
            )
        return
    if part.kind != "delta":
        expected = "1: behind the first part of a store all are deltas"
        raise _broken(fields, part.offset + KIND_AT, "part.kind", 1, expected, "not-delta")
    if part.parent != held.trailer:
        trailer, parent = (held.trailer or b"").hex(), (part.parent or b"").hex()
        expected = f"the trailer of the part before, {trailer}"
        raise _broken(fields, part.offset + PARENT_AT, "part.parent", KEY, expected, f"parent {trailer} {parent}")
    if (part.epoch or 0) <= (held.epoch or 0):
        expected = f"an epoch that is greater than the one before, {held.epoch}"
        line = f"epoch {held.epoch} {part.epoch}"
        raise _broken(fields, part.offset + EPOCH_AT, "part.epoch", 8, expected, line)
    missing = not_within(held.ranges, part.ranges)
    if missing is not None:
        expected = f"ranges that hold that of the part before: {told(missing)}"
        width = 2 + len(part.ranges) * (KEY + 16)
        raise _broken(fields, part.offset + RANGES_AT, "part.ranges", width, expected, f"coverage {missing.log.hex()}")


def not_within(ranges: Sequence[Range], others: Sequence[Range]) -> Range | None:
    """The first of some ranges that lies in none of others."""
    by_log = {each.log: each for each in others}
    for each in ranges:
        other = by_log.get(each.log)
        if other is None or each.low < other.low or each.high > other.high:
            return each
    return None


def told(each: Range) -> str:
    """A range in words."""
    return f"{each.low} to {each.high} of the log {each.log.hex()}"


def _broken(fields: Fields, at: int, name: str, width: int, expected: str, line: str) -> LayoutFault:
    """Of a field at an offset that its part doesn't go on with the chain."""
    fields.at = at
    return fields.fault(name, width, "chain", expected, f"chain {line}")


@dataclass(frozen=True)
class PartAt:
    """Where a part stands in a store: its offset and its length in bytes; and its kind and its epoch."""

    offset: int
    length: int
    kind: Kind
    epoch: int


def parts_of(data: Octets) -> list[PartAt]:
    """Where the parts of a store stand, in their order. Else it raises `LayoutFault`.

    What a part holds is read as far as its length depends on it: neither digests nor orders are tested, nor whether a
    part goes on with the one before.
    """
    fields = Fields(data)
    fields.magic("store.magic", MAGIC)
    fields.number("store.version", 1, 1, 1)
    parts = [_part_at(fields) for _ in range(fields.number("store.count", 1, 1, MOST_PARTS))]
    fields.whole()
    return parts


def _part_at(fields: Fields) -> PartAt:
    """The part that stands next."""
    offset = fields.at
    fields.magic("part.magic", PART_MAGIC)
    version = fields.number("part.version", 1, 1, 2)
    kind = KINDS[fields.number("part.kind", 1, 0, 1)]
    epoch = fields.number("part.epoch", 8)
    fields.skip("part.parent", KEY)
    for _ in range(fields.number("part.ranges", 2, 0, MOST_RANGES)):
        fields.skip("range.log", KEY)
        fields.skip("range.from", 8)
        fields.skip("range.to", 8)
    for _ in range(fields.number("part.issuers", 4, 0, MOST_ISSUERS)):
        fields.skip("block.issuer", KEY)
        _skip_block(fields, 3 if version == 2 else 2)
    fields.skip("part.trailer", KEY)
    return PartAt(offset, fields.at - offset, kind, epoch)


def _skip_block(fields: Fields, most: int) -> None:
    """Passes over a block, whose mode is this at most."""
    mode = fields.number("block.mode", 1, 0, most)
    if mode < 3:
        _skip_leaf(fields, mode)
        return
    for _ in range(1 << fields.number("block.shift", 1, 1, 8)):
        _skip_leaf(fields, fields.number("shard.mode", 1, 0, 2))


def _skip_leaf(fields: Fields, mode: int) -> None:
    """Passes over what a leaf of a mode holds."""
    if mode != 2:
        return
    planes = fields.number("block.k", 1, 0, MOST_PLANES)
    for stage, count in (("approx", planes), ("exact", 1)):
        if count == 0:
            continue
        fields.skip(f"{stage}.seed", 1)
        width = 8 * words_for(fields.number(f"{stage}.starts", 4, 1, GREATEST_STARTS))
        for _ in range(count):
            fields.skip(f"{stage}.plane", width)
