"""A part (docs/FORMATS.md, "Part")."""

from collections import Counter
from collections.abc import Callable
from dataclasses import dataclass, field

from ..engine_lines import Block, Kind, Leaf, Range
from .fields import KEY, Fields
from .sizes import GREATEST_STARTS, MORE, MOST_PLANES, WORD, Bounds, identities_of, revoked_of, together, words_for

MAGIC = b"CLUBCARD"
KINDS: tuple[Kind, Kind] = ("snapshot", "delta")
MOST_RANGES = 1024
MOST_ISSUERS = 65535
_SHARDED = 3
# Where fields of a part stand, counted from its first byte.
KIND_AT, EPOCH_AT, PARENT_AT, RANGES_AT = 9, 10, 18, 50


@dataclass(frozen=True)
class BlockFound:
    """A block: its issuer (32 bytes); its offset and its length in bytes; its shift, None where it isn't sharded; how
    many of its leaves have which mode; and how many identities its filters were built with as revoked, and of."""

    issuer: bytes
    offset: int
    length: int
    shift: int | None
    modes: dict[str, int]
    revoked: Bounds
    identities: Bounds

    @property
    def mode(self) -> str:
        """The word for what it is: `none`, `all`, `mixed` or `sharded`."""
        return next(iter(self.modes)) if self.shift is None else "sharded"


@dataclass
class PartFound:
    """What was read of a part, up to the first field that is wrong. Its offset is that of its first byte; its length,
    in bytes, is there once it is whole. issuers: how many blocks it says that it has."""

    offset: int = 0
    version: int | None = None
    kind: Kind | None = None
    epoch: int | None = None
    parent: bytes | None = None
    ranges: list[Range] = field(default_factory=list)
    issuers: int | None = None
    blocks: list[BlockFound] = field(default_factory=list)
    trailer: bytes | None = None
    length: int | None = None


Look = Callable[[Block], None]


def read_part(fields: Fields, found: PartFound, look: Look | None = None) -> None:
    """Reads the part that stands next. Where a field is wrong, it raises `LayoutFault`. `look` is given each block as
    the program shows it."""
    found.offset = fields.at
    fields.magic("part.magic", MAGIC)
    found.version = fields.number("part.version", 1, 1, 2)
    found.kind = KINDS[fields.number("part.kind", 1, 0, 1)]
    found.epoch = fields.number("part.epoch", 8)
    found.parent = _parent(fields, found.kind)
    read_ranges(fields, "part.ranges", found.ranges)
    found.issuers = fields.number("part.issuers", 4, 0, MOST_ISSUERS)
    has_shards = False
    for _ in range(found.issuers):
        block = _block(fields, found, look)
        has_shards |= block.shift is not None
        found.blocks.append(block)
    if found.version == 2 and not has_shards:
        raise fields.fault("part.sharded", 0, "value", "some sharded block, since the version is 2; there is none")
    found.trailer = fields.digest("part.trailer", found.offset)
    found.length = fields.at - found.offset


def _parent(fields: Fields, kind: Kind) -> bytes:
    """The trailer of the part before; zeros in a snapshot."""
    if kind == "delta":
        return fields.take("part.parent", KEY)
    return fields.take("part.parent", KEY, bytes(KEY).__eq__, "zeros, since it is a snapshot")


def read_ranges(fields: Fields, name: str, ranges: list[Range]) -> None:
    """Reads ranges behind their count, whose field has this name."""
    for _ in range(fields.number(name, 2, 0, MOST_RANGES)):
        read_range(fields, ranges)


def read_range(fields: Fields, ranges: list[Range]) -> None:
    """Reads the next range behind some."""
    log = read_key(fields, "range.log", ranges[-1].log if ranges else None)
    low = fields.number("range.from", 8)
    high = fields.number("range.to", 8, low, None, f"a time that isn't before range.from, {low}")
    ranges.append(Range(log, low, high))


def read_key(fields: Fields, name: str, before: bytes | None) -> bytes:
    """The key of the next field, which is greater than the one before, where there is one."""
    if before is None:
        return fields.take(name, KEY)
    return fields.take(name, KEY, before.__lt__, f"a key that is greater than the one before, {before.hex()}")


def _block(fields: Fields, found: PartFound, look: Look | None) -> BlockFound:
    """Reads the next block of a part."""
    offset = fields.at
    issuer = read_key(fields, "block.issuer", found.blocks[-1].issuer if found.blocks else None)
    block = Block(issuer, *_leaves(fields, found.version == 2))
    if look is not None:
        look(block)
    fields.tell()
    return BlockFound(
        issuer,
        offset,
        fields.at - offset,
        block.shift,
        dict(Counter(leaf.mode for leaf in block.leaves)),
        together([revoked_of(leaf) for leaf in block.leaves]),
        together([identities_of(leaf) for leaf in block.leaves]),
    )


def _leaves(fields: Fields, may_shard: bool) -> tuple[int | None, tuple[Leaf, ...]]:
    """The shift and the leaves of a block behind its issuer."""
    most, words = (_SHARDED, ", 2 mixed, 3 sharded") if may_shard else (2, " or 2 mixed")
    mode = fields.number("block.mode", 1, 0, most, f"0 none revoked, 1 all revoked{words}")
    if mode != _SHARDED:
        return None, (_leaf(fields, mode),)
    shift = fields.number("block.shift", 1, 1, 8)
    expected = "0 none revoked, 1 all revoked or 2 mixed"
    return shift, tuple(_leaf(fields, fields.number("shard.mode", 1, 0, 2, expected)) for _ in range(1 << shift))


def _leaf(fields: Fields, mode: int) -> Leaf:
    """The leaf of a mode."""
    if mode != 2:
        return Leaf("all" if mode else "none")
    planes = fields.number("block.k", 1, 0, MOST_PLANES)
    approx = _stage(fields, "approx", planes) if planes else None
    return Leaf("mixed", planes, approx, _stage(fields, "exact", 1))


def _stage(fields: Fields, name: str, planes: int) -> tuple[int, int]:
    """The seed and the starts of a stage, whose planes are passed over."""
    seed = fields.number(f"{name}.seed", 1)
    starts = fields.number(f"{name}.starts", 4, 1, GREATEST_STARTS)
    for _ in range(planes):
        _pass_plane(fields, f"{name}.plane", starts)
    return seed, starts


def _pass_plane(fields: Fields, name: str, starts: int) -> None:
    """Passes over a plane, whose padding bits are zero: the high ones of its last word."""
    width, used = 8 * words_for(starts), (starts + MORE) % WORD or WORD
    fields.need(name, width)
    last = fields.at + width - 8
    word = fields.data[last : last + 8]
    if int.from_bytes(word, "big") >> used:
        padding = f"the {WORD - used} high bits of its last word"
        raise fields.fault(name, width, "value", f"zeros as {padding}, which is {word.hex()} at {last}")
    fields.at += width
