"""What a store has: which parts of a manifest, by their digests (docs/FORMATS.md, "Store" and "Device")."""

import hashlib
from collections.abc import Sequence
from dataclasses import dataclass
from pathlib import Path
from typing import BinaryIO

from ..manifest import Chain

_STORE = b"CLUBSTOR\x01"
_HEAD = len(_STORE) + 1
_DEVICE = b"CLUBSLOT\x01"
_SLOTS = 4096
_PIECE = 1 << 20


@dataclass(frozen=True)
class Held:
    """Where the bytes of a store lie."""

    path: Path
    offset: int
    length: int


@dataclass(frozen=True)
class Device:
    """A device: how many bytes a slot has, and where the store of the picked slot lies."""

    capacity: int
    held: Held


def store_at(path: Path) -> Held | None:
    """The store in a file; None where there is no file."""
    try:
        return Held(path, 0, path.stat().st_size)
    except FileNotFoundError:
        return None


def device_at(path: Path) -> Device | None:
    """The device in a file; None where there is none."""
    try:
        with open(path, "rb") as file:
            begin = file.read(18)
            capacity = int.from_bytes(begin[10:18], "big")
            offset = _SLOTS + 8 + (begin[:1] + b"\0")[0] % 2 * (8 + capacity)
            file.seek(offset - 8)
            length = file.read(8)
    except (FileNotFoundError, ValueError):
        return None
    if begin[1:10] != _DEVICE or len(length) != 8 or int.from_bytes(length, "big") > capacity:
        return None
    return Device(capacity, Held(path, offset, int.from_bytes(length, "big")))


def length_of(chain: Chain) -> int:
    """How many bytes the parts of a chain make as a store."""
    return _HEAD + sum(part.length for part in chain.parts)


def parts_held(held: Held | None, chain: Chain) -> int:
    """How many of a chain's parts a store has, where these are all that it has; else 0."""
    if held is None:
        return 0
    with open(held.path, "rb") as file:
        file.seek(held.offset)
        begin = file.read(_HEAD)
        count = begin[-1] if begin[:-1] == _STORE else 0
        parts = chain.parts[:count]
        if len(parts) < count or held.length != _HEAD + sum(part.length for part in parts):
            return 0
        return count if all(_digest(file, part.length) == part.sha256 for part in parts) else 0


def digest_of_all(held: Held | None, count: int, files: Sequence[Path], total: int) -> bytes:
    """The SHA-256 of the store that `count` parts of a store make with the parts in files, `total` in all."""
    digest = hashlib.sha256(_STORE + bytes([total]))
    if held is not None and count:
        with open(held.path, "rb") as file:
            file.seek(held.offset + _HEAD)
            _feed(digest, file, held.length - _HEAD)
    for path in files:
        with open(path, "rb") as file:
            _feed(digest, file, path.stat().st_size)
    return digest.digest()


def digest_of_held(held: Held) -> bytes:
    """The SHA-256 of a store."""
    with open(held.path, "rb") as file:
        file.seek(held.offset)
        return _digest(file, held.length)


def _digest(file: BinaryIO, length: int) -> bytes:
    """The SHA-256 of the next so many bytes, or of those that are there."""
    digest = hashlib.sha256()
    _feed(digest, file, length)
    return digest.digest()


def _feed(digest: "hashlib._Hash", file: BinaryIO, length: int) -> None:
    while length and (piece := file.read(min(length, _PIECE))):
        digest.update(piece)
        length -= len(piece)
