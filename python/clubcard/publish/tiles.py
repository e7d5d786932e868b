"""A log by its tiles (c2sp.org/static-ct-api): checkpoint, data tiles, hash tiles, issuers.

A tile of level L holds up to 256 hashes of level 8 L of the tree, a data tile the entries below one of level 0. What
hash tiles say is only used for proofs, which the caller verifies against a tree head. An entry is the one that RFC 6962
makes of it: its leaf is the `TimestampedEntry` with version and leaf type before it; the extra data of a certificate is
its chain.
"""

import threading
from hashlib import sha256

from ..http import FetchError
from .heads import LogFault, LogKey, TreeHead, read_checkpoint
from .merkle import HASH, CompactRange, consistency_ranges, node_hash, path_ranges
from .sources import Client, RawEntry, is_precertificate

WIDTH = 256
"""How many hashes or entries a full tile has."""
MOST_CHECKPOINT = 64 << 10
MOST_DATA = 64 << 20
"""The most bytes of a data tile."""
MOST_ISSUER = 1 << 20
_KEPT_TILES = 256
_KEPT_ISSUERS = 4096


class Tiles:
    """A log that is served as tiles."""

    def __init__(self, client: Client, url: str, origin: str, key: LogKey) -> None:
        """`url` is the log's monitoring prefix, with a slash at its end; `origin` the first line of its checkpoints."""
        self._client, self._url, self._origin, self._key = client, url, origin, key
        self._tiles: dict[tuple[int, int, int], bytes] = {}
        self._issuers: dict[bytes, bytes] = {}
        self._lock = threading.Lock()
        self.page = WIDTH

    def head(self) -> TreeHead:
        """The tree head of the log's checkpoint, verified."""
        octets = self._client.get(f"{self._url}checkpoint", MOST_CHECKPOINT).body
        return read_checkpoint(octets, self._origin, self._key)

    def entries(self, start: int, end: int, size: int) -> list[RawEntry]:
        """The entries from `start` on that lie in one data tile, at most up to `end`."""
        index = start // WIDTH
        first = index * WIDTH
        octets = self._tile("data", index, min(WIDTH, size - first), MOST_DATA)
        found, at = [], 0
        for place in range(first, min(end, first + WIDTH)):
            try:
                raw, chain, at = _read_entry(octets, at)
            except IndexError:
                raise LogFault(f"the data tile {index} isn't of entries, or has too few") from None
            if place >= start:
                found.append((raw, chain))
        return [RawEntry(leaf, self._extra(leaf, chain)) for leaf, chain in found]

    def path(self, leaf: bytes, index: int, size: int) -> list[bytes]:
        """The audit path of an entry, of hash tiles."""
        return [self._hash(low, high, size) for low, high in path_ranges(index, size)]

    def consistency(self, old: int, new: int) -> list[bytes]:
        """The consistency proof between two sizes, of hash tiles."""
        return [self._hash(low, high, new) for low, high in consistency_ranges(old, new)]

    def _tile(self, level: str, index: int, width: int, most: int) -> bytes:
        """A tile of at least `width` hashes or entries: the partial one of this width, or the full one, since a partial
        one may go once the full one is there."""
        try:
            return self._client.get(self._url + tile_path(level, index, width), most).body
        except FetchError as fault:
            if width == WIDTH or fault.status not in (404, 410):
                raise
        return self._client.get(self._url + tile_path(level, index, WIDTH), most).body

    def _hashes(self, level: int, index: int, size: int) -> bytes:
        """The hashes of a tile, as far as the tree of `size` entries has them."""
        width = min(WIDTH, (size >> (8 * level)) - index * WIDTH)
        with self._lock:
            kept = self._tiles.get((level, index, width))
        if kept is not None:
            return kept
        octets = self._tile(str(level), index, width, WIDTH * HASH)
        if len(octets) < width * HASH:
            raise LogFault(f"the tile {index} of level {level} has fewer than {width} hashes")
        with self._lock:
            if len(self._tiles) >= _KEPT_TILES:
                self._tiles.clear()
            self._tiles[level, index, width] = octets
        return octets

    def _hash(self, low: int, high: int, size: int) -> bytes:
        """The hash over the entries from `low` to before `high` in the tree of `size` entries."""
        leaves = high - low
        if leaves & (leaves - 1):
            split = low + (1 << (leaves.bit_length() - 1))
            return node_hash(self._hash(low, split, size), self._hash(split, high, size))
        level = (leaves.bit_length() - 1) // 8
        start, end = low >> (8 * level), high >> (8 * level)
        index = start // WIDTH
        octets = self._hashes(level, index, size)
        below = CompactRange()
        below.extend(octets[at * HASH : (at + 1) * HASH] for at in range(start - index * WIDTH, end - index * WIDTH))
        return below.root()

    def _extra(self, leaf: bytes, chain: bytes) -> bytes:
        """The extra data of an entry: of a certificate its chain (RFC 6962, 4.6), whose fingerprints are given."""
        if is_precertificate(leaf):
            return b""
        found = [self._issuer(chain[at : at + HASH]) for at in range(0, len(chain), HASH)]
        octets = b"".join(len(der).to_bytes(3, "big") + der for der in found)
        return len(octets).to_bytes(3, "big") + octets

    def _issuer(self, fingerprint: bytes) -> bytes:
        """The certificate with a SHA-256, from the log's issuers."""
        with self._lock:
            kept = self._issuers.get(fingerprint)
        if kept is not None:
            return kept
        der = self._client.get(f"{self._url}issuer/{fingerprint.hex()}", MOST_ISSUER).body
        if sha256(der).digest() != fingerprint:
            raise LogFault(f"issuer/{fingerprint.hex()} is another certificate")
        with self._lock:
            if len(self._issuers) >= _KEPT_ISSUERS:
                self._issuers.clear()
            self._issuers[fingerprint] = der
        return der


def tile_path(level: str, index: int, width: int) -> str:
    """Where a tile lies: its level (`data` for entries), its index in groups of three digits, and its width."""
    groups = [f"{index % 1000:03}"]
    while index >= 1000:
        index //= 1000
        groups.append(f"x{index % 1000:03}")
    partial = "" if width == WIDTH else f".p/{width}"
    return f"tile/{level}/{'/'.join(reversed(groups))}{partial}"


def _vector(octets: bytes, at: int, width: int) -> int:
    """Where a vector ends whose length stands at `at` in `width` bytes. An IndexError where it is cut."""
    begin = at + width
    end = begin + int.from_bytes(octets[at:begin], "big")
    if end > len(octets) or begin > len(octets):
        raise IndexError
    return end


def _read_entry(octets: bytes, start: int) -> tuple[bytes, bytes, int]:
    """Reads a `TileLeaf`: the leaf, the fingerprints of the chain, one behind another, and where the next begins."""
    kind = octets[start + 8 : start + 10]
    if kind == b"\0\1":
        at = _vector(octets, _vector(octets, start + 42, 3), 2)
        chain = _vector(octets, at, 3)
    elif kind == b"\0\0":
        at = chain = _vector(octets, _vector(octets, start + 10, 3), 2)
    else:
        raise IndexError
    end = _vector(octets, chain, 2)
    if (end - chain - 2) % HASH:
        raise IndexError
    return b"\0\0" + octets[start:at], octets[chain + 2 : end], end
