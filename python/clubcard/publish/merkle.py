"""Merkle trees of a log (RFC 6962, 2.1): hashes, the compact range of a tree's front, and proofs (RFC 9162, 2.1).

All hashes are SHA-256 with 32 bytes. A proof is a list of hashes as `get-proof-by-hash` and `get-sth-consistency` give
it (RFC 6962, 4.4 and 4.5), the lowest level first.
"""

from collections.abc import Iterable, Sequence
from dataclasses import dataclass, field
from hashlib import sha256

HASH = 32
EMPTY_ROOT = sha256().digest()
"""The root of a tree without entries."""


def leaf_hash(leaf: bytes) -> bytes:
    """The hash of a leaf."""
    return sha256(b"\0" + leaf).digest()


def node_hash(left: bytes, right: bytes) -> bytes:
    """The hash of a node over those of its children."""
    return sha256(b"\1" + left + right).digest()


@dataclass
class CompactRange:
    """The first `size` leaves of a tree: the roots of the complete subtrees that they fall into, the greatest first.
    There is one for each bit of `size`. What follows can be added without those leaves."""

    size: int = 0
    hashes: list[bytes] = field(default_factory=list)

    def __post_init__(self) -> None:
        if self.size < 0 or len(self.hashes) != self.size.bit_count():
            raise ValueError(f"a range of {self.size} leaves hasn't {len(self.hashes)} hashes")

    @classmethod
    def read(cls, size: int, octets: bytes) -> "CompactRange":
        """The range whose hashes stand one behind another in `octets`. Else a ValueError."""
        if len(octets) % HASH:
            raise ValueError(f"{len(octets)} bytes aren't hashes")
        return cls(size, [octets[at : at + HASH] for at in range(0, len(octets), HASH)])

    def octets(self) -> bytes:
        """The hashes, one behind another."""
        return b"".join(self.hashes)

    def copy(self) -> "CompactRange":
        """A range of its own."""
        return CompactRange(self.size, list(self.hashes))

    def add(self, leaf: bytes) -> None:
        """Adds the hash of the next leaf."""
        self.extend((leaf,))

    def extend(self, leaves: Iterable[bytes]) -> None:
        """Adds the hashes of the next leaves."""
        size, hashes, digest = self.size, self.hashes, sha256
        for node in leaves:
            size += 1
            # As many complete subtrees end here as `size` has zeros at its end.
            for _ in range((size & -size).bit_length() - 1):
                node = digest(b"\1" + hashes.pop() + node).digest()
            hashes.append(node)
        self.size = size

    def root(self) -> bytes:
        """The root of the tree of these leaves alone."""
        if not self.hashes:
            return EMPTY_ROOT
        node = self.hashes[-1]
        for left in self.hashes[-2::-1]:
            node = node_hash(left, node)
        return node


def _climb(index: int, last: int, node: bytes, path: Sequence[bytes]) -> tuple[bytes, list[bytes], bool]:
    """Follows an audit path from a node up (RFC 9162, 2.1.3.2): the root, the hashes that stood on the left, and
    whether the path was as long as it has to be."""
    left: list[bytes] = []
    for other in path:
        if last == 0:
            return node, left, False
        if index & 1 or index == last:
            left.append(other)
            node = node_hash(other, node)
            while index and not index & 1:
                index, last = index >> 1, last >> 1
        else:
            node = node_hash(node, other)
        index, last = index >> 1, last >> 1
    return node, left, last == 0


def front_of(leaf: bytes, index: int, size: int, path: Sequence[bytes], root: bytes) -> CompactRange | None:
    """Verifies that the tree of `size` leaves and `root` has the leaf with the hash `leaf` at `index` (RFC 9162,
    2.1.3.2), and gives the range of all leaves before it: the hashes of an audit path that stand on the left are just
    the complete subtrees of these. None where the path doesn't prove it."""
    if not 0 <= index < size:
        return None
    found, left, whole = _climb(index, size - 1, leaf, path)
    if not whole or found != root:
        return None
    return CompactRange(index, left[::-1])


def is_included(leaf: bytes, index: int, size: int, path: Sequence[bytes], root: bytes) -> bool:
    """Whether an audit path proves that the leaf with the hash `leaf` is the one at `index` of a tree (RFC 9162,
    2.1.3.2)."""
    return front_of(leaf, index, size, path, root) is not None


def is_consistent(old: int, old_root: bytes, new: int, new_root: bytes, proof: Sequence[bytes]) -> bool:
    """Whether a proof says that the leaves of the old tree are the first ones of the new tree (RFC 9162, 2.1.4.2).
    Of equal sizes, and of an old tree without leaves, the proof is empty."""
    if not 0 <= old <= new:
        return False
    if old in (0, new):
        return not proof and old_root == (EMPTY_ROOT if old == 0 else new_root)
    nodes = [old_root, *proof] if old.bit_count() == 1 else list(proof)
    if not nodes:
        return False
    # From the last complete subtree of the old tree both roots are followed up at once.
    ends = (old & -old).bit_length() - 1
    index, last = (old - 1) >> ends, (new - 1) >> ends
    found, left, whole = _climb(index, last, nodes[0], nodes[1:])
    first = nodes[0]
    for other in left:
        first = node_hash(other, first)
    return whole and first == old_root and found == new_root


def path_ranges(index: int, size: int) -> list[tuple[int, int]]:
    """The leaves (from, behind the last) below each hash of an audit path, in its order (RFC 6962, 2.1.1)."""
    out: list[tuple[int, int]] = []
    low, high = 0, size
    while high - low > 1:
        split = low + _split(high - low)
        if index < split:
            out.append((split, high))
            high = split
        else:
            out.append((low, split))
            low = split
    return out[::-1]


def consistency_ranges(old: int, new: int) -> list[tuple[int, int]]:
    """The leaves (from, behind the last) below each hash of a consistency proof, in its order (RFC 6962, 2.1.2)."""
    out: list[tuple[int, int]] = []
    low, high = 0, new
    if old in (0, new):
        return out
    while high != old:
        split = low + _split(high - low)
        if old <= split:
            out.append((split, high))
            high = split
        else:
            out.append((low, split))
            low = split
    if low:
        out.append((low, high))
    return out[::-1]


def _split(leaves: int) -> int:
    """How many leaves the left child of a node over so many has: the greatest power of two below."""
    return 1 << ((leaves - 1).bit_length() - 1)
