"""A Merkle tree over leaves, with its proofs (RFC 6962, 2.1)."""

import hashlib


def leaf_hash(leaf: bytes) -> bytes:
    return hashlib.sha256(b"\0" + leaf).digest()


def node_hash(left: bytes, right: bytes) -> bytes:
    return hashlib.sha256(b"\1" + left + right).digest()


def _split(size: int) -> int:
    """The greatest power of two below a size of at least 2."""
    return 1 << (size - 1).bit_length() - 1


class Tree:
    """A tree that is given whole; each of its fronts is a tree too."""

    def __init__(self, leaves: list[bytes]) -> None:
        self.hashes = [leaf_hash(leaf) for leaf in leaves]
        self._known: dict[tuple[int, int], bytes] = {}

    def range_hash(self, low: int, high: int) -> bytes:
        """The hash of the tree over the leaves from `low` to before `high`."""
        if high == low:
            return hashlib.sha256().digest()
        if high - low == 1:
            return self.hashes[low]
        if (low, high) not in self._known:
            middle = low + _split(high - low)
            self._known[low, high] = node_hash(self.range_hash(low, middle), self.range_hash(middle, high))
        return self._known[low, high]

    def root(self, size: int) -> bytes:
        return self.range_hash(0, size)

    def inclusion(self, index: int, size: int) -> list[bytes]:
        """The audit path of a leaf, the nearest first (RFC 6962, 2.1.1)."""
        low, high, path = 0, size, []
        while high - low > 1:
            middle = low + _split(high - low)
            if index < middle:
                path.append(self.range_hash(middle, high))
                high = middle
            else:
                path.append(self.range_hash(low, middle))
                low = middle
        return path[::-1]

    def consistency(self, first: int, second: int) -> list[bytes]:
        """The proof that a tree goes on another one (RFC 6962, 2.1.2)."""
        low, high, whole, path = 0, second, True, []
        while first != high:
            middle = low + _split(high - low)
            if first <= middle:
                path.append(self.range_hash(middle, high))
                high = middle
            else:
                path.append(self.range_hash(low, middle))
                low, whole = middle, False
        return ([] if whole else [self.range_hash(low, high)]) + path[::-1] if 0 < first < second else []
