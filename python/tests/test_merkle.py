"""Trees and proofs: RFC 6962's examples, and random trees against one that is hashed whole."""

import hashlib

import pytest
from hypothesis import given, strategies as st

from clubcard.publish.merkle import (
    EMPTY_ROOT,
    CompactRange,
    consistency_ranges,
    front_of,
    is_consistent,
    is_included,
    leaf_hash,
    node_hash,
    path_ranges,
)
from web.tree import Tree

# The leaves and roots by which the reference implementation of RFC 6962 tests itself.
LEAVES = [
    bytes.fromhex(text)
    for text in (
        "",
        "00",
        "10",
        "2021",
        "3031",
        "40414243",
        "5051525354555657",
        "606162636465666768696a6b6c6d6e6f",
    )
]
ROOTS = [
    "e3b0c44298fc1c149afbf4c8996fb92427ae41e4649b934ca495991b7852b855",
    "6e340b9cffb37a989ca544e6bb780a2c78901d3fb33738768511a30617afa01d",
    "fac54203e7cc696cf0dfcb42c92a1d9dbaf70ad9e621f4bd8d98662f00e3c125",
    "aeb6bcfe274b70a14fb067a5e5578264db0fa9b51af5e0ba159158f329e06e77",
    "d37ee418976dd95753c1c73862b9398fa2a2cf9b4ff0fdfe8b30cd95209614b7",
    "4e3bbb1f7b478dcfe71fb631631519a3bca12c9aefca1612bfce4c13a86264d4",
    "76e67dadbcdf1e10e1b74ddc608abd2f98dfb16fbce75277b5232a127f2087ef",
    "ddb89be403809e325750d3d263cd78929c2942b7942a34b77e122c9594a74c8c",
    "5dc9da79a70659a9ad559cb701ded9a2ab9d823aad2f4960cfe370eff4604328",
]
MOST = 80
SIZES = st.integers(1, MOST).flatmap(lambda new: st.tuples(st.integers(0, new), st.just(new)))
PLACES = st.integers(1, MOST).flatmap(lambda size: st.tuples(st.integers(0, size - 1), st.just(size)))
TREE = Tree([bytes([number]) for number in range(MOST)])


def proof_of(old: int, new: int) -> list[bytes]:
    return TREE.consistency(old, new) if old else []


def range_of(size: int) -> CompactRange:
    made = CompactRange()
    made.extend(TREE.hashes[:size])
    return made


@pytest.mark.parametrize("size", range(len(ROOTS)))
def test_the_roots_of_the_reference(size: int) -> None:
    made = CompactRange()
    for leaf in LEAVES[:size]:
        made.add(leaf_hash(leaf))
    assert made.root().hex() == ROOTS[size]


def test_the_proofs_of_the_reference() -> None:
    """Of RFC 6962, 2.1.3: the tree of seven leaves and its proofs, told by its nodes' names."""
    a, b, c, d, e, f, j = (leaf_hash(leaf) for leaf in LEAVES[:7])
    g, h, i = node_hash(a, b), node_hash(c, d), node_hash(e, f)
    k, level = node_hash(g, h), node_hash(i, j)
    root = node_hash(k, level)
    assert root.hex() == ROOTS[7]
    for index, path in {0: [b, h, level], 3: [c, g, level], 4: [f, j, k], 6: [i, k]}.items():
        assert is_included((a, b, c, d, e, f, j)[index], index, 7, path, root)
    assert is_consistent(3, bytes.fromhex(ROOTS[3]), 7, root, [c, d, g, level])
    assert is_consistent(4, bytes.fromhex(ROOTS[4]), 7, root, [level])
    assert is_consistent(6, bytes.fromhex(ROOTS[6]), 7, root, [i, j, k])


@given(SIZES)
def test_ranges_grow_to_the_root(sizes: tuple[int, int]) -> None:
    old, new = sizes
    made = range_of(old)
    assert made.root() == TREE.root(old)
    copy = CompactRange.read(old, made.octets())
    assert copy == made
    copy.extend(TREE.hashes[old:new])
    assert copy.root() == TREE.root(new) and made == range_of(old)


@given(PLACES)
def test_audit_paths(place: tuple[int, int]) -> None:
    index, size = place
    path, root, leaf = TREE.inclusion(index, size), TREE.root(size), TREE.hashes[index]
    assert is_included(leaf, index, size, path, root)
    assert front_of(leaf, index, size, path, root) == range_of(index)
    assert path == [TREE.range_hash(low, high) for low, high in path_ranges(index, size)]


@given(SIZES)
def test_consistency(sizes: tuple[int, int]) -> None:
    old, new = sizes
    proof = proof_of(old, new)
    assert is_consistent(old, TREE.root(old), new, TREE.root(new), proof)
    assert proof == [TREE.range_hash(low, high) for low, high in consistency_ranges(old, new)]


@given(PLACES, st.data())
def test_another_audit_path_is_refused(place: tuple[int, int], data: st.DataObject) -> None:
    index, size = place
    path, root, leaf = TREE.inclusion(index, size), TREE.root(size), TREE.hashes[index]
    other = hashlib.sha256(leaf).digest()
    wrong = [path[:-1]] if path else []
    wrong += [path + [other], [other] + path]
    if path:
        at = data.draw(st.integers(0, len(path) - 1))
        wrong.append(path[:at] + [other] + path[at + 1 :])
    assert not any(is_included(leaf, index, size, one, root) for one in wrong)
    assert not is_included(other, index, size, path, root)
    assert not is_included(leaf, index, size, path, other)
    assert not any(is_included(leaf, at, size, path, root) for at in range(-1, size + 2) if at != index)


@given(SIZES, st.data())
def test_another_consistency_proof_is_refused(sizes: tuple[int, int], data: st.DataObject) -> None:
    old, new = sizes
    proof, other = proof_of(old, new), hashlib.sha256(b"other").digest()
    roots = TREE.root(old), TREE.root(new)
    wrong = [proof + [other], [other] + proof]
    if proof:
        at = data.draw(st.integers(0, len(proof) - 1))
        wrong += [proof[:-1], proof[:at] + [other] + proof[at + 1 :]]
    assert not any(is_consistent(old, roots[0], new, roots[1], one) for one in wrong)
    assert not is_consistent(old, other, new, roots[1], proof)
    if old:
        assert not is_consistent(old, roots[0], new, other, proof)
    assert not is_consistent(new + 1, roots[1], new, roots[1], [])


def test_what_is_no_range() -> None:
    for size, octets in ((1, b""), (2, bytes(64)), (0, bytes(32)), (1, bytes(31))):
        with pytest.raises(ValueError):
            CompactRange.read(size, octets)
    assert CompactRange.read(0, b"").root() == EMPTY_ROOT
