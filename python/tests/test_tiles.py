"""A log by its tiles: which are asked for, and what is read and refused of them."""

import hashlib

import pytest
from hypothesis import given, settings, strategies as st

from clubcard.http import FetchError
from clubcard.publish.heads import LogFault, LogKey
from clubcard.publish.sources import RawEntry
from clubcard.publish.tiles import Tiles, tile_path
from fake_log import ISSUER, FakeClient, FakeLog, made_log, tile_leaf
from web.octets import vector
from web.tree import Tree

LOG = made_log("static", 700)
FILES = LOG.tiles()


class Files(FakeLog):
    """A log that serves these files."""

    def __init__(self, log: FakeLog, files: dict[str, bytes]) -> None:
        super().__init__(log.kind, log.key, log.name)
        self.entries, self.time, self.size = log.entries, log.time, log.size
        self.files = files

    def tiles(self) -> dict[str, bytes]:
        return self.files


def made_source(log: FakeLog | None = None) -> tuple[Tiles, FakeClient]:
    served = log or Files(LOG, FILES)
    client = FakeClient(served)
    return Tiles(client, f"http://{served.name}/", served.origin, LogKey.read(served.spki)), client


WANTED = [RawEntry(leaf, b"" if leaf[10:12] == b"\0\1" else extra) for leaf, extra in LOG.entries]


def test_paths_of_the_document() -> None:
    """The examples of c2sp.org/tlog-tiles."""
    assert tile_path("0", 1234067, 256) == "tile/0/x001/x234/067"
    assert tile_path("0", 273, 112) == "tile/0/273.p/112"
    assert tile_path("data", 0, 1) == "tile/data/000.p/1"
    assert tile_path("1", 1000, 256) == "tile/1/x001/000"


def test_what_is_asked() -> None:
    source, client = made_source()
    head = source.head()
    assert (head.time, head.size, head.root) == (LOG.time, 700, LOG.tree.root(700))
    # A call gives what lies in one tile.
    assert source.entries(0, 700, 700) == WANTED[:256]
    assert source.entries(300, 400, 700) == WANTED[300:400]
    assert source.entries(600, 700, 700) == WANTED[600:]
    names = [url.removeprefix("http://one/") for url in client.urls]
    issuer = f"issuer/{hashlib.sha256(ISSUER).hexdigest()}"
    assert names == ["checkpoint", "tile/data/000", issuer, "tile/data/001", "tile/data/002.p/188"]


@settings(max_examples=50, deadline=None)
@given(st.integers(1, 700).flatmap(lambda new: st.tuples(st.integers(1, new), st.integers(0, new - 1), st.just(new))))
def test_proofs(sizes: tuple[int, int, int]) -> None:
    old, index, new = sizes
    log = FakeLog("static", LOG.key, "one")
    log.entries, log.size = LOG.entries, new
    source, _ = made_source(log)
    assert source.consistency(old, new) == LOG.tree.consistency(old, new)
    assert source.path(LOG.tree.hashes[index], index, new) == LOG.tree.inclusion(index, new)


def test_proofs_over_three_levels() -> None:
    """Of a tree of more than 65,536 entries."""
    size = 66_000
    tree = Tree([number.to_bytes(4, "big") for number in range(size)])
    files = {}
    for level in range(3):
        step, count = 256**level, size >> (8 * level)
        nodes = [tree.range_hash(at * step, (at + 1) * step) for at in range(count)]
        for index in range((count + 255) // 256):
            part = nodes[index * 256 : (index + 1) * 256]
            files[tile_path(str(level), index, len(part))] = b"".join(part)
    source, client = made_source(Files(LOG, files))
    for old in (1, 300, 40_000, 65_535, 65_536, 65_537, 65_999):
        assert source.consistency(old, size) == tree.consistency(old, size)
        assert source.path(tree.hashes[old], old, size) == tree.inclusion(old, size)
    assert {"http://one/tile/2/000.p/1", "http://one/tile/1/001.p/1"} <= set(client.urls)
    assert len(client.urls) == len(set(client.urls))


def test_a_partial_tile_that_is_gone() -> None:
    """Once a tile is full, its partial ones may go."""
    source, client = made_source()
    full = b"".join(tile_leaf(*entry) for entry in LOG.entries[:256])
    client.changes["tile/data/000.p/"] = lambda _: FetchError("status 404", 404)
    assert source.entries(0, 100, 100) == WANTED[:100]
    assert client.urls[-2] == "http://one/tile/data/000" and full == FILES["tile/data/000"]
    client.changes["tile/data/000.p/"] = lambda _: FetchError("status 503", 503)
    with pytest.raises(FetchError, match="503"):
        source.entries(0, 100, 100)


def refused(octets: bytes, why: str) -> None:
    source, client = made_source()
    client.changes["tile/data/"] = lambda _: octets
    with pytest.raises(LogFault, match=why):
        source.entries(0, 256, 700)


def test_data_tiles_that_are_refused() -> None:
    whole = FILES["tile/data/000"]
    first = tile_leaf(*LOG.entries[0])
    refused(b"", "fewer|too few")
    refused(whole[:-1], "too few")
    refused(b"<html>" + whole, "isn't of entries")
    refused(whole[: -len(tile_leaf(*LOG.entries[255]))], "too few")
    refused(first[:8] + b"\0\2" + first[10:], "isn't of entries")
    # A chain that isn't of whole fingerprints.
    refused((LOG.entries[0][0][2:] + vector(bytes(31), 2)) * 256, "isn't of entries")


@given(st.binary(max_size=2000))
def test_garbage_is_refused(octets: bytes) -> None:
    refused(octets, "data tile 0")


def test_issuers_that_are_refused() -> None:
    source, client = made_source()
    client.changes["issuer/"] = lambda octets: octets + b"\0"
    with pytest.raises(LogFault, match="another certificate"):
        source.entries(0, 256, 700)


def test_hash_tiles_that_are_refused() -> None:
    source, client = made_source()
    client.changes["tile/0/"] = lambda octets: octets[:-1]
    with pytest.raises(LogFault, match="fewer than"):
        source.consistency(9, 700)
