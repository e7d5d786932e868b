"""manifest.json: its one text, and what is refused."""

import json
from dataclasses import replace
from typing import Any

import pytest
from hypothesis import given, settings
from hypothesis import strategies as st

from clubcard.manifest import Chain, Coverage, Issuer, Manifest, ManifestError, Part, from_json, to_json
from clubcard.places import Places
from clubcard.times import from_iso, to_iso

LOG, OTHER = b"\xaa" * 32, b"\x0b" * 32
MANIFEST = Manifest(
    name="example",
    generation=2,
    epoch=9,
    moment=1_780_000_000_000,
    valid_until=1_780_086_400_001,
    parts=(Part("snapshot", 7, 300, LOG), Part("delta", 9, 20, OTHER)),
    store_length=330,
    store_sha256=b"\x01" * 32,
    coverage=(Coverage(LOG, "log", 0, 1_779_900_000_000), Coverage(OTHER, "tiles", 5, 6)),
    issuers=(
        Issuer(LOG, "Ä", True, 1_780_000_000_000, None),
        Issuer(OTHER, "away", False, None, "no CRL in time"),
    ),
    next_key=None,
)
TEXT = """{
 "coverage": [
  {
   "from": 5,
   "log": "0b0b0b0b0b0b0b0b0b0b0b0b0b0b0b0b0b0b0b0b0b0b0b0b0b0b0b0b0b0b0b0b",
   "name": "tiles",
   "to": 6
  },
  {
   "from": 0,
   "log": "aaaaaaaaaaaaaaaaaaaaaaaaaaaaaaaaaaaaaaaaaaaaaaaaaaaaaaaaaaaaaaaa",
   "name": "log",
   "to": 1779900000000
  }
 ],
 "epoch": 9,
 "format": 1,
 "generation": 2,
 "issuers": [
  {
   "enrolled": false,
   "enrolled_at": null,
   "issuer": "0b0b0b0b0b0b0b0b0b0b0b0b0b0b0b0b0b0b0b0b0b0b0b0b0b0b0b0b0b0b0b0b",
   "name": "away",
   "reason": "no CRL in time"
  },
  {
   "enrolled": true,
   "enrolled_at": "2026-05-28T20:26:40.000Z",
   "issuer": "aaaaaaaaaaaaaaaaaaaaaaaaaaaaaaaaaaaaaaaaaaaaaaaaaaaaaaaaaaaaaaaa",
   "name": "Ä"
  }
 ],
 "moment": "2026-05-28T20:26:40.000Z",
 "name": "example",
 "next_key": null,
 "parts": [
  {
   "epoch": 7,
   "kind": "snapshot",
   "length": 300,
   "path": "parts/aaaaaaaaaaaaaaaaaaaaaaaaaaaaaaaaaaaaaaaaaaaaaaaaaaaaaaaaaaaaaaaa.part",
   "sha256": "aaaaaaaaaaaaaaaaaaaaaaaaaaaaaaaaaaaaaaaaaaaaaaaaaaaaaaaaaaaaaaaa"
  },
  {
   "epoch": 9,
   "kind": "delta",
   "length": 20,
   "path": "parts/0b0b0b0b0b0b0b0b0b0b0b0b0b0b0b0b0b0b0b0b0b0b0b0b0b0b0b0b0b0b0b0b.part",
   "sha256": "0b0b0b0b0b0b0b0b0b0b0b0b0b0b0b0b0b0b0b0b0b0b0b0b0b0b0b0b0b0b0b0b"
  }
 ],
 "store": {
  "length": 330,
  "sha256": "0101010101010101010101010101010101010101010101010101010101010101"
 },
 "valid_until": "2026-05-29T20:26:40.001Z"
}
"""


def test_text() -> None:
    """Each member stands in the one text, keys and lists in their order."""
    assert to_json(MANIFEST).decode() == TEXT
    assert to_json(replace(MANIFEST, issuers=MANIFEST.issuers[::-1], coverage=MANIFEST.coverage[::-1])) == TEXT.encode()


def test_read_again() -> None:
    """What is written is read as it was, in the text's order, also beside members that the format doesn't have."""
    read = from_json(TEXT.encode())
    assert to_json(read) == TEXT.encode()
    assert set(read.issuers) == set(MANIFEST.issuers) and set(read.coverage) == set(MANIFEST.coverage)
    assert replace(read, issuers=(), coverage=()) == replace(MANIFEST, issuers=(), coverage=())
    assert from_json(json.dumps({**json.loads(TEXT), "later": [1]}).encode()) == read


def changed(place: list[Any], value: Any) -> bytes:
    """The manifest with another value at a place; `...` takes the member away."""
    members = json.loads(TEXT)
    inner = members
    for step in place[:-1]:
        inner = inner[step]
    if value is ...:
        del inner[place[-1]]
    else:
        inner[place[-1]] = value
    return json.dumps(members).encode()


WRONG = [
    (["format"], 3, "format is 3"),
    (["format"], True, "format is no number"),
    (["name"], 7, "name is no string"),
    (["name"], ..., "name is missing"),
    (["generation"], -1, "generation is no number"),
    (["epoch"], 10, "epochs that don't rise to the manifest's"),
    (["epoch"], 1.5, "epoch is no number"),
    (["moment"], "2026-05-28T20:26:40Z", "moment is no time"),
    (["moment"], "2026-05-28 20:26:40.000Z", "moment is no time"),
    (["valid_until"], "tomorrow", "valid_until is no time"),
    (["valid_until"], "", "valid_until is no time"),
    (["parts"], [], "1 to 64 parts"),
    (["parts"], {}, "parts is no array"),
    (["parts", 0], 7, "parts[0] is no object"),
    (["parts", 0, "kind"], "delta", "a snapshot and then deltas"),
    (["parts", 1, "kind"], "snapshot", "a snapshot and then deltas"),
    (["parts", 1, "kind"], "part", "neither snapshot nor delta"),
    (["parts", 0, "epoch"], 9, "epochs that don't rise"),
    (["parts", 0, "path"], "../../etc/passwd", "path isn't parts/aaaa"),
    (["parts", 0, "sha256"], "AA" * 32, "64 hexadecimal digits"),
    (["parts", 0, "sha256"], "aa" * 31, "64 hexadecimal digits"),
    (["parts", 0, "length"], 1 << 64, "length is no number"),
    (["store"], None, "store is no object"),
    (["store", "length"], ..., "store.length is missing"),
    (["coverage", 0, "from"], 7, "from is behind `to`"),
    (["issuers", 0, "reason"], ..., "reason is missing"),
    (["issuers", 0, "enrolled"], 1, "neither true nor false"),
    (["issuers", 1, "enrolled_at"], None, "enrolled_at is null"),
    (["issuers", 0, "enrolled_at"], ..., "enrolled_at is missing"),
    (["next_key"], 7, "next_key is no string"),
    (["next_key"], ..., "next_key is missing"),
]


@pytest.mark.parametrize("place, value, says", WRONG)
def test_wrong_members(place: list[Any], value: Any, says: str) -> None:
    """A wrong member is named."""
    with pytest.raises(ManifestError) as fault:
        from_json(changed(place, value))
    assert says in str(fault.value)


@pytest.mark.parametrize("octets", [b"", b"[]", b"7", b"null", b"\xff", b"{", TEXT.encode()[:-3], b"[" * 100_000])
def test_no_manifest(octets: bytes) -> None:
    """Other bytes are no manifest, and nothing else is raised."""
    with pytest.raises(ManifestError):
        from_json(octets)


@settings(max_examples=200)
@given(st.binary(max_size=300) | st.text(max_size=100).map(str.encode))
def test_any_bytes(octets: bytes) -> None:
    """No bytes raise anything else."""
    with pytest.raises(ManifestError):
        from_json(octets)


@given(st.integers(-62_135_596_800_000, 253_402_300_799_999))
def test_times(moment: int) -> None:
    """Each millisecond of the years 1 to 9999 has one text, which says it again."""
    text = to_iso(moment)
    assert len(text) == 24 and from_iso(text) == moment


def test_no_times() -> None:
    """A time that has no text is refused, and other spellings are read."""
    with pytest.raises(ValueError):
        to_iso(1 << 62)
    assert from_iso("1970-01-01") == 0
    assert from_iso("1970-01-01T01:00:00+01:00") == 0
    assert from_iso("1970-01-01T00:00:00.0015Z") == 1


# ---------- places
PLACES = Places("issuer", 2, {"0001": 2})
PLACED = replace(
    from_json(to_json(MANIFEST)),
    parts=(),
    store_length=0,
    store_sha256=b"",
    places=PLACES,
    placed=tuple(Chain(name, MANIFEST.parts, 330, LOG) for name in PLACES.names()),
)


def test_places() -> None:
    """A manifest with places has one text, of format 2, and no other chain."""
    text = to_json(PLACED)
    members = json.loads(text)
    assert from_json(text) == PLACED and to_json(from_json(text)) == text
    assert members["format"] == 2 and members["places"] == {"by": "issuer", "count": 2, "again": {"0001": 2}}
    assert [chain["place"] for chain in members["chains"]] == ["0000", "0001.0000", "0001.0001"]
    assert not {"parts", "store"} & set(members) and not {"places", "chains"} & set(json.loads(to_json(MANIFEST)))
    assert [chain.place for chain in MANIFEST.chains] == ["whole"] and MANIFEST.chains[0].parts == MANIFEST.parts


@given(st.integers(1, 5), st.dictionaries(st.integers(0, 4), st.integers(2, 4), max_size=2), st.booleans())
def test_any_plan(count: int, again: dict[int, int], by_identity: bool) -> None:
    cut = {f"{number:04}": into for number, into in again.items() if number < count}
    places = Places("identity", count) if by_identity else Places("issuer", count, cut)
    chains = tuple(Chain(name, MANIFEST.parts, number, LOG) for number, name in enumerate(places.names()))
    manifest = replace(PLACED, places=places, placed=chains)
    assert from_json(to_json(manifest)) == manifest
    for wrong in (chains[1:], chains + chains[:1], (replace(chains[0], place="0009"), *chains[1:])):
        with pytest.raises(ManifestError, match="manifest.chains aren't those of"):
            from_json(to_json(replace(manifest, placed=wrong)))


def test_chains_of_different_epochs() -> None:
    other = (Part("snapshot", 8, 300, LOG), Part("delta", 9, 20, OTHER))
    wrong = replace(PLACED, placed=(replace(PLACED.placed[0], parts=other), *PLACED.placed[1:]))
    with pytest.raises(ManifestError, match="manifest.chains have parts of different epochs"):
        from_json(to_json(wrong))
