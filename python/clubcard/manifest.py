"""manifest.json: what a site publishes, for clients to verify and follow.

Lengths are bytes, times milliseconds since 1970 UTC (in the file ISO 8601), keys 32 bytes (in the file hexadecimal).
The file is JSON in UTF-8 with sorted keys, and each manifest has one text. Where the history is cut into places it is
of format 2, and has `places` and `chains` in place of `parts` and `store`.
"""

import json
from collections.abc import Mapping
from dataclasses import dataclass

from .places import WHOLE, Places, PlacesError, is_split
from .times import from_iso, to_iso

FORMAT = 1
PLACED = 2
"""The format of a manifest with places."""
MAX_PARTS = 64
_KEY = 32


class ManifestError(Exception):
    """Bytes are no manifest: which member, and what of it."""


@dataclass(frozen=True)
class Part:
    """A part of the chain: what it is, and where it lies below the site."""

    kind: str
    epoch: int
    length: int
    sha256: bytes

    @property
    def path(self) -> str:
        """The file's name below the site."""
        return part_path(self.sha256)


@dataclass(frozen=True)
class Coverage:
    """The times of a log that the newest part covers, both ends among them."""

    log: bytes
    name: str
    low: int
    high: int


@dataclass(frozen=True)
class Issuer:
    """An issuer of CONFIG: whether this epoch enrolled it, the moment of the last epoch that did, else why not."""

    issuer: bytes
    name: str
    enrolled: bool
    enrolled_at: int | None
    reason: str | None


@dataclass(frozen=True)
class Chain:
    """What is published of a place: parts from the snapshot on, and the store that they make together."""

    place: str
    parts: tuple[Part, ...]
    store_length: int
    store_sha256: bytes


@dataclass(frozen=True)
class Manifest:
    """All that is published. Where the history isn't cut the parts and the store are those of its one chain; where it
    is there are none, and each place has a chain."""

    name: str
    generation: int
    epoch: int
    moment: int
    valid_until: int
    parts: tuple[Part, ...]
    store_length: int
    store_sha256: bytes
    coverage: tuple[Coverage, ...]
    issuers: tuple[Issuer, ...]
    next_key: str | None
    places: Places | None = None
    placed: tuple[Chain, ...] = ()
    """The chains of all places, in their order."""

    @property
    def chains(self) -> tuple[Chain, ...]:
        """The chains of all places, or the one."""
        if self.places is not None:
            return self.placed
        return (Chain(WHOLE, self.parts, self.store_length, self.store_sha256),)

    def follows(self, old: "Manifest") -> bool:
        """Whether its plan of places is that of an older manifest, or its chains began by a split of that one's."""
        split = self.generation > old.generation and is_split(old.places, self.places)
        return split or self.places == old.places


def part_path(sha256: bytes) -> str:
    """Where a part lies below the site: under its digest."""
    return f"parts/{sha256.hex()}.part"


def _issuer_json(issuer: Issuer) -> dict[str, object]:
    """An issuer's object. `reason` stands exactly where it isn't enrolled."""
    members: dict[str, object] = {
        "issuer": issuer.issuer.hex(),
        "name": issuer.name,
        "enrolled": issuer.enrolled,
        "enrolled_at": None if issuer.enrolled_at is None else to_iso(issuer.enrolled_at),
    }
    return members if issuer.enrolled else {**members, "reason": issuer.reason}


def _part_json(part: Part) -> dict[str, object]:
    return {
        "kind": part.kind,
        "epoch": part.epoch,
        "length": part.length,
        "sha256": part.sha256.hex(),
        "path": part.path,
    }


def _chain_json(chain: Chain) -> dict[str, object]:
    return {
        "parts": [_part_json(part) for part in chain.parts],
        "store": {"length": chain.store_length, "sha256": chain.store_sha256.hex()},
    }


def _chains_json(manifest: Manifest) -> dict[str, object]:
    """The members that are of chains, and the format that they have."""
    if manifest.places is None:
        return {"format": FORMAT, **_chain_json(manifest.chains[0])}
    chains = [dict[str, object](place=chain.place, **_chain_json(chain)) for chain in manifest.placed]
    return {"format": PLACED, "places": manifest.places.members(), "chains": chains}


def to_json(manifest: Manifest) -> bytes:
    """The manifest's one text: logs and issuers ascending by their keys."""
    coverage = [
        {"log": held.log.hex(), "name": held.name, "from": held.low, "to": held.high}
        for held in sorted(manifest.coverage, key=lambda held: held.log)
    ]
    members: dict[str, object] = {
        **_chains_json(manifest),
        "name": manifest.name,
        "generation": manifest.generation,
        "epoch": manifest.epoch,
        "moment": to_iso(manifest.moment),
        "valid_until": to_iso(manifest.valid_until),
        "coverage": coverage,
        "issuers": [_issuer_json(issuer) for issuer in sorted(manifest.issuers, key=lambda held: held.issuer)],
        "next_key": manifest.next_key,
    }
    return json.dumps(members, sort_keys=True, indent=1, ensure_ascii=False).encode("utf-8") + b"\n"


class _Members:
    """The members of an object, each read as what it must be. `where` names the object in the error."""

    def __init__(self, value: object, where: str) -> None:
        if not isinstance(value, Mapping):
            raise ManifestError(f"{where} is no object")
        self.members = value
        self.where = where

    def member(self, name: str) -> object:
        if name not in self.members:
            raise ManifestError(f"{self.where}.{name} is missing")
        return self.members[name]

    def fault(self, name: str, what: str) -> ManifestError:
        return ManifestError(f"{self.where}.{name} {what}")

    def text(self, name: str) -> str:
        value = self.member(name)
        if not isinstance(value, str):
            raise self.fault(name, "is no string")
        return value

    def number(self, name: str) -> int:
        value = self.member(name)
        if not isinstance(value, int) or isinstance(value, bool) or not 0 <= value < 1 << 64:
            raise self.fault(name, "is no number from 0 to 2^64 - 1")
        return value

    def truth(self, name: str) -> bool:
        value = self.member(name)
        if not isinstance(value, bool):
            raise self.fault(name, "is neither true nor false")
        return value

    def key(self, name: str) -> bytes:
        text = self.text(name)
        if len(text) != 2 * _KEY or not all(digit in "0123456789abcdef" for digit in text):
            raise self.fault(name, "isn't 64 hexadecimal digits in lower case")
        return bytes.fromhex(text)

    def time(self, name: str) -> int:
        text = self.text(name)
        try:
            moment = from_iso(text)
            whole = to_iso(moment) == text
        except ValueError:
            whole = False
        if not whole:
            raise self.fault(name, "is no time like 2026-11-30T19:00:00.000Z")
        return moment

    def is_null(self, name: str) -> bool:
        return self.member(name) is None

    def items(self, name: str) -> list["_Members"]:
        value = self.member(name)
        if not isinstance(value, list):
            raise self.fault(name, "is no array")
        return [_Members(item, f"{self.where}.{name}[{place}]") for place, item in enumerate(value)]

    def inner(self, name: str) -> "_Members":
        return _Members(self.member(name), f"{self.where}.{name}")


def _part_of(members: _Members) -> Part:
    part = Part(members.text("kind"), members.number("epoch"), members.number("length"), members.key("sha256"))
    if part.kind not in ("snapshot", "delta"):
        raise members.fault("kind", "is neither snapshot nor delta")
    if members.text("path") != part.path:
        raise members.fault("path", f"isn't {part.path}")
    return part


def _coverage_of(members: _Members) -> Coverage:
    held = Coverage(members.key("log"), members.text("name"), members.number("from"), members.number("to"))
    if held.low > held.high:
        raise members.fault("from", "is behind `to`")
    return held


def _issuer_of(members: _Members) -> Issuer:
    enrolled = members.truth("enrolled")
    enrolled_at = None if members.is_null("enrolled_at") else members.time("enrolled_at")
    reason = None if enrolled else members.text("reason")
    if enrolled and enrolled_at is None:
        raise members.fault("enrolled_at", "is null, and the issuer is enrolled")
    return Issuer(members.key("issuer"), members.text("name"), enrolled, enrolled_at, reason)


def _check_chain(chain: Chain, epoch: int, where: str) -> None:
    """Whether the parts are a chain: a snapshot, then deltas with rising epochs, to the manifest's own."""
    kinds = [part.kind for part in chain.parts]
    epochs = [part.epoch for part in chain.parts]
    if not 1 <= len(kinds) <= MAX_PARTS:
        raise ManifestError(f"{where}.parts isn't 1 to {MAX_PARTS} parts")
    if kinds[0] != "snapshot" or "snapshot" in kinds[1:]:
        raise ManifestError(f"{where}.parts isn't a snapshot and then deltas")
    if any(left >= right for left, right in zip(epochs, epochs[1:])) or epochs[-1] != epoch:
        raise ManifestError(f"{where}.parts has epochs that don't rise to the manifest's")


def _chain_of(members: _Members, place: str, epoch: int) -> Chain:
    store = members.inner("store")
    parts = tuple(_part_of(item) for item in members.items("parts"))
    chain = Chain(place, parts, store.number("length"), store.key("sha256"))
    _check_chain(chain, epoch, members.where)
    return chain


def _placed_of(members: _Members, epoch: int) -> tuple[Places, tuple[Chain, ...]]:
    """The plan of places, and the chain of each in their order. All have parts of the same epochs."""
    try:
        places = Places.of_members(members.member("places"))
    except PlacesError as fault:
        raise members.fault("places", str(fault)) from None
    chains = tuple(_chain_of(item, item.text("place"), epoch) for item in members.items("chains"))
    if [chain.place for chain in chains] != places.names():
        raise members.fault("chains", f"aren't those of {places}: {len(places.names())} in the order of their names")
    if len({tuple((part.kind, part.epoch) for part in chain.parts) for chain in chains}) > 1:
        raise members.fault("chains", "have parts of different epochs")
    return places, chains


def from_json(octets: bytes) -> Manifest:
    """Reads a manifest. Members that this format doesn't have are ignored. Raises ManifestError."""
    try:
        value = json.loads(octets.decode("utf-8"))
    except (UnicodeDecodeError, ValueError, RecursionError):
        raise ManifestError("the manifest isn't JSON in UTF-8") from None
    members = _Members(value, "manifest")
    form, epoch = members.number("format"), members.number("epoch")
    if form not in (FORMAT, PLACED):
        raise ManifestError(f"manifest.format is {form}, and this program reads {FORMAT} and {PLACED}")
    if form == FORMAT and "places" in members.members:
        raise members.fault("places", f"stands in a manifest of format {FORMAT}, which has none")
    places, placed = _placed_of(members, epoch) if form == PLACED else (None, ())
    whole = _chain_of(members, WHOLE, epoch) if places is None else Chain(WHOLE, (), 0, b"")
    return Manifest(
        name=members.text("name"),
        generation=members.number("generation"),
        epoch=epoch,
        moment=members.time("moment"),
        valid_until=members.time("valid_until"),
        parts=whole.parts,
        store_length=whole.store_length,
        store_sha256=whole.store_sha256,
        coverage=tuple(_coverage_of(item) for item in members.items("coverage")),
        issuers=tuple(_issuer_of(item) for item in members.items("issuers")),
        next_key=None if members.is_null("next_key") else members.text("next_key"),
        places=places,
        placed=placed,
    )
