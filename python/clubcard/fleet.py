"""The stores of a history that is cut into places, asked as one: each certificate at its own place.

A folder that clubcard-update keeps has a store for each place, named by its digest, and the manifest.json that names
them all: it is renamed into place behind the stores, so all of them are of one epoch.
"""

import hashlib
import mmap
import os
from collections.abc import Callable, Iterable, Mapping, Sequence
from pathlib import Path
from typing import TypeVar

from .answers import Refusal, Refused, Verdict
from .manifest import Chain, Manifest, ManifestError, from_json
from .octets import BytesLike, octets_of
from .places import Places
from .store import Query, Sighting, Store

MANIFEST = "manifest.json"
# How often a folder is opened anew that is replaced meanwhile.
_TRIES = 5
Asked = TypeVar("Asked")


class FleetError(Exception):
    """The stores can't be asked; the text says why and what to do."""


def store_name(sha256: bytes) -> str:
    """The name of a store's file in its folder."""
    return f"{sha256.hex()}.store"


class Fleet:
    """A plan of places, and the bytes of the store of each, as `Store` takes them. Any number of threads may ask.

    Each call takes the certificate's place by the proved function of the library, and answers as the store there does;
    any other store may say GOOD of a revoked certificate. A store is opened by the first question that it gets.
    """

    def __init__(self, places: Places, stores: Mapping[str, BytesLike]) -> None:
        differing = sorted(set(stores) ^ set(places.names()))
        if differing:
            raise FleetError(f"the stores aren't those of {places}: {differing[0]} is missing, or one too many")
        self.places = places
        self.manifest: Manifest | None = None
        """That of the folder in which the stores are."""
        self._octets = dict(stores)
        self._stores = {name: Store(octets) for name, octets in stores.items()}
        self._untested: dict[str, Callable[[], None]] = {}

    @classmethod
    def from_folder(cls, folder: str | os.PathLike[str]) -> "Fleet":
        """The stores of an epoch that clubcard-update keeps in a folder. They stay open as they are when it replaces
        them. Each is compared with the manifest's digest before it is first asked; no signature is checked."""
        for _ in range(_TRIES):
            manifest = manifest_in(folder)
            try:
                return cls._of_manifest(Path(folder), manifest)
            except FileNotFoundError as fault:
                missing = fault.filename
        raise FleetError(f"{missing}: this store is missing: run clubcard-update")

    @classmethod
    def _of_manifest(cls, folder: Path, manifest: Manifest) -> "Fleet":
        """The stores that a folder's manifest names."""
        if manifest.places is None:
            raise FleetError(f"{folder}: its manifest has no places: open its store as a Store")
        mapped = {chain.place: _mapped(folder / store_name(chain.store_sha256)) for chain in manifest.placed}
        fleet = cls(manifest.places, mapped)
        fleet.manifest = manifest
        for chain in manifest.placed:
            fleet._untested[chain.place] = _test_of(mapped[chain.place], chain, folder)
        return fleet

    def store_at(self, place: str) -> Store:
        """The store of a place by its name."""
        test = self._untested.get(place)
        if test is not None:
            test()
            self._untested.pop(place, None)
        return self._stores[place]

    def octets_at(self, place: str) -> bytes:
        """The bytes of the store of a place."""
        self.store_at(place)
        return octets_of(self._octets[place], "a store")

    def store_of(self, issuer: BytesLike, serial: BytesLike) -> Store:
        """The store that is asked about a certificate. With a serial that hasn't 1 to 32 octets it is `Refused`."""
        return self.store_at(self.places.place_of(issuer, serial))

    def query(self, issuer: BytesLike, serial: BytesLike, sightings: Iterable[Sighting]) -> Verdict:
        """The verdict on a certificate, as `Store.query` gives it."""
        return self.store_of(issuer, serial).query(issuer, serial, sightings)

    ask = query

    def query_cert(self, cert: BytesLike, issuer_cert: BytesLike) -> Verdict:
        """The verdict on a certificate by its own and its issuer's, as `Store.query_cert` gives it."""
        # Who asks otherwise needs no package but this one.
        from .pki import PkiError, identity

        leaf, issuer = octets_of(cert, "a certificate"), octets_of(issuer_cert, "an issuer's certificate")
        try:
            named = identity(leaf, issuer)
        except PkiError:
            # Of what isn't read no place is known. Each store refuses it alike.
            self.store_at(self.places.names()[0]).query_cert(leaf, issuer)
            raise Refused(Refusal.CERT_MALFORMED) from None
        return self.store_of(named.issuer, named.serial).query_cert(leaf, issuer)

    def query_each(self, queries: Iterable[Query]) -> list[Verdict | Refusal]:
        """The answers to many queries, as `Store.query_each` gives them."""
        return self._each(list(queries), lambda each: (each.issuer, each.serial), Store.query_each)

    def query_seen(self, seen: Iterable[tuple[bytes, bytes, bytes, int]]) -> list[Verdict | Refusal]:
        """The answers to queries of one sighting each, as `Store.query_seen` gives them."""
        return self._each(list(seen), lambda each: (each[0], each[1]), Store.query_seen)

    def _each(
        self,
        asked: Sequence[Asked],
        identity: Callable[[Asked], tuple[bytes, bytes]],
        ask: Callable[[Store, list[Asked]], list[Verdict | Refusal]],
    ) -> list[Verdict | Refusal]:
        """The answers to questions, those of each place at once."""
        answers: dict[int, Verdict | Refusal] = {}
        at: dict[str, list[int]] = {}
        for number, each in enumerate(asked):
            try:
                at.setdefault(self.places.place_of(*identity(each)), []).append(number)
            except Refused as refused:
                answers[number] = refused.refusal
        for place, numbers in at.items():
            answers.update(zip(numbers, ask(self.store_at(place), [asked[number] for number in numbers])))
        return [answers[number] for number in range(len(asked))]


def manifest_in(folder: str | os.PathLike[str]) -> Manifest:
    """The manifest in a folder of stores."""
    path = Path(folder) / MANIFEST
    try:
        return from_json(path.read_bytes())
    except (OSError, ManifestError) as error:
        why = error.strerror if isinstance(error, OSError) else error
        raise FleetError(f"{path}: this manifest isn't read ({why}): run clubcard-update") from error


def _mapped(path: Path) -> mmap.mmap:
    """The bytes of a store's file, which is never written again."""
    with open(path, "rb") as file:
        try:
            return mmap.mmap(file.fileno(), 0, access=mmap.ACCESS_READ)
        except (ValueError, OSError) as error:
            raise FleetError(f"{path}: it can't be mapped ({error}): run clubcard-update") from error


def _test_of(octets: mmap.mmap, chain: Chain, folder: Path) -> Callable[[], None]:
    """Tests that a store has the digest of the manifest."""

    def test() -> None:
        if hashlib.sha256(octets).digest() != chain.store_sha256:
            path = folder / store_name(chain.store_sha256)
            raise FleetError(f"{path}: it hasn't the SHA-256 of its name: remove it, and run clubcard-update")

    return test
