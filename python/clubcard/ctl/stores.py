"""Stores that are asked: those of files, and those that a device has in its picked slot."""

import hashlib
import os
from dataclasses import dataclass
from pathlib import Path
from typing import BinaryIO

from ..answers import Refusal, Refused
from ..fleet import Fleet, FleetError
from ..manifest import Manifest
from ..places import WHOLE
from ..store import Store
from .words import NoStore

# A device's fields (docs/FORMATS.md, "Device").
_DEVICE = b"CLUBSLOT"
_MAGIC_AT, _VERSION_AT, _CAPACITY_AT = 1, 9, 10
_HEADER = 18
_SLOTS_AT, _LENGTH = 4096, 8
_GREATEST_CAPACITY = 1 << 40

_AGAIN = "fetch it again, and keep the old one until then"
_OTHER_LIBRARY = "the library is of another version than this program: install both of one"
_REMEDIES = {
    Refusal.LAYOUT_SHORT: _AGAIN,
    Refusal.LAYOUT_VALUE: _AGAIN,
    Refusal.LAYOUT_DIGEST: _AGAIN,
    Refusal.NOT_SNAPSHOT: "a store begins with a snapshot: make it again by `clubcard start`",
    Refusal.NOT_DELTA: "a snapshot begins a store of its own: make it again by `clubcard start`",
    Refusal.WRONG_PARENT: "a part is missing or of another chain: install every part in order",
    Refusal.OLD_EPOCH: "a part is older than the one before it: install every part in order",
    Refusal.COVERAGE_SHRINKS: "a part covers less than the one before it, and is no part of a chain: fetch it again",
    Refusal.CHAIN_FULL: "a store has 64 parts at most: begin it with the snapshot of a newer chain",
    Refusal.STORE_TOO_LONG: "a store of 4 GiB or more isn't asked: begin it with the snapshot of a newer chain",
    Refusal.BAD_SERIAL: "a serial has 1 to 32 octets: look at it again",
    Refusal.BAD_SIGHTINGS: "a certificate is asked about by 1 to 64 timestamps: give as many",
    Refusal.BAD_PLACES: "places are 1 to 65,536: give another count",
    Refusal.CERT_NO_SCTS: "it carries no timestamp; ask by --issuer and --serial, with --log and --time of those that "
    "it has elsewhere",
    Refusal.CERT_BAD_SCTS: "its timestamps aren't of the form of RFC 6962; fetch it again",
    Refusal.CERT_TOO_MANY_SCTS: "it carries more than 64 timestamps; ask by --issuer and --serial, with --log and "
    "--time of some of them",
    Refusal.CERT_MALFORMED: "it isn't a certificate that can be asked about; fetch it again",
    Refusal.ISSUER_CERT_MALFORMED: "its issuer's certificate isn't read; fetch that again",
    Refusal.NO_MEMORY: "memory is wanted: end other programs, or ask about fewer certificates at once",
    Refusal.INDEX_TOO_SHORT: _OTHER_LIBRARY,
    Refusal.ROOM_TOO_SHORT: _OTHER_LIBRARY,
    Refusal.BAD_SIZE: _OTHER_LIBRARY,
    Refusal.UNKNOWN: _OTHER_LIBRARY,
}


def remedy_of(refusal: Refusal) -> str:
    """What to do about a refusal of the library."""
    return _REMEDIES[refusal]


@dataclass(frozen=True)
class Opened:
    """A store: its bytes, and those as they are asked."""

    octets: bytes
    store: Store

    @property
    def store_digest(self) -> bytes:
        """The SHA-256 by which a manifest names it."""
        return hashlib.sha256(self.octets).digest()

    def is_of(self, manifest: Manifest) -> bool:
        """Whether it is the store that a manifest names."""
        return manifest.places is None and self.store_digest == manifest.store_sha256

    def place_of(self, issuer: bytes, serial: bytes) -> str:
        """The place whose store is asked about a certificate."""
        return WHOLE

    def octets_at(self, place: str) -> bytes:
        """The bytes of the store of a place."""
        return self.octets


@dataclass(frozen=True)
class OpenedPlaces:
    """The stores of all places in a folder, of which the certificate's own is asked."""

    store: Fleet

    def is_of(self, manifest: Manifest) -> bool:
        """Whether they are the stores that a manifest names."""
        held = self.store.manifest
        return held is not None and (manifest.places, manifest.chains) == (held.places, held.chains)

    def place_of(self, issuer: bytes, serial: bytes) -> str:
        """The place whose store is asked about a certificate."""
        return self.store.places.place_of(issuer, serial)

    def octets_at(self, place: str) -> bytes:
        """The bytes of the store of a place."""
        return self.store.octets_at(place)


def _field(name: str, file: BinaryIO, at: int, width: int) -> bytes:
    """A field of a device."""
    if file.seek(0, os.SEEK_END) < at + width:
        raise _damaged(name, at)
    file.seek(at)
    return file.read(width)


def _damaged(name: str, at: int) -> NoStore:
    return NoStore(f"{name}: the device's field at {at} is wrong; format it again by `clubcard device-format`")


def _picked(name: str, file: BinaryIO) -> bytes:
    """The bytes in the slot that a device's gate picks."""
    header = _field(name, file, 0, _HEADER)
    capacity = int.from_bytes(header[_CAPACITY_AT:], "big")
    if header[_VERSION_AT] != 1:
        raise _damaged(name, _VERSION_AT)
    if not 1 <= capacity <= _GREATEST_CAPACITY:
        raise _damaged(name, _CAPACITY_AT)
    at = _SLOTS_AT + (header[0] & 1) * (_LENGTH + capacity)
    length = int.from_bytes(_field(name, file, at, _LENGTH), "big")
    if length > capacity:
        raise _damaged(name, at)
    return _field(name, file, at + _LENGTH, length)


def octets_of(name: str) -> bytes:
    """The bytes of the store in a file, or in a device."""
    try:
        with open(name, "rb") as file:
            if file.read(_VERSION_AT)[_MAGIC_AT:] == _DEVICE:
                return _picked(name, file)
            file.seek(0)
            return file.read()
    except OSError as error:
        raise NoStore(f"{name}: the store can't be read ({error.strerror}); look at its name and rights") from error


def open_store(name: str) -> Opened | OpenedPlaces:
    """The store in a file or in a device, which is one; or those in a folder that clubcard-update keeps."""
    if Path(name).is_dir():
        try:
            return OpenedPlaces(Fleet.from_folder(name))
        except (FleetError, OSError) as error:
            raise NoStore(f"{name}: the stores can't be asked ({error})") from error
    octets = octets_of(name)
    store = Store(octets)
    try:
        store.examine()
    except Refused as refused:
        raise NoStore(f"{name}: it isn't a store ({refused}); {remedy_of(refused.refusal)}") from refused
    return Opened(octets, store)
