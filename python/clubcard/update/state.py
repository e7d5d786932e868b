"""What the updater knows, in the files of its folder.

    accepted.json   the newest manifest that was accepted, the key that signed it, its ETag, its site, and the store
    manifest.json   the manifest of the store, which `clubcardctl ask --manifest` reads
    parts/          parts that were taken and aren't installed yet, and those that are still coming
    lock

A manifest is accepted before its parts are taken, and becomes that of the store behind the store's own rename: so an
older one is never taken again, and manifest.json is never newer than the store.
"""

import errno
import json
import shutil
from collections.abc import Callable
from dataclasses import dataclass, replace
from pathlib import Path
from typing import TypeVar

from ..manifest import Manifest, ManifestError, from_json
from ..minisign import key_line
from ..placing import make_folder, place, settle, sweep
from .faults import NotReached

_FORMAT = 1
Done = TypeVar("Done")


@dataclass(frozen=True)
class Accepted:
    """A manifest whose signature was verified."""

    text: bytes
    manifest: Manifest
    key: str
    """The key that signed it."""
    pinned: str
    """The key of CONFIG, by which that key is trusted."""
    etag: str | None
    site: str | None
    """The site of CONFIG; None where an earlier version wrote the file, as with `place`."""
    place: str | None
    """Where CONFIG has the store, as it is seen from the state's folder; None where that is a device, and the manifest
    has places."""

    @property
    def version(self) -> tuple[int, int]:
        """By which manifests are ordered: generation and epoch."""
        return self.manifest.generation, self.manifest.epoch


def manifest_of(text: bytes) -> Manifest:
    """Reads a manifest, with the next key as `minisign` takes it. Raises ManifestError, and ValueError where that is no
    key."""
    manifest = from_json(text)
    return manifest if manifest.next_key is None else replace(manifest, next_key=key_line(manifest.next_key))


class State:
    """The updater's folder. Whoever holds its lock may use it."""

    def __init__(self, folder: Path) -> None:
        self.folder = folder
        self.parts, self.work = folder / "parts", folder / "work"
        self.known, self._installed = folder / "accepted.json", folder / "manifest.json"

    def begin(self) -> None:
        """Makes the folders, and removes what a killed run left half written."""
        shutil.rmtree(self.work, ignore_errors=True)
        for folder in (self.folder, self.parts, self.work):
            make_folder(folder)
        sweep(self.folder)

    def with_room(self, write: Callable[[], Done]) -> Done:
        """What `write` comes to. Where the disk is full it is done once more without the parts that came so far: those
        of a manifest that isn't the site's any more would fill the disk for ever."""
        try:
            return write()
        except OSError as fault:
            if fault.errno not in (errno.ENOSPC, errno.EDQUOT):
                raise
        shutil.rmtree(self.parts)
        make_folder(self.parts)
        return write()

    def accepted(self) -> Accepted | None:
        """The newest manifest that was accepted; None before the first one. Raises NotReached where it is damaged."""
        try:
            held = json.loads(self.known.read_bytes())
            if held["format"] != _FORMAT:
                raise ValueError("it is of another format")
            text = held["manifest"].encode("utf-8")
            keys, owner = (str(held["key"]), str(held["pinned"])), (held.get("site"), held.get("place"))
            found = Accepted(text, manifest_of(text), *keys, held["etag"], *owner)
        except FileNotFoundError:
            return None
        except (ValueError, KeyError, TypeError, AttributeError, ManifestError):
            remedy = "look at the disk, and remove this file; an older manifest could be taken once then"
            raise NotReached(f"{self.known}: it is damaged, or of another version: {remedy}") from None
        return found

    def accept(self, accepted: Accepted) -> None:
        """Notes that a manifest was accepted."""
        held = {
            "format": _FORMAT,
            "manifest": accepted.text.decode("utf-8"),
            "key": accepted.key,
            "pinned": accepted.pinned,
            "etag": accepted.etag,
            "site": accepted.site,
            "place": accepted.place,
        }
        place(self.known, json.dumps(held, sort_keys=True, indent=1).encode("ascii") + b"\n")
        settle(self.folder)

    def installed(self) -> Manifest | None:
        """The manifest of the store; None where it isn't known."""
        try:
            return from_json(self._installed.read_bytes())
        except (OSError, ManifestError):
            return None

    def install(self, accepted: Accepted) -> None:
        """Notes that the store is a manifest's, whose parts aren't needed any more."""
        place(self._installed, accepted.text)
        settle(self.folder)
        shutil.rmtree(self.parts)
