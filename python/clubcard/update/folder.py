"""A folder of stores, where a history is cut into places: the store of each place under its digest, and manifest.json,
which names them all.

New stores are written beside those that the manifest names, and it is renamed behind the last of them: so readers find
the stores of the old epoch or those of the new one, and never some of both.
"""

from collections.abc import Sequence
from pathlib import Path

from ..engine import Engine
from ..fleet import MANIFEST, FleetError, manifest_in, store_name
from ..manifest import Chain, Manifest
from ..places import told
from ..placing import make_folder, place, remove_others, settle, sweep
from .faults import Refused
from .held import Held, parts_held, store_at
from .installing import put_store

_STORES = "*.store"


class StoreFolder:
    """The stores of all places of a manifest."""

    def __init__(self, engine: Engine, folder: Path, manifest: Manifest) -> None:
        self.engine, self.folder, self.manifest = engine, folder, manifest
        self.old = self._old()

    def _old(self) -> Manifest | None:
        """The manifest of the stores that are there; None where there are none. Raises Refused where these were begun
        with another plan, of which the manifest's is no split."""
        try:
            old = manifest_in(self.folder)
        except FleetError:
            return None
        if not self.manifest.follows(old):
            was = f"its stores were begun with {told(old.places)}, and the site has {told(self.manifest.places)}"
            remedy = "tell the publisher; to take them on purpose, remove this folder and run again"
            raise Refused(f"{self.folder}: {was}: {remedy}")
        return old

    def begin(self) -> None:
        """Makes the folder, and removes what a killed run left."""
        make_folder(self.folder)
        sweep(self.folder)
        named = [chain for each in (self.old, self.manifest) if each is not None for chain in each.chains]
        remove_others(self.folder, _STORES, [store_name(chain.store_sha256) for chain in named])

    def path(self, chain: Chain) -> Path:
        """Where a chain's store is to be."""
        return self.folder / store_name(chain.store_sha256)

    def held(self, chain: Chain) -> tuple[Held | None, int]:
        """The store that a place's goes on from, and how many of its parts that has."""
        former = [each for each in (self.old.chains if self.old else ()) if each.place == chain.place]
        for path in [self.path(chain), *map(self.path, former)]:
            held = store_at(path)
            count = parts_held(held, chain)
            # A store that is whole lies under its own name.
            if count and (count < len(chain.parts) or path == self.path(chain)):
                return held, count
        return None, 0

    def put(self, chain: Chain, held: Held | None, files: Sequence[Path]) -> None:
        """Writes a place's store of the parts that it lacks."""
        if files:
            put_store(self.engine, held.path if held is not None else None, files, chain, self.path(chain))

    def install(self, text: bytes) -> None:
        """Makes the stores those of the manifest, of which this is the text, once all of them are there."""
        settle(self.folder)
        place(self.folder / MANIFEST, text)
        settle(self.folder)
        remove_others(self.folder, _STORES, [store_name(chain.store_sha256) for chain in self.manifest.chains])
