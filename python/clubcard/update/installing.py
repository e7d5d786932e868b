"""Puts parts into a store, in a file or on a device, so that readers find the old one or the new one at every moment.

A file is written beside the old one under names of its own, is read back, and is renamed. A device goes on in place
where one part is missing: of its two slots the other one is written, and then the gate. Where several are missing they
go into a copy, and where its chain is another one a new device is made; both are renamed as a file is.
"""

import os
import shutil
from collections.abc import Iterator, Sequence
from contextlib import contextmanager
from pathlib import Path
from typing import Protocol

from ..engine import Engine, EngineError
from ..manifest import Chain
from ..placing import MODE, settle, sync
from .engines import told
from .faults import NotReached
from .held import Held, device_at, digest_of_held, store_at

_NOBODY = (bytes(32), b"\0", [(bytes(32), 0)])
"""A question that no store is asked: whoever answers it has read all of the store."""


class Place(Protocol):
    """Where a store is kept."""

    def held(self) -> Held | None:
        """The store that is there; None where there is none that could go on."""

    def room(self, chain: Chain) -> None:
        """Raises NotReached where a chain's store can't be kept there."""

    def install(self, chain: Chain, count: int, files: Sequence[Path]) -> None:
        """Makes the store a chain's, by the parts that it lacks; the store has `count` parts of it, or is another one
        where that is 0."""


class StoreFile:
    """A store in a file."""

    def __init__(self, engine: Engine, path: Path) -> None:
        self.engine, self.path = engine, path

    def held(self) -> Held | None:
        """The store that is there."""
        return store_at(self.path)

    def room(self, chain: Chain) -> None:
        """A file has room for each store that the disk has room for."""

    def install(self, chain: Chain, count: int, files: Sequence[Path]) -> None:
        """Writes a new store and renames it."""
        put_store(self.engine, self.path if count else None, files, chain, self.path)


def put_store(engine: Engine, old: Path | None, files: Sequence[Path], chain: Chain, path: Path) -> None:
    """Writes a chain's store, of a former one and of the parts that this lacks, and gives it its name."""
    with _faults(), _drafts(path) as drafts:
        new = _built(engine, old, files, drafts)
        _read_back(store_at(new), chain)
        engine.query(new, *_NOBODY)
        _rename(new, path)


class DeviceFile:
    """A store on a device, which is a file here."""

    def __init__(self, engine: Engine, path: Path, capacity: int) -> None:
        self.engine, self.path, self.capacity = engine, path, capacity

    def held(self) -> Held | None:
        """The store of the picked slot, where the device has this capacity."""
        device = device_at(self.path)
        return device.held if device is not None and device.capacity == self.capacity else None

    def room(self, chain: Chain) -> None:
        """Whether a slot has room."""
        if chain.store_length > self.capacity:
            wants = f"the manifest's store has {chain.store_length} bytes, and a slot {self.capacity}"
            raise NotReached(f"{self.path}: {wants}: give a greater capacity in CONFIG")

    def install(self, chain: Chain, count: int, files: Sequence[Path]) -> None:
        """Goes on with the device, with a copy, or with a new one."""
        with _faults(), _drafts(self.path) as drafts:
            if count and len(files) == 1:
                self.engine.device_install(self.path, files[0])
                self._read_back(self.path, chain)
                return
            new = self._copied(drafts, files) if count else self._formatted(drafts, files)
            self._read_back(new, chain)
            _rename(new, self.path)

    def _copied(self, drafts: Sequence[Path], files: Sequence[Path]) -> Path:
        """A copy that goes on."""
        shutil.copyfile(self.path, drafts[0])
        for file in files:
            self.engine.device_install(drafts[0], file)
        return drafts[0]

    def _formatted(self, drafts: Sequence[Path], files: Sequence[Path]) -> Path:
        """A new device."""
        self.engine.device_format(drafts[2], self.capacity, _built(self.engine, None, files, drafts[:2]))
        return drafts[2]

    def _read_back(self, path: Path, chain: Chain) -> None:
        """Whether the device holds the manifest's store, on the disk."""
        device = device_at(path)
        _read_back(device.held if device is not None else None, chain)
        self.engine.device_query(path, *_NOBODY)


def lock_beside(path: Path) -> Path:
    """The lock of a store: whoever holds it may write there, whichever folder of state is used."""
    return path.with_name(f".{path.name}.lock")


def sweep_drafts(path: Path) -> None:
    """Removes what a killed run left beside a store."""
    for draft in _names(path):
        draft.unlink(missing_ok=True)


def _names(path: Path) -> tuple[Path, ...]:
    """Where a new store is written before it is renamed."""
    return tuple(path.with_name(f".{path.name}.{number}.new") for number in range(3))


@contextmanager
def _drafts(path: Path) -> Iterator[tuple[Path, ...]]:
    """Names beside a store for what is written before it is renamed; nothing is left of them."""
    path.parent.mkdir(parents=True, exist_ok=True)
    sweep_drafts(path)
    try:
        yield _names(path)
    finally:
        sweep_drafts(path)


@contextmanager
def _faults() -> Iterator[None]:
    """Tells the program's faults."""
    try:
        yield
    except EngineError as fault:
        raise told(fault) from fault


def _built(engine: Engine, store: Path | None, files: Sequence[Path], drafts: Sequence[Path]) -> Path:
    """A store in one of two drafts, made of another one and parts, or of parts from the snapshot on."""
    for place, file in enumerate(files):
        draft = drafts[place % 2]
        draft.unlink(missing_ok=True)
        if store is None:
            engine.start(file, draft)
        else:
            engine.install(store, file, draft)
        store = draft
    assert store is not None
    return store


def _read_back(held: Held | None, chain: Chain) -> None:
    """Whether the bytes on the disk are the manifest's store. They are synced, and read from the disk again where the
    system can forget them."""
    if held is not None:
        sync(held.path)
        number = os.open(held.path, os.O_RDONLY)
        os.posix_fadvise(number, 0, 0, os.POSIX_FADV_DONTNEED)
        os.close(number)
        if held.length == chain.store_length and digest_of_held(held) == chain.store_sha256:
            return
        where = held.path
        raise NotReached(f"{where}: it reads otherwise than it was written: look at the disk, and run again")
    raise NotReached("the device can't be read that was written: look at the disk, and run again")


def _rename(new: Path, path: Path) -> None:
    """Gives a store its name, and syncs that. Everybody may read it."""
    new.chmod(MODE)
    os.replace(new, path)
    settle(path.parent)
