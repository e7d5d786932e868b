"""Puts files in place: each is whole under its name at every moment, or isn't there.

A file is written under a name of its own, which begins with a dot and ends with `.new`, synced, and renamed. Nobody but
the run that holds the lock writes into its folder.
"""

import hashlib
import os
from collections.abc import Iterable
from pathlib import Path

MODE = 0o644
FOLDER_MODE = 0o755
_PIECE = 1 << 20


class DamagedFile(Exception):
    """A file of the state doesn't hold the bytes that its row names."""


def sync(path: Path) -> None:
    """Waits until a file's bytes, or a folder's names, are on the disk."""
    number = os.open(path, os.O_RDONLY)
    try:
        os.fsync(number)
    finally:
        os.close(number)


def make_folder(path: Path) -> None:
    """Makes a folder that everybody may read, where it isn't there, and syncs its name."""
    if path.is_dir():
        return
    path.mkdir(mode=FOLDER_MODE, parents=True, exist_ok=True)
    path.chmod(FOLDER_MODE)
    sync(path.parent)


def new_name(path: Path) -> Path:
    """Where a file is written before it is renamed to `path`."""
    return path.with_name(f".{path.name}.new")


def sweep(folder: Path) -> None:
    """Removes what a killed run left half written."""
    for path in sorted(folder.glob(".*.new")):
        path.unlink()


def _holds(path: Path, octets: bytes) -> bool:
    """Whether a file has exactly these bytes."""
    try:
        return path.stat().st_size == len(octets) and path.read_bytes() == octets
    except FileNotFoundError:
        return False


def place(path: Path, octets: bytes) -> None:
    """Makes a file have these bytes. One that has them is left as it is. Its name is synced by `settle`."""
    if _holds(path, octets):
        return
    new = new_name(path)
    with open(new, "wb") as file:
        os.fchmod(file.fileno(), MODE)
        file.write(octets)
        file.flush()
        os.fsync(file.fileno())
    os.replace(new, path)


def digest_of(path: Path) -> bytes | None:
    """The SHA-256 of a file; None where it isn't there."""
    try:
        with open(path, "rb") as file:
            return hashlib.file_digest(file, "sha256").digest()
    except FileNotFoundError:
        return None


def place_copy(path: Path, source: Path, sha256: bytes) -> None:
    """Makes a file a copy of `source`, whose digest is given. One that has this digest is left as it is.

    Raises DamagedFile where the source has another digest; nothing is placed then.
    """
    if digest_of(path) == sha256:
        return
    new = new_name(path)
    digest = hashlib.sha256()
    with open(source, "rb") as read, open(new, "wb") as file:
        os.fchmod(file.fileno(), MODE)
        while piece := read.read(_PIECE):
            digest.update(piece)
            file.write(piece)
        file.flush()
        os.fsync(file.fileno())
    if digest.digest() != sha256:
        new.unlink()
        raise DamagedFile(f"{source} hasn't the SHA-256 {sha256.hex()} that the state names")
    os.replace(new, path)


def settle(folder: Path) -> None:
    """Waits until all names in a folder are on the disk."""
    sync(folder)


def remove_others(folder: Path, pattern: str, needed: Iterable[str]) -> None:
    """Removes the files of a pattern whose names aren't needed."""
    kept = frozenset(needed)
    for path in sorted(folder.glob(pattern)):
        if path.name not in kept:
            path.unlink()
