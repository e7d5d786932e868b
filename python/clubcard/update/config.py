"""CONFIG: where the site is, by which key it is signed, and where the store is kept."""

import os
import re
from dataclasses import dataclass
from pathlib import Path

from .. import minisign
from ..tables import ConfigError, Table, read_config

__all__ = ["Config", "ConfigError", "load"]

MOST_CAPACITY = 1 << 40
"""The most bytes that a slot of a device may have (docs/FORMATS.md, "Device")."""
# The names in a folder of stores (folder.py).
_OWN = re.compile(r"manifest\.json|[0-9a-f]{64}\.store|\..*\.new")
_KEYS = "site key store device capacity state max_age program".split()
_KEY = '"BASE64", the second line of the publisher\'s public key file'


@dataclass(frozen=True)
class Config:
    """A site that is followed, and the store that is kept. All paths are absolute; a duration is in milliseconds."""

    path: Path
    """CONFIG itself."""
    site: str
    """The site's URL; ends in a slash."""
    key: str
    """The pinned public key of minisign: the Base64 of its line."""
    place: Path
    """The file of the store, or of the device that holds it; the folder of stores where the site has places."""
    capacity: int | None
    """How many bytes a slot of the device has; None where `place` is the store itself."""
    state: Path
    """The folder of what the updater knows, and of its lock."""
    max_age: int | None
    """How old a manifest's moment may be; None where its `valid_until` alone counts."""
    program: str
    """The program: a name that is found by PATH, or a path where it has a slash."""

    @property
    def place_from_state(self) -> str:
        """`place` as it is seen from `state`: so both may be moved together."""
        return os.path.relpath(self.place, os.path.realpath(self.state))


def load(path: Path) -> Config:
    """Reads CONFIG. Raises ConfigError."""
    table, base = Table(str(path), read_config(path)), path.absolute().parent
    table.only(_KEYS)
    program = table.text("program", '"clubcard"', "clubcard")
    config = Config(
        path=path.absolute(),
        site=_site(table),
        key=_key(table),
        place=_place(table, base),
        capacity=_capacity(table),
        state=base / table.text("state", '"state"', "state"),
        max_age=table.duration("max_age", "24h", 1000) if "max_age" in table.values else None,
        program=str(base / program) if "/" in program else program,
    )
    if config.place.is_relative_to(os.path.realpath(config.state)):
        raise table.wrong("state", f"{config.place} is in this folder, which is the updater's own: name another one")
    return config


def _site(table: Table) -> str:
    """The site's URL, with a slash at its end."""
    url = table.url("site", '"https://revocation.example/"')
    if "?" in url:
        raise table.wrong("site", f"{url!r} has a query: write the part before the question mark")
    return url if url.endswith("/") else f"{url}/"


def _key(table: Table) -> str:
    """The pinned key."""
    try:
        return minisign.key_line(table.text("key", _KEY))
    except ValueError as fault:
        raise table.wrong("key", f"it is no public key of minisign ({fault}): write key = {_KEY}") from None


def _place(table: Table, base: Path) -> Path:
    """The file of the store or the device; of a link the file that it leads to."""
    named = [key for key in ("store", "device") if key in table.values]
    if len(named) != 1:
        raise table.fault('it names a store or a device, one of both: write store = "revocation.store"')
    (key,) = named
    place = Path(os.path.realpath(base / table.text(key, f'"revocation.{key}"')))
    if place.exists() and not (place.is_file() or key == "store" and _is_own(place)):
        raise table.wrong(key, f"{place} is no file: name one, which is replaced by a new one")
    return place


def _is_own(place: Path) -> bool:
    """Whether a folder holds nothing but stores of places, or is empty: all else in it might be somebody's."""
    return place.is_dir() and all(_OWN.fullmatch(path.name) for path in place.iterdir())


def _capacity(table: Table) -> int | None:
    """The capacity of a device."""
    if "device" not in table.values:
        if "capacity" in table.values:
            raise table.wrong("capacity", "only a device has one: take it out, or write device in the place of store")
        return None
    capacity = int(table.value("capacity", int, "67108864"))
    if not 1 <= capacity <= MOST_CAPACITY:
        raise table.wrong("capacity", f"{capacity} isn't within 1 and {MOST_CAPACITY} bytes")
    return capacity
