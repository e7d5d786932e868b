"""From what the chain of each place goes on: from an epoch before, or from a base where it begins anew (`rebase`)."""

import json
from collections.abc import Collection, Mapping
from dataclasses import dataclass
from pathlib import Path
from typing import Any, NamedTuple

from clubcard.places import Origin, Places, PlacesError, Split, cuts_of, names_of, origin_of, told

from .made import File

PUBLISHED = "published.json"
BASE = ("base.job", "base.part", "base.ledger", "base.store")
"""What is made of each place whose chain begins anew."""


class PlanError(Exception):
    """EPOCH can't be used; the text says why and what to do."""


@dataclass(frozen=True)
class Rebase:
    """Chains that begin anew: what expired before a moment is left out."""

    moment: int
    origins: Mapping[str, Origin]
    """By the names of the places that have such chains."""

    @classmethod
    def of_members(cls, moment: int, origins: Mapping[str, Any]) -> "Rebase":
        """What JSON says of it."""
        found = {
            name: Origin(origin["place"], tuple(Split(**split) for split in origin["splits"]))
            for name, origin in origins.items()
        }
        return cls(moment, found)


class Chain(NamedTuple):
    """The files from which a chain goes on: its ledger, its store, and its jobs in order."""

    ledger: str
    store: str
    jobs: tuple[str, ...]


def anew(place: str) -> Chain:
    """What goes on from a base."""
    return Chain(f"{place}/base.ledger", f"{place}/base.store", (f"{place}/base.job",))


@dataclass(frozen=True)
class Before:
    """The chains so far: the folder of each epoch, in order."""

    folders: tuple[str, ...]
    first: Mapping[str, int]
    """Of a place whose chain began anew, in which of them."""

    def ledger(self, place: str) -> str:
        """The newest ledger."""
        return f"{self.folders[-1]}/{place}/ledger"

    def chain(self, place: str) -> Chain:
        """From what a place's chain goes on."""
        first = self.first.get(place, 0)
        bases = [f"{self.folders[first]}/{job}" for job in anew(place).jobs] if place in self.first else []
        jobs = [f"{folder}/{place}/job" for folder in self.folders[first:]]
        return Chain(self.ledger(place), f"{self.folders[-1]}/{place}/store", (*bases, *jobs))

    def files(self, place: str) -> list[str]:
        """The names of these."""
        ledger, store, jobs = self.chain(place)
        return [ledger, store, *jobs]

    def published(self) -> dict[str, File]:
        """All files that were published."""
        return {
            f"{folder}/{name}": File(**file)
            for folder in self.folders
            for name, file in published_in(folder)["files"].items()
        }


def published_in(folder: str) -> dict[str, Any]:
    """What was published of an epoch."""
    found: dict[str, Any] = json.loads((Path(folder) / PUBLISHED).read_text(encoding="utf-8"))
    return found


def places_in(folder: str) -> Places | None:
    """The places of an epoch that was published."""
    places = published_in(folder).get("places")
    return places and Places(**places)


def origins_of(old: Places | None, new: Places | None, names: Collection[str]) -> dict[str, Origin]:
    """Which places begin anew: those that lie in old ones of these names. Raises PlanError where another would have to,
    or there is no old one."""
    unknown = sorted(set(names) - set(names_of(old)))
    if unknown:
        raise PlanError(f"[rebase] places: {unknown[0]!r} is no place of the epoch before, which has {told(old)}")
    found = {}
    for name in names_of(new):
        try:
            origin = origin_of(old, new, name)
        except PlacesError as fault:
            raise PlanError(f"the chains have {fault}, or leave [before] out, which begins new chains") from None
        if origin.place in names:
            found[name] = origin
        elif origin != Origin(name):
            raise PlanError(
                f"{name} would be split from {origin.place} of {told(old)}: write the same [places], or name it in "
                "[rebase], or leave [before] out, which begins new chains"
            )
    return found


def first_of(folders: tuple[str, ...], places: Places | None, names: Collection[str]) -> dict[str, int]:
    """Of places whose chains began anew, in which of the epochs' folders. Raises PlanError where an epoch of a chain
    isn't there."""
    first: dict[str, int] = {}
    going = set(names)
    for at, folder in reversed(list(enumerate(folders))):
        files, plan = published_in(folder)["files"], places_in(folder)
        known = set(names_of(plan))
        for name in sorted(going):
            if name not in known or cuts_of(plan, name) != cuts_of(places, name):
                raise PlanError(f"{folder}: its places are {told(plan)}: name the epochs of these chains in `folders`")
            if f"{name}/base.job" in files:
                first[name] = at
                going.discard(name)
    return first
