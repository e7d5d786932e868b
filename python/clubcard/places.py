"""The plan of places: by what a history is cut into many, each with a chain of its own and the certificates of a place.

A plan goes with its chain until that is split: whoever asks at another place than the certificate's own gets an answer
by chance.
"""

import enum
import json
from collections.abc import Mapping
from dataclasses import dataclass, field

from .octets import BytesLike

Cuts = dict[str, tuple[int, int]]
"""By issuer and by identity, into how many a history is cut, and the number of a place among these."""
WHOLE = "whole"
"""The one place where a history isn't cut."""
MOST = 1024
"""Into how many pieces `cut` cuts at once."""


class By(enum.Enum):
    """By issuers, whose certificates stay together, or by identities. The numbers are those of clubcard.h."""

    ISSUER = 1
    IDENTITY = 2


class PlacesError(ValueError):
    """A plan can't be used; the text says why and what to do."""


@dataclass(frozen=True)
class Split:
    """A place of so many, by `issuer` or `identity`."""

    by: str
    count: int
    number: int


@dataclass(frozen=True)
class Origin:
    """The place of a coarser plan that has all certificates of one, and the splits that make this of it, the first one
    first."""

    place: str
    splits: tuple[Split, ...] = ()


@dataclass(frozen=True)
class Places:
    """Into how many histories one is cut, each with a chain of its own, and by what: the word of `cut`. Another plan
    than `cut` can make is a PlacesError."""

    by: str
    count: int
    again: Mapping[str, int] = field(default_factory=dict)
    """Of each place that is cut again, by identity, into how many."""

    def __post_init__(self) -> None:
        if self.by not in ("issuer", "identity"):
            raise PlacesError(f'by: {self.by!r} is neither "issuer" nor "identity": write by = "issuer"')
        if not 1 <= self.count <= MOST:
            raise PlacesError(f"count: {self.count} isn't within 1 and {MOST}: 16 is usual")
        if self.again and self.by != "issuer":
            raise PlacesError("again: identities aren't cut by identity again: give `count` more")
        for name, count in self.again.items():
            if name not in map(number_name, range(self.count)):
                raise PlacesError(f"again: there is no place {name!r} among {self.count}: write 0000 and so on")
            if not 2 <= count <= MOST:
                raise PlacesError(f"again: {name}: {count} isn't within 2 and {MOST}: 8 is usual")

    def __str__(self) -> str:
        again = "".join(f", {name} again into {count}" for name, count in sorted(self.again.items()))
        return f"{self.count} by {self.by}{again}"

    def groups(self) -> list[list[str]]:
        """The names of what each place is cut into, or its own."""
        places = [number_name(number) for number in range(self.count)]
        return [
            [f"{place}.{number_name(number)}" for number in range(self.again[place])]
            if place in self.again
            else [place]
            for place in places
        ]

    def names(self) -> list[str]:
        """The names of all places in order, which is that of their texts."""
        return [name for names in self.groups() for name in names]

    def by_identity(self) -> list[list[str]]:
        """The names of places that have the same issuers: all of them by identity, else those of each group."""
        return [self.names()] if self.by == "identity" else self.groups()

    def place_of(self, issuer: BytesLike, serial: BytesLike) -> str:
        """The name of a certificate's place, by the library's proved function; `Refused` as `place` of store is."""
        from .store import place

        name = number_name(place(By[self.by.upper()], issuer, serial, self.count))
        if name not in self.again:
            return name
        return f"{name}.{number_name(place(By.IDENTITY, issuer, serial, self.again[name]))}"

    def has_issuer(self, name: str, issuer: BytesLike) -> bool:
        """Whether a place may have certificates of an issuer: its job has the CRLs of these."""
        from .store import place

        # By issuer the serial says nothing.
        return self.by == "identity" or name[:4] == number_name(place(By.ISSUER, issuer, b"\0", self.count))

    def origins(self, old: "Places | None") -> dict[str, Origin]:
        """Of what place of a coarser plan, or of the whole, each one is split. A PlacesError where the old plan isn't
        such a one."""
        return {name: origin_of(old, self, name) for name in self.names()}

    def members(self) -> dict[str, object]:
        """The plan in JSON."""
        return {"by": self.by, "count": self.count, "again": dict(sorted(self.again.items()))}

    def text(self) -> str:
        """The plan's one text."""
        return json.dumps(self.members(), sort_keys=True)

    @classmethod
    def of_members(cls, value: object) -> "Places":
        """The plan of a value in JSON, which has these three members and no other."""
        if not isinstance(value, dict) or set(value) != {"by", "count", "again"}:
            raise PlacesError(
                "a plan has `by`, `count` and `again`, and nothing else: take it from the publisher again"
            )
        by, count, again = value["by"], value["count"], value["again"]
        if not isinstance(by, str) or not _is_number(count):
            raise PlacesError("`by` isn't a text, or `count` no number: take the plan from the publisher again")
        if not isinstance(again, dict) or not all(map(_is_number, again.values())):
            raise PlacesError("`again` isn't numbers by places: take the plan from the publisher again")
        return cls(by, count, again)

    @classmethod
    def of_text(cls, text: str) -> "Places":
        """The plan of which `text` made a text, or one that says the same."""
        try:
            value = json.loads(text)
        except (ValueError, RecursionError):
            raise PlacesError("a plan is JSON: take it from the publisher again") from None
        return cls.of_members(value)


def number_name(number: int) -> str:
    """The name of a place by its number."""
    return f"{number:04}"


def names_of(places: Places | None) -> list[str]:
    """The names of all places, or of the one."""
    return [WHOLE] if places is None else places.names()


def cuts_of(places: Places | None, name: str) -> Cuts:
    """The cuts that make a place."""
    cuts = {"issuer": (1, 0), "identity": (1, 0)}
    if places is not None:
        large, _, number = name.partition(".")
        cuts[places.by] = places.count, int(large)
        if number:
            cuts["identity"] = places.again[large], int(number)
    return cuts


def origin_of(old: Places | None, new: Places | None, name: str) -> Origin:
    """The old place in which a new one lies: what is of a place of 8 is of one of 4, by the rest of its number. Raises
    PlacesError where there is none."""
    cuts, place = cuts_of(new, name), WHOLE
    if old is not None:
        place = number_name(cuts[old.by][1] % old.count)
        if place in old.again:
            place = f"{place}.{number_name(cuts['identity'][1] % old.again[place])}"
    before = cuts_of(old, place)
    for by, (count, number) in cuts.items():
        most, at = before[by]
        if count % most or number % most != at:
            wanted = f"write the same [places], or a multiple of {most} for those by {by}"
            raise PlacesError(f"{told(old)}, none of which holds {name} of {told(new)}: {wanted}")
    return Origin(place, tuple(Split(by, *cut) for by, cut in cuts.items() if cut != before[by]))


def is_split(old: Places | None, new: Places | None) -> bool:
    """Whether a chain with the old plan can be split into places of the new one, which is another."""
    try:
        return old != new and new is not None and bool(new.origins(old))
    except PlacesError:
        return False


def told(places: Places | None) -> str:
    """How a plan is told, and that there is none."""
    return "no places" if places is None else f"the places {places}"


def _is_number(value: object) -> bool:
    return isinstance(value, int) and not isinstance(value, bool)
