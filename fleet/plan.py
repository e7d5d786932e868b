"""What one epoch is made of: read from EPOCH (README.md), and kept in the epoch's folder, where each task reads it."""

import json
import shutil
from collections.abc import Mapping
from dataclasses import asdict, dataclass
from pathlib import Path

from clubcard.jobs import MOST_CRLS, MOST_RANGES
from clubcard.places import WHOLE, Places, names_of, number_name

from .chains import BASE, Before, Chain, PlanError, Rebase, anew

PLAN = "plan.json"
HEADS = "heads"
"""The name of what `heads` makes: HEAD and BARE, and of each place what it has of HEAD."""
HEAD = "head.job"
"""A job with the epoch's ranges and CRLs, and no entries."""
BARE = "piece.job"
"""A job of the epoch with nothing in it, behind which the entries of a piece stand."""
MADE = ("job", "part", "ledger", "store")
"""What is made of each place."""
MOST_NAMES = 1024
"""How many pages the program gathers at once, how many pieces it merges, and how many jobs of a chain are there."""


@dataclass(frozen=True)
class Log:
    """A log's id in hexadecimal, what is covered of it, in milliseconds since 1970, and its pages in order."""

    log: str
    low: int
    high: int
    pages: tuple[str, ...]


@dataclass(frozen=True)
class Plan:
    """An epoch. All files are named from the root; those that are made lie in the epoch's folder, and are named from
    there."""

    program: str
    epoch: int
    moment: int
    workers: int
    most: int
    """How many pages a piece has at most."""
    crls: tuple[tuple[str, str], ...]
    """Of each CRL the issuer in hexadecimal, and the file, in DER."""
    logs: tuple[Log, ...]
    places: Places | None
    """None where all is one place, `whole`."""
    before: Before | None
    """None in the first epoch of a chain."""
    rebase: Rebase | None
    """Which chains begin anew."""
    seen: Mapping[str, tuple[int, int]]
    """The size of each file that is read, and when it was written (ns)."""

    def text(self) -> str:
        """The plan as JSON."""
        return json.dumps(asdict(self), indent=1, sort_keys=True) + "\n"

    @classmethod
    def of_text(cls, text: str) -> "Plan":
        """The plan of which `text` made a text."""
        fields = json.loads(text)
        fields["crls"] = tuple((issuer, file) for issuer, file in fields["crls"])
        fields["logs"] = tuple(Log(log["log"], log["low"], log["high"], tuple(log["pages"])) for log in fields["logs"])
        places, before, rebase = fields["places"], fields["before"], fields["rebase"]
        fields["places"] = places and Places(**places)
        fields["before"] = before and Before(tuple(before["folders"]), before["first"])
        fields["rebase"] = rebase and Rebase.of_members(**rebase)
        fields["seen"] = {file: (size, time) for file, (size, time) in fields["seen"].items()}
        return cls(**fields)

    def pages(self, log: str, piece: str) -> tuple[str, ...]:
        """The pages of a piece of a log, by its number."""
        (pages,) = (each.pages for each in self.logs if each.log == log)
        return pages[int(piece) * self.most : (int(piece) + 1) * self.most]

    def pieces(self) -> list[str]:
        """The names of all pieces, in the order in which they are merged."""
        return [
            piece_of(log.log, number_name(number))
            for log in self.logs
            for number in range(-(-len(log.pages) // self.most))
        ]

    def names(self) -> list[str]:
        """The names of all places in order."""
        return names_of(self.places)

    def anew(self) -> list[str]:
        """The names of the places whose chains begin anew."""
        return sorted(self.rebase.origins) if self.rebase else []

    def chain(self, place: str) -> Chain | None:
        """From what a place's chain goes on; None where it begins."""
        if place in self.anew():
            return anew(place)
        return self.before.chain(place) if self.before else None

    def old_ledger(self, place: str) -> str:
        """Of which ledger a place's chain begins anew."""
        assert self.before is not None and self.rebase is not None
        return self.before.ledger(self.rebase.origins[place].place)

    def records(self) -> list[str]:
        """By their names, the records of all that is made."""
        places = [f"{place}/{name}" for place in self.names() for name in ("job", "part", "store")]
        return [HEADS, *self.pieces(), *map(base_of, self.anew()), *places]

    def published(self) -> list[str]:
        """The names of all files that are published."""
        made = [f"{place}/{name}" for place in self.names() for name in MADE]
        return [HEAD, *(f"{place}/{name}" for place in self.anew() for name in BASE), *made]

    def folders(self) -> list[str]:
        """The folders of what is made."""
        return [".", *self.names(), *(f"pieces/{log.log}" for log in self.logs), *self.pieces()]


def piece_of(log: str, number: str) -> str:
    """The name of a piece."""
    return f"pieces/{log}/{number}"


def at_place(piece: str, place: str) -> str:
    """What a place has of a piece."""
    return f"{piece}/{place}.job"


def head_of(place: str) -> str:
    """What a place has of HEAD."""
    return HEAD if place == WHOLE else f"{place}/head"


def base_of(place: str) -> str:
    """The name of what a chain begins anew with."""
    return f"{place}/base"


def read_plan() -> Plan:
    """The plan of the folder in which this runs."""
    return Plan.of_text(Path(PLAN).read_text(encoding="utf-8"))


def pages_in(folder: Path) -> tuple[str, ...]:
    """The pages in a folder by their names, a shorter name first: so those of numbers go by their numbers."""
    names = sorted((path.name for path in folder.iterdir()), key=lambda name: (len(name), name))
    return tuple(str(folder / name) for name in names if not name.startswith("."))


def test(plan: Plan) -> None:
    """Tests what the program would refuse once much is done."""
    many = (
        ("[[log]]", len(plan.logs), MOST_RANGES, "leave some out"),
        ("[[crl]]", len(plan.crls), MOST_CRLS, "leave some out"),
        ("pieces", len(plan.pieces()), MOST_NAMES, f"give `pages` more than {plan.most}, or make longer pages"),
    )
    for what, count, most, remedy in many:
        if count > most:
            raise PlanError(f"{count} {what}, and at most {most} are taken: {remedy}")
    if len({log.log for log in plan.logs}) < len(plan.logs):
        raise PlanError("a log stands twice: put its pages into one folder")


def program_of(word: str, base: Path) -> str:
    """The program by its word in EPOCH: a path where there is a slash in it, else found by PATH."""
    found = str(base / word) if "/" in word else shutil.which(word)
    if found is None:
        raise PlanError(f"{word}: there is no such program: name it by its path")
    return found
