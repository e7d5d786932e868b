"""Cuts a job into those of its places by the program, and tests that nothing is lost, which would be silent."""

from collections.abc import Mapping, Sequence
from dataclasses import dataclass
from pathlib import Path

from .engine import Engine
from .places import Places

# Of a job (docs/FORMATS.md, "Job"): its header, a range's record, and a CRL's before the bytes.
_HEADER = 24
_RANGE = 49
_CRL = 37
_END = 1


class Lost(Exception):
    """What places have of a job isn't all of it; the text names it."""


@dataclass(frozen=True)
class Sizes:
    """How many bytes a job has of header and ranges, of CRLs, and of entries."""

    head: int
    crls: int
    entries: int


def sizes_of(job: Path) -> Sizes:
    """The sizes of a job, whose entries aren't read."""
    with open(job, "rb") as file:
        at = head = file.seek(_HEADER)
        while (kind := file.read(1)) == b"\1":
            at = head = file.seek(at + _RANGE)
        while kind == b"\2":
            file.seek(at + _CRL - 4)
            at = file.seek(at + _CRL + int.from_bytes(file.read(4), "big"))
            kind = file.read(1)
        return Sizes(head, at - head, file.seek(0, 2) - at - _END)


def divide(engine: Engine, places: Places, job: Path, paths: Mapping[str, Path]) -> int:
    """Writes what each place keeps of a job. `paths`: by the names of all places, and of those that are cut again,
    whose files stay too. How many entries the job has; Lost where the places don't have all of it."""
    firsts = [names[0].partition(".")[0] for names in places.groups()]
    entries = _cut(engine, places.by, job, [paths[name] for name in firsts])
    for large, names in zip(firsts, places.groups()):
        if len(names) > 1:
            _cut(engine, "identity", paths[large], [paths[name] for name in names])
    return entries


def _cut(engine: Engine, by: str, job: Path, pieces: Sequence[Path]) -> int:
    """Cuts a job, and compares bytes: each piece has its head, an entry stands in one of them, and a CRL in one by
    issuer, in all by identity."""
    said = engine.cut(by, job, pieces)
    whole, found = sizes_of(job), [sizes_of(piece) for piece in pieces]
    times = len(pieces) if by == "identity" else 1
    wanted = len(pieces) * whole.head, times * whole.crls, whole.entries
    have = sum(each.head for each in found), sum(each.crls for each in found), sum(each.entries for each in found)
    if have != wanted:
        raise Lost(f"{job}: its places have {sum(have)} bytes of it in place of {sum(wanted)}: run again, or report it")
    return said.entries
