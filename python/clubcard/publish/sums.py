"""What the lines of places are together: that of the whole, or nothing is published.

Each entry stands at one place, and each issuer at one by issuer, at all by identity. Where a piece is lost between a
job and its places, its entries would be late afterwards, and nobody would see it.
"""

from collections.abc import Mapping, Sequence
from dataclasses import replace

from ..engine import Published
from ..places import Places
from .making import NoEpoch

_ADDED = ("universe", "revoked", "unread", "uncovered", "unenrolled", "late", "accepted")
_REMEDY = "see that it is the program of this version, and report it; the site stays as it is"


def summed(places: Places | None, lines: Mapping[str, Published]) -> Published:
    """The line of the whole, of those of its places. Raises NoEpoch where these aren't of one whole."""
    first, *others = lines.values()
    if places is None:
        return first
    for line in others:
        if (line.epoch, line.part) != (first.epoch, first.part):
            raise NoEpoch(
                f"a place has epoch {line.epoch} part {line.part}, another {first.epoch} {first.part}", _REMEDY
            )
    issuers = 0
    for names in places.by_identity():
        counts = {lines[name].issuers for name in names}
        if len(counts) > 1:
            told = ", ".join(f"{name} {lines[name].issuers}" for name in names)
            raise NoEpoch(f"places by identity have the same issuers, and these have others: {told}", _REMEDY)
        issuers += counts.pop()
    return replace(_added(tuple(lines.values())), issuers=issuers)


def sliced(lines: Sequence[Published]) -> Published:
    """The line of a job, of those of its slices, which are snapshots with the same CRLs. It counts an identity once for
    each slice that has it."""
    return _added(lines)


def _added(lines: Sequence[Published]) -> Published:
    """The first line, with what is counted in all of them."""
    return replace(lines[0], **{name: sum(getattr(line, name) for line in lines) for name in _ADDED})


def test_universe(line: Published, universe: int) -> None:
    """Tests that the places hold the identities that the state holds of the issuers that are enrolled."""
    if line.universe != universe:
        raise NoEpoch(f"the places hold {line.universe} identities of whom is enrolled, the state {universe}", _REMEDY)


def test_whole(line: Published, whole: Published) -> None:
    """Tests that the lines of places are together that of the whole job, of which the program made a snapshot to try:
    there no entry is late."""
    for name in ("issuers", "unread", "uncovered", "unenrolled"):
        _test_equal(name, getattr(line, name), getattr(whole, name))
    _test_equal("late or accepted", line.late + line.accepted, whole.accepted)


def _test_equal(name: str, places: int, whole: int) -> None:
    if places != whole:
        raise NoEpoch(f"{name}: {places} at all places together, and {whole} of the whole job: some is lost", _REMEDY)
