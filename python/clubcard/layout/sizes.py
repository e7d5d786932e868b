"""What the sizes of a filter tell of how many identities it was built of (docs/ARCHITECTURE.md; the definitions are
equation_core/specs/Sizes.antt and card_core/specs/Filter.antt)."""

from typing import NamedTuple

from ..engine_lines import Leaf

MOST_PLANES = 16
GREATEST_STARTS = 4718593
# The columns of a plane beyond its starts, and those of a word.
MORE, WORD = 127, 64


class Bounds(NamedTuple):
    """How many at least, and at most; None: the sizes don't tell."""

    least: int
    most: int | None


def words_for(starts: int) -> int:
    """How many words a plane of so many starts has."""
    return (starts + MORE + WORD - 1) // WORD


def equations_of(starts: int) -> int | None:
    """How many equations a stage of so many starts has, of which n have n + floor(n / 8) + 1 starts. None: no number
    has so many."""
    nines, rest = divmod(starts - 1, 9)
    return None if rest == 8 else 8 * nines + rest


def _of_stage(stage: tuple[int, int] | None) -> int:
    """How many equations a stage has, by its seed and its starts; 0 where that isn't known."""
    return 0 if stage is None else equations_of(stage[1]) or 0


def revoked_of(leaf: Leaf) -> Bounds:
    """How many identities the filter of a leaf was built with as revoked."""
    if leaf.mode == "none":
        return Bounds(0, 0)
    if leaf.approx is not None:
        count = _of_stage(leaf.approx)
        return Bounds(count, count) if count else Bounds(1, None)
    # Without an approximate stage all are in the exact one, and the others are less than twice as many as the revoked.
    count = _of_stage(leaf.exact)
    return Bounds(count // 3 + 1, count - 1) if count > 1 else Bounds(1, None)


def identities_of(leaf: Leaf) -> Bounds:
    """How many identities the filter of a leaf was built of, revoked or not."""
    revoked = revoked_of(leaf)
    if leaf.mode != "mixed" or revoked.most is None:
        return Bounds(revoked.least, None)
    if leaf.approx is None:
        count = _of_stage(leaf.exact)
        return Bounds(count, count)
    # There are as many planes as halvings of the others leave as many as the revoked ones, but 16 at most.
    planes, count = leaf.planes or 0, revoked.least
    return Bounds(count + (count << planes), None if planes == MOST_PLANES else count + (count << planes + 1) - 1)


def together(parts: list[Bounds]) -> Bounds:
    """How many several have together."""
    most = [each.most for each in parts if each.most is not None]
    return Bounds(sum(each.least for each in parts), sum(most) if len(most) == len(parts) else None)
