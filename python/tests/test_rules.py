"""Decisions that are functions alone: what is covered, when a rebase prunes, who is left out, how a line differs."""

from dataclasses import replace

import pytest
from hypothesis import given
from hypothesis import strategies as some

from clubcard.engine import Published
from clubcard.publish import rules
from clubcard.publish.heads import TreeHead
from clubcard.publish.publishing import halves
from clubcard.publish.spool import LogRow

MMD = 3_600_000
H = 100 * MMD
ROOT = bytes(32)


def log(
    first: int = 0,
    taken: int = 10,
    head: tuple[int, int] | None = (H, 10),
    latest: int | None = H - 5,
    bound: int | None = None,
    mmd: int = MMD,
) -> LogRow:
    """A log's row; its head's time and size."""
    made = None if head is None else TreeHead(*head, ROOT)
    return LogRow(1, bytes(32), "a log", mmd, first, taken, made, latest, bound, None)


@pytest.mark.parametrize(
    ("row", "covered"),
    [
        pytest.param(log(), (0, H - MMD), id="a tree head, less the delay"),
        pytest.param(log(taken=0, head=(H, 0), latest=None), (0, H - MMD), id="an empty log"),
        pytest.param(log(head=(MMD, 10), latest=1), (0, 0), id="one time"),
        pytest.param(log(head=(MMD - 1, 10), latest=1), None, id="nothing yet"),
        pytest.param(log(head=None), None, id="no tree head"),
        pytest.param(log(mmd=0), (0, H - 60_000), id="a delay below a minute counts as a minute"),
        pytest.param(
            log(taken=5, latest=H - MMD), (0, H - 2 * MMD - 1), id="a fill: to the last entry, less the delay"
        ),
        pytest.param(log(taken=5, latest=None), None, id="a fill without entries"),
        pytest.param(log(taken=5, latest=2 * H), (0, H - MMD - 1), id="an entry ahead of the tree head counts as that"),
        pytest.param(log(taken=12), (0, H - MMD), id="more than the newest head has"),
        pytest.param(log(first=4, bound=7), (8, H - MMD), id="behind what was not taken"),
        pytest.param(log(first=4, bound=None), None, id="nothing is known of what wasn't taken"),
        pytest.param(log(first=4, bound=H), None, id="the first tree head behind `first`"),
    ],
)
def test_range_of_a_log(row: LogRow, covered: tuple[int, int] | None) -> None:
    assert rules.ranges({1: row}, {}).get(1) == covered


@pytest.mark.parametrize(
    ("row", "standing", "covered"),
    [
        (log(), (0, H), (0, H)),
        (log(), (50, 60), (0, H - MMD)),
        (log(first=4, bound=70), (50, 80), (50, H - MMD)),
        (log(first=4, bound=79), (50, 80), (50, H - MMD)),
        (log(first=4, bound=80), (50, 80), (50, H - MMD)),
        (log(first=4, bound=81), (50, 80), (50, 80)),
        (log(head=None), (50, 60), (50, 60)),
        (log(head=(5, 10), latest=4), (50, 60), (50, 60)),
    ],
)
def test_a_range_never_shrinks(row: LogRow, standing: tuple[int, int], covered: tuple[int, int]) -> None:
    """Nor does it grow over a time of which not all entries were taken."""
    assert rules.ranges({1: row}, {1: standing}) == {1: covered}
    assert rules.parted({1: row}, {1: standing}) == ([1] if row.bound == 81 else [])


def test_a_log_that_config_drops_keeps_its_range() -> None:
    assert rules.ranges({}, {1: (5, 6)}) == {1: (5, 6)}
    assert rules.ranges({2: replace(log(), id=2)}, {1: (5, 6)}) == {1: (5, 6), 2: (0, H - MMD)}


def test_a_cut_holds_for_what_is_new() -> None:
    logs = {1: log(), 2: log(first=1, bound=30)}
    assert rules.ranges(logs, {1: (0, 50)}, 40) == {1: (0, 50), 2: (31, 40)}
    assert rules.ranges(logs, {1: (0, 50)}, 30) == {1: (0, 50)}
    assert rules.ranges(logs, {1: (0, 50)}, -1) == {1: (0, 50)}


def test_moment_of_a_rebase() -> None:
    day = 24 * MMD
    assert rules.rebase_moment(100 * day, [99 * day, 98 * day], 7 * day) == 92 * day
    assert rules.rebase_moment(98 * day, [99 * day], 7 * day) == 91 * day
    assert rules.rebase_moment(5 * day, [5 * day], 7 * day) == 0
    assert rules.rebase_moment(500 * day, [], 7 * day) == 0


def test_who_is_gone() -> None:
    assert not rules.is_gone(True, 50, 60, 10)
    assert rules.is_gone(True, 49, 60, 10)
    assert rules.is_gone(False, 60, 60, 10)
    assert rules.is_gone(True, None, 60, 10)


def test_without_whom_a_chain_begins_anew() -> None:
    assert rules.without([], [], False) == frozenset()
    assert rules.without([1, 2], [2], False) is None
    assert rules.without([1, 2], [2, 1, 3], False) == frozenset({1, 2})
    assert rules.without([1, 2], [], True) == frozenset({1, 2})


LINE = Published(1, 0, 3, 50, 5, 0, 0, 0, 0, 40)


@pytest.mark.parametrize("name", ["unread", "uncovered", "unenrolled", "late"])
def test_a_line_that_differs(name: str) -> None:
    assert rules.difference(LINE, 3, 40) is None
    assert rules.difference(replace(LINE, **{name: 2}), 3, 40) == f"{name} 2"
    assert rules.difference(LINE, 4, 41) == "issuers 3 of 4 accepted 40 of 41"


def test_the_heaviest() -> None:
    assert rules.heaviest({3: 5, 1: 7, 2: 7}) == 1


@given(some.integers(-5, 50), some.integers(0, 50), some.integers(0, 60))
def test_cut(low: int, span: int, last: int) -> None:
    """The greatest time that fits, where all up to one do, and the least does."""
    found = rules.cut(low, low + span, lambda time: time <= low + last)
    assert found == low + min(span, last)


@given(some.integers(1, 200), some.data())
def test_halves_find_all_that_is_wrong(size: int, data: some.DataObject) -> None:
    wrong = data.draw(some.sets(some.integers(0, size - 1), min_size=1))
    asked = []

    def count(low: int, high: int) -> int:
        asked.append((low, high))
        return sum(low <= place < high for place in wrong)

    found, left = halves(size, len(wrong), count, 10 * size)
    assert {place for low, high in found for place in range(low, high)} == wrong and not left
    assert len(asked) <= len(wrong) * size.bit_length()


@given(some.integers(2, 200), some.integers(0, 5), some.data())
def test_halves_give_up(size: int, tries: int, data: some.DataObject) -> None:
    """What is wrong is found, or is among what is left."""
    wrong = data.draw(some.sets(some.integers(0, size - 1), min_size=1))
    found, left = halves(size, len(wrong), lambda low, high: sum(low <= place < high for place in wrong), tries)
    sure = {place for low, high in found for place in range(low, high)}
    assert sure <= wrong <= sure | {place for low, high in left for place in range(low, high)}
    assert not sure & {place for low, high in left for place in range(low, high)}
