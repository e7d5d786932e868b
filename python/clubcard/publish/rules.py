"""The decisions that keep verdicts right, each a function of its own.

A decision over many entries is given as an SQL query over the state's tables and the temporary tables of showing.py:
`covered` (log, low, high) is what an epoch covers, `enrolled` (issuer) whom it enrols. Its parameters are `generation`,
the newest chain, and `cut`, in milliseconds: what expired before it is of no interest. Times are milliseconds since
1970 UTC.
"""

from collections.abc import Callable, Collection, Mapping
from itertools import chain

from ..engine import Published
from .spool import LogRow

Range = tuple[int, int]
"""From and to, both included."""
MINUTE = 60_000

WAITS = "e.epoch IS NULL AND e.aside IS NULL"
"""An entry e that waits, in the words of the index entry_waiting."""
# Whose certificate didn't expire too long ago.
_LASTS = "(e.until IS NULL OR e.until * 1000 >= :cut)"
# The newest part of the chain that has an issuer. Ranges of a chain only grow: it covers whatever one before it does.
_NEWEST = "(SELECT issuer, max(place) AS place FROM part_issuer WHERE generation = :generation GROUP BY issuer)"
# An entry e that is late: a part with its issuer, before the birth of its identity k, covers it. The range t is that of
# the newest part with the issuer.
_LATE = """CASE WHEN k.birth IS NULL THEN e.time BETWEEN t.low AND t.high ELSE EXISTS (
    SELECT 1 FROM part p CROSS JOIN part_issuer i USING (generation, place)
        CROSS JOIN part_range r USING (generation, place)
    WHERE p.generation = :generation AND p.epoch < k.birth
        AND i.issuer = e.issuer AND r.log = e.log AND e.time BETWEEN r.low AND r.high) END"""


def _from(log: LogRow) -> int | None:
    """From when on all entries of a log are taken; None where that isn't known."""
    if log.first == 0:
        return 0
    return None if log.bound is None else log.bound + 1


def _to(log: LogRow) -> int | None:
    """Up to when all entries of a log are taken, by its maximum merge delay: as its newest verified tree head says,
    where all entries of this are there; and as the last entry says, since what comes behind it is merged later."""
    if log.head is None:
        return None
    delay = max(log.mmd, MINUTE)
    by_head = [log.head.time - delay] if log.taken >= log.head.size else []
    by_entries = [] if log.latest is None else [min(log.latest, log.head.time) - delay - 1]
    return max(chain(by_head, by_entries), default=None)


def _new(log: LogRow, most: int | None) -> Range | None:
    """What could be covered of a log, up to the time `most` where one is given; None where that is nothing."""
    low, high = _from(log), _to(log)
    if low is None or high is None:
        return None
    high = high if most is None else min(high, most)
    return (low, high) if low <= high else None


def _is_parted(new: Range, standing: Range) -> bool:
    """Whether there is a time between a new range and the standing one, of which not all entries were taken."""
    return new[0] > standing[1] + 1


def _joined(new: Range | None, standing: Range | None) -> Range | None:
    """A new range and the standing one, which never shrinks."""
    if new is None or standing is None or _is_parted(new, standing):
        return standing or new
    return min(new[0], standing[0]), max(new[1], standing[1])


def ranges(logs: Mapping[int, LogRow], standing: Mapping[int, Range], most: int | None = None) -> dict[int, Range]:
    """What an epoch covers of each log, by its number in the state: `logs` are those that CONFIG names, `standing` is
    what the newest part covers, and `most`, where it is given, the greatest time that is newly covered."""
    joined = {number: _joined(_new(log, most), standing.get(number)) for number, log in logs.items()}
    return dict(standing) | {number: found for number, found in joined.items() if found is not None}


def parted(logs: Mapping[int, LogRow], standing: Mapping[int, Range]) -> list[int]:
    """The logs whose new ranges don't go on with the standing ones: their coverage stands still."""
    new = {number: _new(log, None) for number, log in logs.items() if number in standing}
    return [number for number, found in new.items() if found is not None and _is_parted(found, standing[number])]


def rebase_moment(moment: int, heads: Collection[int], grace: int) -> int:
    """Before when a certificate must have expired to be forgotten: the least of the epoch's moment and the newest
    verified tree head's time, less `grace`; 0 where there is no head. So a run whose clock is far ahead forgets nothing
    that lives."""
    return max(0, min(moment, max(heads, default=0)) - grace)


def candidates() -> str:
    """The waiting entries (id, issuer) that the epoch covers and whose issuer it enrols."""
    return f"""
        SELECT e.id AS id, e.issuer AS issuer FROM temp.enrolled n CROSS JOIN temp.covered c CROSS JOIN entry e
        WHERE e.issuer = n.issuer AND e.log = c.log AND e.time BETWEEN c.low AND c.high AND {WAITS} AND {_LASTS}"""


def late() -> str:
    """Those of the candidates (id, issuer) that the program would count as late: their log merged them behind its
    delay, so that a part that clients have answers for them by chance."""
    return f"""
        SELECT e.id AS id, e.issuer AS issuer FROM {_NEWEST} n CROSS JOIN part_range t CROSS JOIN entry e
            LEFT JOIN identity k ON k.issuer = e.issuer AND k.serial = e.serial
        WHERE n.issuer IN (SELECT issuer FROM temp.enrolled) AND t.generation = :generation AND t.place = n.place
            AND e.issuer = n.issuer AND e.log = t.log AND e.time BETWEEN t.low AND t.high AND {WAITS} AND {_LASTS}
            AND {_LATE}"""


def expired() -> str:
    """The waiting entries (id) that are forgotten, since their certificates expired before `cut`."""
    return f"SELECT e.id AS id FROM entry e INDEXED BY entry_waiting WHERE {WAITS} AND e.until * 1000 < :cut"


def holding() -> str:
    """How many waiting entries of each issuer (issuer, count) hold a rebase back that prunes at `cut`.

    The newest part covers them, some part has their issuer, their identity isn't one that the rebase keeps, their date
    isn't before `cut`, and they aren't late: in the new chain they would be late for ever.
    """
    return f"""
        SELECT e.issuer, count(*) FROM {_NEWEST} n CROSS JOIN part_range c
            LEFT JOIN part_range t ON t.generation = :generation AND t.place = n.place AND t.log = c.log
            CROSS JOIN entry e LEFT JOIN identity k ON k.issuer = e.issuer AND k.serial = e.serial
        WHERE c.generation = :generation AND c.place = (SELECT max(place) FROM part WHERE generation = :generation)
            AND e.issuer = n.issuer AND e.log = c.log AND e.time BETWEEN c.low AND c.high AND {WAITS} AND {_LASTS}
            AND (k.birth IS NULL OR k.until * 1000 < :cut) AND NOT coalesce({_LATE}, 0)
        GROUP BY e.issuer"""


def is_gone(named: bool, enrolled_at: int | None, moment: int, max_away: int) -> bool:
    """Whether a rebase waits no longer for an issuer: CONFIG doesn't name it, or it is away for too long."""
    return not named or enrolled_at is None or moment - enrolled_at > max_away


def without(holding_it: Collection[int], gone: Collection[int], impatient: bool) -> frozenset[int] | None:
    """Without which issuers a chain begins anew; None where the rebase is held back. `impatient`: it was held back for
    long enough, or the chain has no room for another part."""
    if impatient or all(issuer in gone for issuer in holding_it):
        return frozenset(holding_it)
    return None


def difference(line: Published, issuers: int, shown: int) -> str | None:
    """How the program's line differs from what was shown; None where it doesn't."""
    counted = {name: getattr(line, name) for name in ("unread", "uncovered", "unenrolled", "late")}
    wrong = [f"{name} {count}" for name, count in counted.items() if count]
    wrong += [f"issuers {line.issuers} of {issuers}"] if line.issuers != issuers else []
    wrong += [f"accepted {line.accepted} of {shown}"] if line.accepted != shown else []
    return " ".join(wrong) or None


def heaviest(sizes: Mapping[int, int]) -> int:
    """Who is left out where not all fits: the issuer with the most; of equals the one with the least number."""
    return min(sizes, key=lambda issuer: (-sizes[issuer], issuer))


def cut(low: int, high: int, fits: Callable[[int], bool]) -> int:
    """The greatest time from `low` up to `high` at which what is shown fits. At `low` it fits, and up to some time."""
    while low < high:
        middle = (low + high + 1) // 2
        low, high = (middle, high) if fits(middle) else (low, middle - 1)
    return low
