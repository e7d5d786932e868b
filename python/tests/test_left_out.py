"""Each rule of what is covered and shown is left out in turn, in the least world that shows what it is for.

With the rule nothing is wrong in this world. Without it a verdict is wrong, or falls by chance, or an alarm or an
outage comes that the rule spares. What leaves a rule out takes the place of the function that decides it.
"""


from collections.abc import Mapping
from dataclasses import replace
from pathlib import Path

import pytest

from clubcard import entries
from clubcard.publish import fitting, making, rules, showing, spool
from web.leaving import COVERED, ENROLLED, Case, Patch, cert, check, dropping, instead, names, rewritten, world
from web.world import HOUR, Entry, Issuer, Log, at

pytestmark = pytest.mark.usefixtures("plain_charts")


# ---------- the range of a log ----------
def head_alone(log: spool.LogRow) -> int | None:
    return log.head.time if log.head is not None and log.taken >= log.head.size else None


def first_seen(log: spool.LogRow, mmd: int) -> int | None:
    """The greatest time of the first entries, without the MMD and whatever a tree head says."""
    return log.first_time


FIRST_IS_LATE = [*(cert(number, 0, on=1) for number in (1, 2, 3)), cert(4, -1, 3.02)]
LATE_MERGE = [cert(1, 1, 5, on=2), cert(2, 1), cert(3, 3.5)]
RANGES = [
    Case(
        "to is the tree head's time",
        world(3, LATE_MERGE, Log(mmd=4 * HOUR)),
        instead((rules, "_to", head_alone)),
        "wrong",
    ),
    Case(
        "to is the greatest time that was seen",
        world(3, LATE_MERGE, Log(mmd=4 * HOUR)),
        instead((rules, "_to", lambda log: log.latest)),
        "wrong",
    ),
    Case(
        "from is 0 though the first entries aren't taken",
        world(2, [cert(1, 1, on=2), cert(2, 3)], Log(first_at=at(2))),
        instead((rules, "_from", lambda log: 0)),
        "wrong",
    ),
    Case(
        "from is the time of the first entry that is taken",
        world(3, [cert(1, 2.5, 2.6, on=2.7), cert(2, 1, 3.5)], Log(mmd=4 * HOUR, first_at=at(3))),
        instead((spool.LogRow, "bounded", first_seen)),
        "wrong",
    ),
    Case(
        "from is by the time of the entry `first` alone",
        world(2, FIRST_IS_LATE, Log(first_at=at(2))),
        instead((spool, "FIRST_RUN", 1)),
        "wrong",
    ),
    Case(
        "a range falls",
        world(2, [cert(1, 1)], Log(conf=((1, 8 * HOUR),))),
        instead((rules, "_joined", lambda new, standing: new)),
        "outage",
    ),
]

# ---------- what waits, and what a job shows ----------
TWO_LOGS = replace(cert(1, 1, on=2), entries=(Entry(0, at(1), at(1)), Entry(1, at(1), at(2))))


def covering_only(logs: set[int]) -> Patch:
    """Shows entries of these logs alone, by their numbers in the state, though more is covered."""
    cover = showing.Showing.cover

    def covering(self: showing.Showing, ranges: Mapping[int, rules.Range]) -> None:
        cover(self, {log: bounds for log, bounds in ranges.items() if log in logs})

    return instead((showing.Showing, "cover", covering))


def reading_all(leaf: bytes, extra: bytes) -> entries.EntryFacts | None:
    """Reads a serial in an entry that has none."""
    unread = entries.EntryFacts(int.from_bytes(leaf[2:10], "big"), leaf[12:44], b"\x55", None, None)
    return entries.read_entry(leaf, extra) or unread


UNREAD = replace(cert(2, 1), entries=(Entry(0, at(1), at(1), unread=True),))
AWAY_ONCE = Issuer(bad=((0, 0, "missing"),))
ALL_WAITING = "SELECT e.id AS id, e.issuer AS issuer FROM entry e WHERE e.epoch IS NULL AND e.aside IS NULL"
KNOWN = "SELECT 1 FROM identity k WHERE k.issuer = e.issuer AND k.serial = e.serial"
WAITING = [
    Case(
        "an entry that the job doesn't cover is dropped",
        world(3, [cert(1, 1, on=2)], Log(mmd=4 * HOUR)),
        dropping(f"NOT {COVERED}"),
        "wrong",
    ),
    Case(
        "an entry whose issuer isn't enrolled is dropped",
        world(2, [cert(1, 1, on=2)], AWAY_ONCE),
        dropping(f"{COVERED} AND NOT {ENROLLED}"),
        "wrong",
        still=frozenset({"issuer"}),
    ),
    Case(
        "an entry of an issuer that CONFIG doesn't name is dropped",
        world(2, [cert(1, 1, on=2)], Issuer(join=1)),
        dropping(f"{COVERED} AND NOT {ENROLLED}"),
        "wrong",
    ),
    Case(
        "all waiting entries are shown",
        world(2, [cert(1, 1, on=2)], Log(mmd=4 * HOUR)),
        instead((rules, "candidates", lambda: ALL_WAITING)),
        "count",
    ),
    Case(
        "the line isn't compared",
        world(2, [cert(1, 1, on=2)], Log(mmd=4 * HOUR)),
        instead((rules, "candidates", lambda: ALL_WAITING), (rules, "difference", lambda line, issuers, shown: None)),
        "wrong",
    ),
    Case(
        "an entry that nobody can read is shown",
        world(1, [cert(1, 1, on=2), UNREAD, cert(3, 1)]),
        instead((spool, "read_entry", reading_all)),
        "count",
    ),
    Case(
        "an entry below from is shown",
        world(3, [cert(1, 1), cert(2, 2, 5)], Log(mmd=4 * HOUR, first_at=at(3))),
        rewritten("candidates", ("BETWEEN c.low AND", "BETWEEN 0 AND")),
        "count",
    ),
    Case(
        "an entry of a known identity isn't shown",
        world(2, [TWO_LOGS, cert(2, 1)], Log(), Log(join=1)),
        rewritten(
            "candidates",
            (f"AND {rules.WAITS}", f"AND {rules.WAITS} AND NOT EXISTS ({KNOWN})"),
        ),
        "wrong",
    ),
    Case(
        "entries of a log that CONFIG names no more aren't shown",
        world(2, [cert(1, 1, on=2, log=1)], Log(), Log(leave=1), AWAY_ONCE),
        covering_only({1}),
        "wrong",
        still=frozenset({"issuer"}),
    ),
    Case(
        "entries of a log that is silent aren't shown",
        world(2, [cert(1, 1, on=2, log=1)], Log(), Log(bad=((1, "silent"),)), AWAY_ONCE),
        covering_only({1}),
        "wrong",
        still=frozenset({"issuer", "log"}),
    ),
    Case(
        "a late entry is shown",
        world(3, [cert(1, 1, 5, on=2), cert(2, 1)]),
        rewritten("late", ("WHERE n.issuer", "WHERE 0 AND n.issuer")),
        "count",
        still=frozenset({"late"}),
    ),
]

# ---------- what fits ----------
MANY = [cert(number, 1, issuer=1) for number in range(1, 6)]
FITS = [
    Case(
        "more than fits is shown of what was covered",
        world(3, MANY, Issuer(), Issuer(bad=((0, 0, "missing"),))),
        instead((fitting, "_with_standing", lambda step, showing_, fit, standing, plan: plan)),
        "outage",
        making.Limits(entries=4),
        still=frozenset({"issuer", "room"}),
    ),
    Case(
        "new ranges aren't cut",
        world(3, [cert(number, number / 2) for number in range(1, 7)]),
        instead((rules, "cut", lambda low, high, fits: high)),
        "outage",
        making.Limits(entries=4),
        still=frozenset({"room"}),
    ),
]


CASES = [*RANGES, *WAITING, *FITS]


@pytest.mark.parametrize("case", CASES, ids=names(CASES))
def test_left_out(case: Case, tmp_path: Path, monkeypatch: pytest.MonkeyPatch) -> None:
    check(case, tmp_path, monkeypatch)
