"""Each rule of clocks, of tree heads and of chains that begin anew is left out in turn, as in test_left_out.py."""

from dataclasses import replace
from pathlib import Path

import pytest

from clubcard.publish import following, heads, making, rebasing, rules
from web.leaving import Case, cert, check, instead, names, rewritten, world
from web.world import DAY, HOUR, Entry, Issuer, Log, at

pytestmark = pytest.mark.usefixtures("plain_charts")
NO_TEST = lambda *words: None  # noqa: E731

# ---------- clocks, tree heads and the log's word ----------
DIES = replace(cert(1, 1, on=2), until=at(480) // 1000)
LOGS = [
    Case(
        "a rebase prunes by a clock that is far ahead",
        world(1, [DIES, cert(2, 1)], rebase_after=1, clock=((0, at(4) + 40 * DAY),)),
        instead((rules, "rebase_moment", lambda moment, times, grace: max(0, moment - grace))),
        "wrong",
    ),
    Case(
        "a tree head that is ahead is followed",
        world(3, [cert(1, 3, 6, on=3.5), cert(2, 1)], Log(mmd=4 * HOUR, bad=((0, "ahead"),))),
        instead((following, "MOST_AHEAD", 100 * DAY)),
        "wrong",
        still=frozenset({"log"}),
    ),
    Case(
        "a tree head is followed whoever signed it",
        world(2, [cert(1, 5, on=6), cert(2, 1)], Log(bad=((1, "unsigned"),))),
        instead((heads.LogKey, "verify", NO_TEST)),
        "wrong",
        still=frozenset({"log"}),
    ),
    Case(
        "entries aren't held against the tree head",
        world(2, [cert(1, 5, on=6), cert(2, 1)], Log(bad=((1, "fork"),))),
        instead((following.Follower, "_verify", NO_TEST)),
        "wrong",
        still=frozenset({"log"}),
    ),
]

# ---------- a chain begins anew ----------
GONE = (Issuer(), Issuer(valid=HOUR, gone=(1, 3)))
TWO = [cert(1, 1), cert(2, 1, issuer=1), cert(3, 5, on=5.5, issuer=1)]
KEPT = replace(cert(1, 1, issuer=1), entries=(Entry(0, at(1), at(1)), Entry(1, at(5), at(5))))
BACK = [*TWO, cert(4, 1, on=2, issuer=1)]
AWAY_ALARMS = frozenset({"issuer", "held"})


def forgetting_entries(step: making.Making, generation: int, without: list[int]) -> None:
    """Forgets the identities of issuers that are left out, and doesn't let their entries wait again."""
    for issuer in without:
        step.db.execute("DELETE FROM identity WHERE issuer = ?", (issuer,))


HAS = "part_issuer WHERE generation = :generation"
REBASES = [
    Case(
        "a rebase comes whatever waits",
        world(4, TWO, *GONE, rebase_after=2),
        instead((rules, "holding", lambda: "SELECT 0, 0 WHERE :generation = :cut AND 0")),
        "wrong",
        still=AWAY_ALARMS,
    ),
    Case(
        "an issuer that the newest part doesn't have holds no rebase back",
        world(4, TWO, *GONE, rebase_after=2),
        rewritten("holding", (HAS, f"{HAS} AND place = (SELECT max(place) FROM part WHERE generation = :generation)")),
        "wrong",
        still=AWAY_ALARMS,
    ),
    Case(
        "an issuer that only the first part has, which a rebase made, holds no rebase back",
        world(
            5,
            [cert(1, 1), cert(2, 1, issuer=1), cert(3, 9, on=9.5, issuer=1)],
            Issuer(),
            Issuer(valid=HOUR, gone=(1, 4)),
            rebase_after=2,
        ),
        rewritten("holding", (HAS, f"{HAS} AND place > 0")),
        "wrong",
        still=AWAY_ALARMS,
    ),
    Case(
        "an entry of a certificate that the rebase keeps holds it back",
        world(3, [cert(2, 1), KEPT], Log(), Log(), Issuer(), Issuer(valid=HOUR, gone=(1, 2)), rebase_after=2),
        rewritten("holding", ("k.birth IS NULL OR k.until * 1000 < :cut", "1")),
        "held",
        still=frozenset({"issuer"}),
    ),
    Case(
        "waiting entries hold a rebase back for ever",
        world(7, TWO, Issuer(), Issuer(valid=HOUR, gone=(1, None)), rebase_after=2, patience=2),
        instead((rules, "without", lambda holding, gone, impatient: None if holding else frozenset())),
        "outage",
        making.Limits(parts=4),
        still=AWAY_ALARMS | {"without"},
    ),
    Case(
        "an issuer that CONFIG drops holds a rebase back",
        world(4, TWO, Issuer(), Issuer(leave=1), rebase_after=2),
        instead((rules, "is_gone", lambda named, enrolled_at, moment, max_away: False)),
        "held",
        still=frozenset({"without"}),
    ),
    Case(
        "entries of an issuer that is left out don't wait again",
        world(5, BACK, Issuer(), Issuer(valid=HOUR, gone=(1, 4)), rebase_after=2, patience=1),
        instead((rebasing, "_forget", forgetting_entries)),
        "wrong",
        still=AWAY_ALARMS | {"without", "count"},
    ),
]


CASES = [*LOGS, *REBASES]


@pytest.mark.parametrize("case", CASES, ids=names(CASES))
def test_left_out(case: Case, tmp_path: Path, monkeypatch: pytest.MonkeyPatch) -> None:
    check(case, tmp_path, monkeypatch)
