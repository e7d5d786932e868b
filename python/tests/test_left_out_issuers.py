"""Each rule of CRLs and their issuers is left out in turn, as in test_left_out.py."""

from collections.abc import Mapping
from pathlib import Path
from typing import Any

import pytest

from clubcard import crls
from clubcard.publish import config as configuration
from clubcard.publish import issuers, kept
from clubcard.publish import run as running
from web.leaving import Case, cert, check, instead, names, seen, world
from web.play import Play
from web.world import HOUR, Issuer, Log

pytestmark = pytest.mark.usefixtures("plain_charts")

ENROL = issuers.enrolled
JUDGED = issuers._judged


def with_some(config: configuration.Config, state: Any, moment: int) -> issuers.Enrolment:
    """Enrols each issuer with the CRLs that there are."""
    made = ENROL(config, state, moment)
    taken = dict(made.crls)
    for issuer in config.issuers:
        there = tuple(crl for crl in kept.kept_crls(state, issuer).values() if kept.in_time(crl.next_update, moment))
        if there:
            taken[issuer.key] = there
    return issuers.Enrolment(taken, {key: why for key, why in made.left.items() if key not in taken})


def fetched_now(config: configuration.Config, state: Any, moment: int) -> issuers.Enrolment:
    """Enrols the issuers of whom each try of this run brought a CRL."""
    made = ENROL(config, state, moment)
    taken, left = dict(made.crls), dict(made.left)
    for issuer in config.issuers:
        failed = [url for url, (_, why) in kept.tries(state, issuer).items() if why is not None]
        if failed and issuer.key in taken:
            del taken[issuer.key]
            left[issuer.key] = "a fetch failed"
    lacks = [issuers.Lack(key, "an issuer", "its URL", why) for key, why in left.items() if key in made.crls]
    return issuers.Enrolment(taken, left, (*made.lacks, *lacks))


def judged_alone(
    tried: kept.Tried, held: Mapping[str, kept.KeptCrl], tries: list[kept.Tried], moment: int
) -> kept.Tried:
    """Judges a CRL without a look at those of other URLs."""
    return JUDGED(tried, {url: crl for url, crl in held.items() if url == tried.url}, [tried], moment)


PARTITIONS = [cert(1, 1, on=2), cert(2, 1, on=2, crl=1), cert(3, 1), cert(4, 1, crl=1)]
IN_TIME = ((kept, "in_time", lambda until, moment: True), (issuers, "in_time", lambda until, moment: True))
NO_TEST = lambda *words: None  # noqa: E731
CASES = [
    Case(
        "an issuer is enrolled with some of its CRLs",
        world(1, PARTITIONS, Issuer(crls=2, bad=((0, 1, "missing"),))),
        instead((running, "enrolled", with_some)),
        "wrong",
        still=frozenset({"issuer"}),
    ),
    Case(
        "a CRL that is out of date is taken",
        world(2, PARTITIONS, Issuer(crls=2, valid=5 * HOUR, bad=((1, 0, "stale"),))),
        instead(*IN_TIME),
        "issuer",
    ),
    Case(
        "a CRL that is out of date by less than a second is taken",
        world(2, PARTITIONS, Issuer(crls=2, valid=5 * HOUR, bad=((1, 0, "edge"),))),
        instead(*IN_TIME),
        "issuer",
    ),
    Case(
        "a CRL that another key signed is taken",
        world(1, [cert(1, 1, on=2)], Issuer(bad=((0, 0, "foreign"),))),
        instead((crls, "_test_signature", NO_TEST)),
        "wrong",
        still=frozenset({"issuer"}),
    ),
    Case(
        "a delta CRL is taken",
        world(2, [cert(1, 1, on=2)], Issuer(bad=((1, 0, "delta"),))),
        instead((crls, "_test_extensions", NO_TEST)),
        "issuer",
    ),
    Case(
        "an indirect CRL is taken",
        world(2, [cert(1, 1, on=2)], Issuer(bad=((1, 0, "indirect"),))),
        instead((crls, "_test_point", NO_TEST)),
        "issuer",
    ),
    Case(
        "another partition's CRL is taken",
        world(1, PARTITIONS, Issuer(crls=2, bad=((0, 0, "swap"),))),
        instead((crls, "_test_point", NO_TEST)),
        "wrong",
        still=frozenset({"issuer"}),
    ),
    Case(
        "a CRL without a distribution point is taken where there are several",
        world(1, PARTITIONS, Issuer(crls=2, bad=((0, 0, "unnamed"),))),
        instead((crls, "_test_point", NO_TEST)),
        "wrong",
        still=frozenset({"issuer"}),
    ),
    Case(
        "one CRL is taken at two URLs",
        world(1, PARTITIONS, Issuer(crls=2, key="rsa", bad=((0, 0, "twice"), (0, 1, "twice")))),
        instead((issuers, "_judged", judged_alone)),
        "wrong",
        still=frozenset({"issuer"}),
    ),
    Case(
        "one failed fetch leaves an issuer out",
        world(2, [cert(1, 1, on=2)], Issuer(bad=((1, 0, "missing"),))),
        instead((running, "enrolled", fetched_now)),
        "issuer",
    ),
    Case(
        "an older CRL replaces a newer one",
        world(3, [cert(1, 5, on=6), cert(2, 1)], Log(bad=((1, "silent"),)), Issuer(bad=((2, 0, "older"),))),
        instead(
            (kept, "is_older", lambda new, old, moment: False), (issuers, "is_older", lambda new, old, moment: False)
        ),
        "wrong",
        still=frozenset({"log"}),
    ),
]


@pytest.mark.parametrize("case", CASES, ids=names(CASES))
def test_left_out(case: Case, tmp_path: Path, monkeypatch: pytest.MonkeyPatch) -> None:
    check(case, tmp_path, monkeypatch)


def test_one_key_in_two_issuers(tmp_path: Path, monkeypatch: pytest.MonkeyPatch) -> None:
    """CONFIG is refused; were it taken, one of the two would be enrolled with its own CRLs alone."""
    made = world(2, PARTITIONS, Issuer(crls=2, split=True))
    with Play(made, tmp_path / "whole") as play, pytest.raises(configuration.ConfigError):
        play.config(0)
        play.play()
    monkeypatch.setattr(configuration, "_refuse_twice", NO_TEST)
    with Play(made, tmp_path / "without") as play:
        play.play()
    assert play.findings, play.told()


def test_a_partition_that_config_does_not_have(tmp_path: Path, monkeypatch: pytest.MonkeyPatch) -> None:
    """What it lists can't be known; an alarm names it. Without the rule nobody is told."""
    made = world(1, PARTITIONS, Issuer(crls=2, drops=((0, 1),)))
    with Play(made, tmp_path / "whole") as whole:
        whole.play()
    assert "point" in seen(whole)
    monkeypatch.setattr("clubcard.publish.points.unknown", lambda config, state, moment: iter(()))
    with Play(made, tmp_path / "without") as without:
        without.play()
    assert seen(without) == {"wrong"}
