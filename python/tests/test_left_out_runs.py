"""Rules of a run's moment and order, of a fill that isn't at its end and of short delays are left out in turn, as in
test_left_out.py."""

from collections.abc import Callable
from pathlib import Path
from typing import Any

import pytest

from clubcard.publish import chain, epoch, following, recording, rules
from clubcard.publish import config as configuration
from clubcard.publish import run as running
from clubcard.publish.making import Making
from clubcard.publish.site import publish_site
from web.leaving import Case, cert, check, instead, names, world
from web.play import Play
from web.site import Published
from web.world import HOUR, SECOND, Issuer, Log, at

pytestmark = pytest.mark.usefixtures("plain_charts")

MADE_BEFORE, WRITE_ROW = epoch.made_before, recording.write_row
NO_TEST = lambda *words: None  # noqa: E731


def at_any_moment(config: configuration.Config, state: Any, engine: Any, moment: int, *more: Any) -> Any:
    """Refuses no moment."""
    row = chain.newest_epoch(state)
    is_before = row is not None and moment < row.moment
    return None if is_before else MADE_BEFORE(config, state, engine, moment, *more)


AWAY = Issuer(valid=HOUR, bad=((1, 0, "missing"), (2, 0, "missing")))
# The serials of a branch's certificates are none of these.
MANY = [*(cert(4 * place, 1 + place / 8, on=None if place % 2 else 3) for place in range(1, 17)), cert(68, 5)]
CASES = [
    Case(
        "an epoch has a moment before the newest one's",
        # By the clock the CRL of the first epoch is in time again, which doesn't list what was revoked since.
        world(3, [cert(1, 5, on=6), cert(2, 1)], AWAY, clock=((2, at(4.5)),)),
        instead((epoch, "made_before", at_any_moment), (running, "made_before", at_any_moment)),
        "wrong",
        still=frozenset({"issuer", "outage"}),
    ),
    Case(
        "a tree head in the middle of a fill continues nothing",
        world(3, MANY, Log(bad=((0, "short"), (1, "branch")))),
        instead((following.Follower, "_continue", NO_TEST)),
        "wrong",
        still=frozenset({"log"}),
    ),
    Case(
        "a delay below a minute counts as it stands",
        world(2, [cert(1, 3.995, 4.005, on=3), cert(2, 1)], Log(mmd=SECOND)),
        instead((configuration, "MINUTE", 0), (rules, "MINUTE", 0)),
        "late",
    ),
]


@pytest.mark.parametrize("case", CASES, ids=names(CASES))
def test_left_out(case: Case, tmp_path: Path, monkeypatch: pytest.MonkeyPatch) -> None:
    check(case, tmp_path, monkeypatch)


class Killed(BaseException):
    """Stands for the end of the process."""


def killed(making: Making, row: chain.EpochRow, done: bool) -> None:
    """Ends a run before the state's transaction is written."""
    WRITE_ROW(making, row, done)
    raise Killed


def manifest_first(making: Making, row: chain.EpochRow, done: bool) -> None:
    """Makes the site before the state's transaction is written, and ends the run between both."""
    WRITE_ROW(making, row, done)
    publish_site(making.config, making.state)
    raise Killed


def told_around(write_row: Callable[..., None], folder: Path, monkeypatch: pytest.MonkeyPatch) -> list[Published]:
    """What clients take behind a run that was killed in the second epoch, and behind the next run."""
    with Play(world(3, [cert(1, 1), cert(2, 5), cert(3, 9)]), folder) as play, monkeypatch.context() as patch:
        play.show(0)
        assert play.run(0).status == 0
        play.show(1)
        patch.setattr(recording, "write_row", write_row)
        with pytest.raises(Killed):
            play.run(1)
        taken = [play.reader.read()]
        patch.undo()
        play.show(2)
        assert play.run(2).status == 0
        taken.append(play.reader.read())
    return [published for published in taken if published is not None]


def test_the_manifest_before_the_state(tmp_path: Path, monkeypatch: pytest.MonkeyPatch) -> None:
    """A run that is killed between both leaves a manifest of an epoch that the state doesn't have. The next run makes
    another one of that epoch, and clients refuse it."""
    whole = told_around(killed, tmp_path / "whole", monkeypatch)
    assert [(one.generation, one.epoch) for one in whole] == [(1, 1), (1, 2)]
    first, second = told_around(manifest_first, tmp_path / "without", monkeypatch)
    assert (first.generation, first.epoch) == (second.generation, second.epoch) == (1, 2)
    assert first.manifest != second.manifest
