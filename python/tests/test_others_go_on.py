"""What one authority, one log or one clock does wrong stops nobody else, and makes no verdict wrong."""

from dataclasses import replace
from pathlib import Path

import pytest

from web.play import Play
from web.world import DAY, HOUR, LONG, MINUTE, Cert, Entry, Issuer, Log, World, at

pytestmark = pytest.mark.usefixtures("plain_charts")
STEP = 4


def cert(issuer: int, serial: int, log: int, born: float, merged: float | None = None, on: float | None = None) -> Cert:
    """A certificate with a timestamp; merged late where that is said, and revoked for good from `on` on."""
    time = at(born) + serial
    entry = Entry(log, time, time if merged is None else at(merged))
    return Cert(issuer, serial, LONG, (entry,), () if on is None else ((at(on), None),))


def issuing(issuer: int, epochs: int) -> list[Cert]:
    """Two certificates an epoch, of each log one, of which one is revoked an epoch later."""
    out = []
    for epoch in range(epochs):
        born = STEP * epoch + 1
        out.append(cert(issuer, 0x100 + 2 * epoch, 0, born, on=born + STEP))
        out.append(cert(issuer, 0x101 + 2 * epoch, 1, born))
    return out


def world(epochs: int, odd: Issuer = Issuer(), log: Log = Log(), more: list[Cert] | None = None) -> World:
    """Issuer 0 and log 0 keep their word; issuer 1 and log 1 are those that don't. The chain begins anew each third
    epoch, and waiting entries may hold that back for two epochs."""
    certs = issuing(0, epochs) + issuing(1, epochs) + (more or [])
    moments = tuple(at(STEP * (epoch + 1)) for epoch in range(epochs))
    return World(moments, (Log(), log), (Issuer(), odd), tuple(certs), rebase_after=3, patience=2, grace=0)


def played(made: World, folder: Path, statuses: tuple[int, ...] = (0, 10)) -> Play:
    """Plays a world in which each epoch is published, no answer is wrong, issuer 0 is enrolled in each epoch, and log 0
    is covered up to each epoch's moment less its MMD."""
    with Play(made, folder) as play:
        play.play()
    assert not play.findings and not play.misled, play.told()
    assert all(outcome.status in statuses for outcome in play.outcomes), play.told()
    first, log = play.shown.things.authorities[0].hash, play.shown.things.logs[0].id
    for published in play.published:
        epoch = [at for at in range(len(made.moments)) if _moment(made, at) == published.manifest["moment"]][0]
        assert first in published.enrolled, play.told()
        assert published.coverage[log] == (0, made.moments[epoch] // 1000 * 1000 - MINUTE), play.told()
    return play


def _moment(made: World, epoch: int) -> str:
    from clubcard.times import to_iso  # pylint: disable=import-outside-toplevel

    return to_iso(made.now(epoch))


def kinds(play: Play, epoch: int) -> set[str]:
    return {alarm.kind for alarm in play.outcomes[epoch].alarms}


def test_all_is_well(tmp_path: Path) -> None:
    play = played(world(7), tmp_path)
    assert [outcome.status for outcome in play.outcomes] == [0] * 7, play.told()
    assert [one.generation for one in play.published] == [1, 1, 2, 2, 3, 3, 4], play.told()
    assert not play.count.free


def test_authority_is_gone_for_good(tmp_path: Path) -> None:
    """It issues on, and its CRL doesn't come again: the chain goes on without it."""
    play = played(world(9, Issuer(valid=HOUR, gone=(1, None))), tmp_path)
    assert len(play.published) == 9 and not play.count.free
    assert any("without" in kinds(play, epoch) for epoch in range(9)), play.told()
    assert all("issuer" in kinds(play, epoch) for epoch in range(1, 9)), play.told()
    assert max(len(one.parts) for one in play.published) <= 3 + 2 + 1
    gone = play.shown.things.authorities[1].hash
    assert gone not in play.truth.parts[-1].issuers
    # The manifest says since when, and why.
    (told,) = [one for one in play.published[-1].manifest["issuers"] if one["issuer"] == gone.hex()]
    assert (told["enrolled"], told["enrolled_at"]) == (False, _moment(play.world, 0)) and told["reason"]


def test_authority_that_config_drops(tmp_path: Path) -> None:
    play = played(world(9, Issuer(leave=1)), tmp_path)
    assert len(play.published) == 9 and not play.count.free
    assert max(len(one.parts) for one in play.published) <= 3 + 2 + 1, play.told()


def test_authority_comes_back(tmp_path: Path) -> None:
    """Behind a chain that was begun without it all of its certificates are known again."""
    play = played(world(10, Issuer(valid=HOUR, gone=(1, 8))), tmp_path)
    assert any("without" in kinds(play, epoch) for epoch in range(9)), play.told()
    known = {one for one in play.shown.things.issued if one.cert.issuer == 1 and one.identity in play.truth.births}
    assert len(known) >= 18 and not play.count.free


def test_log_breaks_its_mmd(tmp_path: Path) -> None:
    """What it merges too late is an alarm in each epoch; what other timestamps say of the certificates stays right."""
    late = [cert(1, 0x200, 1, 1, merged=9, on=2), cert(0, 0x201, 1, 1, merged=9)]
    both = cert(0, 0x202, 0, 1, on=2)
    both = replace(both, entries=(*both.entries, Entry(1, at(1) + 0x202, at(9))))
    play = played(world(4, more=[*late, both]), tmp_path)
    assert "late" in kinds(play, 2) and "late" in kinds(play, 3), play.told()
    # By the timestamp that came too late alone any answer may come, as the rules say; by no other one.
    assert 0 < play.count.free <= 3 * 2 * 2
    assert play.truth.births[play.shown.things.issued[-1].identity] == 0


def test_log_breaks_its_mmd_while_its_issuer_is_away(tmp_path: Path) -> None:
    """Nothing answers for the timestamps of an issuer that wasn't enrolled: its entries aren't late."""
    odd = Issuer(valid=HOUR, bad=((0, 0, "missing"),))
    more = [cert(1, 0x200, 1, 1, merged=7, on=2), cert(1, 0x201, 1, 1)]
    play = played(world(3, odd, more=more), tmp_path)
    assert not play.count.free, play.told()
    assert all("late" not in kinds(play, epoch) for epoch in range(3))


@pytest.mark.parametrize("kind", ["rfc6962", "static"])
def test_tree_head_is_ahead(kind: str, tmp_path: Path) -> None:
    log = Log(mmd=4 * HOUR, kind="static" if kind == "static" else "rfc6962", bad=((1, "ahead"),))
    # Merged within the MMD: by the time that the tree head says they would be covered before they come.
    more = [cert(1, 0x200, 1, 7, merged=10.5, on=8), cert(1, 0x201, 1, 7.5, merged=11)]
    play = played(world(5, log=log, more=more), tmp_path)
    assert "log" in kinds(play, 1) and not play.count.free, play.told()
    assert len(play.published) == 5


@pytest.mark.parametrize("fault", ["silent", "busy", "garbage", "unsigned", "fork", "shrinks", "short"])
@pytest.mark.parametrize("kind", ["rfc6962", "static"])
def test_log_that_fails(fault: str, kind: str, tmp_path: Path) -> None:
    log = Log(kind="static" if kind == "static" else "rfc6962", bad=((1, fault), (2, fault)))  # type: ignore[arg-type]
    play = played(world(4, log=log), tmp_path)
    assert len(play.published) == 4 and not play.count.free
    assert [("log" in kinds(play, epoch)) for epoch in range(4)] == [False, True, True, False], play.told()


@pytest.mark.parametrize("days", [40, 400])
def test_clock_that_is_ahead_once(days: int, tmp_path: Path) -> None:
    """A run whose clock was far ahead prunes nothing that lives. Until the clock is behind it no epoch is made."""
    made = world(5, more=[replace(cert(1, 0x200, 1, 1, on=2), until=at(24 * 20) // 1000)])
    made = replace(made, rebase_after=1, clock=((1, made.moments[1] + days * DAY),))
    made = replace(made, moments=(*made.moments, at(24 * (days + 10))))
    play = played_by_clock(made, tmp_path)
    assert [outcome.status in (0, 10) for outcome in play.outcomes] == [True, True, False, False, False, True]
    assert not play.count.free, play.told()


def played_by_clock(made: World, folder: Path) -> Play:
    with Play(made, folder) as play:
        play.play()
    assert not play.findings and not play.misled, play.told()
    return play


def test_clock_that_is_behind_once(tmp_path: Path) -> None:
    """Its run is refused, and the site stays as it was."""
    made = world(4)
    play = played_by_clock(replace(made, clock=((2, made.moments[0] - HOUR),)), tmp_path)
    assert [outcome.status for outcome in play.outcomes] == [0, 0, 3, 0], play.told()
    assert not play.count.free


@pytest.mark.parametrize(
    "fault", ["swap", "foreign", "delta", "indirect", "unnamed", "cut", "garbage", "stale", "edge"]
)
def test_crl_that_is_not_to_be_accepted(fault: str, tmp_path: Path) -> None:
    """It isn't taken, whether another one is kept (then that one counts, while it is in time) or not."""
    odd = Issuer(crls=2, valid=5 * HOUR, bad=((0, 1, fault), (2, 0, fault), (3, 0, fault)))  # type: ignore[arg-type]
    made = world(5, odd, more=[replace(cert(1, 0x200 + k, 0, 1, on=2), crl=k % 2) for k in range(8)])
    play = played(replace(made, moments=tuple(moment + 137 for moment in made.moments)), tmp_path)
    key = play.shown.things.authorities[1].hash
    assert [key in one.enrolled for one in play.published] == [False, True, True, False, True], play.told()
    assert not play.count.free
