"""Random histories of a small web: whatever happens, no answer of the published store is wrong."""

import os
from dataclasses import replace
from pathlib import Path
from unittest import mock

import pytest
from hypothesis import HealthCheck, Phase, given, settings
from hypothesis import strategies as st

from clubcard.publish import spool
from web.play import Play
from web.world import HOUR, LONG, MINUTE, Cert, CrlFault, Entry, Issuer, Log, LogFault, World, at

STEP = 4
"""Hours between two epochs."""
ASKED = os.environ.get("CLUBCARD_HISTORIES")
"""How many histories are wanted, other ones in each run; without it the same few."""
EXAMPLES = int(ASKED or 40)
CRL_FAULTS: list[CrlFault] = ["missing", "cut", "garbage", "stale", "edge", "swap", "foreign", "delta", "older"]
LOG_FAULTS: list[LogFault] = ["silent", "busy", "garbage", "unsigned", "old", "short", "fork", "ahead", "grows"]


@st.composite
def logs(draw: st.DrawFn, epochs: int) -> Log:
    """A log that keeps its word but for its faults."""
    bad = draw(st.dictionaries(st.integers(0, epochs - 1), st.sampled_from(LOG_FAULTS), max_size=2))
    return Log(
        mmd=draw(st.sampled_from([MINUTE, HOUR, 4 * HOUR])),
        kind=draw(st.sampled_from(["rfc6962", "static"])),
        every=draw(st.sampled_from([1000, HOUR])),
        join=draw(st.integers(0, epochs - 1)),
        leave=draw(st.sampled_from([None, None, None, epochs - 1])),
        first_at=draw(st.sampled_from([None, None, at(1), at(5)])),
        conf=draw(st.sampled_from([(), (), ((1, 3 * HOUR),)])),
        bad=tuple(sorted(bad.items())),
    )


@st.composite
def issuers(draw: st.DrawFn, epochs: int) -> Issuer:
    crls = draw(st.integers(1, 2))
    places = st.tuples(st.integers(0, epochs - 1), st.integers(0, crls - 1))
    bad = draw(st.dictionaries(places, st.sampled_from(CRL_FAULTS), max_size=3))
    faults = [(epoch, place, fault) for (epoch, place), fault in sorted(bad.items()) if fault != "swap" or crls > 1]
    return Issuer(
        crls=crls,
        kind=draw(st.sampled_from(["root", "intermediate", "crossed"])),
        points=draw(st.sampled_from(["url", "named", "none" if crls == 1 else "url"])),
        valid=draw(st.sampled_from([None, HOUR, 5 * HOUR])),
        join=draw(st.sampled_from([None, 0, 0, 0, 1, 2])),
        leave=draw(st.sampled_from([None, None, None, 2, 3])),
        bad=tuple(faults),
    )


@st.composite
def certs(draw: st.DrawFn, made: list[Issuer], held: list[Log], epochs: int, serial: int, broken: bool) -> Cert:
    """A certificate, revoked or held or not, with timestamps of each log at most once. `broken`: logs may merge behind
    their MMD, or never."""
    hours = st.integers(-4, 4 * STEP * epochs).map(lambda quarters: quarters / 4)
    issuer, born = draw(st.integers(0, len(made) - 1)), draw(hours)
    entries = []
    for place in draw(st.sets(st.integers(0, len(held) - 1), min_size=1)):
        mmd, time = held[place].mmd, at(born) + serial
        delays = [0, mmd // 2, mmd] + [mmd + STEP * HOUR, mmd + 2 * STEP * HOUR, None] * broken
        delay, whole = draw(st.sampled_from(delays)), draw(st.sampled_from([False, False, False, True]))
        entries.append(Entry(place, time, None if delay is None else time + delay, whole))
    on = born + draw(st.sampled_from([0.5, 3, 6]))
    revs = draw(st.sampled_from([(), (), ((at(on), None),), ((at(on), at(on + 5)),)]))
    until = draw(st.sampled_from([LONG, LONG, at(born + 7) // 1000]))
    crl = draw(st.integers(0, made[issuer].crls - 1))
    return Cert(issuer, serial, until, tuple(entries), revs, crl, keeps=draw(st.booleans()))


@st.composite
def histories(draw: st.DrawFn, broken: bool = False) -> World:
    """Up to four epochs with up to twelve certificates. The clock may be ahead in one of them."""
    epochs = draw(st.integers(2, 4))
    held = draw(st.lists(logs(epochs), min_size=1, max_size=2))
    made = draw(st.lists(issuers(epochs), min_size=1, max_size=3))
    count = draw(st.integers(1, 12))
    issued = tuple(draw(certs(made, held, epochs, 0x21 + number, broken)) for number in range(count))
    moments = tuple(at(STEP * (epoch + 1)) + draw(st.sampled_from([0, 137])) for epoch in range(epochs))
    wrong = draw(st.sampled_from([None, None, None, *range(epochs)]))
    ahead = draw(st.sampled_from([2, 6, 1000])) * HOUR
    # Where a log's clock is ahead as well as the publisher's nobody can know.
    held = [replace(log, bad=tuple(b for b in log.bad if b != (wrong, "ahead"))) for log in held]
    return World(
        moments,
        tuple(held),
        tuple(made),
        issued,
        clock=() if wrong is None else ((wrong, moments[wrong] + ahead),),
        rebase_after=draw(st.sampled_from([1, 2, 3])),
        grace=draw(st.sampled_from([0, STEP * HOUR])),
        patience=draw(st.sampled_from([1, 8])),
    )


def played(world: World, folder: Path) -> Play:
    """Plays a world: no answer is wrong, and each epoch is made whose moment is behind those before."""
    with Play(world, folder) as play:
        play.play()
    assert not play.findings and not play.misled, play.told()
    newest = -1
    for epoch, outcome in enumerate(play.outcomes):
        assert outcome.status in ((0, 10) if world.now(epoch) > newest else (3,)), play.told()
        newest = max(newest, world.now(epoch))
    return play


FEW = settings(
    derandomize=ASKED is None,
    max_examples=EXAMPLES,
    deadline=None,
    database=None,
    phases=[Phase.generate, Phase.shrink],
    suppress_health_check=list(HealthCheck),
)


@FEW
@given(world=histories(), run=st.sampled_from([1, 3, spool.FIRST_RUN]))
def test_histories(plain_charts: None, tmp_path_factory: pytest.TempPathFactory, world: World, run: int) -> None:
    """Where logs keep their word each certificate that is covered, with its issuer, has an answer that was owed; also
    where the first entry that is taken says alone by when those below it were merged."""
    with mock.patch.object(spool, "FIRST_RUN", run):
        play = played(world, tmp_path_factory.mktemp("history"))
    assert not play.count.free, play.told()


@FEW
@given(world=histories(broken=True))
def test_logs_that_break_their_word(plain_charts: None, tmp_path_factory: pytest.TempPathFactory, world: World) -> None:
    """Where logs merge too late, no answer is wrong but by the timestamps that came too late."""
    played(world, tmp_path_factory.mktemp("history"))
