"""Eight epochs with 2,000 certificates over real servers: no answer of the published store is wrong."""

import pytest

from web.network import Servers
from web.play import Play
from web.worlds import eight_epochs

COUNT = 2000


@pytest.fixture(name="played", scope="module")
def played_world(tmp_path_factory: pytest.TempPathFactory) -> Play:
    folder = tmp_path_factory.mktemp("epochs")
    with Servers(folder / "nginx") as servers, Play(eight_epochs(COUNT), folder, servers) as play:
        return play.play()


def alarmed(play: Play, epoch: int) -> set[tuple[str, str]]:
    """An epoch's alarms: their kinds, and the name of the issuer or log that they tell."""
    names = [f"Issuer {place}" for place in range(7)] + [f"Log {place}" for place in range(3)]
    return {(alarm.kind, name) for alarm in play.outcomes[epoch].alarms for name in names + [""] if name in alarm.text}


def test_no_wrong_verdict(played: Play) -> None:
    assert not played.findings and not played.misled, played.told()
    # Each certificate that a part covers, with its issuer, was owed an answer: no log broke its word.
    assert played.count.free == 0
    assert played.count.answers["good"] > 10000 and played.count.answers["revoked"] > 1000
    assert played.truth.asked > 5000


def test_each_epoch_is_published(played: Play) -> None:
    assert [one.epoch for one in played.published] == list(range(1, 9)), played.told()
    assert all(outcome.status in (0, 10) for outcome in played.outcomes)
    assert [outcome.status == 10 for outcome in played.outcomes] == [bool(o.alarms) for o in played.outcomes]


def test_enrolled(played: Play) -> None:
    """Who is enrolled, by the manifest and by the newest part."""
    key = {authority.hash: place for place, authority in enumerate(played.shown.things.authorities)}
    enrolled = [{key[one] for one in published.enrolled} for published in played.published]
    named = {0, 1, 2, 3, 5, 6}
    away: list[set[int]] = [set(), set(), {5}, {5}, {6}, {6}, {1}, set()]
    assert enrolled == [named - gone | ({4} if epoch >= 4 else set()) for epoch, gone in enumerate(away)]
    for epoch, gone in enumerate(away):
        assert {("issuer", f"Issuer {place}") for place in gone} <= alarmed(played, epoch), played.told()


def test_rebases(played: Play) -> None:
    """The issuer that is away holds the first rebase back; the next epoch makes it, and another one follows."""
    assert [one.generation for one in played.published] == [1, 1, 1, 1, 2, 2, 2, 3], played.told()
    assert "held" in {kind for kind, _ in alarmed(played, 3)}


def test_the_site_says_what_waits(played: Play) -> None:
    """Each manifest's coverage holds the one before, and each log is in it from its epoch on."""
    before: dict[bytes, tuple[int, int]] = {}
    for epoch, published in enumerate(played.published):
        coverage = published.coverage
        assert len(coverage) == (2 if epoch < 3 else 3)
        assert all(coverage[log][0] <= low and high <= coverage[log][1] for log, (low, high) in before.items())
        before = coverage
