"""A history that is cut into places: what is published is, at each place, what the whole has there; all or nothing."""

from dataclasses import replace
from pathlib import Path
from typing import Any

import pytest

from clubcard.cutting import Sizes
from clubcard.engine import Divided, Engine, Published
from clubcard.manifest import from_json
from clubcard.places import Places, told
from clubcard.publish import chain, sums
from clubcard.publish.epoch import Limits, NoEpoch
from clubcard.publish.run import NO_EPOCH, WITH_ALARMS, run, split
from clubcard.publish.state import State
from clubcard.publish.status import gather, lines
from placed import COUNT, ISSUERS, LARGE, PLACES, Placed, entry_of, place_of
from spooled import Seen, at, dumped, key_of, log_of, reference

EPOCHS = 3
pytestmark = pytest.mark.usefixtures("plain_charts")
NAMES = {f"{number:04}" for number in range(COUNT)} - {LARGE} | {f"{LARGE}.0000", f"{LARGE}.0001"}


def largest(placed: Placed, epoch: int) -> int:
    """How many of the new entries of an epoch are at the place that has the most."""
    return max(sum(place_of(each) == name for each in placed.entries(epoch)) for name in PLACES.names())


@pytest.fixture(name="placed", scope="module", params=[False, True], ids=["one slice", "several slices"])
def three_epochs(request: pytest.FixtureRequest, tmp_path_factory: pytest.TempPathFactory) -> Placed:
    """With several slices a job takes what a place has, and no more."""
    placed = Placed.of(tmp_path_factory.mktemp("placed"))
    if request.param:
        placed.world.limits = Limits(entries=max(largest(placed, epoch + 1) for epoch in range(EPOCHS)))
        assert placed.world.limits.entries < 40
    with pytest.MonkeyPatch.context() as patch:
        patch.setattr("clubcard.publish.charts._svg", lambda chart, figures: b"<svg/>")
        for epoch in range(1, EPOCHS + 1):
            row = placed.epoch(epoch)
            assert (row.epoch, row.parts, row.shown, row.alarms) == (epoch, epoch, 40, ())
            assert placed.world.ask(placed.seen) == placed.truth()
    return placed


def test_each_place_has_the_job_of_the_whole_there(placed: Placed) -> None:
    newest = chain.newest(placed.world.state)
    assert newest is not None and set(newest.places) == NAMES == set(PLACES.names())
    for name, held in newest.places.items():
        assert held.jobs is not None and held.ledger.parent.name == name
        for job, file in zip(placed.jobs, held.jobs):
            crls = [pair for pair in job.crls if name[:4] == f"{reference.issuer_place(pair[0], COUNT):04}"]
            entries = [entry_of(each) for each in placed.seen if place_of(each) == name]
            here = [each for each in entries if any(each.leaf == other.leaf for other in job.entries)]
            assert file.read_bytes() == reference.Job(job.epoch, job.moment, job.ranges, crls, here).bytes()


def test_the_sums_are_those_of_the_whole(placed: Placed) -> None:
    """By the second program, of whole and places, and by the state."""
    history, row = placed.history, chain.newest_epoch(placed.world.state)
    assert row is not None
    whole = history.report(EPOCHS - 1).split()
    fields = dict(zip(whole[::2], map(int, whole[1::2])))
    assert (row.universe, fields["issuers"]) == (fields["universe"], len(ISSUERS)) == (120, 4)
    assert row.revoked == placed.truth().count("revoked") > 20


def test_the_manifest_names_all_places(placed: Placed) -> None:
    manifest = from_json((placed.world.config.site / "manifest.json").read_bytes())
    assert manifest.places == PLACES and not manifest.parts
    assert [each.place for each in manifest.chains] == PLACES.names()
    for held in manifest.chains:
        assert [part.kind for part in held.parts] == ["snapshot", "delta", "delta"]
        assert all((placed.world.config.site / part.path).stat().st_size == part.length for part in held.parts)
    page = (placed.world.config.site / "index.html").read_text()
    assert all(f"Parts of place {name}" in page for name in NAMES)
    told = "\n".join(lines(gather(placed.world.config, placed.world.state, at(13))))
    assert f"at places: {PLACES}" in told


# ---------- what is lost
def shown(placed: Placed) -> dict[str, bytes]:
    """What clients take of the site."""
    files = [path for path in placed.world.config.site.rglob("manifest*") if path.is_file()]
    files += (placed.world.config.site / "parts").glob("*")
    return {path.name: path.read_bytes() for path in files}


def lost(placed: Placed, epoch: int) -> str:
    """Why an epoch isn't published, which leaves all as it was; with the real program the next run makes it."""
    world, before = placed.world, dumped(placed.world)
    site = shown(placed)
    with pytest.raises(NoEpoch) as fault:
        world.make(at(4 * epoch), placed.lists(epoch))
    placed.publish()
    assert dumped(world) == before and shown(placed) == site
    return str(fault.value)


def losing(by: str, record: bytes) -> Any:
    """A cut whose last piece, or the first one with such a record, lost its last record of this kind."""
    cut = Engine.cut

    def made(self: Engine, by_: str, job: Any, pieces: Any) -> Divided:
        said = cut(self, by_, job, pieces)
        for piece in map(Path, pieces if by_ == by else ()):
            octets = piece.read_bytes()
            if record == b"\3" and octets[24:].count(log_of(0)) > 1:
                piece.write_bytes(octets[: octets.rindex(b"\3" + log_of(0))] + b"\0")
                break
            if record == b"\2" and any(b"\2" + key_of(issuer) in octets for issuer in ISSUERS):
                start = min(octets.find(b"\2" + key_of(i)) for i in ISSUERS if b"\2" + key_of(i) in octets)
                length = 37 + int.from_bytes(octets[start + 33 : start + 37], "big")
                piece.write_bytes(octets[:start] + octets[start + length :])
                break
        return said

    return made


SLICES = pytest.mark.parametrize("most", [1 << 22, 25], ids=["one slice", "several slices"])


@SLICES
@pytest.mark.parametrize("by", ["issuer", "identity"])
@pytest.mark.parametrize("record", [b"\2", b"\3"], ids=["a CRL", "an entry"])
def test_a_lost_record(tmp_path: Path, monkeypatch: pytest.MonkeyPatch, by: str, record: bytes, most: int) -> None:
    """It is found where it is lost; and where the bytes aren't compared, by the sums."""
    placed = Placed.of(tmp_path)
    placed.epoch(1)
    placed.world.limits = Limits(entries=most)
    placed.prepare(2)
    with monkeypatch.context() as patch:
        patch.setattr(Engine, "cut", losing(by, record))
        assert "its places have" in lost(placed, 2)
        patch.setattr("clubcard.cutting.sizes_of", lambda job: Sizes(0, 0, 0))
        why = lost(placed, 2)
        assert "of the whole job: some is lost" in why or "places by identity have the same issuers" in why
    assert placed.world.make(at(8), placed.lists(2)).row.shown == 40
    assert placed.world.ask(placed.seen) == placed.truth()


def test_a_lost_slice(tmp_path: Path, monkeypatch: pytest.MonkeyPatch) -> None:
    placed = Placed.of(tmp_path)
    placed.world.limits = Limits(entries=25)
    placed.prepare(1)
    with monkeypatch.context() as patch:
        merge = Engine.merge
        patch.setattr(Engine, "merge", lambda self, head, job, pieces: merge(self, head, job, pieces[:-1]))
        assert "of the whole job: some is lost" in lost(placed, 1)
    assert placed.world.make(at(4), placed.lists(1)).row.shown == 40
    assert not any(path.is_file() for path in (placed.world.state.folder / "work").rglob("*"))
    assert placed.world.ask(placed.seen) == placed.truth()


def test_places_that_hold_another_universe(tmp_path: Path, monkeypatch: pytest.MonkeyPatch) -> None:
    placed = Placed.of(tmp_path)
    placed.prepare(1)
    with monkeypatch.context() as patch:
        summed = sums.summed
        patch.setattr(sums, "summed", lambda *words: replace(summed(*words), universe=39))
        assert "39 identities of whom is enrolled, the state 40" in lost(placed, 1)
    assert placed.world.make(at(4), placed.lists(1)).row.universe == 40


# ---------- a plan stays
@pytest.mark.parametrize("first, then", [(PLACES, None), (None, PLACES), (PLACES, Places("issuer", 4))])
def test_another_plan_is_refused(tmp_path: Path, first: Places | None, then: Places | None) -> None:
    placed = Placed.of(tmp_path, first)
    placed.epoch(1)
    site = shown(placed)
    placed.world.state.close()
    config = replace(placed.world.config, places=then, logs=(), issuers=())
    outcome = run(config, at(8))
    assert outcome.status == NO_EPOCH and outcome.why is not None
    remedy = "clubcard-publish split" if first is None else "begin a new chain"
    assert remedy in outcome.why and f"has {told(first)}, and CONFIG has {told(then)}" in outcome.why
    assert site == shown(placed)


# ---------- the chain begins anew, and what fits
def test_rebases(tmp_path: Path) -> None:
    """All places begin anew together; what no row names is gone."""
    placed = Placed.of(tmp_path, rebase_after=2)
    rows = [placed.epoch(epoch) for epoch in range(1, 6)]
    assert [(row.generation, row.rebased) for row in rows] == [(1, False), (2, True), (3, True), (4, True), (5, True)]
    assert not any(row.alarms for row in rows)
    assert placed.world.ask(placed.seen) == placed.truth()
    manifest = from_json((placed.world.config.site / "manifest.json").read_bytes())
    assert [[part.kind for part in each.parts] for each in manifest.chains] == [["snapshot"]] * len(NAMES)
    state = placed.world.state
    text = "\n".join(state.db.iterdump())
    files = [path for path in (state.folder / "chain").rglob("*") if path.is_file()]
    assert files and all(state.named(path) in text for path in files)


def test_a_full_place(tmp_path: Path) -> None:
    """It lets what is newly covered wait, and is named; the others have room."""
    placed = Placed.of(tmp_path)
    sizes = [sum(place_of(each) == name for each in placed.entries(1)) for name in PLACES.names()]
    placed.world.limits = Limits(identities=max(sizes) - 1)
    row = placed.epoch(1)
    assert 0 < row.shown < 40
    (alarm,) = [alarm.text for alarm in row.alarms if alarm.kind == "room"]
    largest = PLACES.names()[sizes.index(max(sizes))]
    assert f"place {largest} takes {max(sizes) - 1} identities" in alarm
    placed.world.limits = Limits()
    assert placed.world.make(at(8), placed.lists(1)).row.waiting == 0
    assert placed.world.ask(placed.seen) == placed.truth()


def test_a_place_with_more_than_a_job_takes(tmp_path: Path) -> None:
    """What is newly covered is cut by what that place has, and the next epoch goes on from there."""
    placed = Placed.of(tmp_path)
    placed.world.limits = Limits(entries=largest(placed, 1) - 1)
    row = placed.epoch(1)
    assert placed.world.limits.entries < row.shown < 40 and [alarm.kind for alarm in row.alarms] == ["room"]
    assert f"a job takes {placed.world.limits.entries} entries" in row.alarms[0].text
    row = placed.world.make(at(8), placed.lists(1)).row
    assert (row.waiting, row.alarms) == (0, ()) and placed.world.ask(placed.seen) == placed.truth()


def test_places_that_are_to_be_split(tmp_path: Path, monkeypatch: pytest.MonkeyPatch) -> None:
    """Those alone that hold more than two thirds of what they take are named, and behind a split none is. No place of
    what they hold is asked for."""
    placed = Placed.of(tmp_path)
    sizes = {name: sum(place_of(each) == name for each in placed.entries(1)) for name in PLACES.names()}
    limit = max(sizes.values()) + 1
    placed.world.limits = Limits(identities=limit)
    assert placed.epoch(1).alarms == ()
    named = [name for name, size in sizes.items() if 3 * size > 2 * limit]
    assert 0 < len(named) < len(sizes)
    with monkeypatch.context() as patch:
        patch.delattr(Places, "place_of")
        row = placed.world.make(at(8), placed.lists(1)).row
    assert [alarm.text.partition(" holds")[0] for alarm in row.alarms] == [f"place {name}" for name in named]
    placed.publish()
    finer = Places("issuer", COUNT, {f"{number:04}": 4 for number in range(COUNT)})
    placed.world.configure(places=finer)
    assert split(placed.world.config).status == WITH_ALARMS
    assert placed.world.make(at(12), placed.lists(1)).row.alarms == ()


def test_a_crl_that_the_program_refuses(tmp_path: Path) -> None:
    """The issuer is named, though its CRL has another number at its place."""
    placed = Placed.of(tmp_path)
    lists = placed.prepare(1)
    enrolment = placed.world.enrolment(lists)
    bad = placed.world.crl(3, [], octets=b"\x30\x00")
    crls = enrolment.crls | {key_of(3): (bad,)}
    row = placed.world.made(at(4), replace(enrolment, crls=crls)).row
    assert [issuer.enrolled for issuer in row.issuers] == [True, True, True, False]
    assert "Issuer 3" in row.alarms[0].text and row.shown == 30


@SLICES
@pytest.mark.parametrize("time", [at(99), at(1)], ids=["uncovered", "late"])
def test_an_entry_that_is_counted_otherwise(tmp_path: Path, time: int, most: int) -> None:
    """It is found by halves, and set aside, as without places; also where a job takes less than all places have."""
    placed = Placed.of(tmp_path)
    placed.epoch(1)
    placed.world.limits = Limits(entries=most)
    lists = placed.prepare(2)
    wrong = [Seen(0, at(5), issuer, b"\x77") for issuer in ISSUERS]
    placed.world.write(wrong)
    # Of one of them the state names another record, which the program takes for uncovered, or for late.
    placed.world.write([Seen(0, time, 0, b"\x78")])
    other = "FROM entry WHERE serial = x'78'"
    change = f"UPDATE entry SET start = (SELECT start {other}), segment = (SELECT segment {other})"
    placed.world.state.db.execute(f"{change} WHERE serial = x'77' AND issuer = 1")
    placed.world.state.db.execute(f"DELETE {other}")
    row = placed.world.make(at(8), lists).row
    assert row.shown == 40 + len(wrong) - 1
    assert [alarm.kind for alarm in row.alarms] == ["count"] and "serial 77" in row.alarms[0].text
    assert placed.world.ask(placed.seen) == placed.truth()


def test_all_by_identity(tmp_path: Path) -> None:
    placed = Placed.of(tmp_path, Places("identity", 3))
    for epoch in (1, 2):
        assert placed.epoch(epoch).shown == 40
    assert placed.world.ask(placed.seen) == placed.truth()


# ---------- lines
LINE = Published(2, 1, 3, 10, 4, 0, 1, 2, 3, 5)


def test_lines_add_up() -> None:
    """Issuers add up by issuer, and are the same by identity; of all else there is the sum."""
    names = PLACES.names()
    total = sums.summed(PLACES, {name: LINE for name in names})
    assert total == Published(2, 1, 3 * COUNT, 40, 16, 0, 4, 8, 12, 20)
    by_identity = Places("identity", 4)
    assert sums.summed(by_identity, {name: LINE for name in by_identity.names()}) == replace(total, issuers=3)
    assert sums.summed(None, {"whole": LINE}) == LINE
    for place, change, says in (
        (names[1], {"epoch": 1}, "has epoch 1 part 1"),
        (names[2], {"part": 0}, "has epoch 2 part 0"),
        (f"{LARGE}.0001", {"issuers": 2}, f"{LARGE}.0000 3, {LARGE}.0001 2"),
    ):
        with pytest.raises(NoEpoch, match=says):
            sums.summed(PLACES, {name: replace(LINE, **(change if name == place else {})) for name in names})
    whole = replace(total, late=0, accepted=32)
    sums.test_whole(total, whole)
    for change in ({"issuers": 8}, {"unread": 1}, {"uncovered": 3}, {"unenrolled": 9}, {"accepted": 31}):
        with pytest.raises(NoEpoch, match="of the whole job: some is lost"):
            sums.test_whole(total, replace(whole, **change))


def test_states_of_other_versions(tmp_path: Path) -> None:
    """One of before gets the tables of places; one with places is of a format that earlier programs refuse."""
    before = Placed.of(tmp_path / "before", None)
    before.epoch(1)
    for kind, name in (("VIEW", "any_part"), ("VIEW", "any_chain"), ("TABLE", "place_part"), ("TABLE", "place_chain")):
        before.world.state.db.execute(f"DROP {kind} {name}")
    before.world.state.close()
    before.world.state = State.open(before.world.config.state)
    assert before.epoch(2).parts == 2 and before.world.ask(before.seen) == before.truth()
    assert before.world.state.meta("format") == "1" and before.world.state.places() is None
    placed = Placed.of(tmp_path / "placed")
    assert placed.world.state.meta("format") == "1"
    placed.epoch(1)
    assert placed.world.state.meta("format") == "2" and placed.world.state.places() == PLACES
