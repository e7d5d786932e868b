"""A chain begins anew: when, what it keeps, and what a killed run or a fault leaves."""

from dataclasses import replace
from pathlib import Path

import pytest

from clubcard.engine import Engine
from clubcard.publish import chain, checking, rebasing
from clubcard.publish.epoch import EpochMade
from rebased import away_world, go_on, kinds, texts, world_of
from spooled import HOUR, T, Seen, Spooled, at, config_of

ONE, TWO, THREE = b"\x01", b"\x02", b"\x03"


def files(world: Spooled) -> int:
    return len(list((world.state.folder / "chain").iterdir()))


def test_a_rebase(tmp_path: Path) -> None:
    """Behind the epoch with so many parts; revoked ones stay so, and the next epochs go on behind it."""
    world = world_of(tmp_path, rebase_after=3)
    entries = [Seen(0, at(1), 0, ONE), Seen(0, at(1), 1, TWO), Seen(0, at(5), 0, THREE), Seen(0, at(13), 0, b"\x04")]
    world.write(entries[:3])
    rows = go_on(world, [4, 8], {0: [ONE], 1: []})
    assert [row.rebased for row in rows] == [False, False]
    row = world.epoch(12, {0: [], 1: []}).row
    assert (row.epoch, row.generation, row.kind, row.parts, row.rebased) == (3, 2, "snapshot", 1, True)
    assert (row.universe, row.revoked, row.alarms) == (3, 1, ())
    release, (former,) = chain.release(world.state), chain.former(world.state)
    assert release is not None and [part.epoch for part in release.parts] == [3]
    assert (former.generation, former.ended, [part.epoch for part in former.parts]) == (1, at(12), [1, 2, 3])
    assert world.ask(entries) == ["revoked", "good", "good", "not-covered"]
    world.write(entries[3:])
    row = world.epoch(16, {0: [b"\x04"], 1: [TWO]}).row
    assert (row.epoch, row.generation, row.parts, row.kind, row.rebased) == (4, 2, 2, "delta", False)
    assert world.ask(entries) == ["revoked", "revoked", "good", "revoked"]


def test_files_of_a_chain_that_ended(tmp_path: Path) -> None:
    """Its ledger, store and jobs go at once, its parts once they aren't wanted any more."""
    world = world_of(tmp_path, rebase_after=2, keep=10 * HOUR)
    ledger_and_store = 2
    go_on(world, [4, 8], {0: []})
    assert files(world) == ledger_and_store + 2 + 1
    go_on(world, [12], {0: []})
    assert files(world) == ledger_and_store + 2 + 2 + 1
    world.configure(rebase_after=40)
    go_on(world, [16], {0: []})
    assert len(chain.former(world.state)) == 2
    go_on(world, [20], {0: []})
    assert [former.generation for former in chain.former(world.state)] == [2]
    world.state.sweep()
    names = {path.name for path in (world.state.folder / "chain").iterdir()}
    query = (
        "SELECT file FROM part UNION SELECT job FROM part UNION SELECT ledger FROM chain UNION SELECT store FROM chain"
    )
    assert names == {Path(name).name for (name,) in world.state.db.execute(query) if name}


def test_what_is_pruned(tmp_path: Path) -> None:
    """Identities that expired before the moment less the grace, with their entries, and the segments of these."""
    world = world_of(tmp_path, rebase_after=2, grace=2 * HOUR)
    dates = [T // 1000 + 6 * 3600 - 1, T // 1000 + 6 * 3600, None]
    entries = [Seen(0, at(1), 0, bytes([place]), until) for place, until in enumerate(dates, 1)]
    for entry in entries:
        world.write([entry])
    go_on(world, [4], {0: [ONE, TWO]})
    row = world.epoch(8, {0: []}).row
    assert (row.rebased, row.universe, row.revoked) == (True, 2, 1)
    assert world.state.db.execute("SELECT place FROM entry").fetchall() == [(1,), (2,)]
    assert len(list((world.state.folder / "spool").iterdir())) == 2
    assert world.ask(entries[1:]) == ["revoked", "good"]
    assert not world.epoch(12, {0: []}).row.alarms


def test_a_clock_that_is_far_ahead(tmp_path: Path) -> None:
    """It prunes nothing that lives."""
    world = world_of(tmp_path, rebase_after=1)
    entry = Seen(0, at(1), 0, ONE, T // 1000 + 480 * 3600)
    world.write([entry])
    world.heads(at(4))
    row = world.make(at(960), {0: [ONE]}).row
    assert row.rebased and row.universe == 1 and world.ask([entry]) == ["revoked"]


# ---------- faults ----------
class Killed(BaseException):
    """The run ends here."""


@pytest.mark.parametrize("lists", [{0: [], 1: []}, {0: []}])
def test_a_run_that_is_killed_before_the_rebase(
    tmp_path: Path, monkeypatch: pytest.MonkeyPatch, lists: dict[int, list[bytes]]
) -> None:
    """Begun again at the same moment it ends in the same."""
    rows, worlds = [], []
    for name in ("killed", "whole"):
        world, _ = away_world(tmp_path / name)
        worlds.append(world)
        if name == "killed":
            with monkeypatch.context() as patched:
                patched.setattr(rebasing, "behind", kill)
                with pytest.raises(Killed):
                    world.epoch(8, lists)
            row = chain.history(world.state, 99)[-1]
            assert not row.rebased and not row.alarms
        made: EpochMade = world.epoch(8, lists)
        assert made.again == (name == "killed") and world.alarms.raised == list(made.row.alarms)
        rows.append(made.row)
        assert world.epoch(8, lists).row == made.row
    assert rows[0] == rows[1] and rows[0].rebased == (1 in lists)
    parts = [[part.sha256 for part in release.parts] for world in worlds if (release := chain.release(world.state))]
    assert parts[0] == parts[1]


def kill(*_: object) -> None:
    raise Killed


def test_a_run_that_is_killed_and_begun_later(tmp_path: Path, monkeypatch: pytest.MonkeyPatch) -> None:
    world, _ = away_world(tmp_path)
    with monkeypatch.context() as patched:
        patched.setattr(rebasing, "behind", kill)
        with pytest.raises(Killed):
            world.epoch(8, {0: [], 1: []})
    row = world.epoch(12, {0: [], 1: []}).row
    assert row.rebased and row.epoch == 3 and chain.release(world.state)


@pytest.mark.parametrize("word", ["rebase", "start"])
def test_a_rebase_that_fails(tmp_path: Path, monkeypatch: pytest.MonkeyPatch, word: str) -> None:
    """The epoch is published all the same, with an alarm, and the next one tries again."""
    world, entries = away_world(tmp_path)
    with monkeypatch.context() as patched:
        patched.setattr(Engine, word, full_disk)
        row = world.epoch(8, {0: [], 1: []}).row
    assert not row.rebased and kinds(row) == ["held"] and "No space left on device" in texts(row, "held")
    assert world.state.db.execute("SELECT held FROM chain").fetchall() == [(0,)]
    assert world.ask(entries) == ["revoked", "good", "good"]
    row = world.epoch(12, {0: [], 1: []}).row
    assert row.rebased and not row.alarms


def full_disk(*_: object) -> None:
    raise OSError(28, "No space left on device")


def test_a_new_chain_that_says_otherwise(tmp_path: Path, monkeypatch: pytest.MonkeyPatch) -> None:
    """It isn't taken."""
    world, _ = away_world(tmp_path)
    asked = checking.of_rebase()
    with monkeypatch.context() as patched:
        patched.setattr(checking, "of_rebase", lambda: asked.replace("k.revoked IS NOT NULL FROM", "0 FROM", 1))
        row = world.epoch(8, {0: [], 1: []}).row
    assert not row.rebased and "the new store says REVOKED of issuer" in texts(row, "held")
    assert [former.generation for former in chain.former(world.state)] == []


def test_a_program_that_keeps_others(tmp_path: Path, monkeypatch: pytest.MonkeyPatch) -> None:
    """It is an alarm: the two read an identity otherwise."""
    world, _ = away_world(tmp_path)
    rebase = Engine.rebase
    monkeypatch.setattr(Engine, "rebase", lambda *words: replace(rebase(*words), universe=9))
    row = world.epoch(8, {0: [], 1: []}).row
    assert row.rebased and "keeps identities 9 revoked 1, and the state 3 and 1" in texts(row, "count")


def test_config_is_asked_at_each_step(tmp_path: Path) -> None:
    """A chain that is longer than a new CONFIG says begins anew behind the next epoch."""
    world = world_of(tmp_path, rebase_after=40)
    go_on(world, [4, 8, 12], {0: []})
    world.config = config_of(tmp_path, (0, 1), (0,), rebase_after=1)
    assert world.epoch(16, {0: []}).row.rebased
