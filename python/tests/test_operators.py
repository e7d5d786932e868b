"""The steps of docs/OPERATORS.md for another machine, a backup and a greater delay, done as they stand there."""

import shutil
import subprocess
from dataclasses import replace
from pathlib import Path

import pytest

from desk import HOUR, NOW, Publisher
from web.leaving import cert, world
from web.play import Play
from web.world import Log, at
from web.world import HOUR as AN_HOUR

pytestmark = pytest.mark.usefixtures("plain_charts")

Version = tuple[int, int]
"""Generation and epoch, by which clients know a manifest."""


def copied(desk: Publisher, folder: Path) -> Publisher:
    """The same publisher in another folder, by a copy that is made while no run goes on."""
    shutil.rmtree(folder, ignore_errors=True)
    made = replace(desk, folder=folder)
    # That began a publisher with a key of its own, in whose place the copy comes.
    lock = desk.folder / "state" / "lock"
    subprocess.run(["flock", str(lock), "cp", "-a", f"{desk.folder}/.", str(folder)], check=True)
    return made


def ran(desk: Publisher, hours: int) -> Version:
    """One run, which is published."""
    outcome = desk.run(NOW + hours * HOUR)
    assert outcome.status == 0 and outcome.row is not None, outcome.why
    return outcome.row.generation, outcome.row.epoch


def test_another_machine(tmp_path: Path) -> None:
    """There the site is the same, byte for byte, and goes on as it would have; and it is made from the state where it
    wasn't copied, but for the signatures of manifests that are no longer published."""
    here = Publisher(tmp_path / "here")
    for hours in (0, 1):
        ran(here, hours)
    there = copied(here, tmp_path / "there")
    assert ran(there, 1) == (1, 2)
    assert there.site() == here.site()
    assert ran(there, 2) == ran(here, 2) == (1, 3)
    assert there.site() == here.site()
    shutil.rmtree(there.folder / "site")
    assert ran(there, 2) == (1, 3)
    made, whole = there.site(), here.site()
    assert made.items() <= whole.items()
    assert len(whole) == len(made) + 2 and all(name.endswith(".minisig") for name in whole.keys() - made.keys())


def test_a_backup(tmp_path: Path) -> None:
    """Once more than epochs are missing, and it is newer than what clients have."""
    desk = Publisher(tmp_path / "desk")
    ran(desk, 0)
    backup = copied(desk, tmp_path / "backup")
    clients_have = [ran(desk, hours) for hours in (1, 2)][-1]
    restored = copied(backup, tmp_path / "desk")
    versions = [ran(restored, hours) for hours in (3, 4, 5)]
    assert [version > clients_have for version in versions] == [False, False, True]


def test_a_backup_from_before_rebases(tmp_path: Path) -> None:
    """As many of these runs with `rebase_after = 1` make up for the rebases."""
    desk = Publisher(tmp_path / "desk")
    ran(desk, 0)
    backup = copied(desk, tmp_path / "backup")
    desk.write("rebase_after = 2")
    clients_have = [ran(desk, hours) for hours in (1, 2)][-1]
    assert clients_have == (3, 3)
    restored = copied(backup, tmp_path / "desk")
    restored.write("rebase_after = 1")
    versions = [ran(restored, hours) for hours in (3, 4)]
    restored.write()
    versions.append(ran(restored, 5))
    assert [version > clients_have for version in versions] == [False, False, True]


def test_a_state_that_is_lost(tmp_path: Path) -> None:
    """With `rebase_after = 1` each run makes one generation, until they are above that of the clients."""
    desk = Publisher(tmp_path / "desk")
    desk.write("rebase_after = 1")
    clients_have = [ran(desk, hours) for hours in (0, 1)][-1]
    assert clients_have == (3, 2)
    shutil.rmtree(desk.folder / "state")
    versions = [ran(desk, hours) for hours in (2, 3, 4)]
    assert [version > clients_have for version in versions] == [False, False, True]


def test_a_greater_delay(tmp_path: Path) -> None:
    """Coverage stands still until it is right again, and no answer is wrong."""
    certs = [cert(1, 0.5), cert(2, 4.5, on=5), cert(3, 9, 13), cert(4, 15, on=15.5)]
    log = Log(mmd=AN_HOUR, first_at=at(1), conf=((2, 6 * AN_HOUR),))
    with Play(world(5, certs, log), tmp_path) as play:
        play.play()
    assert not play.findings and not play.misled, play.told()
    assert [outcome.status for outcome in play.outcomes] == [0] * 5, play.told()
    (name,) = (log.id for log in play.shown.things.logs)
    covered = [published.coverage.get(name) for published in play.published]
    low = at(4) + 1
    assert covered == [None, (low, at(7)), (low, at(7)), (low, at(10)), (low, at(14))], play.told()
