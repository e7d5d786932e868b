"""The workflow on this machine, held against one `gather` of all pages and one `snapshot` or `delta`."""

import json
import os
import signal
import subprocess
from collections.abc import Iterable
from dataclasses import replace
from pathlib import Path

import pytest
from reference import T

from fleet.plan import HEAD, MADE
from fleet.tests.made_epochs import LOGS, PROJECT, World, make_world, page_of, program, wait_until


def gathered(world: World, folder: Path) -> Path:
    """The job of all pages, a log behind the other, without pieces."""
    job: Path = world.folder / HEAD
    for log in sorted(LOGS):
        pages = sorted((world.epoch.parent / log.hex()[:8]).iterdir(), key=lambda page: int(page.stem))
        longer = folder / f"{log.hex()}.job"
        program("gather", job, log.hex(), longer, *pages)
        job = longer
    return job


def bytes_of(world: World) -> dict[str, bytes]:
    """What was made of the whole, and what names it."""
    files = [*(f"whole/{name}" for name in MADE), "published.json"]
    return {name: (world.folder / name).read_bytes() for name in files}


def times(world: World) -> dict[str, int]:
    """When each file was put in place."""
    return {str(path): path.stat().st_mtime_ns for path in world.folder.glob("[pw]*/**/*") if path.is_file()}


def left(world: World) -> Iterable[Path]:
    """What was half written and isn't removed."""
    return (path for path in world.folder.rglob(".*.new") if ".snakemake" not in path.parts)


@pytest.fixture(name="first", scope="module")
def first_epoch(tmp_path_factory: pytest.TempPathFactory) -> World:
    """The first epoch, published."""
    world = make_world(tmp_path_factory.mktemp("fleet"))
    done = world.run()
    assert done.returncode == 0, done.stderr
    return world


def test_it_makes_what_one_machine_makes(first: World, tmp_path: Path) -> None:
    assert len(list(first.folder.glob("pieces/*/*/whole.job"))) == 6
    job, part, ledger, store = (tmp_path / name for name in MADE)
    program("snapshot", gathered(first, tmp_path), part, ledger, 1)
    program("start", part, store)
    made = bytes_of(first)
    assert made["whole/job"] == first.job.bytes()
    assert [made[f"whole/{file.name}"] for file in (part, ledger, store)] == [
        file.read_bytes() for file in (part, ledger, store)
    ]
    assert not list(left(first))


def adopted(world: World, folder: Path) -> World:
    """An epoch as one that was made elsewhere."""
    files = [world.folder / "whole" / name for name in ("ledger", "store", "job")]
    subprocess.run([PROJECT / "fleet" / "adopt.py", folder, *files], check=True)
    return replace(world, folder=folder / "1")


@pytest.mark.parametrize("is_adopted", [False, True])
def test_a_second_epoch_is_a_delta(first: World, tmp_path: Path, is_adopted: bool) -> None:
    second = make_world(tmp_path, 2, adopted(first, tmp_path / "adopted") if is_adopted else first)
    done = second.run()
    assert done.returncode == 0, done.stderr
    part, ledger, store = (tmp_path / name for name in ("part", "ledger", "store"))
    before = first.folder / "whole"
    program("delta", gathered(second, tmp_path), before / "ledger", part, ledger, 1)
    program("install", before / "store", part, store)
    made = bytes_of(second)
    assert made["whole/job"] == second.job.bytes()
    assert all(made[f"whole/{file.name}"] == file.read_bytes() for file in (part, ledger, store))
    said = json.loads(made["published.json"])["said"]["whole"]
    assert (said["epoch"], said["part"], said["accepted"]) == (2, 1, 2970)


def test_a_chain_that_a_rebase_began_elsewhere_is_rebased(first: World, tmp_path: Path) -> None:
    before, moment = first.folder / "whole", T + 2000
    part, ledger, store, new, last, end = (tmp_path / str(number) for number in range(6))
    program("rebase", before / "ledger", 0, part, ledger, 1)
    program("start", part, store)
    subprocess.run([PROJECT / "fleet" / "adopt.py", tmp_path / "adopted", ledger, store, before / "job"], check=True)
    adopted_one = replace(first, folder=tmp_path / "adopted" / "1")
    second = make_world(tmp_path, 2, adopted_one, f"[rebase]\nmoment = {moment}")
    done = second.run()
    assert done.returncode == 0, done.stderr
    program("rebase", ledger, moment, part, new, 1)
    program("start", part, store)
    program("delta", gathered(second, tmp_path), new, last, ledger, 1)
    program("install", store, last, end)
    names = ("base.part", "base.store", "base.ledger", "part", "ledger", "store")
    made = [(second.folder / "whole" / name).read_bytes() for name in names]
    assert made == [file.read_bytes() for file in (part, store, new, last, ledger, end)]


def test_killed_tasks_are_run_again(first: World, tmp_path: Path) -> None:
    world = make_world(tmp_path)
    for command in ("gather", "merge", "snapshot", "start"):
        world.order(f"kill-{command}")
    done = world.run()
    assert done.returncode == 0, done.stderr
    assert not list(world.faults.iterdir())
    assert len(list(left(world))) >= 4
    assert bytes_of(world) == bytes_of(first)


def test_a_killed_workflow_goes_on(first: World, tmp_path: Path) -> None:
    world = make_world(tmp_path)
    world.order("hold-gather")
    running = subprocess.Popen(world.words(), env=world.environment, stderr=subprocess.DEVNULL)
    wait_until("a task waits", (world.faults / "held").exists)
    wait_until("a piece is made", lambda: list(world.folder.glob("pieces/*/*.made")))
    assert world.run().returncode == 4
    os.kill(running.pid, signal.SIGKILL)
    running.wait()
    made = list(world.folder.glob("pieces/*/*.made"))
    # The task lives on.
    world.order("go")
    done = world.run()
    assert done.returncode == 0, done.stderr
    assert 1 <= len(made) < 6
    assert bytes_of(world) == bytes_of(first)
    assert not list(left(world))


def test_a_late_writer_changes_nothing(first: World, tmp_path: Path) -> None:
    world = make_world(tmp_path)
    assert world.run("--until", "heads").returncode == 0
    world.order("hold-gather")
    late = world.task("gather", min(LOGS).hex(), "0002")
    wait_until("the task waits", (world.faults / "held").exists)
    done = world.run()
    assert done.returncode == 0, done.stderr
    before = times(world)
    world.order("go")
    _, told = late.communicate()
    assert late.returncode == 0, told
    assert (times(world), bytes_of(world)) == (before, bytes_of(first))


def test_the_profile_of_kubernetes_is_planned(tmp_path: Path) -> None:
    world = make_world(tmp_path, in_a_page=1)
    planned = subprocess.run(
        world.words("--dry-run", "--quiet", profile="kubernetes"),
        env=world.environment,
        capture_output=True,
        text=True,
        check=False,
    )
    assert planned.returncode == 0, planned.stderr
    # All, six pieces, and heads, merge, part, audit and publish.
    assert ["total", "12"] in [line.split()[:2] for line in planned.stdout.splitlines()]
    assert not list(world.folder.rglob("*.made"))


def test_a_published_epoch_stays(first: World) -> None:
    before = times(first)
    done = first.run()
    assert (done.returncode, times(first)) == (0, before), done.stderr


def test_a_late_writer_of_the_same_bytes_ends_well(first: World) -> None:
    before = times(first)
    late = first.task("gather", min(LOGS).hex(), "0002")
    _, told = late.communicate()
    assert late.returncode == 0, told
    assert times(first) == before


def test_a_late_writer_of_other_bytes_fails(tmp_path: Path) -> None:
    world = make_world(tmp_path)
    assert world.run("--until", "heads").returncode == 0
    assert world.task("gather", min(LOGS).hex(), "0002").wait() == 0
    before = times(world)
    page = world.epoch.parent / min(LOGS).hex()[:8] / "1200.json"
    page.write_text(page_of(world.job.entries[:3]))
    late = world.task("gather", min(LOGS).hex(), "0002")
    _, told = late.communicate()
    assert late.returncode == 1 and "other bytes" in told
    assert times(world) == before
    # Nor does a run go on whose pages were changed.
    done = world.run()
    assert done.returncode == 3 and "other files" in done.stderr


def test_a_changed_piece_is_not_merged(tmp_path: Path) -> None:
    world = make_world(tmp_path)
    assert world.run("--until", "gather").returncode == 0
    piece = world.folder / "pieces" / min(LOGS).hex() / "0001" / "whole.job"
    octets, time_ns = piece.read_bytes(), piece.stat().st_mtime_ns
    piece.write_bytes(octets[:-2] + b"\1" + octets[-1:])
    os.utime(piece, ns=(time_ns, time_ns))
    done = world.run("--restart-times", "0")
    assert done.returncode != 0 and "its record has" in done.stderr
    assert not (world.folder / "published.json").exists()
