"""Chains that begin anew: a chain of the whole is split into places, and in the next epoch one place is rebased, one is
split again and the others go on; all held against tools/reference.py."""

import json
import os
import shutil
import signal
import subprocess
from concurrent.futures import ThreadPoolExecutor
from dataclasses import replace
from pathlib import Path
from typing import Any

import pytest
from hypothesis import given
from hypothesis import strategies as st
from reference import EVERYTHING, Base, History, Job, T, at_place, issuer_place, place

from clubcard.places import Places, PlacesError, origin_of
from fleet.chains import BASE, PlanError
from fleet.epoch import load
from fleet.plan import HEAD, MADE
from fleet.tests.made_epochs import ISSUERS, World, make_world, program, wait_until

COUNT, IN_A_PAGE, MOMENT = 4, 40, T + 2000
LARGE = f"{issuer_place(ISSUERS[0], COUNT):04}"
"""The place that is cut again, by identity."""
OTHER = next(f"{number:04}" for number in {issuer_place(issuer, COUNT) for issuer in ISSUERS} - {int(LARGE)})
"""A place that is rebased."""


def lines_of(again: int, *named: str) -> str:
    """The lines of EPOCH on places, and on the chains that begin anew: with names, those of these places."""
    names = f"places = {json.dumps(named)}" if named else ""
    plan = f'[places]\nby = "issuer"\ncount = {COUNT}\nagain = {{ {LARGE} = {again} }}'
    return f"{plan}\n[rebase]\nmoment = {MOMENT}\n{names}"


def place_of(identity: Any, again: int) -> str:
    """The place of an identity, or of an entry that can't be read (None)."""
    found = "0000" if identity is None else f"{issuer_place(identity[0], COUNT):04}"
    number = 0 if identity is None else place(identity, again)
    return f"{found}.{number:04}" if found == LARGE else found


def killed(world: World, command: str) -> None:
    """Runs an epoch whose workflow is killed while a task waits. Then it goes on, and tasks of it are killed half
    done."""
    world.order(f"hold-{command}")
    running = subprocess.Popen(world.words(), env=world.environment, stderr=subprocess.DEVNULL, start_new_session=True)
    wait_until("a task waits", (world.faults / "held").exists)
    os.killpg(running.pid, signal.SIGKILL)
    running.wait()
    world.order(f"kill-{command}")
    world.order("kill-start")
    done = world.run()
    assert done.returncode == 0, done.stderr
    assert not list(world.faults.glob("kill-*"))


@pytest.fixture(name="chain", scope="module")
def three_epochs(tmp_path_factory: pytest.TempPathFactory) -> World:
    """The last of three epochs."""
    top = tmp_path_factory.mktemp("rebases")
    first = make_world(top, in_a_page=IN_A_PAGE)
    done = first.run()
    assert done.returncode == 0, done.stderr
    second = make_world(top, 2, first, lines_of(2), IN_A_PAGE)
    killed(second, "split")
    third = make_world(top, 3, second, lines_of(4, f"{LARGE}.0001", f"{LARGE}.0000", OTHER), IN_A_PAGE)
    killed(third, "rebase")
    return third


def job_at(world: World, name: str, again: int) -> Any:
    """What a place has of an epoch's job."""
    job = world.job
    crls = [(issuer, crl) for issuer, crl in job.crls if f"{issuer_place(issuer, COUNT):04}" == name[:4]]
    entries = [entry for entry in job.entries if place_of(entry.id, again) == name]
    return Job(job.epoch, job.moment, job.ranges, crls, entries)


def based(history: History, name: str, again: int) -> Base:
    """What a place keeps of a history of another one, or of the whole."""
    issuers = at_place("issuer", COUNT, int(name[:4]))
    if name[:4] != LARGE:
        return Base(history, MOMENT, issuers)
    identities = at_place("identity", again, int(name[5:]))
    return Base(history, MOMENT, issuers._replace(chooses=identities.chooses))


def histories(chain: World) -> tuple[dict[str, History], dict[str, History]]:
    """The histories of the places in the second epoch and in the third one."""
    first, second, third = chain.chain
    whole = History([first.job])
    names = [f"{number:04}" for number in range(COUNT) if f"{number:04}" != LARGE]
    split = {
        name: History([based(whole, name, 2), job_at(second, name, 2)])
        for name in [*names, f"{LARGE}.0000", f"{LARGE}.0001"]
    }
    again = {name: History([*split[name].members, job_at(third, name, 4)]) for name in names if name != OTHER}
    again[OTHER] = History([Base(split[OTHER], MOMENT, EVERYTHING), job_at(third, OTHER, 4)])
    for number in range(4):
        name = f"{LARGE}.{number:04}"
        again[name] = History([based(split[f"{LARGE}.{number % 2:04}"], name, 4), job_at(third, name, 4)])
    return split, again


def test_each_chain_is_the_references(chain: World) -> None:
    for world, found in zip(chain.chain[1:], histories(chain)):
        made = json.loads((world.folder / "published.json").read_text())
        anew = {name for name, history in found.items() if len(history.members) == 2}
        assert set(made["bases"]) == anew
        names = [HEAD, *(f"{name}/{file}" for name in found for file in MADE)]
        assert set(made["files"]) == {*names, *(f"{name}/{file}" for name in anew for file in BASE)}
        for name, history in found.items():
            files = [(history.parts()[-1], "part"), (history.ledger(len(history.members) - 1), "ledger")]
            if name in anew:
                files += [(history.parts()[0], "base.part"), (history.ledger(0), "base.ledger")]
            for wanted, file in files:
                assert (world.folder / name / file).read_bytes() == wanted.bytes
        assert made["sums"] == {count: sum(line[count] for line in made["said"].values()) for count in made["sums"]}


def test_each_answer_is_the_truth_of_the_whole(chain: World) -> None:
    whole = History([world.job for world in chain.chain])
    seen = [(at, entry) for at, world in enumerate(chain.chain) for entry in world.job.entries]
    accepted = {id(job.entries[at]) for job, places in zip(whole.members, whole.accepted) for at in places}
    born = {entry.id: at for at, entry in reversed(seen) if entry.id is not None}
    # Those that had expired before a rebase were pruned.
    kept = [
        entry
        for _, entry in seen
        if id(entry) in accepted and (born[entry.id] == 2 or entry.until is None or 1000 * entry.until >= MOMENT)
    ]

    def asked(entry: Any) -> str:
        issuer, _, serial = entry.id
        store = chain.folder / place_of(entry.id, 4) / "store"
        return program("query", store, issuer.hex(), serial.hex(), entry.log.hex(), entry.time).strip()

    with ThreadPoolExecutor(4) as threads:
        answers = list(threads.map(asked, kept))
    assert answers == ["revoked" if whole.listed(entry.id, 2) else "good" for entry in kept]
    assert (len(answers), answers.count("revoked")) == (1116, 124)


def refused(world: World, *words: str) -> str:
    """Why a task fails."""
    task = world.task(*words)
    _, told = task.communicate()
    assert task.returncode == 1, told
    return told


def test_what_is_lost_is_not_published(chain: World, tmp_path: Path) -> None:
    world = replace(chain, folder=tmp_path / "made")
    shutil.copytree(chain.folder, world.folder)
    name = f"{LARGE}.0003"
    world.order("lose-split")
    assert "and the program says" in refused(world, "base", name, "1")
    (world.folder / "published.json").unlink()
    record = world.folder / name / "base.made"
    fields = json.loads(record.read_text())
    fields["said"]["here"]["revoked"] += 1
    record.write_text(json.dumps(fields))
    assert "the chains that begin anew hold" in refused(world, "publish")
    assert not (world.folder / "published.json").exists()


@pytest.mark.parametrize(
    ("lines", "why"),
    [
        ('[places]\nby = "issuer"\ncount = 8', "none of which holds 000.* of the places 8 by issuer"),
        (lines_of(3), "none of which holds"),
        (lines_of(4, OTHER), "would be split from"),
        (lines_of(4).partition("[rebase]")[0], "would be split from"),
        (lines_of(2, "0009"), "'0009' is no place of the epoch before"),
    ],
)
def test_other_places_are_refused(chain: World, lines: str, why: str, tmp_path: Path) -> None:
    with pytest.raises(PlanError, match=why):
        load(make_world(tmp_path, 3, chain.before, lines, 1).epoch)


COUNTS = st.integers(1, 6)
PLANS = st.one_of(
    st.builds(lambda count: Places("identity", count), COUNTS),
    st.builds(lambda count, large: Places("issuer", count, {"0000": large} if large > 1 else {}), COUNTS, COUNTS),
)


@given(st.one_of(st.none(), PLANS), PLANS, st.binary(min_size=32, max_size=32), st.binary(min_size=1, max_size=20))
def test_a_place_lies_in_that_of_its_certificates(
    old: Places | None, new: Places, issuer: bytes, serial: bytes
) -> None:
    name = new.place_of(issuer, serial)
    try:
        origin = origin_of(old, new, name)
    except PlacesError:
        return
    assert old is None or origin.place == old.place_of(issuer, serial)
    identity = (issuer, len(serial), serial)
    for split in origin.splits:
        assert split.number == (
            issuer_place(issuer, split.count) if split.by == "issuer" else place(identity, split.count)
        )
