"""The workflow over places: two epochs, held against tools/reference.py's truth of the whole."""

import json
import os
import shutil
import signal
import subprocess
from concurrent.futures import ThreadPoolExecutor
from dataclasses import dataclass, replace
from pathlib import Path
from typing import Any

import pytest
from reference import History, Job, issuer_place, place

from clubcard.tables import ConfigError
from fleet.epoch import load
from fleet.plan import HEAD, MADE
from fleet.tests.made_epochs import ISSUERS, LOGS, World, make_world, program, wait_until

COUNT, AGAIN, IN_A_PAGE = 4, 3, 100
LARGE = f"{issuer_place(ISSUERS[0], COUNT):04}"
"""By issuers, the place that is cut again, by identity: the first."""


def lines_of(by: str, count: int = COUNT) -> str:
    """The lines of EPOCH on places."""
    again = f"again = {{ {LARGE} = {AGAIN} }}" if by == "issuer" else ""
    return f'[places]\nby = "{by}"\ncount = {count}\n{again}'


@dataclass(frozen=True)
class Chain:
    """Two epochs, published, and by what they are cut."""

    by: str
    first: World
    second: World

    def place_of(self, identity: Any) -> str:
        """The place of an identity, or of an entry that can't be read (None)."""
        if identity is None:
            return min(self.places)
        if self.by == "identity":
            return f"{place(identity, COUNT):04}"
        found = f"{issuer_place(identity[0], COUNT):04}"
        return f"{found}.{place(identity, AGAIN):04}" if found == LARGE else found

    @property
    def places(self) -> set[str]:
        """All places."""
        numbers = {f"{number:04}" for number in range(COUNT)}
        again = {f"{LARGE}.{number:04}" for number in range(AGAIN)}
        return numbers if self.by == "identity" else numbers - {LARGE} | again

    def has_crls_of(self, name: str, issuer: bytes) -> bool:
        """Whether a place has the CRLs of an issuer."""
        return self.by == "identity" or name[:4] == f"{issuer_place(issuer, COUNT):04}"


@pytest.fixture(name="chain", scope="module", params=["issuer", "identity"])
def two_epochs(request: pytest.FixtureRequest, tmp_path_factory: pytest.TempPathFactory) -> Chain:
    """The first epoch has tasks that were killed, and the workflow of the second one was."""
    top, by = tmp_path_factory.mktemp("places"), request.param
    first = make_world(top, places=lines_of(by), in_a_page=IN_A_PAGE)
    for command in ("cut", "merge"):
        first.order(f"kill-{command}")
    done = first.run()
    assert done.returncode == 0, done.stderr
    assert not list(first.faults.iterdir())
    second = make_world(top, 2, first, lines_of(by), IN_A_PAGE)
    second.order("hold-merge")
    running = subprocess.Popen(
        second.words(), env=second.environment, stderr=subprocess.DEVNULL, start_new_session=True
    )
    wait_until("a task waits", (second.faults / "held").exists)
    wait_until("a job is made", lambda: merged(second))
    os.killpg(running.pid, signal.SIGKILL)
    running.wait()
    before = merged(second)
    done = second.run()
    assert done.returncode == 0, done.stderr
    assert len(before) < len(merged(second))
    return Chain(by, first, second)


def merged(world: World) -> list[Path]:
    """The records of all jobs of places."""
    return list(world.folder.glob("0*/job.made"))


def test_each_place_has_what_the_whole_has_there(chain: Chain) -> None:
    history = History([chain.first.job, chain.second.job])
    for number, world in enumerate((chain.first, chain.second)):
        whole, made = world.job, json.loads((world.folder / "published.json").read_text())
        for name in chain.places:
            crls = [(issuer, crl) for issuer, crl in whole.crls if chain.has_crls_of(name, issuer)]
            entries = [entry for entry in whole.entries if chain.place_of(entry.id) == name]
            job = Job(whole.epoch, whole.moment, whole.ranges, crls, entries)
            assert (world.folder / name / "job").read_bytes() == job.bytes()
            unread = [entry.id for entry in entries].count(None)
            assert unread == (10 if name == min(chain.places) else 0)
            assert (made["said"][name]["unread"], made["said"][name]["accepted"]) == (unread, len(entries) - unread)
        again = {LARGE: AGAIN} if chain.by == "issuer" else {}
        assert made["places"] == {"by": chain.by, "count": COUNT, "again": again}
        sets = {"universe": len(history.universe(number)), "revoked": len(history.revoked(number))}
        assert made["sums"] == history.counts[number] | sets
        assert set(made["files"]) == {HEAD, *(f"{name}/{file}" for name in chain.places for file in MADE)}


def test_each_answer_is_the_truth_of_the_whole(chain: Chain) -> None:
    jobs = [chain.first.job, chain.second.job]
    history = History(jobs)

    def asked(entry: Any) -> str:
        issuer, _, serial = entry.id
        store = chain.second.folder / chain.place_of(entry.id) / "store"
        return program("query", store, issuer.hex(), serial.hex(), entry.log.hex(), entry.time).strip()

    entries = [entry for job in jobs for entry in job.entries if entry.id is not None]
    with ThreadPoolExecutor(4) as threads:
        answers = list(threads.map(asked, entries))
    assert answers == ["revoked" if history.listed(entry.id, 1) else "good" for entry in entries]
    assert (len(answers), answers.count("revoked")) == (1980, 100)
    for identity in (entry.id for entry in entries[::100]):
        words = [identity[0].hex(), identity[2].hex()]
        number, again = program("place", chain.by, *words, COUNT), program("place", "identity", *words, AGAIN)
        found = [f"{int(line.split()[1]):04}" for line in (number, again)]
        assert chain.place_of(identity) in (found[0], ".".join(found))


def refused(world: World, *words: str) -> str:
    """Why a task fails."""
    task = world.task(*words)
    _, told = task.communicate()
    assert task.returncode == 1, told
    return told


def test_what_is_lost_is_found_where_it_is_lost(chain: Chain) -> None:
    for task in (["heads"], ["gather", min(LOGS).hex(), "0000"]):
        chain.first.order("lose-cut")
        assert "its places have" in refused(chain.first, *task)
    chain.first.order("lose-merge")
    assert "its pieces have" in refused(chain.first, "merge", chain.place_of(chain.first.job.entries[0].id))


def test_what_is_lost_is_not_published(chain: Chain, tmp_path: Path) -> None:
    world = replace(chain.first, folder=tmp_path / "made")
    shutil.copytree(chain.first.folder, world.folder)
    (world.folder / "published.json").unlink()
    name = chain.place_of(world.job.entries[0].id)
    for file, count, why in (("job", "entries", "are counted"), ("part", "accepted", "were gathered")):
        record = world.folder / name / f"{file}.made"
        fields = json.loads(record.read_text())
        fields["said"][count] -= 1
        record.write_text(json.dumps(fields))
        assert why in refused(world, "publish")
    assert not (world.folder / "published.json").exists()


def test_a_chain_keeps_its_places(chain: Chain, tmp_path: Path) -> None:
    for number, lines in enumerate((lines_of(chain.by, 5), "")):
        done = make_world(tmp_path / str(number), 2, chain.first, lines, IN_A_PAGE).run()
        assert done.returncode == 2 and "write the same [places]" in done.stderr


@pytest.mark.parametrize(
    ("lines", "why"),
    [
        ("[places]", 'key "by" is missing'),
        (lines_of("log"), "is neither"),
        (lines_of("identity", 0), "isn't within"),
        (lines_of("identity", 1025), "isn't within"),
        (f'{lines_of("identity")}again = {{ 0000 = 2 }}', "give `count` more"),
        ('[places]\nby = "issuer"\ncount = 4\nagain = { 0004 = 2 }', 'no key "0004"'),
    ],
)
def test_places_are_refused(lines: str, why: str, tmp_path: Path) -> None:
    with pytest.raises(ConfigError, match=why):
        load(make_world(tmp_path, places=lines, in_a_page=1).epoch)
