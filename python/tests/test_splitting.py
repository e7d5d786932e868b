"""A chain that stands is split into places: what is said of every certificate stays, all of it is published or nothing,
and clients take it."""

import contextlib
import io
import json
import os
import re
import shutil
import signal
import sys
import tomllib
from collections.abc import Callable, Iterator
from dataclasses import replace
from functools import partial
from pathlib import Path
from typing import Any

import pytest

from clubcard.engine import Engine, Rebased
from clubcard.http import Client
from clubcard.manifest import Manifest, from_json
from clubcard.places import Places, PlacesError, is_split
from clubcard.publish import splitting
from clubcard.publish.making import Limits, Making
from clubcard.publish.run import NO_EPOCH, WITH_ALARMS, Outcome, run, split
from asked import ctl
from followed import CAPACITY, Web
from placed import COUNT, LARGE, PLACES, Placed
from spooled import at, dumped, key_of, log_of
from test_placed import shown
from test_update_kills import run_once as update_once
from test_update_places import Follower, Site
from web.killing import FAILED, Steps, site_of

pytestmark = pytest.mark.usefixtures("plain_charts")
NEXT = f"{int(LARGE) + COUNT:04}"
FINER = Places("issuer", 2 * COUNT, {LARGE: 4, NEXT: 2})


def split_to(placed: Placed, places: Places | None) -> Outcome:
    """What the split into a plan came to."""
    placed.world.configure(places=places)
    return split(placed.world.config)


def manifest_of(placed: Placed) -> Manifest:
    return from_json((placed.world.config.site / "manifest.json").read_bytes())


@pytest.mark.parametrize(
    "plans",
    [
        [None, PLACES, FINER],
        [None, Places("identity", 2), Places("identity", 6)],
        [None, Places("identity", 2), Places("issuer", 2, {"0000": 4, "0001": 2})],
        [Places("issuer", COUNT), PLACES, replace(PLACES, again={LARGE: 6})],
        [None, Places("issuer", 16)],
    ],
    ids=["by issuer and identity", "by identity", "both", "one place finer", "places without certificates"],
)
def test_answers_stay(tmp_path: Path, plans: list[Places | None]) -> None:
    """Behind each split, and behind the epoch that follows; a split that is done is none again."""
    placed = Placed.of(tmp_path, plans[0])
    assert placed.epoch(1).alarms == ()
    for generation, plan in enumerate(plans[1:], 2):
        outcome = split_to(placed, plan)
        assert (outcome.status, outcome.alarms, outcome.why) == (0, (), None)
        assert placed.world.ask(placed.seen) == placed.truth()
        manifest, site = manifest_of(placed), site_of(placed.world.config.site)
        assert (manifest.generation, manifest.epoch, manifest.places) == (generation, generation - 1, plan)
        assert plan is not None and [each.place for each in manifest.chains] == plan.names()
        assert split(placed.world.config).row == outcome.row and site_of(placed.world.config.site) == site
        state = placed.world.state
        text = "\n".join(state.db.iterdump())
        assert all(state.named(path) in text for path in (state.folder / "chain").rglob("*") if path.is_file())
        row = placed.epoch(generation)
        assert (row.shown, row.parts, row.alarms) == (40, 2, ())
        assert placed.world.ask(placed.seen) == placed.truth() and "revoked" in placed.truth()
        assert manifest_of(placed).epoch == generation


def test_which_plans_are_splits() -> None:
    for old, new in ((None, PLACES), (PLACES, FINER), (Places("issuer", 1), PLACES)):
        assert is_split(old, new) and not is_split(new, old) and not is_split(new, new)
    for new in (Places("issuer", 4), Places("identity", 6), Places("issuer", 6), replace(FINER, again={LARGE: 3})):
        assert not is_split(PLACES, new)
    with pytest.raises(PlacesError, match="a multiple of 2 for"):
        Places("issuer", 6).origins(PLACES)


# ---------- what is refused
def test_without_split(tmp_path: Path) -> None:
    """A run names the command; a plan that is no split is refused by it too, and so is a state without a chain."""
    placed = Placed.of(tmp_path, None)
    nothing = split_to(placed, PLACES).why
    assert nothing is not None and "clubcard-publish run" in nothing
    placed.world.configure(places=None)
    placed.epoch(1)
    site, state = shown(placed), dumped(placed.world)
    placed.world.configure(places=PLACES)
    outcome = run(replace(placed.world.config, logs=(), issuers=()), at(8))
    assert outcome.status == NO_EPOCH and "run `clubcard-publish split " in str(outcome.why)
    assert (shown(placed), dumped(placed.world)) == (site, state)
    assert split(placed.world.config).status == 0
    outcome = split_to(placed, None)
    assert outcome.status == NO_EPOCH and "begin a new chain" in str(outcome.why)


def test_entries_that_wait(tmp_path: Path) -> None:
    """Of an issuer that isn't enrolled: they hold the split back, until CONFIG doesn't name it."""
    placed = Placed.of(tmp_path, None)
    placed.epoch(1)
    lists = dict(placed.prepare(2))
    del lists[3]
    assert placed.world.make(at(8), lists).row.waiting == 10
    placed.publish()
    site = shown(placed)
    outcome = split_to(placed, PLACES)
    assert outcome.status == NO_EPOCH and "10 entries of Issuer 3" in str(outcome.why) and shown(placed) == site
    placed.world.configure(issuers=placed.world.config.issuers[:3])
    without_three(placed)


def test_patience(tmp_path: Path) -> None:
    """The split waits for an issuer as many epochs as a rebase does, and says how many these are still; nobody where
    the chain has no room for another part."""
    placed = Placed.of(tmp_path, None, patience=3)
    placed.epoch(1)
    lists = dict(placed.prepare(2))
    del lists[3]
    for hours, left in ((8, 2), (12, 1)):
        placed.world.make(at(hours), lists)
        site, state = shown(placed), dumped(placed.world)
        outcome = split_to(placed, PLACES)
        assert outcome.status == NO_EPOCH and "10 entries of Issuer 3 (" in str(outcome.why)
        assert f"once an epoch enrolled it, or behind {left} more epochs, or take" in str(outcome.why)
        assert (shown(placed), dumped(placed.world)) == (site, state)
        placed.world.configure(places=None)
    placed.world.make(at(16), lists)
    placed.world.configure(places=PLACES)
    without_three(placed)
    # It is enrolled again, and shown all that waits.
    assert placed.world.make(at(20), placed.lists(2)).row.waiting == 0
    assert placed.world.ask(placed.seen) == placed.truth()


def test_a_full_chain_waits_for_nobody(tmp_path: Path, monkeypatch: pytest.MonkeyPatch) -> None:
    placed = Placed.of(tmp_path, None)
    placed.epoch(1)
    lists = dict(placed.prepare(2))
    del lists[3]
    placed.world.make(at(8), lists)
    assert split_to(placed, PLACES).status == NO_EPOCH
    monkeypatch.setattr(splitting, "Making", partial(Making, limits=Limits(parts=2)))
    without_three(placed)


def without_three(placed: Placed) -> None:
    """The chain is split without issuer 3, which is told; of the others it says what is true."""
    outcome = split(placed.world.config)
    assert outcome.status == WITH_ALARMS and [alarm.kind for alarm in outcome.alarms][-1] == "without"
    others = [index for index, each in enumerate(placed.seen) if each.issuer != 3]
    truth = placed.truth()
    assert placed.world.ask([placed.seen[index] for index in others]) == [truth[index] for index in others]


def adding(field: str) -> Callable[..., Rebased]:
    """A split whose line says one more of something."""
    called = Engine.split

    def made(self: Engine, *words: Any) -> Rebased:
        line = called(self, *words)
        return replace(line, **{field: getattr(line, field) + 1})

    return made


def exchanging() -> Callable[..., Rebased]:
    """A split in which the first two places are exchanged."""
    called = Engine.split
    return lambda self, ledger, cut, by, count, place, *words: called(
        self, ledger, cut, by, count, {0: 1, 1: 0}.get(place, place), *words
    )


@pytest.mark.parametrize(
    ("made", "says"),
    [
        (adding("universe"), "identities: 43 at the places into which whole is split, and 40 of it before"),
        (adding("revoked"), "revoked: "),
        (adding("issuers"), "issuers: "),
        (exchanging(), "the new store says"),
    ],
    ids=["identities", "revoked", "issuers", "exchanged"],
)
def test_nothing_is_lost(tmp_path: Path, monkeypatch: pytest.MonkeyPatch, made: Any, says: str) -> None:
    placed = Placed.of(tmp_path, None)
    placed.epoch(1)
    site, state = shown(placed), dumped(placed.world)
    with monkeypatch.context() as patch:
        patch.setattr(Engine, "split", made)
        outcome = split_to(placed, Places("issuer", COUNT))
    assert outcome.status == NO_EPOCH and says in str(outcome.why)
    assert (shown(placed), dumped(placed.world)) == (site, state)
    assert split(placed.world.config).status == 0 and placed.world.ask(placed.seen) == placed.truth()


# ---------- killed
def killed(placed: Placed, last: int) -> tuple[int, list[str]]:
    """A split in a process of its own, killed before its n-th step (0: never): its status, negative where a signal
    ended it, and its steps."""
    reading, writing = os.pipe()
    child = os.fork()
    if child == 0:
        try:
            steps = Steps(last)
            steps.install()
            with contextlib.redirect_stderr(io.StringIO()):
                outcome = split(placed.world.config)
            os.write(writing, json.dumps(steps.names).encode())
            os._exit(outcome.status)
        except BaseException as fault:  # pylint: disable=broad-except
            sys.excepthook(type(fault), fault, fault.__traceback__)
            os._exit(FAILED)
    os.close(writing)
    with os.fdopen(reading, "rb") as told:
        names = told.read()
    _, waited = os.waitpid(child, 0)
    return os.waitstatus_to_exitcode(waited), json.loads(names or b"[]")


@pytest.mark.parametrize("old", [None, Places("issuer", 1)], ids=["one chain", "one place"])
def test_killed_at_each_step(tmp_path: Path, old: Places | None) -> None:
    """The site is that of before or that of behind the split, and the next one ends in the same site."""
    new, folders = Places("issuer", 1, {"0000": 2}), [tmp_path / "publisher" / "state", tmp_path / "site"]
    placed = Placed.of(tmp_path, old)
    placed.epoch(1)
    placed.world.state.db.execute("PRAGMA wal_checkpoint(TRUNCATE)")
    placed.world.state.close()
    placed.world.configure(places=new)
    for folder in folders:
        shutil.copytree(folder, tmp_path / "before" / folder.name)
    status, names = killed(placed, 0)
    assert status == 0 and {"replace", "fsync", "sqlite", "__init__", "open"} <= {name.split()[0] for name in names}
    whole, seen = site_of(folders[1]), []
    for last in range(1, len(names) + 1):
        for folder in folders:
            shutil.rmtree(folder)
            shutil.copytree(tmp_path / "before" / folder.name, folder)
        assert killed(placed, last)[0] in (-signal.SIGKILL, 0), names[last - 1]
        manifest = manifest_of(placed)
        assert (manifest.generation, manifest.places) in ((1, old), (2, new)) and manifest.epoch == 1
        parts = [part for each in manifest.chains for part in each.parts]
        assert all((folders[1] / part.path).stat().st_size == part.length for part in parts)
        seen.append(manifest.generation)
        assert killed(placed, 0)[0] == 0 and site_of(folders[1]) == whole, names[last - 1]
        assert not list((folders[0] / "work").iterdir())
    assert set(seen) == {1, 2} and sorted(seen) == seen


# ---------- clients
@pytest.fixture(name="unused", scope="module")
def unused_client() -> Iterator[Client]:
    with Client(sleep=lambda seconds: None) as made:
        yield made


def note(site: Site) -> None:
    """Takes down what the site shows now."""
    folder = site.placed.world.config.site
    files = [path for path in folder.rglob("*") if path.suffix in (".json", ".minisig", ".part")]
    site.pages.append({str(path.relative_to(folder)): path.read_bytes() for path in files})
    site.truths.append(site.placed.truth())


def test_clients(tmp_path: Path, web: Web, unused: Client) -> None:
    """A client's one file stays, until it is moved away; a folder becomes the finer one, killed at each of its steps,
    and no coarser one is taken."""
    one = Places("issuer", 1)
    site = Site(Placed.of(tmp_path / "publisher", None), [], [])
    site.placed.epoch(1)
    note(site)
    for plan in (one, replace(one, again={"0000": 2})):
        assert split_to(site.placed, plan).status == 0
        note(site)
    client = Follower(tmp_path / "client", site, web.base)
    web.show(site.pages[0])
    assert client.run(1).status == 0
    store = client.place.read_bytes()
    web.show(site.pages[1])
    for _ in range(2):
        outcome = client.run(1)
        assert outcome.status == 2 and "move this file away and run again" in outcome.line
        assert client.place.read_bytes() == store
    client.place.rename(tmp_path / "away")
    client.update(2)
    web.show(site.pages[2])
    shutil.copytree(client.folder, tmp_path / "before")
    status, steps = update_once(client, at(4) + 1, unused, 0)  # type: ignore[arg-type]
    assert status == 0 and steps > 30
    seen = []
    for last in range(1, steps + 1):
        shutil.rmtree(client.folder)
        shutil.copytree(tmp_path / "before", client.folder)
        assert update_once(client, at(4) + 1, unused, last)[0] == -signal.SIGKILL  # type: ignore[arg-type]
        seen.append([site.text(2), site.text(3)].index(client.files()["manifest.json"]))
        client.test_says(2)
    assert sorted(seen) == seen and set(seen) == {0, 1}
    client.update(3)
    web.show(site.pages[1])
    outcome = client.run(2)
    assert outcome.status == 4 and "were begun with the places" in outcome.line
    client.test_has(3)


def test_a_device(tmp_path: Path, web: Web, unused: Client) -> None:
    """It keeps no places: it answers as before while each run names the line to write, and with this alone the stores
    of places are there, which go on; the device stays. Both runs are killed at each step."""
    site = Site(Placed.of(tmp_path / "publisher", None), [], [])
    site.placed.epoch(1)
    note(site)
    assert split_to(site.placed, Places("issuer", 1, {"0000": 2})).status == 0
    note(site)
    site.placed.epoch(2)
    note(site)
    client = Follower(tmp_path / "client", site, web.base, {"device": "device", "capacity": CAPACITY})
    device, known = client.folder / "device", client.folder / "state" / "manifest.json"
    web.show(site.pages[0])
    assert client.run(1).status == 0
    held, was = device.read_bytes(), dict(client.words)
    web.show(site.pages[1])

    def killed_each(status: int, behind: Callable[[], None]) -> None:
        """Kills a run at each of its steps, in the folder as it is now and is again then; whole it has a status."""
        before = tmp_path / f"before {status}"
        shutil.copytree(client.folder, before)
        found, steps = update_once(client, at(8) + 1, unused, 0)  # type: ignore[arg-type]
        assert found == status and steps > 10
        for last in range(1, steps + 2):
            shutil.rmtree(client.folder)
            shutil.copytree(before, client.folder)
            if last <= steps:
                assert update_once(client, at(8) + 1, unused, last)[0] == -signal.SIGKILL  # type: ignore[arg-type]
                assert device.read_bytes() == held
                behind()

    def refused() -> None:
        """The next run names the line, and the device is asked by its manifest still."""
        client.words = was
        outcome = client.run(2)
        line = re.search("write (store = .*) in place of `device` and `capacity`", outcome.line)
        assert outcome.status == 2 and line is not None
        assert device.read_bytes() == held and known.read_bytes() == site.text(1)
        client.words = tomllib.loads(line[1])

    def behind_refused() -> None:
        refused()
        client.update(2)
        client.words = was

    killed_each(2, behind_refused)
    refused()
    for one, truth in list(zip(site.placed.seen, site.truths[0]))[::5]:
        words = ["--issuer", key_of(one.issuer).hex(), "--serial", f"0x{one.serial.hex()}"]
        words += ["--log", log_of(one.log).hex(), "--time", str(one.time), "--manifest", str(known), str(device)]
        assert ctl("ask", *words).stdout.split()[0] == truth
    killed_each(0, lambda: client.update(2) if client.epoch_there() is None else client.test_says(2))
    client.update(2)
    web.show(site.pages[2])
    client.update(3)
    assert device.read_bytes() == held
    client.words = was
    assert "belongs to the store" in client.run(3).line
