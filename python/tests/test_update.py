"""The updater against nginx: clients of each epoch, clients that were away, and what a second run does."""

import json
import shutil
from collections.abc import Iterator
from dataclasses import replace
from pathlib import Path

import pytest
from click.testing import CliRunner

from clubcard.lock import locked
from clubcard.manifest import from_json
from clubcard.times import HOUR
from clubcard.update.cli import main
from followed import EPOCHS, REBASED, Follower, History, Web
from web.network import Nginx

STEPS = (1, 3, 20, REBASED - 1, REBASED, EPOCHS)


@pytest.fixture(name="nginx", scope="module")
def served(tmp_path_factory: pytest.TempPathFactory) -> Iterator[Nginx]:
    made = Nginx(tmp_path_factory.mktemp("nginx") / "nginx")
    yield made
    made.close()


def show(nginx: Nginx, history: History, number: int) -> None:
    """Makes nginx serve an epoch."""
    nginx.show(history.shown(number), history.epoch(number).manifest.moment)


@pytest.mark.parametrize("is_device", [False, True], ids=["file", "device"])
def test_clients(history: History, nginx: Nginx, tmp_path: Path, is_device: bool) -> None:
    """One that follows has the store of each epoch, also where the chain begins anew, and says what the publisher's
    store says. One that was away, also for 40 epochs, catches up with the deltas that it lacks, or with the snapshot
    and the deltas of the chain begun anew."""
    client = Follower(tmp_path / "client", history, nginx.base, is_device)
    for number in range(1, EPOCHS + 1):
        show(nginx, history, number)
        parts = len(history.epoch(number).manifest.parts)
        assert client.update(number).line == f"updated epoch {number} parts {parts}"
        if number in STEPS[3:]:
            client.answers(number)
        for begin in (begin for begin in STEPS if number in STEPS and begin < number - 1):
            away = replace(client, folder=tmp_path / f"{begin} {number}")
            shutil.copytree(tmp_path / f"at {begin}", away.folder)
            away.update(number)
        if number in STEPS:
            shutil.copytree(client.folder, tmp_path / f"at {number}")
    assert client.update(EPOCHS).line == f"current epoch {EPOCHS} parts {parts}"
    assert (1, REBASED - 1) == (STEPS[0], STEPS[3]) and REBASED - 2 == 40


def test_only_missing_parts(history: History, tmp_path: Path, web: Web) -> None:
    """Of a part that is in the store nothing is asked, nor of an epoch that is current."""
    client = Follower(tmp_path / "client", history, web.base)
    for begin, end in ((1, 3), (3, REBASED), (REBASED, EPOCHS)):
        web.show(history.shown(begin))
        client.update(begin)
        assert web.paths()[0] == "manifest.json"
        web.show(history.shown(end))
        client.update(end)
        had = {part.path for part in history.epoch(begin).manifest.parts}
        wanted = [part.path for part in history.epoch(end).manifest.parts if part.path not in had]
        assert web.paths()[0] == "manifest.json" and web.paths()[2:] == wanted
        assert web.asked[0].etag is not None
    client.update(EPOCHS)
    assert web.paths()[-1] == "manifest.json" and web.asked[-1].etag is not None


def test_a_store_that_is_damaged(history: History, nginx: Nginx, tmp_path: Path) -> None:
    """It is made anew, as one that is gone is, or one of another chain."""
    show(nginx, history, 3)
    for is_device in (False, True):
        client = Follower(tmp_path / f"client{is_device}", history, nginx.base, is_device)
        client.update(3)
        whole = client.place.read_bytes()
        for damaged in (b"", b"x" * 30, whole[:-1], whole + b"x", whole[:200] + b"x" + whole[201:], b"\xff" * 5000):
            client.place.write_bytes(damaged)
            assert client.run(history.now(3)).status == 0
            client.test_has(3)
        client.place.unlink()
        assert client.update(3).line == "updated epoch 3 parts 3"


def test_a_state_that_is_gone(history: History, nginx: Nginx, tmp_path: Path) -> None:
    """Without it the store is known by its own bytes."""
    show(nginx, history, 3)
    client = Follower(tmp_path / "client", history, nginx.base)
    client.update(3)
    shutil.rmtree(tmp_path / "client" / "state")
    assert client.update(3).line == "current epoch 3 parts 3"


def test_the_lock(history: History, nginx: Nginx, tmp_path: Path) -> None:
    """Another run ends at once, and readers go on."""
    show(nginx, history, 2)
    client = Follower(tmp_path / "client", history, nginx.base)
    client.update(2)
    with locked(client.config().state):
        show(nginx, history, 3)
        outcome = client.run(history.now(3))
        late = client.run(history.epoch(2).manifest.valid_until + 1)
        assert client.store() == history.epoch(2).store
    assert (outcome.status, "another run" in outcome.line, "valid until" in outcome.line) == (6, True, False)
    assert (late.status, "let it end; the store's manifest of epoch 2 was valid until" in late.line) == (6, True)
    client.update(3)


def test_the_program(history: History, nginx: Nginx, tmp_path: Path) -> None:
    """The words of the command: what is printed, and the statuses."""
    show(nginx, history, 2)
    client = Follower(tmp_path / "client", history, nginx.base)

    def call(*words: object) -> tuple[int, str, str]:
        done = CliRunner(mix_stderr=False).invoke(main, [*map(str, words)], prog_name="clubcard-update")
        assert done.exception is None or isinstance(done.exception, SystemExit), done.exception
        return done.exit_code, done.stdout, done.stderr

    now = history.now(2)
    assert call(client.file, "--now", now) == (0, "updated epoch 2 parts 2\n", "")
    assert call(client.file, "--now", now) == (0, "current epoch 2 parts 2\n", "")
    status, out, err = call(client.file)
    assert (status, out) == (3, "") and err.startswith(
        "clubcard-update: the site's manifest of epoch 2 was valid until"
    )
    assert call(tmp_path / "none")[0] == 2
    assert call(client.file, "--later")[0] == 2
    client.test_has(2)


def test_times(history: History, nginx: Nginx, tmp_path: Path) -> None:
    """A manifest is in time until its valid_until, and for max_age."""
    show(nginx, history, 2)
    client = Follower(tmp_path / "client", history, nginx.base)
    manifest = history.epoch(2).manifest
    assert client.run(manifest.valid_until + 1).status == 3 and client.store() is None
    assert client.run(manifest.valid_until).status == 0
    client.words = {"max_age": "2h"}
    assert client.run(manifest.moment + 2 * HOUR).status == 0
    outcome = client.run(manifest.moment + 2 * HOUR + 1)
    assert outcome.status == 3 and "max_age" in outcome.line
    client.test_has(2)


def test_what_is_kept_for_asking(history: History, nginx: Nginx, tmp_path: Path) -> None:
    """state/manifest.json is that of the store, and accepted.json the newest one."""
    show(nginx, history, 2)
    client = Follower(tmp_path / "client", history, nginx.base)
    client.update(2)
    show(nginx, history, 3)
    (nginx.www / history.epoch(3).manifest.parts[-1].path).unlink()
    assert client.run(history.now(3)).status == 5
    state = tmp_path / "client" / "state"
    assert from_json((state / "manifest.json").read_bytes()).epoch == 2
    assert from_json(json.loads((state / "accepted.json").read_text())["manifest"].encode()).epoch == 3
    show(nginx, history, 2)
    assert client.run(history.now(3)).status == 4
    show(nginx, history, 3)
    client.update(3)
