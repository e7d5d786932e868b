"""Runs that are killed at each step and begun again end in the same site; and two runs at once don't meet."""

import json
import os
import subprocess
import sys
from pathlib import Path
from typing import Any

import pytest

from clubcard.http import Response
from clubcard.publish.run import Outcome
from web.network import PageClient
from web.play import Play
from web.worlds import four_epochs

TESTS = Path(__file__).resolve().parent
SHARES = 2


@pytest.fixture(name="told", scope="module")
def told_of_kills(tmp_path_factory: pytest.TempPathFactory) -> list[dict[str, Any]]:
    """What each kill came to. Two processes share the steps."""
    folder = tmp_path_factory.mktemp("kills")
    path = os.pathsep.join([str(TESTS), str(TESTS.parent)])
    environment = {**os.environ, "PYTHONPATH": path}
    processes = []
    for share in range(SHARES):
        words = [sys.executable, "-m", "web.killing", str(folder / str(share)), str(share), str(SHARES)]
        output = (folder / f"{share}.out").open("wb")
        errors = (folder / f"{share}.err").open("wb")
        processes.append(subprocess.Popen(words, env=environment, stdout=output, stderr=errors))
    codes = [process.wait() for process in processes]
    said = [(folder / f"{share}.err").read_text()[-4000:] for share in range(SHARES)]
    assert codes == [0] * SHARES, "\n".join(said)
    return [json.loads(line) for share in range(SHARES) for line in (folder / f"{share}.out").read_text().splitlines()]


def test_killed_at_each_step(told: list[dict[str, Any]]) -> None:
    wrong = [kill for kill in told if kill["wrong"]]
    assert not wrong, "\n".join(map(json.dumps, wrong))


def test_each_kind_of_step(told: list[dict[str, Any]]) -> None:
    """The steps of all kinds were met, in each epoch."""
    kills = [kill for kill in told if "step" in kill]
    for epoch in range(4):
        kinds = {kill["name"].split()[0] for kill in kills if kill["epoch"] == epoch}
        assert {"replace", "fsync", "sqlite", "__init__", "open"} <= kinds
        steps = {kill["step"] for kill in kills if kill["epoch"] == epoch}
        assert len(steps) > 20


def test_the_last_store_is_right(told: list[dict[str, Any]]) -> None:
    for last in [kill for kill in told if "answers" in kill]:
        assert last["answers"]["good"] and last["answers"]["revoked"]


class Meeting(PageClient):
    """A client that begins another run while this one fetches."""

    def __init__(self, play: Play) -> None:
        super().__init__(play.shown)
        self.play = play
        self.met: list[Outcome] = []

    def get(self, url: str, most_bytes: int, etag: str | None = None, modified: str | None = None) -> Response:
        if not self.asked:
            self.asked.append(url)
            self.play.client = PageClient(self.play.shown)
            self.met.append(self.play.run(0))
        return super().get(url, most_bytes, etag, modified)


def test_two_runs_do_not_meet(tmp_path: Path, plain_charts: None) -> None:
    with Play(four_epochs(), tmp_path) as play:
        play.show(0)
        meeting = Meeting(play)
        play.client = meeting
        assert play.run(0).status == 0
        play.learn(0)
    assert [outcome.status for outcome in meeting.met] == [4]
    assert [one.epoch for one in play.published] == [1] and not play.findings
