"""Whatever a site answers, the store is the old one or the new one; and a client of a real publisher."""

import shutil
from collections.abc import Callable
from pathlib import Path

import pytest
from hypothesis import HealthCheck, example, given, settings
from hypothesis import strategies as st

from clubcard.http import Client
from clubcard.update.config import load
from clubcard.update.run import run
from followed import REBASED, Follower, History, Request, Web
from made import PROGRAM
from web.answers import Answer
from web.network import Servers
from web.play import Play
from web.site import ask
from web.worlds import four_epochs

KINDS = ("flip", "cut", "short", "longer", "other", "older", "status", "empty")
LIES = st.tuples(st.integers(0, 30), st.sampled_from(KINDS), st.integers(0, 1 << 16), st.booleans())
STATUSES = (200, 204, 206, 301, 304, 400, 404, 416, 429, 500)
ALL = [HealthCheck.function_scoped_fixture, HealthCheck.too_slow]


def lie(web: Web, history: History, kind: str, place: int, once: bool) -> Callable[[Request], Answer]:
    """Answers a path wrongly, the first time or each time."""
    told = list[int]()

    def answer(request: Request) -> Answer:
        right = web.honest(request)
        told.append(1)
        if once and len(told) > 1:
            return right
        return Answer(*changed(right, kind, place, request.path, web, history))

    return answer


def changed(
    right: Answer, kind: str, place: int, path: str, web: Web, history: History
) -> tuple[int, bytes, dict[str, str]]:
    """Another answer in the place of the right one."""
    body, headers = right.body, dict(right.headers)
    at = place % (len(body) or 1)
    if kind == "flip" and body:
        body = body[:at] + bytes([body[at] ^ (1 << place % 8)]) + body[at + 1 :]
    elif kind == "cut":
        return right.status, body[:at], {**headers, "content-length": str(len(body))}
    elif kind == "short":
        body = body[:at]
    elif kind == "longer":
        body += b"x" * (place + 1)
    elif kind == "other":
        body = web.pages[sorted(web.pages)[place % len(web.pages)]]
    elif kind == "older" and path == "manifest.json":
        body = history.epoch(1 + place % 2).text
    elif kind == "status":
        return STATUSES[place % len(STATUSES)], body, headers
    elif kind == "empty":
        return 200, b"", {}
    return right.status, body, headers


@pytest.mark.parametrize(("old", "new"), [(3, 6), (REBASED - 1, REBASED + 1)], ids=["deltas", "a chain begun anew"])
@pytest.mark.parametrize("is_device", [False, True], ids=["file", "device"])
def test_any_lies(history: History, web: Web, tmp_path: Path, old: int, new: int, is_device: bool) -> None:
    client = Follower(tmp_path / "client", history, web.base, is_device)
    web.show(history.shown(old))
    client.update(old)
    shutil.copytree(client.folder, tmp_path / "before")
    web.show(history.shown(new))
    client.run(history.now(new))
    paths = list(dict.fromkeys(web.paths()))

    @settings(max_examples=40, deadline=None, suppress_health_check=ALL)
    @example([(0, "status", 4, False)])
    @given(st.lists(LIES, min_size=1, max_size=3))
    def lied(lies: list[tuple[int, str, int, bool]]) -> None:
        shutil.rmtree(client.folder)
        shutil.copytree(tmp_path / "before", client.folder)
        web.show(history.shown(new))
        web.pages |= {name: body for name, body in history.shown(2).items() if name != "manifest.json"}
        for number, kind, place, once in lies:
            path = paths[number % len(paths)]
            web.lies[path] = lie(web, history, kind, place, once)
        outcome = client.run(history.now(new))
        is_new = client.is_old_or_new(old, new)
        assert outcome.status in (0, 4, 5)
        assert is_new == outcome.line.startswith("updated")
        web.show(history.shown(new))
        client.update(new)

    lied()


def test_a_real_publisher(tmp_path: Path) -> None:
    """Behind each epoch of a small world, over real servers, the client's store answers what the publisher's does."""
    with Servers(tmp_path / "nginx") as servers, Play(four_epochs(), tmp_path / "play", servers) as play:
        line = (tmp_path / "play" / "publisher.pub").read_text().splitlines()[1]
        words = {"site": f"{servers.nginx.base}site", "key": line, "store": "store", "program": PROGRAM}
        (tmp_path / "client.toml").write_text("".join(f'{key} = "{value}"\n' for key, value in words.items()))
        said = list[str]()

        def follow(play: Play, epoch: int) -> None:
            with Client() as http:
                outcome = run(load(tmp_path / "client.toml"), play.world.now(epoch), http)
            said.append(outcome.line)
            published = play.published[-1]
            questions = [(one.issuer, one.serial, seen) for one, seen in play.questions(epoch)]
            assert ask(tmp_path / "store", questions) == ask(published.store, questions)
            assert (tmp_path / "store").read_bytes() == published.store.read_bytes()

        play.play(follow)
        assert not play.findings
        parts = [len(published.parts) for published in play.published]
        assert said == [f"updated epoch {epoch} parts {count}" for epoch, count in enumerate(parts, 1)]
        assert 1 in parts[1:], "a chain begun anew"
