"""Parts: taken by their digests, going on where they stopped, and refused where they aren't what was signed."""

import hashlib
import json
import re
from collections.abc import Callable
from pathlib import Path
from typing import Any

import pytest

from clubcard.manifest import part_path
from followed import REBASED, Follower, History, Request, Web, part_page
from web.answers import Answer

Lie = Callable[[Request], Answer]
CUT = 100


@pytest.fixture(name="client", params=[False, True], ids=["file", "device"])
def made_client(history: History, web: Web, tmp_path: Path, request: pytest.FixtureRequest) -> Follower:
    """A client that has epoch 3, of a site that shows epoch 4."""
    client = Follower(tmp_path / "client", history, web.base, request.param)
    web.show(history.shown(3))
    client.update(3)
    web.show(history.shown(4))
    return client


def cut(web: Web, count: int) -> Lie:
    """An answer that is cut behind so many of its bytes."""

    def answer(request: Request) -> Answer:
        whole = web.honest(request)
        return Answer(whole.status, whole.body[:count], {**whole.headers, "content-length": str(len(whole.body))})

    return answer


def ranges(web: Web, path: str) -> list[str | None]:
    """Which bytes of a path were asked for."""
    return [request.range for request in web.asked if request.path == path]


def test_cut(client: Follower, web: Web) -> None:
    """Each try, and each run, goes on where the one before stopped."""
    history, path = client.history, part_page(client.history, 4)
    length = history.epoch(4).manifest.parts[-1].length
    assert length > 2 * CUT
    web.lies[path] = cut(web, CUT // 2)
    outcome = client.run(history.now(4))
    assert outcome.status == 5 and "the next run goes on" in outcome.line
    assert client.store() == history.epoch(3).store
    steps = [None, "bytes=50-", "bytes=100-"]
    assert ranges(web, path) == steps
    web.lies = {}
    client.update(4)
    assert ranges(web, path) == [*steps, "bytes=150-"]


def test_a_server_without_ranges(client: Follower, web: Web) -> None:
    """It answers with the whole part, which is taken."""
    history, path = client.history, part_page(client.history, 4)
    web.lies[path] = cut(web, CUT)
    assert client.run(history.now(4)).status == 5
    web.lies[path] = lambda request: Answer(200, web.pages[path])
    client.update(4)


def test_wrong_bytes_before(client: Follower, web: Web) -> None:
    """Where what came in an earlier run is wrong, or too long, the part begins once more."""
    history = client.history
    lefts: list[Callable[[bytes], bytes]] = [
        lambda whole: b"x" * CUT,
        lambda whole: b"x" * len(whole),
        lambda whole: whole + b"x",
        lambda whole: whole[:-1] + b"x",
        lambda whole: whole,
    ]
    for number, left in enumerate(lefts, 4):
        web.show(history.shown(number))
        path = part_page(history, number)
        new = client.folder / "state" / "parts" / f".{Path(path).name}.new"
        new.parent.mkdir()
        new.write_bytes(left(web.pages[path]))
        client.update(number)
    assert not ranges(web, path), "it was whole"


def lying(web: Web, path: str) -> dict[str, tuple[Lie, int]]:
    """Lies about a part, and the status that each has."""
    body = web.pages[path]
    half = {"content-range": f"bytes 0-9/{len(body)}"}
    return {
        "other bytes": (lambda request: Answer(200, b"x" * len(body)), 4),
        "one other byte": (lambda request: Answer(200, body[:-1] + b"x"), 4),
        "shorter": (lambda request: Answer(200, body[:-1]), 5),
        "longer": (lambda request: Answer(200, body + b"x"), 4),
        "much longer": (lambda request: Answer(200, body * 1000), 4),
        "empty": (lambda request: Answer(200, b""), 5),
        "another part": (lambda request: Answer(200, web.pages[longest_part(web)]), 4),
        "encoded": (lambda request: Answer(200, body, {"content-encoding": "gzip"}), 5),
        "a range": (lambda request: Answer(206, body[:10], half), 5),
        "missing": (lambda request: Answer(404, b""), 5),
        "not satisfiable": (lambda request: Answer(416, b""), 5),
        "not modified": (lambda request: Answer(304, b""), 5),
        "elsewhere": (lambda request: Answer(302, b"", {"location": "file:///etc/passwd"}), 5),
    }


def longest_part(web: Web) -> str:
    """The longest part of a site."""
    return max((path for path in web.pages if path.startswith("parts/")), key=lambda path: len(web.pages[path]))


def test_lies(client: Follower, web: Web) -> None:
    """Whatever comes in a part's place, the store stays, and the truth is taken behind it."""
    history = client.history
    for place, name in enumerate(lying(web, part_page(history, 4))):
        number = 4 + place
        web.show(history.shown(number))
        path = part_page(history, number)
        web.lies[path], status = lying(web, path)[name]
        outcome = client.run(history.now(number))
        assert outcome.status == status, (name, outcome.line)
        assert client.store() == history.epoch(number - 1).store, name
        web.lies = {}
        client.update(number)


def test_wrong_ranges(client: Follower, web: Web) -> None:
    """An answer of other bytes than those that were asked for isn't put behind what is there."""
    history, number = client.history, 4
    for says in ("bytes 0-9/{}", "bytes 101-200/{}", "bytes 100-200/7", "chars 100-200/*", ""):
        path = part_page(history, number)
        web.show(history.shown(number))
        web.lies[path] = cut(web, CUT // 3)
        assert client.run(history.now(number)).status == 5
        length = len(web.pages[path])
        web.lies[path] = lambda request, says=says, length=length: Answer(  # type: ignore[misc]
            206, b"x" * (length - CUT), {"content-range": says.format(length)}
        )
        assert client.run(history.now(number)).status == 5
        web.lies = {}
        client.update(number)
        number += 1


def signed(history: History, number: int, parts: list[dict[str, Any]], bodies: list[bytes]) -> dict[str, bytes]:
    """The pages of an epoch whose parts are these bytes, signed by the publisher's key."""
    digests = [hashlib.sha256(body).digest() for body in bodies]
    told = [
        part | {"length": len(body), "sha256": digest.hex(), "path": part_path(digest)}
        for part, body, digest in zip(parts, bodies, digests)
    ]
    store = b"CLUBSTOR\x01" + bytes([len(bodies)]) + b"".join(bodies)
    whole = {"length": len(store), "sha256": hashlib.sha256(store).hexdigest()}
    pages = history.changed(number, parts=told, store=whole)
    return pages | dict(zip(map(part_path, digests), bodies))


def test_signed_parts_that_are_none(client: Follower, web: Web) -> None:
    """What the publisher's key signed is tested by the program all the same: each part, and that they are a chain."""
    history = client.history
    bodies = [web.pages[part.path] for part in history.epoch(4).manifest.parts]
    parts = json.loads(history.epoch(4).text)["parts"]
    wrong = {
        "clubcard check: layout 0 part.magic": b"x" * 200,
        "clubcard check: layout .* digest": bodies[3][:-1] + bytes([bodies[3][-1] ^ 1]),
        "clubcard check: layout .* end": bodies[3] + b"x",
        "and the manifest says a delta of 4": bodies[2],
        "clubcard .*install: chain parent": web.pages[part_page(history, 6)],
    }
    for says, body in wrong.items():
        last = parts[3] | ({"epoch": 6} if "parent" in says else {})
        web.show(signed(history, last["epoch"], [*parts[:3], last], [*bodies[:3], body]))
        (client.folder / "state" / "accepted.json").unlink()
        outcome = client.run(history.now(4))
        assert outcome.status == 4 and re.search(says, outcome.line), outcome.line
        assert client.store() == history.epoch(3).store
    web.show(history.shown(REBASED))
    client.update(REBASED)


def test_a_disk_that_is_too_small(history: History, web: Web, tmp_path: Path) -> None:
    """It is told before anything is taken, with the folder that would fill it."""
    client = Follower(tmp_path / "client", history, web.base)
    web.show(history.shown(3))
    client.update(3)
    told = json.loads(history.epoch(4).text)
    more = (1 << 60) - told["parts"][-1]["length"]
    told["parts"][-1]["length"] += more
    told["store"]["length"] += more
    web.show(history.changed(4, parts=told["parts"], store=told["store"]))
    outcome = client.run(history.now(4))
    assert outcome.status == 5 and f"state/parts: {1 << 60} bytes of parts are to come, and" in outcome.line
    assert outcome.line.endswith("are free: make room on this disk")
    assert not [path for path in web.paths() if path.startswith("parts/")]
    web.show(history.shown(5))
    client.update(5)


def test_a_disk_that_is_full(client: Follower, web: Web, monkeypatch: pytest.MonkeyPatch) -> None:
    """A store that lacks nothing wants no room for parts, nor does one whose parts came before."""
    history = client.history
    monkeypatch.setattr("clubcard.update.parts.SPARE", 1 << 62)
    assert client.run(history.now(4)).status == 5
    part = client.folder / "state" / "parts" / Path(part_page(history, 4)).name
    part.write_bytes(web.pages[part_page(history, 4)])
    assert client.update(4).line.startswith("updated")
    assert client.update(4).line.startswith("current")


def test_a_slot_that_is_too_small(history: History, web: Web, tmp_path: Path) -> None:
    """It is told before anything is taken, and a greater one is made anew."""
    client = Follower(tmp_path / "client", history, web.base, True)
    web.show(history.shown(3))
    client.words = {"capacity": history.epoch(3).manifest.store_length}
    client.update(3)
    web.show(history.shown(4))
    outcome = client.run(history.now(4))
    assert outcome.status == 5 and "greater capacity" in outcome.line
    assert not [path for path in web.paths() if path.startswith("parts/")]
    assert client.store() == history.epoch(3).store
    client.words = {}
    client.update(4)
