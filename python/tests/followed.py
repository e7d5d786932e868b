"""A published history of many epochs for the updater's tests, and clients that follow it."""

import functools
import hashlib
import json
from collections.abc import Callable, Iterable
from dataclasses import dataclass, field
from pathlib import Path
from typing import Any

import pytest

from clubcard import minisign
from clubcard.engine import Engine
from clubcard.http import Client
from clubcard.manifest import Manifest, from_json
from clubcard.publish import chain
from clubcard.publish.site import publish_site, signature_name
from clubcard.update.config import Config, load
from clubcard.update.held import device_at
from clubcard.update.run import Outcome, run
from made import PROGRAM
from spooled import HOUR, Seen, Spooled, at, key_of, log_of
from web.answers import Answer
from web.network import LogsServer

EPOCHS = 46
REBASED = 42
"""The epoch behind which the chain begins anew: the parts of the first one are those of epochs 1 to 41."""
CAPACITY = 1 << 16


@dataclass
class Epoch:
    """What was published in an epoch."""

    text: bytes
    signature: bytes
    store: bytes

    @property
    def manifest(self) -> Manifest:
        return from_json(self.text)


@dataclass
class History:
    """A site of many epochs: all of its parts and signatures lie in `parts` and are shown with any of its manifests."""

    folder: Path
    epochs: list[Epoch] = field(default_factory=list)
    entries: list[Seen] = field(default_factory=list)

    @property
    def key(self) -> str:
        """The line of the public key."""
        return minisign.public_line(self.folder / "publisher.pub")

    def epoch(self, number: int) -> Epoch:
        """An epoch, from 1 on."""
        return self.epochs[number - 1]

    def now(self, number: int) -> int:
        """A time at which an epoch's manifest is in time."""
        return self.epoch(number).manifest.moment + 1

    def sign(self, text: bytes, key: str = "publisher.key") -> bytes:
        """The signature of a manifest's text."""
        file, signed = self.folder / "signing.json", self.folder / "signing.minisig"
        file.write_bytes(text)
        minisign.sign(file, signed, self.folder / key, "generation 1 epoch 1")
        return signed.read_bytes()

    def pages(self, text: bytes, signature: bytes | None = None) -> dict[str, bytes]:
        """The pages of a manifest, and those of all parts."""
        site = self.folder / "site"
        pages = {f"parts/{path.name}": path.read_bytes() for path in (site / "parts").iterdir()}
        signed = self.sign(text) if signature is None else signature
        return pages | {"manifest.json": text, signature_name(text): signed}

    def shown(self, number: int) -> dict[str, bytes]:
        """The pages of an epoch."""
        return self.pages(self.epoch(number).text, self.epoch(number).signature)

    def changed(self, number: int, key: str = "publisher.key", **members: Any) -> dict[str, bytes]:
        """The pages of an epoch's manifest with other members, signed."""
        text = json.dumps(json.loads(self.epoch(number).text) | members).encode()
        return self.pages(text, self.sign(text, key))


def made_history(folder: Path) -> History:
    """Publishes all epochs: in each some certificates are new, and some are revoked."""
    history = History(folder)
    for name in ("publisher", "other"):
        minisign.new_key(folder / f"{name}.key", folder / f"{name}.pub")
    words = {"site": folder / "site", "key": folder / "publisher.key", "keep": 10_000 * HOUR}
    world = Spooled.of(folder / "publisher", (0, 1), (0,), rebase_after=REBASED, **words)
    revoked: list[bytes] = []
    with pytest.MonkeyPatch.context() as patch:
        patch.setattr("clubcard.publish.charts._svg", lambda chart, figures: b"<svg/>")
        for number in range(1, EPOCHS + 1):
            seen = [Seen(0, at(number) - 1 - place, place % 2, bytes([1, number, place])) for place in range(6)]
            world.write(seen)
            history.entries += seen
            revoked += [seen[0].serial, *([history.entries[-20].serial] if number > 5 else [])]
            world.epoch(number + 1, {0: revoked, 1: []})
            publish_site(world.config, world.state)
            release = chain.release(world.state)
            assert release is not None
            text = (folder / "site" / "manifest.json").read_bytes()
            signature = (folder / "site" / "manifest.json.minisig").read_bytes()
            history.epochs.append(Epoch(text, signature, release.chains[0].store.read_bytes()))
    world.state.close()
    return history


@dataclass(frozen=True)
class Request:
    """What was asked of the small server."""

    path: str
    range: str | None
    etag: str | None


class Web(LogsServer):
    """A small web server of pages, with ETags and ranges; `lies` answer some paths otherwise."""

    def __init__(self) -> None:
        self.pages: dict[str, bytes] = {}
        self.lies: dict[str, Callable[[Request], Answer]] = {}
        self.asked: list[Request] = []
        super().__init__()

    def show(self, pages: dict[str, bytes]) -> None:
        """Serves these pages alone, and says the truth."""
        self.pages, self.lies, self.asked = pages, {}, []

    def app(self, environ: dict[str, Any], start: Callable[..., Any]) -> Iterable[bytes]:
        request = Request(
            environ["PATH_INFO"].lstrip("/"), environ.get("HTTP_RANGE"), environ.get("HTTP_IF_NONE_MATCH")
        )
        self.asked.append(request)
        answer = self.lies.get(request.path, self.honest)(request)
        headers = {"content-length": str(len(answer.body)), **answer.headers}
        start(f"{answer.status} Said", list(headers.items()))
        return [answer.body]

    def honest(self, request: Request) -> Answer:
        """The page of a path, or what is asked of it."""
        body = self.pages.get(request.path)
        if body is None:
            return Answer(404, b"not found")
        etag = '"' + hashlib.sha256(body).hexdigest() + '"'
        if request.etag == etag:
            return Answer(304, b"", {"etag": etag})
        if request.range is None:
            return Answer(200, body, {"etag": etag})
        begin = int(request.range.removeprefix("bytes=").removesuffix("-"))
        if begin >= len(body):
            return Answer(416, b"")
        return Answer(206, body[begin:], {"content-range": f"bytes {begin}-{len(body) - 1}/{len(body)}"})

    def paths(self) -> list[str]:
        """What was asked for."""
        return [request.path for request in self.asked]


def part_page(history: History, number: int, place: int = -1) -> str:
    """The path of a part of an epoch's manifest; of its newest one where none is named."""
    return history.epoch(number).manifest.parts[place].path


@functools.lru_cache(None)
def patient() -> Client:
    """A client that waits for no retry; one for all tests, since it takes long to make one."""
    return Client(sleep=lambda seconds: None, wait=20)


@dataclass
class Follower:
    """A client's folder, and the site that it follows."""

    folder: Path
    history: History
    base: str
    is_device: bool = False
    words: dict[str, Any] = field(default_factory=dict)
    """What CONFIG says otherwise."""

    @property
    def place(self) -> Path:
        """The store, or the device."""
        return self.folder / ("device" if self.is_device else "store")

    @property
    def file(self) -> Path:
        """CONFIG, as it is to be."""
        words: dict[str, Any] = {"site": self.base, "key": self.history.key, "program": PROGRAM}
        words |= {"device": "device", "capacity": CAPACITY} if self.is_device else {"store": "store"}
        words |= self.words
        self.folder.mkdir(exist_ok=True)
        path = self.folder / "client.toml"
        path.write_text("".join(f"{key} = {json.dumps(value)}\n" for key, value in words.items()))
        return path

    def config(self) -> Config:
        """CONFIG, read."""
        return load(self.file)

    def run(self, now: int) -> Outcome:
        """One run, which waits for no retry."""
        return run(self.config(), now, patient())

    def update(self, number: int) -> Outcome:
        """A run at the time of an epoch, which makes the store that epoch's."""
        outcome = self.run(self.history.now(number))
        assert outcome.status == 0, outcome.line
        self.test_has(number)
        return outcome

    def store(self) -> bytes | None:
        """The bytes of the store; None where there is none."""
        if not self.place.exists():
            return None
        if not self.is_device:
            return self.place.read_bytes()
        device = device_at(self.place)
        assert device is not None
        with open(self.place, "rb") as file:
            file.seek(device.held.offset)
            return file.read(device.held.length)

    def test_has(self, number: int) -> None:
        """The store is that of an epoch, by the manifest's digest; nothing else is left beside it."""
        store, epoch = self.store(), self.history.epoch(number)
        assert store is not None and hashlib.sha256(store).digest() == epoch.manifest.store_sha256
        assert (self.folder / "state" / "manifest.json").read_bytes() == epoch.text
        left = {str(path.relative_to(self.folder)) for path in self.folder.rglob("*") if path.is_file()}
        mine = {"client.toml", self.place.name, f".{self.place.name}.lock"}
        mine |= {f"state/{name}" for name in ("accepted.json", "manifest.json", "lock")}
        assert {name for name in left if not name.startswith("state/work/")} == mine

    def is_old_or_new(self, old: int | None, new: int) -> bool:
        """Whether the store is the new epoch's; else it has to be the old one's, or none where there was none."""
        store = self.store()
        if store == self.history.epoch(new).store:
            return True
        assert store == (None if old is None else self.history.epoch(old).store)
        return False

    def answers(self, number: int) -> None:
        """The store says what the publisher's own says of each certificate of the history, asked by the program."""
        engine, own = Engine(PROGRAM), self.folder / "publisher's"
        own.write_bytes(self.history.epoch(number).store)
        ask = engine.device_query if self.is_device else engine.query
        seen = set()
        for entry in self.history.entries[::7]:
            words = key_of(entry.issuer), entry.serial, [(log_of(entry.log), entry.time)]
            answer = ask(self.place, *words)
            assert answer == engine.query(own, *words)
            seen.add(answer.name)
        own.unlink()
        assert {"GOOD", "REVOKED"} <= seen
