"""The updater over a history that is cut into places: the stores of all places or none, and answers that are the truth
of the whole."""

import json
import re
import shutil
import signal
from collections.abc import Iterator
from dataclasses import dataclass, field
from pathlib import Path
from typing import Any

import pytest

from asked import ctl
from clubcard import Fleet, FleetError, Query, Refusal, Refused, Sighting, Verdict, minisign
from clubcard.http import Client
from clubcard.manifest import from_json
from clubcard.places import Places
from clubcard.publish.site import signature_name
from clubcard.update.config import Config, ConfigError, load
from clubcard.update.run import Outcome, run
from followed import Web, patient
from made import PROGRAM
from placed import LARGE, PLACES, Placed, place_of
from spooled import at, key_of, log_of
from test_update_kills import run_once
from web.network import Servers
from web.play import Play
from web.site import ask
from web.worlds import four_epochs

EPOCHS = 3
WORDS = {Verdict.GOOD: "good", Verdict.REVOKED: "revoked"}


@dataclass
class Site:
    """The pages of each epoch, and what is true of each certificate then."""

    placed: Placed
    pages: list[dict[str, bytes]]
    truths: list[list[str]]

    def text(self, epoch: int) -> bytes:
        return self.pages[epoch - 1]["manifest.json"]

    def signed(self, epoch: int, text: bytes) -> dict[str, bytes]:
        """The pages of an epoch with another manifest, which is signed."""
        folder = self.placed.world.folder.parent
        file, signed = folder / "signing.json", folder / "signing.minisig"
        file.write_bytes(text)
        minisign.sign(file, signed, folder / "publisher.key", "generation 1 epoch 1")
        return self.pages[epoch - 1] | {"manifest.json": text, signature_name(text): signed.read_bytes()}

    def changed(self, epoch: int, **members: Any) -> dict[str, bytes]:
        """The pages of an epoch whose manifest has other members."""
        return self.signed(epoch, json.dumps(json.loads(self.text(epoch)) | members).encode())


def made_site(placed: Placed, epochs: int) -> Site:
    """The site of some epochs."""
    site, folder = Site(placed, [], []), placed.world.config.site
    with pytest.MonkeyPatch.context() as patch:
        patch.setattr("clubcard.publish.charts._svg", lambda chart, figures: b"<svg/>")
        for epoch in range(1, epochs + 1):
            placed.epoch(epoch)
            files = [path for path in folder.rglob("*") if path.suffix in (".json", ".minisig", ".part")]
            site.pages.append({str(path.relative_to(folder)): path.read_bytes() for path in files})
            site.truths.append(placed.truth())
    return site


@pytest.fixture(name="site", scope="module")
def placed_site(tmp_path_factory: pytest.TempPathFactory) -> Site:
    """Three epochs; behind the third one the chain begins anew."""
    return made_site(Placed.of(tmp_path_factory.mktemp("places"), rebase_after=EPOCHS), EPOCHS)


@dataclass
class Follower:
    """A client's folder."""

    folder: Path
    site: Site
    base: str
    words: dict[str, Any] = field(default_factory=lambda: {"store": "stores"})
    """Where CONFIG has the stores."""

    @property
    def place(self) -> Path:
        return Path(self.folder, self.words["store"])

    def config(self, **more: Any) -> Config:
        key = minisign.public_line(self.site.placed.world.folder.parent / "publisher.pub")
        words = {"site": self.base, "key": key, "program": PROGRAM} | self.words | more
        self.folder.mkdir(exist_ok=True)
        path = self.folder / "client.toml"
        path.write_text("".join(f"{key} = {json.dumps(value)}\n" for key, value in words.items() if value is not None))
        return load(path)

    def run(self, epoch: int, **more: Any) -> Outcome:
        return run(self.config(**more), at(4 * epoch) + 1, patient())

    def update(self, epoch: int) -> None:
        outcome = self.run(epoch)
        assert outcome.status == 0, outcome.line
        self.test_has(epoch)

    def files(self) -> dict[str, bytes]:
        return {path.name: path.read_bytes() for path in self.place.iterdir()} if self.place.exists() else {}

    def test_has(self, epoch: int) -> None:
        """The stores are those of an epoch, and say what is true of the whole then."""
        manifest = from_json(self.site.text(epoch))
        names = {f"{chain.store_sha256.hex()}.store" for chain in manifest.chains}
        assert set(self.files()) == names | {"manifest.json"}
        assert self.files()["manifest.json"] == self.site.text(epoch)
        assert (self.folder / "state" / "manifest.json").read_bytes() == self.site.text(epoch)
        self.test_says(epoch)

    def test_says(self, epoch: int) -> None:
        fleet, truth = Fleet.from_folder(self.place), self.site.truths[epoch - 1]
        seen = self.site.placed.seen[: len(truth)]
        said = [fleet.ask(key_of(each.issuer), each.serial, [Sighting(log_of(each.log), each.time)]) for each in seen]
        assert [WORDS[each] for each in said] == truth

    def epoch_there(self) -> int | None:
        """Of which epoch the stores are, by their manifest."""
        manifest = self.files().get("manifest.json")
        return None if manifest is None else from_json(manifest).epoch


@pytest.fixture(name="client")
def small_client(site: Site, web: Web, tmp_path: Path) -> Follower:
    return Follower(tmp_path / "client", site, web.base)


def test_three_epochs(client: Follower, site: Site, web: Web) -> None:
    """Deltas, and then a chain begun anew; each once, and no part is fetched twice."""
    for epoch, parts in ((1, 1), (2, 2), (3, 1)):
        web.show(site.pages[epoch - 1])
        assert client.run(epoch).line == f"updated epoch {epoch} parts {parts} places 4"
        client.test_has(epoch)
        fetched = {path for path in web.paths() if path.startswith("parts/")}
        newest = {chain.parts[-1].path for chain in from_json(site.text(epoch)).chains}
        assert fetched == newest
        assert client.run(epoch).line == f"current epoch {epoch} parts {parts} places 4"


def test_catching_up(client: Follower, site: Site, web: Web) -> None:
    web.show(site.pages[1])
    client.update(2)


def test_places_without_certificates(web: Web, tmp_path: Path) -> None:
    """Places that hold nothing have equal parts and stores, each of which is kept once."""
    site = made_site(Placed.of(tmp_path / "publisher", Places("issuer", 16)), 2)
    client = Follower(tmp_path / "client", site, web.base)
    for epoch in (1, 2):
        web.show(site.pages[epoch - 1])
        client.update(epoch)
        assert len(client.files()) <= 4 + 1 + 1


def test_a_real_publisher(tmp_path: Path) -> None:
    """Behind each epoch of a small world, over real servers, no answer is wrong, and the client's stores answer what
    the publisher's do."""
    with Servers(tmp_path / "nginx") as servers, Play(four_epochs(60), tmp_path / "play", servers) as play:
        play.places = '[places]\nby = "issuer"\ncount = 2\nagain = { 0000 = 2, 0001 = 3 }'
        line = minisign.public_line(tmp_path / "play" / "publisher.pub")
        words = {"site": f"{servers.nginx.base}site", "key": line, "store": "stores", "program": PROGRAM}
        (tmp_path / "client.toml").write_text("".join(f'{key} = "{value}"\n' for key, value in words.items()))

        def follow(play: Play, epoch: int) -> None:
            assert run(load(tmp_path / "client.toml"), play.world.now(epoch), patient()).status == 0
            questions = [(one.issuer, one.serial, seen) for one, seen in play.questions(epoch)]
            queries = [Query(i, s, [Sighting(*each) for each in seen]) for i, s, seen in questions]
            said = Fleet.from_folder(tmp_path / "stores").query_each(queries)
            words = [each.name.lower().replace("_", "-") for each in said]
            assert words == ask(play.published[-1].store, questions) and len(words) > 100

        play.play(follow)
        assert not play.findings and not play.misled, play.told()
        assert [published.generation for published in play.published] == [1, 1, 2, 2]
        assert play.count.answers["good"] > 100 and play.count.answers["revoked"] > 20


# ---------- all or none
@pytest.fixture(name="unused", scope="module")
def unused_client() -> Iterator[Client]:
    with Client(sleep=lambda seconds: None) as made:
        yield made


@pytest.mark.parametrize(("old", "new"), [(None, 1), (1, 2)], ids=["first stores", "deltas"])
def test_killed_at_each_step(
    client: Follower, site: Site, web: Web, tmp_path: Path, unused: Client, old: int | None, new: int
) -> None:
    """The stores are those of the old epoch or of the new one, and the next run makes them the new one's."""
    client.folder.mkdir()
    if old is not None:
        web.show(site.pages[old - 1])
        client.update(old)
    web.show(site.pages[new - 1])
    shutil.copytree(client.folder, tmp_path / "before")
    status, steps = run_once(client, at(4 * new) + 1, unused, 0)  # type: ignore[arg-type]
    assert status == 0 and steps > 30
    seen = []
    for last in range(1, steps + 1):
        shutil.rmtree(client.folder)
        shutil.copytree(tmp_path / "before", client.folder)
        status, _ = run_once(client, at(4 * new) + 1, unused, last)  # type: ignore[arg-type]
        assert status == -signal.SIGKILL
        there = client.epoch_there()
        assert there in (old, new)
        if there is not None:
            client.test_says(there)
        seen.append(there == new)
        client.update(new)
    assert sorted(seen) == seen and set(seen) == {False, True}


def test_a_part_that_is_missing(client: Follower, site: Site, web: Web) -> None:
    """Of one place: no place goes on."""
    web.show(site.pages[0])
    client.update(1)
    before, chains = client.files(), from_json(site.text(2)).chains
    gone = chains[-1].parts[-1].path
    web.show({path: page for path, page in site.pages[1].items() if path != gone})
    assert client.run(2).status == 5 and client.files() == before
    web.show(site.pages[1])
    client.update(2)


# ---------- manifests that aren't taken
def test_another_plan(client: Follower, site: Site, web: Web) -> None:
    """It is refused, also where what was accepted was removed; both say what to do."""
    web.show(site.pages[0])
    client.update(1)
    held = json.loads(site.text(2))
    again = [dict(each, place=f"{number:04}") for number, each in enumerate(held["chains"])]
    web.show(site.changed(2, places={"by": "issuer", "count": 4, "again": {}}, chains=again))
    before = client.files()
    outcome = client.run(2)
    assert outcome.status == 4 and f"were begun with the places {PLACES}" in outcome.line
    assert "has the places 4 by issuer" in outcome.line and "accepted.json" in outcome.line
    (client.folder / "state" / "accepted.json").unlink()
    outcome = client.run(2)
    assert outcome.status == 4 and "remove this folder" in outcome.line and client.files() == before
    shutil.rmtree(client.place)
    assert client.run(2).status == 0 and client.epoch_there() == 2


def test_no_places_any_more(client: Follower, site: Site, web: Web) -> None:
    web.show(site.pages[0])
    client.update(1)
    held = json.loads(site.text(2))
    chain = held["chains"][0]
    members = {key: value for key, value in held.items() if key not in ("places", "chains")}
    web.show(
        site.signed(2, json.dumps(members | {"format": 1, "parts": chain["parts"], "store": chain["store"]}).encode())
    )
    outcome = client.run(2)
    assert outcome.status == 4 and "has no places, and this client's stores were begun with the places" in outcome.line
    (client.folder / "state" / "accepted.json").unlink()
    assert "is a folder, and the site has one store" in client.run(2).line
    web.show(site.pages[1])
    assert client.run(2, store="file").status == 2
    shutil.rmtree(client.folder / "state")
    (client.folder / "file").write_bytes(b"a store")
    assert "is a file, and the site has the places" in client.run(2, store="file").line
    shutil.rmtree(client.folder / "state")
    assert "in place of `device`" in client.run(2, store=None, device="device", capacity=1 << 20).line


@pytest.mark.parametrize(
    "change, says",
    [
        (lambda held: held["chains"].pop(), "chains aren't those of 3 by issuer"),
        (lambda held: held["chains"].reverse(), "chains aren't those of"),
        (lambda held: held["chains"][0].update(place="0007"), "chains aren't those of"),
        (lambda held: held["places"].update(count=2), "aren't those of|no place"),
        (lambda held: held["places"].update(by="day"), "places by: 'day' is neither"),
        (lambda held: held.pop("places"), "places is missing"),
        (lambda held: held.update(format=1), "places stands in a manifest of format 1"),
        (lambda held: held["chains"][0]["parts"].pop(), "chains.0..parts has epochs that don't rise"),
        (lambda held: held["chains"][0]["parts"][0].update(epoch=0), "chains have parts of different epochs"),
    ],
)
def test_inconsistent(client: Follower, site: Site, web: Web, change: Any, says: str) -> None:
    """A missing place, one of another epoch, and plans that are none: each is named, and the stores stay."""
    web.show(site.pages[0])
    client.update(1)
    before, held = client.files(), json.loads(site.text(2))
    change(held)
    web.show(site.signed(2, json.dumps(held).encode()))
    outcome = client.run(2)
    assert outcome.status == 4 and "tell the publisher" in outcome.line and client.files() == before
    assert re.search(says, outcome.line), outcome.line


def test_exchanged_places(client: Follower, site: Site, web: Web) -> None:
    """Each place's store is asked for its own certificates alone; a store under another's digest isn't taken."""
    web.show(site.pages[0])
    client.update(1)
    held = json.loads(site.text(2))
    first, second = held["chains"][:2]
    first["store"], second["store"] = second["store"], first["store"]
    web.show(site.signed(2, json.dumps(held).encode()))
    assert client.run(2).status == 4 and client.epoch_there() == 1


def test_a_folder_that_is_somebodys(client: Follower) -> None:
    client.folder.mkdir()
    client.place.mkdir()
    (client.place / "own.store").write_bytes(b"")
    with pytest.raises(ConfigError, match="is no file"):
        client.config()


# ---------- asking
def test_fleet(client: Follower, site: Site, web: Web) -> None:
    web.show(site.pages[0])
    client.update(1)
    fleet = Fleet.from_folder(client.place)
    web.show(site.pages[1])
    client.update(2)
    truth, seen = site.truths[0], site.placed.seen[:40]
    # It stays as it was opened.
    sightings = [[Sighting(log_of(each.log), each.time)] for each in seen]
    queries = [Query(key_of(each.issuer), each.serial, some) for each, some in zip(seen, sightings)]
    assert [WORDS[each] for each in fleet.query_each(queries) if isinstance(each, Verdict)] == truth
    rows = [(key_of(each.issuer), each.serial, log_of(each.log), each.time) for each in seen]
    assert fleet.query_seen(rows) == fleet.query_each(queries)
    assert fleet.query_each([Query(bytes(32), b"", []), queries[0]])[0] is Refusal.BAD_SERIAL
    with pytest.raises(Refused):
        fleet.ask(bytes(32), bytes(33), sightings[0])
    assert {fleet.places.place_of(key_of(each.issuer), each.serial) for each in seen} == {place_of(e) for e in seen}
    assert fleet.ask(bytes(32), b"\1", sightings[0]) is Verdict.NOT_ENROLLED
    held = {name: fleet.octets_at(name) for name in PLACES.names()}
    again = Fleet(PLACES, held)
    assert again.query_each(queries) == fleet.query_each(queries)
    # At another place a revoked certificate may be good, or not enrolled.
    said = {again.store_at(f"{LARGE}.0000").query(q.issuer, q.serial, q.sightings) for q in queries}
    assert Verdict.NOT_ENROLLED in said
    for name in (f"{LARGE}.0001", None):
        wrong = {key: value for key, value in held.items() if key != name} | ({} if name else {"0009": b""})
        with pytest.raises(FleetError, match="aren't those of"):
            Fleet(PLACES, wrong)


def test_folders_that_are_none(client: Follower, site: Site, web: Web, tmp_path: Path) -> None:
    with pytest.raises(FleetError, match="isn't read.*run clubcard-update"):
        Fleet.from_folder(tmp_path)
    web.show(site.pages[0])
    client.update(1)
    one = site.placed.seen[0]
    words = key_of(one.issuer), one.serial, [Sighting(log_of(one.log), one.time)]
    (chain,) = (each for each in from_json(site.text(1)).chains if each.place == place_of(one))
    path = client.place / f"{chain.store_sha256.hex()}.store"
    octets = path.read_bytes()
    path.unlink()
    with pytest.raises(FleetError, match="this store is missing"):
        Fleet.from_folder(client.place)
    path.write_bytes(octets[:-1] + b"x")
    with pytest.raises(FleetError, match="hasn't the SHA-256 of its name"):
        Fleet.from_folder(client.place).ask(*words)
    path.write_bytes(b"")
    with pytest.raises(FleetError, match="can't be mapped"):
        Fleet.from_folder(client.place)
    # The next run makes it anew.
    client.update(1)


def test_ask_and_explain(client: Follower, site: Site, web: Web) -> None:
    """Nobody names a place: the folder is asked as a store is."""
    web.show(site.pages[1])
    client.update(2)
    manifest = client.folder / "state" / "manifest.json"
    for one, truth in list(zip(site.placed.seen, site.truths[1]))[::7]:
        words: list[str | Path] = ["--issuer", key_of(one.issuer).hex(), "--serial", f"0x{one.serial.hex()}"]
        words += ["--log", log_of(one.log).hex(), "--time", str(one.time), client.place]
        said = ctl("ask", "--manifest", manifest, *words)
        assert said.stdout.split()[0] == truth and said.exit_code == ("good", "revoked").index(truth), said.stderr
        told = ctl("explain", *words)
        assert told.stdout.split()[0] == truth and "part 1 (delta of epoch 2" in told.stdout
    other = client.folder / "other.json"
    other.write_bytes(site.text(1))
    said = ctl("ask", "--manifest", other, *words)
    assert said.exit_code == 7 and "is of another store" in said.stderr
    (chain,) = (each for each in from_json(site.text(2)).chains if each.place == place_of(one))
    (client.place / f"{chain.store_sha256.hex()}.store").write_bytes(b"none")
    said = ctl("ask", *words)
    assert said.exit_code == 7 and "hasn't the SHA-256" in said.stderr
