"""`clubcardctl explain`, against a chain's own record."""

import hashlib
import json
import weakref
from pathlib import Path
from typing import Any

import pytest

from asked import called, ctl, ends, program
from clubcard import Verdict
from clubcard.ctl import explaining
from clubcard.ctl.asking import answers_of
from clubcard.ctl.stores import open_store
from clubcard.ctl.verdicts import Answer, Identity, Status
from clubcard.pki import Sighting
from clubcard import manifest as manifests
from clubcard.store import Store
from clubcard.times import nearest_iso
from told import BEGIN, EPOCHS, ISSUERS, Certificate, Story


@pytest.fixture(name="story", scope="module")
def fixture_story(tmp_path_factory: pytest.TempPathFactory) -> Story:
    return Story(tmp_path_factory.mktemp("story"), 7, 300)


def words_of(one: Certificate) -> list[str]:
    """The words that ask about a certificate."""
    seen = [word for log, time in one.seen for word in ("--log", log.hex(), "--time", str(time))]
    return ["--issuer", one.issuer.hex(), "--serial", f"0x{one.serial.hex()}", *seen]


def explained(store: Path, one: Certificate, *words: str | Path) -> dict[str, Any]:
    """What is told of a certificate in JSON."""
    (found,) = json.loads(ctl("explain", "--json", *words, store, *words_of(one)).stdout)
    assert isinstance(found, dict)
    return found


def all_explained(story: Story) -> list[dict[str, Any]]:
    """What is told of all certificates in JSON."""
    sightings = [tuple(Sighting(log, time) for log, time in one.seen) for one in story.certificates]
    identities = [Identity(one.issuer, one.serial, seen) for one, seen in zip(story.certificates, sightings)]
    opened = open_store(str(story.store))
    said = answers_of(opened.store, identities)
    verdicts = [each for each in said if isinstance(each, Verdict)]
    answers = [
        Answer("any", Status[verdict.name], verdict, identity=identity)
        for verdict, identity in zip(verdicts, identities, strict=True)
    ]
    parts = explaining.read_parts(opened.octets_at("whole"), {})
    return [each.members() for each in explaining.explain(parts, answers)]


def verdict_of(story: Story, one: Certificate) -> str:
    """The verdict by the record: a job accepted each entry that is covered and whose issuer is enrolled."""
    covering = [epoch for epoch in story.epochs if any(map(epoch.covers, one.seen))]
    if not covering:
        return "not-covered"
    if not any(one.issuer in epoch.issuers for epoch in covering):
        return "not-enrolled"
    return "good" if one.first is None else "revoked"


def test_the_record(story: Story) -> None:
    """Each certificate: since when it is revoked, which part covers what, who is enrolled where."""
    told = {"revoked": 0, "good": 0, "not-covered": 0, "not-enrolled": 0}
    places: set[int] = set()
    for one, found in zip(story.certificates, all_explained(story), strict=True):
        verdict = verdict_of(story, one)
        assert found["verdict"] == verdict
        told[verdict] += 1
        since = found["revoked_since"]
        assert (None if since is None else since["part"]) == one.first
        if since is not None:
            assert since["epoch"] == story.epochs[since["part"]].epoch
            places.add(since["part"])
        assert_parts(story, one, found["parts"])
        assert_timestamps(story, one, found["timestamps"])
    assert min(told.values()) > 0 and len(places) == EPOCHS


def assert_parts(story: Story, one: Certificate, parts: list[dict[str, Any]]) -> None:
    """What each part says of itself, and of the certificate."""
    assert len(parts) == EPOCHS
    for place, (epoch, part) in enumerate(zip(story.epochs, parts)):
        assert (part["part"], part["epoch"], part["moment"]) == (place, epoch.epoch, None)
        assert part["kind"] == ("snapshot" if place == 0 else "delta")
        assert part["until"] == nearest_iso(max(high for _, high in epoch.ranges.values())) < nearest_iso(epoch.moment)
        covered = [epoch.covers(sighting) for sighting in one.seen]
        assert (part["covered"], part["enrolled"]) == (covered, one.issuer in epoch.issuers)
        if not any(covered):
            assert part["says"] == "not-covered"
        elif one.issuer not in epoch.issuers:
            assert part["says"] == "not-enrolled"
        elif one.first is None or place < one.first:
            assert part["says"] == "good"
        else:
            assert part["says"] == ("revoked" if place == one.first else "revoked-before")


def assert_timestamps(story: Story, one: Certificate, timestamps: list[dict[str, Any]]) -> None:
    """Since which part each timestamp is covered, and by which range."""
    assert [(each["log"], each["time"]) for each in timestamps] == [(log.hex(), time) for log, time in one.seen]
    for sighting, told in zip(one.seen, timestamps):
        first = next((place for place, epoch in enumerate(story.epochs) if epoch.covers(sighting)), None)
        if first is None:
            assert told["since"] is None and told["range"] is None
        else:
            low, high = story.epochs[first].ranges[sighting[0]]
            assert (told["since"]["part"], told["range"]) == (first, {"from": low, "to": high})


def test_the_stores_that_are_cut(story: Story) -> None:
    """The store behind each part is, byte for byte, the one that the program made of these parts."""
    octets = story.store.read_bytes()
    parts = explaining.read_parts(octets, {})
    for part in parts:
        cut = explaining.cut(octets, [each.found for each in parts[: part.place + 1]])
        assert cut == (story.folder / f"store{part.place}").read_bytes()
        assert part.store.examine() == (part.place + 1, story.epochs[part.place].epoch)


def test_one_store_at_a_time(story: Story, monkeypatch: pytest.MonkeyPatch) -> None:
    """However many parts there are, no more than one store is cut at once."""
    made, held = weakref.WeakSet[Store](), list[int]()

    def counted(octets: bytes) -> Store:
        store = Store(octets)
        made.add(store)
        held.append(len(made))
        return store

    monkeypatch.setattr(explaining, "Store", counted)
    explained(story.store, story.certificates[0])
    assert held == [1] * EPOCHS


def test_lines(story: Story) -> None:
    """What people read, of a certificate of each verdict; and the same in JSON as above."""
    every = all_explained(story)
    for verdict in ("revoked", "good", "not-covered", "not-enrolled"):
        one = next(each for each in story.certificates if verdict_of(story, each) == verdict and each.first != 0)
        name = {"name": f"serial {one.serial.hex()}"}
        assert explained(story.store, one) == {**every[story.certificates.index(one)], **name}
        lines = ctl("explain", story.store, *words_of(one)).stdout.splitlines()
        assert lines[:2] == [
            f"{verdict} serial {one.serial.hex()}",
            f"  issuer {one.issuer.hex()}, serial {one.serial.hex()}",
        ]
        since = [line for line in lines if line.startswith("  revoked since")]
        if one.first is None:
            assert not since
        else:
            epoch = story.epochs[one.first]
            until = nearest_iso(max(high for _, high in epoch.ranges.values()))
            part = f"part {one.first} (delta of epoch {epoch.epoch}, covers up to {until})"
            assert since == [f"  revoked since {part}"]
        assert len(lines) == 2 + len(since) + len(one.seen) + EPOCHS
        for sighting, line in zip(one.seen, lines[2 + len(since) :]):
            assert line.startswith(f"  timestamp {nearest_iso(sighting[1])} of log {sighting[0].hex()}: ")
            assert ("not covered" in line) == (not any(epoch.covers(sighting) for epoch in story.epochs))


def test_what_the_chain_began_with(story: Story) -> None:
    """What the first part says may be older than the chain."""
    one = next(each for each in story.certificates if each.first == 0)
    ends(", or before: the chain begins there", 1, "explain", story.store, *words_of(one))


def test_logs_that_no_part_has(story: Story) -> None:
    one = Certificate(ISSUERS[0], b"\x05", [(b"\xee" * 32, BEGIN)], None, None)
    ends("not covered, since no part has this log", 3, "explain", story.store, *words_of(one))


def test_with_the_manifest(story: Story, tmp_path: Path) -> None:
    """The moment of the newest epoch stands in the manifest of this store; and what the store says of an issuer that is
    away is explained too."""
    one = next(each for each in story.certificates if each.first == EPOCHS - 1)
    octets, newest = story.store.read_bytes(), story.epochs[-1]
    away = manifests.Issuer(one.issuer, "Elm", False, BEGIN, "no CRL")
    parts = (manifests.Part("snapshot", newest.epoch, 1, bytes(32)),)
    head = ("example", 1, newest.epoch, newest.moment, newest.moment, parts, 1, hashlib.sha256(octets).digest())
    (tmp_path / "manifest.json").write_bytes(manifests.to_json(manifests.Manifest(*head, (), (away,), None)))
    told = explained(story.store, one, "--manifest", tmp_path / "manifest.json", "--max-away", "1d")
    assert (told["verdict"], told["store"]) == ("not-enrolled", "revoked")
    assert told["revoked_since"]["moment"] == told["parts"][-1]["moment"] == nearest_iso(newest.moment)
    assert told["parts"][0]["moment"] is None and "its issuer is away" in told["why"]


def test_devices(story: Story, tmp_path: Path) -> None:
    program("device-format", tmp_path / "device", 1 << 20, story.store)
    one = next(each for each in story.certificates if each.first == 2)
    assert explained(tmp_path / "device", one) == explained(story.store, one)


def test_faults(story: Story, tmp_path: Path) -> None:
    """What can't be asked about is said as `ask` says it."""
    one = story.certificates[0]
    ends("there is no such file", 5, "explain", story.store, tmp_path / "absent")
    ends("it isn't a store", 7, "explain", story.folder / "part0", *words_of(one))
    ends("Missing argument", 2, "explain", story.store)
    ends("no file holds a certificate", 5, "explain", story.store, story.folder)
    (found,) = json.loads(ctl("explain", "--json", story.store, tmp_path / "absent").stdout)
    assert (found["fault"], found["parts"], found["revoked_since"]) == ("no-certificate", [], None)


# ---- completion


@pytest.mark.parametrize("shell", ["bash", "zsh", "fish"])
def test_completion(shell: str) -> None:
    """What a shell reads names the function of click, and that answers with the words that may follow."""
    script = ends("_CLUBCARDCTL_COMPLETE", 0, "completion", shell).stdout
    assert f"{shell}_complete" in script
    for line, place, words in (
        ("clubcardctl ", 1, {"ask", "explain", "job", "completion"}),
        ("clubcardctl ask --ma", 2, {"--manifest", "--max-away"}),
    ):
        variables = {"COMP_WORDS": line, "COMP_CWORD": str(place), "_CLUBCARDCTL_COMPLETE": f"{shell}_complete"}
        if shell == "fish":
            variables["COMP_CWORD"] = line.split()[-1] if place > 1 else ""
        done = called(variables=variables)
        assert words <= set(done.stdout.decode().replace(",", "\n").replace("\t", "\n").split("\n")), done
