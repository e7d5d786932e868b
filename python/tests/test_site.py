"""The site: always what the state says, whole at every moment, and signed."""

import base64
import errno
import hashlib
import os
import shutil
import stat
import subprocess
from collections.abc import Callable
from dataclasses import replace
from pathlib import Path
from typing import Any

import pytest

from clubcard import minisign
from clubcard.manifest import from_json, to_json
from clubcard.publish import charts, site
from clubcard.publish.config import Config
from clubcard.times import DAY

import site_world
from site_world import World

pytestmark = pytest.mark.skipif(
    shutil.which("minisign") is None, reason="minisign isn't installed (Debian's package minisign)"
)


class Killed(BaseException):
    """Stands for the end of the process."""


def tree(folder: Path) -> dict[str, bytes]:
    """All files below a folder, by name."""
    return {str(path.relative_to(folder)): path.read_bytes() for path in folder.rglob("*") if path.is_file()}


def check_signature(folder: Path, manifest: bytes) -> None:
    """Whether minisign verifies the signature of these bytes that lies under their digest."""
    signature = folder / "site" / f"manifest-{hashlib.sha256(manifest).hexdigest()}.minisig"
    copy = folder / "manifest.copy"
    copy.write_bytes(manifest)
    words = ["minisign", "-V", "-q", "-p", str(folder / "publisher.pub"), "-x", str(signature), "-m", str(copy)]
    assert subprocess.run(words, capture_output=True, check=False).returncode == 0


def check_whole(folder: Path) -> int:
    """Whether the manifest that a reader finds has its signature and all of its parts. The result is its epoch."""
    path = folder / "site" / "manifest.json"
    if not path.exists():
        return 0
    text = path.read_bytes()
    check_signature(folder, text)
    manifest = from_json(text)
    for part in manifest.parts:
        octets = (folder / "site" / part.path).read_bytes()
        assert len(octets) == part.length and hashlib.sha256(octets).digest() == part.sha256
    return manifest.epoch


def plain_charts(monkeypatch: pytest.MonkeyPatch) -> None:
    """Charts without matplotlib, for tests that aren't about them."""
    monkeypatch.setattr(charts, "_svg", lambda chart, figures: repr(figures).encode())


@pytest.fixture
def made(tmp_path: Path, monkeypatch: pytest.MonkeyPatch) -> tuple[Path, Config, World]:
    """A folder, its CONFIG and an empty world."""
    plain_charts(monkeypatch)
    config, world = site_world.world_of(tmp_path, monkeypatch)
    site_world.fill(world)
    return tmp_path, config, world


Made = tuple[Path, Config, World]


def test_nothing_yet(made: Made) -> None:
    """Before the first epoch there is no site."""
    folder, config, world = made
    site.publish_site(config, world.state)
    assert not (folder / "site").exists()


def test_files(made: Made) -> None:
    """Exactly these files, which everybody may read."""
    folder, config, world = made
    world.epoch()
    world.epoch()
    before = os.umask(0o077)
    try:
        site.publish_site(config, world.state)
    finally:
        os.umask(before)
    assert check_whole(folder) == 2
    files = tree(folder / "site")
    signature = site.signature_name(files["manifest.json"])
    parts = {f"parts/{part.sha256.hex()}.part" for part in world.parts}
    assert set(files) == parts | {"manifest.json", "manifest.json.minisig", signature, "index.html"} | {
        "metrics.prom",
        "history.svg",
        "issuers.svg",
        "sizes.svg",
        "coverage.svg",
    }
    assert files["manifest.json.minisig"] == files[signature]
    for path in (folder / "site").rglob("*"):
        assert stat.S_IMODE(path.stat().st_mode) == (0o755 if path.is_dir() else 0o644), path
    assert stat.S_IMODE((folder / "site").stat().st_mode) == 0o755


def test_manifest(made: Made) -> None:
    """The manifest says what the epoch came to."""
    _, config, world = made
    world.epoch()
    world.epoch(rebased=True)
    world.epoch()
    site.publish_site(config, world.state)
    manifest = from_json((config.site / "manifest.json").read_bytes())
    row, release = world.rows[-1], world.release()
    assert release is not None
    assert (manifest.name, manifest.generation, manifest.epoch) == ("example", 2, 3)
    assert (manifest.moment, manifest.valid_until) == (row.moment, row.moment + DAY)
    assert [(part.kind, part.epoch, part.length) for part in manifest.parts] == [
        ("snapshot", 2, world.parts[0].length),
        ("delta", 3, world.parts[1].length),
    ]
    assert (manifest.store_length, manifest.store_sha256) == (release.store_length, release.chains[0].store_sha256)
    assert {(held.log, held.name, held.low, held.high) for held in manifest.coverage} == {
        (held.log, held.name, held.low, held.high) for held in row.coverage
    }
    assert {held.issuer: (held.name, held.enrolled, held.enrolled_at, held.reason) for held in manifest.issuers} == {
        held.issuer: (held.name, held.enrolled, held.enrolled_at, held.reason) for held in row.issuers
    }


def test_same_bytes(made: Made) -> None:
    """A second call changes no file, and a site that is made anew has the same bytes."""
    folder, config, world = made
    world.epoch()
    site.publish_site(config, world.state)
    world.epoch(rebased=True)
    site.publish_site(config, world.state)
    files = tree(folder / "site")
    times = {path: path.stat().st_mtime_ns for path in (folder / "site").rglob("*") if path.is_file()}
    site.publish_site(config, world.state)
    assert tree(folder / "site") == files
    assert {path: path.stat().st_mtime_ns for path in times} == times
    shutil.rmtree(folder / "site")
    site.publish_site(config, world.state)
    anew = tree(folder / "site")
    former = site.signature_name(to_json(site.manifest_of(first_release(world))))
    assert anew == {name: octets for name, octets in files.items() if name != former}


def first_release(world: World) -> Any:
    """What was published of the first epoch."""
    former = world.formers[0].parts[:1]
    release = World(world.state, world.rows[:1], list(former)).release()
    assert release is not None
    return release


def test_other_config(made: Made) -> None:
    """What CONFIG says today changes nothing of an epoch's manifest."""
    folder, config, world = made
    world.epoch()
    site.publish_site(config, world.state)
    before = (folder / "site" / "manifest.json").read_bytes()
    site.publish_site(replace(config, name="other", valid_for=1, next_key="other"), world.state)
    assert (folder / "site" / "manifest.json").read_bytes() == before


def test_damage(made: Made) -> None:
    """Files of the site that somebody changed or removed are made anew."""
    folder, config, world = made
    world.epoch()
    world.epoch()
    site.publish_site(config, world.state)
    files = tree(folder / "site")
    for name in files:
        path = folder / "site" / name
        path.write_bytes(b"x" * len(files[name]))
        site.publish_site(config, world.state)
        assert tree(folder / "site") == files, name
        path.unlink()
        site.publish_site(config, world.state)
        assert tree(folder / "site") == files, name


def test_damaged_state(made: Made) -> None:
    """A part of the state that isn't what its row says is never published, and the manifest stays."""
    folder, config, world = made
    world.epoch()
    site.publish_site(config, world.state)
    world.epoch()
    world.parts[-1].file.write_bytes(b"x" * world.parts[-1].length)
    with pytest.raises(site.SiteError, match="SHA-256.*backup"):
        site.publish_site(config, world.state)
    assert check_whole(folder) == 1
    world.parts[-1].file.unlink()
    with pytest.raises(site.SiteError, match="can't be read"):
        site.publish_site(config, world.state)
    assert check_whole(folder) == 1


def test_keep(made: Made) -> None:
    """Parts of a former chain, and signatures of former manifests, stay for `keep` (two days, eight epochs here)."""
    folder, config, world = made
    world.epoch()
    site.publish_site(config, world.state)
    world.epoch(rebased=True)
    former = {f"{part.sha256.hex()}.part" for part in world.formers[0].parts}
    signed = []
    for _ in range(9):
        site.publish_site(config, world.state)
        held = {path.name for path in (folder / "site" / "parts").iterdir()}
        assert former <= held, world.rows[-1].epoch
        signed.append(site.signature_name((folder / "site" / "manifest.json").read_bytes()))
        world.epoch()
    site.publish_site(config, world.state)
    assert not former & {path.name for path in (folder / "site" / "parts").iterdir()}
    names = {path.name for path in (folder / "site").glob("manifest-*.minisig")}
    assert len(names) == 9 and names >= set(signed[1:]) and signed[0] not in names
    assert check_whole(folder) == 11


def test_unknown_files(made: Made) -> None:
    """What isn't the publisher's stays; what a killed run left half written goes, and a signature of no epoch."""
    folder, config, world = made
    world.epoch()
    site.publish_site(config, world.state)
    halves = [folder / "site" / ".manifest-0.minisig.new", folder / "site" / "parts" / ".0.part.new"]
    for half in halves:
        half.write_bytes(b"half")
    (folder / "site" / "robots.txt").write_text("User-agent: *\n")
    (folder / "site" / "parts" / "README").write_text("about\n")
    (folder / "site" / "manifest-0.minisig").write_bytes(b"\xff")
    site.publish_site(config, world.state)
    assert (folder / "site" / "robots.txt").exists() and (folder / "site" / "parts" / "README").exists()
    assert not (folder / "site" / "manifest-0.minisig").exists() and not [half for half in halves if half.exists()]


def test_other_key(made: Made) -> None:
    """With another key the same manifest gets another signature, and the former key's is gone."""
    folder, config, world = made
    world.epoch()
    site.publish_site(config, world.state)
    for name in ("publisher.key", "publisher.pub"):
        (folder / name).unlink()
    minisign.new_key(folder / "publisher.key", folder / "publisher.pub")
    site.publish_site(config, world.state)
    assert check_whole(folder) == 1


def wrong_key(folder: Path, octets: bytes | None) -> None:
    """Replaces the secret key."""
    (folder / "publisher.key").unlink()
    if octets is not None:
        (folder / "publisher.key").write_bytes(octets)


ENCRYPTED = b"untrusted comment: minisign encrypted secret key\n" + base64.b64encode(b"EdScB2".ljust(158, b"7")) + b"\n"


@pytest.mark.parametrize(
    "octets, says",
    [
        (None, "can't be read"),
        (b"", "no key file"),
        (b"a\n!!\n", "no key file"),
        (b"a\nAAAA\n", "no secret key"),
        (ENCRYPTED, "has a password.*minisign -C -W"),
    ],
    ids=["missing", "empty", "not Base64", "short", "password"],
)
def test_wrong_keys(made: Made, octets: bytes | None, says: str) -> None:
    """A key that can't sign is told with a remedy; nobody is asked for a password, and the site stays."""
    folder, config, world = made
    world.epoch()
    site.publish_site(config, world.state)
    before = tree(folder / "site")
    wrong_key(folder, octets)
    world.epoch()
    with pytest.raises(minisign.MinisignError, match=says) as fault:
        site.publish_site(config, world.state)
    assert fault.value.remedy
    assert check_whole(folder) == 1 and before.items() <= tree(folder / "site").items()


def test_no_minisign(made: Made, monkeypatch: pytest.MonkeyPatch) -> None:
    """Without the program it says which package to install."""
    _, config, world = made
    world.epoch()
    monkeypatch.setattr(minisign, "PROGRAM", "minisign-that-is-not-there")
    with pytest.raises(minisign.MinisignError, match="package minisign"):
        site.publish_site(config, world.state)


def interrupting(count: int, fault: Callable[[], BaseException], monkeypatch: pytest.MonkeyPatch) -> list[str]:
    """From the call of this number on, each call that changes the disk fails; calls before it are told."""
    told: list[str] = []

    def wrapped(name: str, call: Callable[..., Any]) -> Callable[..., Any]:
        def step(*words: Any, **options: Any) -> Any:
            if len(told) >= count:
                raise fault()
            told.append(name)
            return call(*words, **options)

        return step

    for module, name in ((os, "replace"), (os, "fsync"), (os, "fchmod"), (os, "unlink"), (os, "mkdir")):
        monkeypatch.setattr(module, name, wrapped(name, getattr(module, name)))
    monkeypatch.setattr(subprocess, "run", wrapped("run", subprocess.run))
    return told


def epochs_before(world: World, config: Config) -> None:
    """What is published before the interrupted call: epochs with a rebase among them, whose former chain goes now."""
    world.epoch()
    site.publish_site(config, world.state)
    world.epoch(rebased=True)
    for _ in range(9):
        site.publish_site(config, world.state)
        world.epoch()


def full() -> OSError:
    """What the system says of a full disk."""
    return OSError(errno.ENOSPC, os.strerror(errno.ENOSPC))


@pytest.mark.parametrize(
    "fault, keep", [(Killed, 2 * DAY), (full, 2 * DAY), (Killed, 0)], ids=["killed", "disk full", "keeps nothing"]
)
def test_interrupted(made: Made, fault: Callable[[], BaseException], keep: int) -> None:
    """At each step that an end or a full disk comes, readers find a whole site, and the next call makes it as if
    nothing had been."""
    folder, config, world = made
    config = replace(config, keep=keep)
    epochs_before(world, config)
    shutil.copytree(folder / "site", folder / "before")
    site.publish_site(config, world.state)
    wanted = tree(folder / "site")
    seen = set()
    for count in range(1000):
        shutil.rmtree(folder / "site")
        shutil.copytree(folder / "before", folder / "site")
        with pytest.MonkeyPatch.context() as patch:
            told = interrupting(count, fault, patch)
            ended = raised(lambda: site.publish_site(config, world.state))
        seen.add(check_whole(folder))
        site.publish_site(config, world.state)
        assert tree(folder / "site") == wanted, told
        if not ended:
            break
    assert count > 20 and not ended and seen == {10, 11}


def raised(call: Callable[[], None]) -> bool:
    """Whether a call ends by the fault, or by the error that tells it."""
    try:
        call()
    except (Killed, site.SiteError):
        return True
    return False


def test_first_interrupted(made: Made) -> None:
    """The same for the first publication: no manifest, or a whole site."""
    folder, config, world = made
    world.epoch()
    seen = set()
    for count in range(1000):
        shutil.rmtree(folder / "site", ignore_errors=True)
        with pytest.MonkeyPatch.context() as patch:
            interrupting(count, Killed, patch)
            ended = raised(lambda: site.publish_site(config, world.state))
        seen.add(check_whole(folder))
        if not ended:
            break
    assert not ended and seen == {0, 1}


def test_order(made: Made, monkeypatch: pytest.MonkeyPatch) -> None:
    """Each file is synced before it gets its name, and all names are synced before the manifest gets its own."""
    folder, config, world = made
    world.epoch()
    steps: list[tuple[str, str]] = []
    replace_, fsync = os.replace, os.fsync

    def synced(number: int) -> None:
        steps.append(("sync", os.readlink(f"/proc/self/fd/{number}")))
        fsync(number)

    def renamed(source: Path, target: Path) -> None:
        assert ("sync", str(source)) in steps
        steps.append(("name", str(target)))
        replace_(source, target)

    monkeypatch.setattr(os, "fsync", synced)
    monkeypatch.setattr(os, "replace", renamed)
    site.publish_site(config, world.state)
    manifest = steps.index(("name", str(folder / "site" / "manifest.json")))
    last = max(place for place, step in enumerate(steps[:manifest]) if step[0] == "name")
    assert steps[last + 1 : manifest - 1] == [("sync", str(folder / "site"))], "the folder between"
    assert [step for step in steps if step[0] == "name"][-1] == steps[manifest]
    part = max(place for place, step in enumerate(steps) if step[0] == "name" and step[1].endswith(".part"))
    assert ("sync", str(folder / "site" / "parts")) in steps[part:manifest]
    assert steps[manifest + 1] == ("sync", str(folder / "site"))
