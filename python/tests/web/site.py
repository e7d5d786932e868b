"""The published site, as a client takes it: manifest, signature, parts, and the store that they make."""

import hashlib
import json
import shutil
import subprocess
from collections.abc import Callable
from dataclasses import dataclass
from pathlib import Path
from typing import Any

from clubcard import Query, Refusal, Sighting, Store, Verdict

from made import second_program

from .oracle import Part

reference = second_program("reference")
PROJECT = Path(__file__).resolve().parents[3]
PROGRAM = PROJECT / "release" / "clubcard-x86_64-linux"
_WORDS = {
    Verdict.GOOD: "good",
    Verdict.REVOKED: "revoked",
    Verdict.NOT_COVERED: "not-covered",
    Verdict.NOT_ENROLLED: "not-enrolled",
}


def call(*words: str | Path) -> tuple[int, str]:
    """The program's status, and what it prints."""
    done = subprocess.run([str(PROGRAM), *map(str, words)], capture_output=True, text=True, check=False)
    return done.returncode, done.stdout


def program(*words: str | Path) -> str:
    """What the program prints. Another status than 0 is a fault."""
    status, text = call(*words)
    assert status == 0, f"{words[0]}: {status} {text}"
    return text


def shown(part: Path) -> Part:
    """The ranges and issuers of a part, as the program shows them."""
    ranges, issuers = {}, set()
    for line in program("show", part).splitlines():
        words = line.split()
        if words[0] == "range":
            ranges[bytes.fromhex(words[1])] = int(words[2]), int(words[3])
        if words[0] == "issuer":
            issuers.add(bytes.fromhex(words[1]))
    return Part(ranges, frozenset(issuers))


@dataclass(frozen=True)
class Published:
    """What stands in a site at a time."""

    manifest: dict[str, Any]
    parts: tuple[Path, ...]
    store: Path
    """The store; where there are places a folder with the store of each, by its name."""
    newest: tuple[Path, ...]
    """The newest part, or that of each place."""

    @property
    def newest_part(self) -> Part:
        """The ranges and issuers of the newest parts."""
        found = [shown(part) for part in self.newest]
        assert all(part.ranges == found[0].ranges for part in found)
        return Part(found[0].ranges, frozenset(issuer for part in found for issuer in part.issuers))

    @property
    def generation(self) -> int:
        return int(self.manifest["generation"])

    @property
    def epoch(self) -> int:
        return int(self.manifest["epoch"])

    @property
    def enrolled(self) -> set[bytes]:
        return {bytes.fromhex(one["issuer"]) for one in self.manifest["issuers"] if one["enrolled"]}

    @property
    def coverage(self) -> dict[bytes, tuple[int, int]]:
        return {bytes.fromhex(one["log"]): (_ms(one["from"]), _ms(one["to"])) for one in self.manifest["coverage"]}


def _ms(value: Any) -> int:
    assert isinstance(value, int)
    return value


class Reader:
    """A client that follows a site. `get` brings what stands at a path below it, and None where nothing does."""

    def __init__(self, folder: Path, get: Callable[[str], bytes | None], key: Path) -> None:
        self.folder, self.get, self.key = folder, get, key
        self.folder.mkdir(parents=True)
        self.stores: dict[tuple[str, ...], Path] = {}

    def _must(self, path: str) -> bytes:
        body = self.get(path)
        assert body is not None, f"the site has no {path}"
        return body

    def manifest(self) -> dict[str, Any] | None:
        """The manifest, its signature verified under the name that has its digest."""
        body = self.get("manifest.json")
        if body is None:
            return None
        name = self.folder / "manifest.json"
        name.write_bytes(body)
        signature = self._must(f"manifest-{hashlib.sha256(body).hexdigest()}.minisig")
        assert self._must("manifest.json.minisig") == signature
        (self.folder / "manifest.json.minisig").write_bytes(signature)
        words = ["minisign", "-V", "-q", "-p", str(self.key), "-m", str(name)]
        assert subprocess.run(words, check=False, capture_output=True).returncode == 0
        manifest: dict[str, Any] = json.loads(body)
        assert manifest["format"] == (2 if "places" in manifest else 1)
        return manifest

    def read(self) -> Published | None:
        """All that is published, tested as a client does; None where nothing is yet."""
        manifest = self.manifest()
        if manifest is None:
            return None
        chains = manifest["chains"] if manifest["format"] == 2 else [manifest]
        made = [self._store(chain) for chain in chains]
        parts = tuple(part for some, _ in made for part in some)
        store, newest = made[0][1], tuple(some[-1] for some, _ in made)
        if manifest["format"] == 2:
            store = self.folder / f"stores{manifest['epoch']}"
            store.mkdir(exist_ok=True)
            (store / "places").write_text(json.dumps(manifest["places"]))
            for chain, (_, file) in zip(chains, made):
                shutil.copyfile(file, store / chain["place"])
        return Published(manifest, parts, store, newest)

    def _store(self, chain: dict[str, Any]) -> tuple[list[Path], Path]:
        """The parts of a chain, and the store that they make, which is the manifest's."""
        names, store, parts = [], None, []
        for told in chain["parts"]:
            path = self._part(told)
            parts.append(path)
            names.append(told["sha256"])
            if tuple(names) not in self.stores:
                made = self.folder / f"store{len(self.stores)}"
                program(*(("start", path) if store is None else ("install", store, path)), made)
                self.stores[tuple(names)] = made
            store = self.stores[tuple(names)]
        assert store is not None
        octets = store.read_bytes()
        assert chain["store"] == {"length": len(octets), "sha256": hashlib.sha256(octets).hexdigest()}
        return parts, store

    def _part(self, told: dict[str, Any]) -> Path:
        """A part's file, downloaded where it isn't there."""
        path = self.folder / f"{told['sha256']}.part"
        if not path.exists():
            body = self._must(told["path"])
            assert (len(body), hashlib.sha256(body).hexdigest()) == (told["length"], told["sha256"])
            path.write_bytes(body)
        return path


def place_of(places: dict[str, Any], issuer: bytes, serial: bytes) -> str:
    """The place of a certificate, by the second program."""
    identity = reference.ident(issuer, serial)
    by_issuer = places["by"] == "issuer"
    count = places["count"]
    name = f"{reference.issuer_place(issuer, count) if by_issuer else reference.place(identity, count):04}"
    again = places["again"].get(name)
    return name if again is None else f"{name}.{reference.place(identity, again):04}"


def ask(store: Path, questions: list[tuple[bytes, bytes, tuple[tuple[bytes, int], ...]]]) -> list[str]:
    """What the library says of issuers, serials and sightings, of each the store of its place."""
    queries = [Query(i, s, [Sighting(log, time) for log, time in seen]) for i, s, seen in questions]
    at = {store: list(range(len(queries)))}
    if store.is_dir():
        places, at = json.loads((store / "places").read_text()), {}
        for number, query in enumerate(queries):
            at.setdefault(store / place_of(places, query.issuer, query.serial), []).append(number)
    found: dict[int, Verdict | Refusal] = {}
    for path, numbers in at.items():
        found.update(zip(numbers, Store.from_file(path).query_each([queries[number] for number in numbers])))
    answers = [found[number] for number in range(len(queries))]
    assert not any(isinstance(answer, Refusal) for answer in answers)
    return [_WORDS[answer] for answer in answers if isinstance(answer, Verdict)]


def ask_certificate(store: Path, certificate: bytes, issuer: bytes) -> str:
    """What the library says of a certificate by its own timestamps, and its issuer's certificate."""
    return _WORDS[Store.from_file(store).query_cert(certificate, issuer)]
