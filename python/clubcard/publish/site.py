"""The site: what a web server serves to clients and to people, made of what the state says.

    manifest.json  manifest-SHA256.minisig  manifest.json.minisig  parts/SHA256.part  index.html  *.svg  metrics.prom

All bytes come from CONFIG and the state, and none from the time of the call. The manifest is renamed into place behind
everything that it names, and its signature's name has its digest: so whoever takes manifest.json finds the signature of
exactly these bytes and each part, whenever the publisher was killed. A part is a copy, so that no hand in the site
changes the state.
"""

import hashlib
import re
from collections.abc import Iterator
from pathlib import Path

from .. import minisign
from ..manifest import Chain, Coverage, Issuer, Manifest, Part, part_path, to_json
from ..places import WHOLE
from ..placing import DamagedFile, make_folder, place, place_copy, remove_others, settle, sweep
from . import chain, charts, metrics, overview, report
from .config import Config
from .state import State

_MANIFEST = "manifest.json"
_PARTS = "*.part"
_SIGNATURES = "manifest-*.minisig"
_TRUSTED = re.compile(r"^trusted comment: generation (\d+) epoch (\d+)$", re.MULTILINE | re.ASCII)


class SiteError(Exception):
    """The site couldn't be made. `remedy` says what to do; the manifest is as it was."""

    def __init__(self, what: str, remedy: str) -> None:
        super().__init__(f"{what}: {remedy}")
        self.what = what
        self.remedy = remedy


def _chain_of(row: chain.PlaceRow) -> Chain:
    """A place's chain in the manifest."""
    parts = tuple(Part(part.kind, part.epoch, part.length, part.sha256) for part in row.parts)
    return Chain(row.name, parts, row.store_length, row.store_sha256)


def manifest_of(release: chain.Release) -> Manifest:
    """The manifest of a release. It says nothing of today's CONFIG, so that one epoch has one manifest."""
    row, chains = release.row, tuple(map(_chain_of, release.chains))
    whole = Chain(WHOLE, (), 0, b"") if release.places else chains[0]
    return Manifest(
        name=row.name,
        generation=release.generation,
        epoch=release.epoch,
        moment=release.moment,
        valid_until=row.valid_until,
        parts=whole.parts,
        store_length=whole.store_length,
        store_sha256=whole.store_sha256,
        coverage=tuple(Coverage(held.log, held.name, held.low, held.high) for held in row.coverage),
        issuers=tuple(
            Issuer(held.issuer, held.name, held.enrolled, held.enrolled_at, held.reason) for held in row.issuers
        ),
        next_key=row.next_key,
        places=release.places,
        placed=chains if release.places else (),
    )


def signature_name(manifest: bytes) -> str:
    """Under which name the signature of a manifest's bytes lies."""
    return f"manifest-{hashlib.sha256(manifest).hexdigest()}.minisig"


def _signature(config: Config, state: State, release: chain.Release, text: bytes) -> bytes:
    """The signature of the manifest's text, as a file of minisign."""
    file = state.new_file("work", ".json")
    written = state.new_file("work", ".minisig")
    try:
        file.write_bytes(text)
        minisign.sign(file, written, config.key, f"generation {release.generation} epoch {release.epoch}")
        return written.read_bytes()
    finally:
        file.unlink(missing_ok=True)
        written.unlink(missing_ok=True)


def _needed_parts(config: Config, state: State, release: chain.Release) -> dict[str, chain.PartRow]:
    """Parts by their names below the site: those of the chain, and of former ones that ended less than `keep` ago."""
    since = release.moment - config.keep
    kept = [part for former in chain.former(state) if former.ended >= since for part in former.parts]
    return {part_path(part.sha256): part for part in [*kept, *release.parts]}


def _place_parts(site: Path, parts: dict[str, chain.PartRow]) -> None:
    """Puts each part under its digest."""
    make_folder(site / "parts")
    sweep(site / "parts")
    for name, part in parts.items():
        place_copy(site / name, part.file, part.sha256)
    settle(site / "parts")


def _pages(seen: overview.Overview, site: Path) -> Iterator[tuple[str, bytes]]:
    """The files for people and for Prometheus."""
    for name, draw in charts.CHARTS.items():
        yield name, charts.drawn(site / name, draw, seen)
    yield "index.html", report.to_html(seen)
    yield "metrics.prom", metrics.to_text(seen)


def _is_needed(path: Path, epochs: frozenset[int]) -> bool:
    """Whether a signature is of an epoch among these, as its trusted comment says."""
    found = _TRUSTED.search(path.read_text(encoding="utf-8", errors="replace"))
    return found is not None and int(found[2]) in epochs


def _clean(config: Config, epochs: frozenset[int], parts: dict[str, chain.PartRow], signature: str) -> None:
    """Removes parts that nobody needs, and signatures of other epochs than these."""
    signed = [path.name for path in config.site.glob(_SIGNATURES) if _is_needed(path, epochs)]
    remove_others(config.site, _SIGNATURES, [*signed, signature])
    remove_others(config.site / "parts", _PARTS, [Path(name).name for name in parts])


def _publish(config: Config, state: State, release: chain.Release) -> None:
    seen = overview.read(config, state, release)
    parts = _needed_parts(config, state, release)
    epochs = chain.epochs_since(state, release.moment - config.keep)
    text = to_json(manifest_of(release))
    make_folder(config.site)
    sweep(config.site)
    _place_parts(config.site, parts)
    signature = _signature(config, state, release, text)
    place(config.site / signature_name(text), signature)
    for name, octets in _pages(seen, config.site):
        place(config.site / name, octets)
    place(config.site / f"{_MANIFEST}.minisig", signature)
    settle(config.site)
    place(config.site / _MANIFEST, text)
    settle(config.site)
    _clean(config, epochs, parts, signature_name(text))


def publish_site(config: Config, state: State) -> None:
    """Makes the site what CONFIG and the state say, byte for byte, however often it is called; the manifest comes last.

    Called at the start of a run and behind an epoch. Nothing is done where no epoch was published yet. Raises
    SiteError, and MinisignError where there is no signature; the manifest is as it was then.
    """
    release = chain.release(state)
    if release is None:
        return
    try:
        _publish(config, state, release)
    except DamagedFile as fault:
        raise SiteError(str(fault), "put this file back from a backup of the state") from None
    except OSError as fault:
        where = f"{fault.filename} can't be read or written" if fault.filename else "the site can't be written"
        raise SiteError(f"{where} ({fault.strerror})", "look at names, rights and disk space, and run again") from fault
