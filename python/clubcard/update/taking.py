"""Takes the site's manifest: its signature is verified, it isn't older than the one before, and isn't past its time."""

import hashlib
import json
from dataclasses import replace
from pathlib import Path

from .. import minisign
from ..http import MIB, Client, FetchError, Response
from ..manifest import Manifest, ManifestError
from ..places import told
from ..times import nearest_iso
from .config import Config
from .faults import NotReached, Refused, SetUp, Stale
from .state import Accepted, State, manifest_of

MANIFEST = "manifest.json"
MOST_MANIFEST = 64 * MIB
MOST_SIGNATURE = 1 << 16


def take(config: Config, state: State, client: Client, now: int) -> Accepted:
    """The site's manifest, accepted now or before. Raises Stale, Refused, NotReached or SetUp."""
    known = state.accepted()
    if known is not None:
        _test_owner(config, state, known)
        if config.key not in (known.pinned, known.key):
            # The order begins anew: what the former key signed, which may have been stolen, binds nobody.
            known = None
    # Under another key of CONFIG all is verified anew.
    trusted = known if known is not None and known.pinned == config.key else None
    # The ETag stays the one that came with the text: with the same text, or with 304, a site may tell that of another.
    etag = trusted.etag if trusted is not None and trusted.site == config.site else None
    answer = _get(client, config.site + MANIFEST, MOST_MANIFEST, etag)
    if trusted is not None and ((answer.status == 304 and etag is not None) or answer.body == trusted.text):
        taken = replace(trusted, etag=etag or answer.etag, site=config.site, place=config.place_from_state)
    else:
        taken = _verified(config, state, client, answer, trusted)
    if config.capacity is not None and taken.manifest.places is not None:
        # No device keeps places: the folder that CONFIG is to name in its stead takes this state over.
        taken = replace(taken, place=None)
    if known is not None:
        _test_order(taken, known, state.known)
    why = past(config, taken.manifest, now)
    if why is not None:
        raise Stale(f"the site's manifest {why}: see whether the publisher runs, and this clock is right")
    if taken != known:
        state.with_room(lambda: state.accept(taken))
    return taken


def past(config: Config, manifest: Manifest, now: int) -> str | None:
    """Why a manifest is past its time, or None where it isn't."""
    if now > manifest.valid_until:
        return f"of epoch {manifest.epoch} was valid until {nearest_iso(manifest.valid_until)}"
    if config.max_age is not None and now > manifest.moment + config.max_age:
        return f"of epoch {manifest.epoch} is of {nearest_iso(manifest.moment)}, which is longer ago than max_age"
    return None


def _get(client: Client, url: str, most_bytes: int, etag: str | None = None) -> Response:
    """What stands at a URL."""
    try:
        return client.get(url, most_bytes, etag)
    except FetchError as fault:
        raise NotReached(f"{url}: {fault.why}: look at the network and at `site` in CONFIG") from fault


def _verified(config: Config, state: State, client: Client, answer: Response, trusted: Accepted | None) -> Accepted:
    """A manifest whose signature verifies by the pinned key, by the one that signed the manifest before, or by the one
    which that announced."""
    name = f"manifest-{hashlib.sha256(answer.body).hexdigest()}.minisig"
    signature = _signature(client, config.site + name)
    keys = [config.key]
    if trusted is not None:
        keys += [trusted.key, *([trusted.manifest.next_key] if trusted.manifest.next_key else [])]
    key = state.with_room(lambda: _signer(state.work, answer.body, signature, list(dict.fromkeys(keys))))
    if key is None:
        why = "the manifest's signature isn't one by the pinned key, or by one that was announced"
        raise Refused(f"{config.site + name}: {why}: tell the publisher, and compare `key` in CONFIG with its key")
    try:
        manifest = manifest_of(answer.body)
    except ManifestError as fault:
        raise Refused(f"{config.site + MANIFEST}: {fault}: update this program, or tell the publisher") from None
    except ValueError as fault:
        raise Refused(f"{config.site + MANIFEST}: next_key: {fault}: tell the publisher") from None
    return Accepted(answer.body, manifest, key, config.key, answer.etag, config.site, config.place_from_state)


def _signature(client: Client, url: str) -> bytes:
    """The signature of exactly the bytes that the URL's name has the digest of."""
    try:
        return client.get(url, MOST_SIGNATURE).body
    except FetchError as fault:
        if fault.status in (404, 410):
            raise Refused(f"{url}: the manifest's signature is missing: tell the publisher") from fault
        raise NotReached(f"{url}: {fault.why}: look at the network") from fault


def _signer(work: Path, text: bytes, signature: bytes, keys: list[str]) -> str | None:
    """Which of the keys signed a text; None where none of them did."""
    file, signed = work / MANIFEST, work / f"{MANIFEST}.minisig"
    file.write_bytes(text)
    signed.write_bytes(signature)
    try:
        return next((key for key in keys if minisign.verifies(key, file, signed)), None)
    except minisign.MinisignError as fault:
        raise SetUp(str(fault)) from fault


def _test_owner(config: Config, state: State, known: Accepted) -> None:
    """Refuses a state that is of another site or store: its manifest would be taken for this one's."""
    site, place = known.site or config.site, known.place or config.place_from_state
    remedy = f"name another folder by `state`; where it was moved on purpose, write the new one into {state.known}: "
    if site != config.site:
        was = f"{config.state} belongs to the site {site}, and CONFIG names {config.site}"
        raise SetUp(f'{was}: {remedy}"site": {json.dumps(config.site)}')
    if place != config.place_from_state:
        was = f"{config.state} belongs to the store {place} (seen from there), and CONFIG names {config.place}"
        raise SetUp(f'{was}: {remedy}"place": {json.dumps(config.place_from_state)}')


def _test_order(taken: Accepted, known: Accepted, file: Path) -> None:
    """Refuses a manifest of another chain than the one before, which stands in a file; one with other places that
    aren't a split of those; one that is older, or another one of the same generation and epoch."""
    chain, former = taken.manifest.name, known.manifest.name
    if chain != former:
        remedy = f"compare `site` in CONFIG; to move to that chain on purpose, remove {file} and run again"
        raise Refused(f"the site's manifest is of the chain {chain!r}, and this client follows {former!r}: {remedy}")
    if not taken.manifest.follows(known.manifest):
        new, old = told(taken.manifest.places), told(known.manifest.places)
        remedy = f"tell the publisher; to take them on purpose, remove {file} and the stores, and run again"
        raise Refused(f"the site's manifest has {new}, and this client's stores were begun with {old}: {remedy}")
    named = "generation {} epoch {}"
    new, old = named.format(*taken.version), named.format(*known.version)
    remedy = "it may be replayed: tell the publisher; docs/CLIENTS.md says what else it may be"
    if taken.version < known.version:
        raise Refused(f"the site's manifest is of {new}, and one of {old} was accepted before: {remedy}")
    if taken.version == known.version and taken.text != known.text:
        raise Refused(f"the site has another manifest of {new} than the one that was accepted before: {remedy}")
