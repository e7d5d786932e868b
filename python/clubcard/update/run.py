"""One run of the updater: the site's manifest is taken, the parts that are missing are, and the store becomes the
manifest's."""

import json
from collections.abc import Sequence
from dataclasses import dataclass
from itertools import islice
from pathlib import Path

from ..engine import Engine
from ..http import Client
from ..lock import Locked, locked, locked_file
from ..manifest import Chain, Manifest
from ..places import told
from ..progress import Progress, Silent
from ..telling import one_line, refused_by_system
from .config import Config
from .faults import Fault, NotReached, Refused, SetUp, Stale
from .folder import StoreFolder
from .held import Held, digest_of_all, length_of, parts_held
from .installing import DeviceFile, Place, StoreFile, lock_beside, sweep_drafts
from .parts import take_parts
from .state import Accepted, State
from .taking import past, take

DONE = 0
WRONG_WORDS = 2
STALE = 3
REFUSED = 4
NOT_REACHED = 5
LOCKED = 6
_STATUSES: dict[type[Exception], int] = {
    SetUp: WRONG_WORDS,
    Stale: STALE,
    Refused: REFUSED,
    NotReached: NOT_REACHED,
    Locked: LOCKED,
}


@dataclass(frozen=True)
class Outcome:
    """What a run came to."""

    status: int
    """0 the store is the manifest's, 2 CONFIG, 3 stale, 4 refused, 5 not reached, 6 another run holds the lock."""
    line: str
    """With the status 0 what was done; with another one why not, and what to do."""
    hint: str | None = None
    """With the status 0: what the operator is to do all the same."""


def run(config: Config, now: int, client: Client | None = None, progress: Progress | None = None) -> Outcome:
    """Makes the store the site's, at a moment (`now`, milliseconds since 1970 UTC)."""
    state = State(config.state)
    try:
        with locked(config.state) as lock, locked_file(lock_beside(config.place)) as beside:
            engine = Engine(config.program, (lock, beside))
            if client is not None:
                return _run(config, state, now, client, engine, progress or Silent())
            with Client(agent="clubcard-update") as own:
                return _run(config, state, now, own, engine, progress or Silent())
    except Locked as fault:
        return _without(config, state, now, fault)
    except OSError as fault:
        return _without(config, state, now, NotReached(refused_by_system(fault, config.state, "the updater's user")))


def _run(config: Config, state: State, now: int, client: Client, engine: Engine, progress: Progress) -> Outcome:
    """A run under the locks."""
    try:
        state.begin()
        sweep_drafts(config.place)
        taken = take(config, state, client, now)
        line = _update(config, state, client, engine, taken, progress)
    except Fault as fault:
        return _without(config, state, now, fault)
    manifest = taken.manifest
    parts = f"parts {len(manifest.chains[0].parts)}"
    places = "" if manifest.places is None else f" places {len(manifest.chains)}"
    return Outcome(DONE, f"{line} epoch {manifest.epoch} {parts}{places}", _hint(config, taken))


def _update(config: Config, state: State, client: Client, engine: Engine, taken: Accepted, progress: Progress) -> str:
    """Makes the store a manifest's: `current` where it was, else `updated`."""
    for chain in taken.manifest.chains:
        if length_of(chain) != chain.store_length:
            raise Refused("the manifest's store hasn't the length of its parts: tell the publisher")
    _test_kind(config, taken.manifest)
    update = _update_places if taken.manifest.places is not None else _update_one
    is_new = update(config, state, client, engine, taken, progress)
    state.install(taken)
    return "updated" if is_new else "current"


def _update_one(
    config: Config, state: State, client: Client, engine: Engine, taken: Accepted, progress: Progress
) -> bool:
    """Makes the store that of the one chain; whether it lacked parts."""
    (chain,) = taken.manifest.chains
    place = _place(config, engine)
    place.room(chain)
    held = place.held()
    count = parts_held(held, chain)
    missing = chain.parts[count:]
    files = take_parts(config.site, state.parts, client, engine, missing, progress)
    _test_digest(chain, held, count, files)
    if missing:
        place.install(chain, count, files)
    return bool(missing)


def _update_places(
    config: Config, state: State, client: Client, engine: Engine, taken: Accepted, progress: Progress
) -> bool:
    """Makes the stores those of all places, or leaves them; whether one lacked parts."""
    folder, chains = StoreFolder(engine, config.place, taken.manifest), taken.manifest.chains
    folder.begin()
    held = {chain.place: folder.held(chain) for chain in chains}
    missing = [part for chain in chains for part in chain.parts[held[chain.place][1] :]]
    files = iter(take_parts(config.site, state.parts, client, engine, missing, progress))
    brought = {chain.place: list(islice(files, len(chain.parts) - held[chain.place][1])) for chain in chains}
    for chain in chains:
        _test_digest(chain, *held[chain.place], brought[chain.place])
    for chain in chains:
        folder.put(chain, held[chain.place][0], brought[chain.place])
    folder.install(taken.text)
    return bool(missing)


def _test_digest(chain: Chain, held: Held | None, count: int, files: Sequence[Path]) -> None:
    """Tests that the parts make the store that the manifest names."""
    if digest_of_all(held, count, files, len(chain.parts)) != chain.store_sha256:
        raise Refused("the manifest's store hasn't the SHA-256 of its parts together: tell the publisher")


def _test_kind(config: Config, manifest: Manifest) -> None:
    """Tests that the manifest's stores can be kept where CONFIG says: those of places in a folder, else one file."""
    if manifest.places is None:
        if config.place.is_dir():
            raise SetUp(f"{config.place} is a folder, and the site has one store: name a file by `store`")
    elif config.capacity is not None:
        was = f"the site has {told(manifest.places)}, and a device keeps one store"
        new = json.dumps(f"{config.place}.stores", ensure_ascii=False)
        remedy = f"write store = {new} in place of `device` and `capacity`, a folder which programs open then"
        raise SetUp(f"{config.path}: {was}: {remedy}; the device stays as it is")
    elif config.place.exists() and not config.place.is_dir():
        was = f"{config.place} is a file, and the site has {told(manifest.places)}"
        raise SetUp(f"{was}: move this file away and run again: then a folder of stores is there, which programs open")


def _place(config: Config, engine: Engine) -> Place:
    """Where the store is kept."""
    if config.capacity is None:
        return StoreFile(engine, config.place)
    return DeviceFile(engine, config.place, config.capacity)


def _without(config: Config, state: State, now: int, fault: Fault | Locked) -> Outcome:
    """A run that left the store as it was: what it came to, by the fault and the store's own time. Behind a lock that
    time is told, and the status stays."""
    status, why = _STATUSES[type(fault)], str(fault)
    if status in (NOT_REACHED, LOCKED):
        installed = state.installed()
        is_past = None if installed is None else past(config, installed, now)
        if is_past is not None:
            status, why = LOCKED if status == LOCKED else STALE, f"{why}; the store's manifest {is_past}"
    return Outcome(status, one_line(why))


def _hint(config: Config, taken: Accepted) -> str | None:
    """What to change in CONFIG behind a change of the key."""
    if taken.key == config.key:
        return None
    return f'the manifest is signed by the key that was announced: write key = "{taken.key}" into {config.path}'
