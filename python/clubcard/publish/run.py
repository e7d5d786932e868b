"""One run of the publisher: CRLs and entries are fetched, an epoch is made, and the site becomes what the state says.

The state's transaction comes before the site's manifest, and a run begins by making the site what the state says: so a
run that is killed at any moment is made good by the next one, and no epoch is published twice.
"""

import contextlib
import sqlite3
from collections.abc import Callable, Iterator
from dataclasses import dataclass
from pathlib import Path

from ..engine import Engine, EngineError
from ..http import Client
from ..lock import Locked, locked
from ..minisign import MinisignError
from ..progress import Progress, Silent
from ..telling import FULL, refused_by_system
from . import chain, splitting
from .alarms import Alarm, Alarms
from .chain import EpochRow
from .config import Config
from .epoch import NoEpoch, left_open, made_before, make_epoch
from .issuers import Enrolment, enrolled, fetch_crls
from .logs import fetch_logs
from .site import SiteError, publish_site
from .state import State, StateError

PUBLISHED = 0
WITH_ALARMS = 10
WRONG_WORDS = 2
NO_EPOCH = 3
LOCKED = 4


@dataclass(frozen=True)
class Outcome:
    """What a run came to."""

    status: int
    """0 published, 10 published with alarms, 3 no epoch was made, 4 another run holds the lock."""
    alarms: tuple[Alarm, ...]
    why: str | None = None
    """With the statuses 3 and 4: one line that says why, and what to do."""
    row: EpochRow | None = None
    """With the statuses 0 and 10 of `run` and `split`: the newest epoch."""


@contextlib.contextmanager
def opened(config: Config, splits: bool = False) -> Iterator[State]:
    """The state, without what a killed run left. Raises StateError where its chain has another plan of places than
    CONFIG; where that is to be split, one of which it can't become."""
    state = State.open(config.state)
    try:
        chain.test_places(config, state, splits)
        state.sweep()
        yield state
    finally:
        state.close()


@contextlib.contextmanager
def _fetching(client: Client | None) -> Iterator[Client]:
    """The client that was handed in, or a new one."""
    if client is not None:
        yield client
        return
    with Client() as own:
        yield own


def run(
    config: Config,
    now: int,
    engine: Engine | None = None,
    client: Client | None = None,
    progress: Progress | None = None,
) -> Outcome:
    """Makes the epoch of a moment (`now`, milliseconds since 1970 UTC) and publishes it. With the moment of the newest
    epoch it makes the site what the state says. `engine` and `client` are made by CONFIG where none is given."""
    shown, card = progress or Silent(), engine or Engine(config.program)

    def work(state: State, alarms: Alarms) -> EpochRow:
        if not left_open(state, now):
            publish_site(config, state)
        made = made_before(config, state, card, now, alarms, shown)
        if made is None:
            enrolment = _fetch(config, state, now, client, alarms, shown)
            made = make_epoch(config, state, card, now, enrolment, alarms, shown)
        publish_site(config, state)
        return made.row

    return _guarded(config, work)


def split(config: Config, engine: Engine | None = None, progress: Progress | None = None) -> Outcome:
    """Splits the chain that stands into those of CONFIG's places, of the same epoch, and publishes them. Where it has
    been split it makes the site what the state says."""
    shown, card = progress or Silent(), engine or Engine(config.program)

    def work(state: State, alarms: Alarms) -> EpochRow:
        row = splitting.split(config, state, card, alarms, shown)
        publish_site(config, state)
        return row

    return _guarded(config, work, True)


def fetch(config: Config, now: int, client: Client | None = None, progress: Progress | None = None) -> Outcome:
    """Fetches CRLs and entries, and makes no epoch. The status is 10 where an issuer would be left out now, or a log
    isn't followed."""
    shown = progress or Silent()

    def work(state: State, alarms: Alarms) -> None:
        _fetch(config, state, now, client, alarms, shown)

    return _guarded(config, work)


def _fetch(
    config: Config, state: State, now: int, client: Client | None, alarms: Alarms, progress: Progress
) -> Enrolment:
    """Fetches from issuers and logs, and tells which issuers lack a CRL."""
    with _fetching(client) as asked:
        fetch_crls(config, state, now, asked, progress)
        fetch_logs(config, state, now, asked, alarms, progress)
    enrolment = enrolled(config, state, now)
    for lack in enrolment.lacks:
        alarms.add("issuer", str(lack))
    return enrolment


def _guarded(config: Config, work: Callable[[State, Alarms], EpochRow | None], splits: bool = False) -> Outcome:
    """What a step came to under the lock; what an operator can cause and mend is told with what to do."""
    alarms = Alarms()
    try:
        with locked(config.state), opened(config, splits) as state:
            row = work(state, alarms)
    except Locked as fault:
        return Outcome(LOCKED, (), str(fault))
    except (NoEpoch, StateError, SiteError, MinisignError, EngineError) as fault:
        return Outcome(NO_EPOCH, tuple(alarms.raised), str(fault))
    except (OSError, sqlite3.Error) as fault:
        return Outcome(NO_EPOCH, tuple(alarms.raised), told(fault, config.state))
    told_now = tuple(alarms.raised)
    has_alarms = bool(told_now or row is not None and row.alarms)
    return Outcome(WITH_ALARMS if has_alarms else PUBLISHED, told_now, None, row)


def told(fault: OSError | sqlite3.Error, state: Path) -> str:
    """What the system or the database refused, in one line with what to do."""
    if isinstance(fault, sqlite3.Error):
        return f"{state / 'state.sqlite'}: {fault}: {_database_remedy(str(fault))}; nothing is lost, run again"
    refused = refused_by_system(fault, state, "the publisher's user")
    return f"{refused}; nothing is lost, run again"


def _database_remedy(text: str) -> str:
    """What to do where SQLite refuses."""
    if "full" in text:
        return FULL
    if "locked" in text:
        return "another program holds the database: close it"
    if "malformed" in text or "not a database" in text:
        return "the database is damaged: put the state's folder back from a copy"
    return "look at this file, its folder and the disk"
