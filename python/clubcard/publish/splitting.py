"""A chain that stands is split into those of a finer plan of places, of the same epoch."""

from collections.abc import Mapping, Sequence
from itertools import groupby
from pathlib import Path

from ..engine import By, Engine, Rebased
from ..places import Places
from ..progress import Progress
from . import chain, checking, rebasing
from .alarms import Alarms
from .chain import EpochRow, Newest
from .config import Config
from .making import Making, NoEpoch
from .rebasing import Begun
from .state import State


def split(config: Config, state: State, engine: Engine, alarms: Alarms, progress: Progress) -> EpochRow:
    """Begins the chains of CONFIG's places, a split of the state's plan, with what the standing ones hold, in one
    transaction; nothing is done where they have been begun. Entries that hold a rebase back hold the split back until
    their issuer was away for `patience` epochs, or the chain has no room for another part. The newest epoch's row,
    whose alarms are raised again. Raises NoEpoch where nothing is split: the state is as before."""
    row, newest = chain.newest_epoch(state), chain.newest(state)
    if row is None or newest is None:
        raise NoEpoch("there is no chain to be split yet", f"run `clubcard-publish run {config.path}`")
    for alarm in row.alarms:
        alarms.add(alarm.kind, alarm.text)
    if state.places() == config.places:
        return row
    # The moment is the epoch's, so that it is the same split whenever it is begun again.
    making = Making(config, state, engine, row.moment, alarms, progress)
    holding, gone = rebasing.held_by(making, newest)
    left = {issuer: config.patience - _away(making, issuer) for issuer in sorted(set(holding) - gone)}
    if max(left.values(), default=0) > 0 and newest.parts < making.limits.parts:
        issuer = max(left, key=left.__getitem__)
        why = f"{holding[issuer]} entries of {making.issuer_name(issuer)} wait, which isn't enrolled"
        until = f"once an epoch enrolled it, or behind {left[issuer]} more epochs"
        raise NoEpoch(why, f"split the chain {until}, or take its [[issuer]] out of CONFIG")
    return rebasing.rebased(making, newest, dict(sorted(holding.items())), _run, checking.of_split())


def _away(making: Making, issuer: int) -> int:
    """How many epochs there are since one enrolled an issuer."""
    query = "SELECT count(*) FROM epoch WHERE moment > (SELECT enrolled_at FROM issuer WHERE id = ?)"
    return int(making.db.execute(query, (issuer,)).fetchone()[0])


def _run(making: Making, newest: Newest, without: list[int]) -> Begun:
    """The chains of all new places, made of the old ones' rebases. An old place that stays begins with its own."""
    places = making.config.places
    assert places is not None
    origins = places.origins(making.state.places())
    made: Begun = {}
    for origin, (line, files) in rebasing.run(making, newest, without).items():
        names = [name for name, each in origins.items() if each.place == origin]
        if names == [origin]:
            made[origin] = line, files
            continue
        ledger = making.state.path(files.ledger)
        making.former += [ledger, *(making.state.path(each.name) for each in (files.part, files.store))]
        some = _chains(making, places, ledger, names)
        test_sums(places, origin, line, {name: each for name, (each, _) in some.items()})
        made |= some
    return made


def _chains(making: Making, places: Places, ledger: Path, names: Sequence[str]) -> Begun:
    """The chains of places, of what a ledger has at each; by issuer first where they are cut again."""
    made: Begun = {}
    for first, some in groupby(names, lambda name: name[:4]):
        by, number, again = By[places.by.upper()], int(first), places.again.get(first)
        if again is None:
            made |= _chain(making, first, ledger, (by, places.count, number))
            continue
        part, large = (making.state.new_file("work", suffix) for suffix in (".part", ".ledger"))
        making.engine.split(
            ledger, rebasing.cut_of(making), by, places.count, number, part, large, making.config.workers
        )
        making.former += [part, large]
        for name in some:
            made |= _chain(making, name, large, (By.IDENTITY, again, int(name[5:])))
    return made


def _chain(making: Making, name: str, old: Path, at: tuple[By, int, int]) -> Begun:
    """The chain of a place, of what a ledger has there: `at` is by what it is split, into how many, and which it is."""
    part, ledger = (making.state.new_file("chain", suffix, name) for suffix in (".part", ".ledger"))
    line = making.engine.split(old, rebasing.cut_of(making), *at, part, ledger, making.config.workers)
    return {name: (line, rebasing.begun_with(making, name, part, ledger))}


def test_sums(places: Places, origin: str, whole: Rebased, lines: Mapping[str, Rebased]) -> None:
    """Tests that the places into which an old one is split hold together what that holds. Places by identity have the
    same issuers."""
    groups = [[lines[name].issuers for name in names if name in lines] or [0] for names in places.by_identity()]
    universe, revoked = sum(line.universe for line in lines.values()), sum(line.revoked for line in lines.values())
    for name, found, wanted in (
        ("identities", universe, whole.universe),
        ("revoked", revoked, whole.revoked),
        ("issuers", sum(min(group) for group in groups), whole.issuers),
        ("issuers", sum(max(group) for group in groups), whole.issuers),
    ):
        if found != wanted:
            why = f"{name}: {found} at the places into which {origin} is split, and {wanted} of it before"
            raise NoEpoch(why, "see that it is the program of this version, and report it; the site stays as it is")
