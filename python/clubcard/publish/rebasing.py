"""A chain begins anew: when, what holds it back, and without whom."""

from collections.abc import Callable, Mapping, Sequence
from dataclasses import replace
from pathlib import Path

from ..engine import Rebased
from . import chain, checking, recording, rules
from .alarms import Alarm
from .chain import EpochRow, Held, IssuerRow, Newest
from .making import Making, NoEpoch
from .recording import Files, Sizes
from .spool import log_rows


Begun = dict[str, tuple[Rebased, Files]]
"""The chains that begin, by places: the program's line, and the files."""
Run = Callable[[Making, Newest, list[int]], Begun]
"""How the chains begin, without some issuers."""


def cut_of(making: Making) -> int:
    """Before when a certificate must have expired to be forgotten."""
    heads = [row.head.time for row in log_rows(making.state) if row.head is not None]
    return rules.rebase_moment(making.moment, heads, making.config.grace)


def behind(making: Making) -> EpochRow:
    """The step behind an epoch: the rebase, where the chain has enough parts and nothing holds it back. Whatever stops
    it is an alarm, since the epoch is published. The row of the newest epoch, with all alarms of the run."""
    newest = _newest(making)
    if newest.parts < making.config.rebase_after:
        return _noted(making, newest.held)
    return attempted(making, newest, newest.held + 1, newest.parts >= making.limits.parts)


def attempted(making: Making, newest: Newest, held: int, full: bool) -> EpochRow:
    """The newest epoch's row behind a rebase, or behind the try of one. `held`: for how many epochs it is held back,
    where it is so again; `full`: it waits for nobody, since the chain has no room for another part."""
    holding, gone = held_by(making, newest)
    without = rules.without(holding, gone, full or held >= making.config.patience)
    try:
        if without is not None:
            some = {issuer: holding[issuer] for issuer in sorted(without)}
            return rebased(making, newest, some, run, checking.of_rebase())
        for issuer in sorted(set(holding) - gone):
            text = f"{holding[issuer]} entries of {making.issuer_name(issuer)} wait, which isn't enrolled"
            making.alarms.add("held", f"{text}: they hold the rebase back in epoch {held} of {making.config.patience}")
    except NoEpoch as fault:
        making.alarms.add("held", f"the chain couldn't begin anew: {fault}")
    return _noted(making, held if holding else 0)


def held_by(making: Making, newest: Newest) -> tuple[dict[int, int], set[int]]:
    """How many entries of each issuer hold a rebase back, and for which of these issuers it waits no longer."""
    words = {"generation": newest.generation, "cut": cut_of(making)}
    holding = dict(making.db.execute(rules.holding(), words).fetchall())
    return holding, {issuer for issuer in holding if _is_gone(making, issuer)}


def _newest(making: Making) -> Newest:
    """The newest chain, which there is."""
    newest = chain.newest(making.state)
    if newest is None:
        raise ValueError("no part was published yet")
    return newest


def _is_gone(making: Making, issuer: int) -> bool:
    """Whether a rebase waits no longer for an issuer."""
    query = "SELECT key, enrolled_at FROM issuer WHERE id = ?"
    key, enrolled_at = making.db.execute(query, (issuer,)).fetchone()
    named = any(each.key == key for each in making.config.issuers)
    return rules.is_gone(named, enrolled_at, making.moment, making.config.max_away)


def _noted(making: Making, held: int) -> EpochRow:
    """Notes that the step behind the newest epoch is taken, and for how many epochs the rebase has been held back."""
    row = _row(making, ())
    with making.state.transaction() as db:
        db.execute("UPDATE chain SET held = ? WHERE generation = ?", (held, row.generation))
        recording.write_row(making, row, True)
    return row


def _row(making: Making, raised: Sequence[Alarm]) -> EpochRow:
    """The newest epoch's row, with the alarms of its run; where another run made it, with these alone."""
    row = chain.newest_epoch(making.state)
    if row is None:
        raise ValueError("no epoch was published yet")
    told = making.alarms.raised if row.moment == making.moment else raised
    return replace(row, alarms=row.alarms + tuple(alarm for alarm in told if alarm not in row.alarms))


def rebased(making: Making, newest: Newest, without: Mapping[int, int], begin: Run, asked: str) -> EpochRow:
    """Begins the chain anew, without some issuers, of whom so many entries wait. `asked`: what the new stores are asked
    before they count."""
    with making.step(), making.progress.task("beginning the chain anew"):
        begun, before = begin(making, newest, list(without)), len(making.alarms.raised)
        files = {name: each for name, (_, each) in begun.items()}
        with making.state.transaction():
            _begin(making, newest, files, list(without))
            _forget(making, newest.generation + 1, list(without))
            sizes = recording.sizes(making)
            _compare(making, [line for line, _ in begun.values()], sizes)
            stores = {name: making.state.path(each.store.name) for name, each in files.items()}
            checking.ask(making.db, making.config.places, stores, asked, newest.epoch)
            for issuer, count in without.items():
                text = f"the chain began anew without {making.issuer_name(issuer)} of which {count} entries wait"
                making.alarms.add("without", f"{text}: its certificates read not-enrolled until it is enrolled again")
            row = _rebased_row(making, newest, files, sizes, making.alarms.raised[before:])
            recording.write_row(making, row, True)
    return row


def run(making: Making, newest: Newest, without: list[int]) -> Begun:
    """The program's rebase of each place, and the stores that begin with its parts."""
    keys = dict(making.db.execute("SELECT id, key FROM issuer"))
    named = [keys[issuer] for issuer in without]
    return {name: _run_place(making, name, held, named) for name, held in newest.places.items()}


def _run_place(making: Making, name: str, held: Held, named: list[bytes]) -> tuple[Rebased, Files]:
    """The rebase of a place, in as many calls as the issuers that are left out want. A ledger that was begun anew can
    be so again."""
    state, config, cut = making.state, making.config, cut_of(making)
    most, ledger = making.limits.without, held.ledger
    for at in range(0, max(len(named), 1), most):
        old, part = ledger, state.new_file("chain", ".part", name)
        ledger = state.new_file("chain", ".ledger", name)
        line = making.engine.rebase(old, cut, part, ledger, config.workers, named[at : at + most])
    return line, begun_with(making, name, part, ledger)


def begun_with(making: Making, name: str, part: Path, ledger: Path) -> Files:
    """What the chain of a place begins with, on the disk."""
    store = making.state.new_file("chain", ".store", name)
    making.engine.start(part, store)
    making.state.keep(ledger)
    return Files(recording.kept(making, part), making.state.named(ledger), recording.kept(making, store), None)


def _begin(making: Making, newest: Newest, files: Mapping[str, Files], without: list[int]) -> None:
    """Names what the new chain begins with, and lets the old one end."""
    db, old, new = making.db, newest.generation, newest.generation + 1
    making.former += [path for held in newest.places.values() for path in held.files]
    making.former += _jobs(making, old)
    recording.begin_chain(making, new)
    recording.point_to(making, new, files)
    recording.add_part(making, (new, 0), "snapshot", newest.epoch, files)
    ranges = ((new, log, low, high) for log, (low, high) in newest.ranges.items())
    db.executemany("INSERT INTO part_range VALUES (?, 0, ?, ?, ?)", ranges)
    query = "INSERT INTO part_issuer SELECT DISTINCT ?, 0, issuer FROM part_issuer WHERE generation = ?"
    db.execute(query, (new, old))
    db.executemany("DELETE FROM part_issuer WHERE generation = ? AND issuer = ?", ((new, each) for each in without))
    db.execute("DELETE FROM part_range WHERE generation = ?", (old,))
    db.execute("DELETE FROM part_issuer WHERE generation = ?", (old,))
    for table in ("part", "place_part"):
        db.execute(f"UPDATE {table} SET job = NULL WHERE generation = ?", (old,))
    db.execute("UPDATE place_chain SET ledger = NULL, store = NULL WHERE generation = ?", (old,))
    ended = "UPDATE chain SET ended = ?, ledger = NULL, store = NULL WHERE generation = ?"
    db.execute(ended, (making.moment, old))


def _jobs(making: Making, generation: int) -> list[Path]:
    """The jobs of a chain."""
    query = "SELECT job FROM any_part WHERE generation = ? AND job IS NOT NULL"
    return [making.state.path(name) for (name,) in making.db.execute(query, (generation,))]


def _forget(making: Making, generation: int, without: list[int]) -> None:
    """Forgets identities that the rebase pruned, with their entries. Those of issuers that it left out are forgotten
    too, but their entries wait again, also those that were told as late."""
    db, cut = making.db, cut_of(making)
    db.execute("DROP TABLE IF EXISTS temp.gone")
    db.execute("CREATE TEMP TABLE gone (issuer INTEGER PRIMARY KEY)")
    db.executemany("INSERT INTO temp.gone VALUES (?)", ((issuer,) for issuer in without))
    is_left = "issuer IN (SELECT issuer FROM temp.gone)"
    db.execute(f"DELETE FROM identity WHERE {is_left} OR until * 1000 < ?", (cut,))
    if without:
        db.execute(f"UPDATE entry SET epoch = NULL, late = NULL WHERE {is_left}")
    # Of an identity that was pruned each entry expired before that time.
    db.execute(
        """DELETE FROM entry WHERE epoch IS NOT NULL AND until * 1000 < ? AND NOT EXISTS (
            SELECT 1 FROM identity k WHERE k.issuer = entry.issuer AND k.serial = entry.serial)""",
        (cut,),
    )
    recording.forget(making, generation, cut)


def _compare(making: Making, lines: Sequence[Rebased], sizes: Sizes) -> None:
    """An alarm where the program keeps other identities than the state: one is read otherwise by the two."""
    kept = sum(universe for universe, _ in sizes.values()), sum(revoked for _, revoked in sizes.values())
    universe, revoked = sum(line.universe for line in lines), sum(line.revoked for line in lines)
    if kept != (universe, revoked):
        text = f"identities {universe} revoked {revoked}, and the state {kept[0]} and {kept[1]}"
        making.alarms.add("count", f"the program's rebase keeps {text}: report it")


def _rebased_row(
    making: Making, newest: Newest, files: Mapping[str, Files], sizes: Sizes, raised: Sequence[Alarm]
) -> EpochRow:
    """The newest epoch's row behind its rebase, with the alarms that this raised."""
    row = _row(making, raised)
    counted = {key: sizes.get(number, (0, 0)) for number, key in making.db.execute("SELECT id, key FROM issuer")}
    return replace(
        row,
        generation=newest.generation + 1,
        kind="snapshot",
        length=sum(each.part.length for each in files.values()),
        parts=1,
        waiting=making.waiting(),
        universe=sum(universe for universe, _ in counted.values()),
        revoked=sum(revoked for _, revoked in counted.values()),
        issuers=tuple(_counted(issuer, *counted[issuer.issuer]) for issuer in row.issuers),
        rebased=True,
    )


def _counted(issuer: IssuerRow, universe: int, revoked: int) -> IssuerRow:
    """An issuer's row with other counts."""
    return replace(issuer, universe=universe, revoked=revoked)
