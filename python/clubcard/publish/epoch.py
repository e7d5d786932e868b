"""One epoch: what the spool and the CRLs hold becomes a job, the job a part, and the part the newest of the chain."""

from collections.abc import Mapping
from concurrent.futures import ThreadPoolExecutor
from dataclasses import dataclass
from pathlib import Path

from ..engine import Engine
from ..progress import Progress
from . import chain, checking, fitting, rebasing, recording, sums
from .alarms import Alarms
from .chain import EpochRow, Newest
from .config import Config
from .issuers import Enrolment
from .making import Limits, Making, NoEpoch
from .publishing import Made, Publishing
from .recording import Files
from .showing import Showing
from .state import State

__all__ = ["EpochMade", "Limits", "NoEpoch", "left_open", "made_before", "make_epoch"]

MOST_TOLD = 20
"""How many late entries are told one by one."""
# A full ledger is begun anew where that prunes what is lacking, or one identity of so many that it takes.
_WORTH = 16


@dataclass(frozen=True)
class EpochMade:
    """An epoch that is the state's newest."""

    row: EpochRow
    again: bool
    """Whether it had been made before, by a run with the same moment."""

    @property
    def status(self) -> int:
        """0 where no alarm was raised in it, else 10."""
        return 10 if self.row.alarms else 0


def left_open(state: State, moment: int) -> bool:
    """Whether the newest epoch has this moment, and its run was killed before the step behind it was done: what clients
    are to have isn't known before."""
    row = state.db.execute("SELECT moment, done FROM epoch ORDER BY epoch DESC LIMIT 1").fetchone()
    return row is not None and tuple(row) == (moment, 0)


def made_before(
    config: Config, state: State, engine: Engine, moment: int, alarms: Alarms, progress: Progress
) -> EpochMade | None:
    """The newest epoch where it has this moment, once the rebase that is left undone behind it is done; else None.

    A run asks this before it fetches anything. The alarms of that epoch are raised again. Raises NoEpoch where the
    moment is before the newest epoch's.
    """
    row = chain.newest_epoch(state)
    if row is None or moment > row.moment:
        return None
    if moment < row.moment:
        remedy = "set the clock right, or wait until it has passed that moment"
        raise NoEpoch(f"the clock says {moment}, which is before the newest epoch's moment {row.moment}", remedy)
    for alarm in row.alarms:
        alarms.add(alarm.kind, alarm.text)
    (done,) = state.db.execute("SELECT done FROM epoch WHERE epoch = ?", (row.epoch,)).fetchone()
    if not done:
        row = rebasing.behind(Making(config, state, engine, moment, alarms, progress))
    return EpochMade(row, True)


def make_epoch(
    config: Config,
    state: State,
    engine: Engine,
    moment: int,
    enrolment: Enrolment,
    alarms: Alarms,
    progress: Progress,
    limits: Limits = Limits(),
) -> EpochMade:
    """Makes the epoch of a moment, and the rebase behind it where it is due.

    One transaction names its job, part, ledger and store and marks what it accepted; another one the rebase. So a run
    that is killed leaves the state before or behind each. Raises NoEpoch where none is made: the state is as before.
    All alarms that the run raised up to here are kept with the epoch. `limits` are the program's, or lower ones.
    """
    before = made_before(config, state, engine, moment, alarms, progress)
    if before is not None:
        return before
    making = Making(config, state, engine, moment, alarms, progress, limits)
    plan = fitting.begun(making, enrolment)
    _make_room(making, plan)
    with making.step():
        row, done = _made(making, plan)
    return EpochMade(row if done else rebasing.behind(making), False)


def _make_room(making: Making, plan: fitting.Plan) -> None:
    """Begins a chain anew that has no room for another part, or whose ledger is full."""
    newest = chain.newest(making.state)
    if newest is None:
        return
    full = newest.parts >= making.limits.parts
    if full or _is_ledger_full(making, newest, plan):
        rebasing.attempted(making, newest, newest.held, full)
    left = chain.newest(making.state)
    if left is not None and left.parts >= making.limits.parts:
        told = [alarm.text for alarm in making.alarms.raised if alarm.kind == "held"]
        why = f"the chain has {left.parts} parts, and couldn't begin anew"
        raise NoEpoch(why, "; ".join(told) or "begin a new state")


def _is_ledger_full(making: Making, newest: Newest, plan: fitting.Plan) -> bool:
    """Whether the ledger has no room for what could be covered, and a rebase makes some."""
    cut = rebasing.cut_of(making)
    with making.step():
        lacking = fitting.lacking(making, Showing(making.state, newest.generation, cut), newest, plan)
    if not lacking:
        return False
    (prunes,) = making.db.execute("SELECT count(*) FROM identity WHERE until * 1000 < ?", (cut,)).fetchone()
    return int(prunes) >= max(1, min(lacking, making.limits.identities // _WORTH))


def _made(making: Making, plan: fitting.Plan) -> tuple[EpochRow, bool]:
    """The epoch of a plan, and whether nothing is to be done behind it."""
    state, newest, cut = making.state, chain.newest(making.state), rebasing.cut_of(making)
    generation, epoch = (newest.generation, newest.epoch + 1) if newest else (1, 1)
    showing = Showing(state, generation, cut)
    made = Publishing(making, showing, newest, epoch).publish(plan)
    stores = _stores(making, newest, made)
    files = _files(making, made, stores)
    _tell_late(making)
    done = (newest.parts if newest else 0) + 1 < making.config.rebase_after
    with ThreadPoolExecutor(2) as threads, making.progress.task("auditing the new store"), state.transaction():
        # While the transaction is written the program audits, and the job goes to the disk.
        audit = threads.submit(_audited, making, newest, made, stores)
        on_disk = threads.submit(_keep_jobs, making, made)
        recording.name_part(making, newest, made, files)
        recording.accept(making, made)
        recording.revoke(making, made.plan, epoch)
        on_disk.result()
        if making.config.places is not None:
            sums.test_universe(made.line, recording.enrolled_universe(making, made.plan))
        if not audit.result():
            checking.ask(making.db, making.config.places, stores, checking.of_epoch(), epoch)
        recording.forget(making, generation, cut)
        row = recording.epoch_row(making, newest, made, files)
        recording.write_row(making, row, done)
    return row, done


def _stores(making: Making, newest: Newest | None, made: Made) -> dict[str, Path]:
    """The stores of a client who installed all parts, by places."""
    stores = {}
    for name, brought in made.places.items():
        stores[name] = making.state.new_file("chain", ".store", name)
        if newest is None:
            making.engine.start(brought.part, stores[name])
        else:
            making.engine.install(newest.places[name].store, brought.part, stores[name])
    return stores


def _files(making: Making, made: Made, stores: Mapping[str, Path]) -> dict[str, Files]:
    """The epoch's files by places, once all but the jobs are on the disk."""
    state, files = making.state, {}
    for name, brought in made.places.items():
        state.keep(brought.ledger)
        names = state.named(brought.ledger), state.named(brought.job)
        part, store = recording.kept(making, brought.part), recording.kept(making, stores[name])
        files[name] = Files(part, names[0], store, names[1])
    return files


def _keep_jobs(making: Making, made: Made) -> None:
    """Waits until the jobs are on the disk."""
    for brought in made.places.values():
        making.state.keep(brought.job)


def _audited(making: Making, newest: Newest | None, made: Made, stores: Mapping[str, Path]) -> bool:
    """Whether the program audited the store of each place by all jobs of its chain."""
    audits = []
    for name, brought in made.places.items():
        jobs = newest.places[name].jobs if newest else ()
        all_jobs = None if jobs is None else (*jobs, brought.job)
        audits.append(checking.audited(making.engine, stores[name], all_jobs))
    return all(audits)


def _tell_late(making: Making) -> None:
    """An alarm for each late entry that no epoch told, up to some; one for the others of these, and one for all that
    were told before."""
    late = "FROM temp.late t CROSS JOIN entry e ON e.id = t.id"
    rows = making.db.execute(
        f"""
        SELECT l.name, e.place, hex(e.serial), e.issuer {late}
        JOIN log l ON l.id = e.log WHERE e.late IS NULL ORDER BY e.log, e.place LIMIT {MOST_TOLD}"""
    ).fetchall()
    why = "merged behind the log's maximum merge delay, so that a part that clients have answers by chance"
    for name, place, serial, issuer in rows:
        text = f"log {name} index {place} serial {serial.lower()} of {making.issuer_name(issuer)}"
        making.alarms.add("late", f"{text}: {why}")
    new, told = making.db.execute(f"SELECT count(*) - count(e.late), count(e.late) {late}").fetchone()
    if new > len(rows):
        making.alarms.add("late", f"{new - len(rows)} more entries: {why}")
    if told:
        making.alarms.add("late", f"{told} entries that an earlier epoch told are late still")
