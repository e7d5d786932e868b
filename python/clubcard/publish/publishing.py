"""A plan becomes a part: the job is written, the program publishes it, and its line is compared with what was shown."""

from collections.abc import Callable, Mapping, Sequence
from dataclasses import dataclass
from pathlib import Path

from ..cutting import Lost, divide
from ..engine import NoSeeds, PassedLimit, Published, RefusedCrl
from ..jobs import JobWriter
from ..places import WHOLE, names_of
from . import rules, sums
from .chain import Newest
from .fitting import Plan, fitted
from .kept import KeptCrl
from .making import Making, NoEpoch
from .showing import Showing
from .state import Folder

MOST_RUNS = 200
"""How often the program is run at most, in one epoch, to find what it counts otherwise."""
MOST_TOLD = 20
"""How many entries that it counts otherwise are told one by one."""

Slice = tuple[int, int]
"""Of what is shown, the first and the last entry (ids) of those that stand together."""
_OTHER = "see that it is the program of this version"


@dataclass(frozen=True)
class Brought:
    """What is made for the chain of a place. Its files aren't synced yet."""

    job: Path
    part: Path
    ledger: Path
    line: Published

    def unlink(self) -> None:
        """Removes the files, where they are there."""
        for path in (self.job, self.part, self.ledger):
            path.unlink(missing_ok=True)


@dataclass(frozen=True)
class Made:
    """New parts, whose line, that of all places together, is as it must be."""

    epoch: int
    plan: Plan
    shown: int
    places: dict[str, Brought]
    line: Published


class _Refusal(Exception):
    """The program refuses the job of a place."""

    def __init__(self, place: str, fault: RefusedCrl | NoSeeds | PassedLimit) -> None:
        super().__init__(place, fault)
        self.place, self.fault = place, fault


@dataclass
class Publishing:
    """The part of an epoch in the making, behind the newest chain."""

    making: Making
    showing: Showing
    newest: Newest | None
    epoch: int

    def publish(self, plan: Plan) -> Made:
        """The part of what fits of a plan.

        Issuers whose CRLs the program refuses are left out, and entries that it counts otherwise are set aside, each
        with an alarm, and the job is made again: each time there is less of them.
        """
        while True:
            plan = fitted(self.making, self.showing, self.newest, plan)
            made = self._try(plan)
            if isinstance(made, Made):
                return made
            plan = made

    def _try(self, plan: Plan) -> Made | Plan:
        """The part of a plan, or another plan where this one can't be published."""
        making, shown = self.making, self.showing.select()
        jobs = self._new_files("chain", ".job")
        with making.progress.task("publishing", shown) as task:
            self.write_jobs(jobs, plan, self.slices())
            task.advance(shown)
            try:
                made = self.run(jobs, "chain")
            except _Refusal as refusal:
                for path in jobs.values():
                    path.unlink(missing_ok=True)
                return self._without(plan, refusal)
        line = sums.summed(making.config.places, {name: each.line for name, each in made.items()})
        why = rules.difference(line, len(plan.crls), shown)
        if why is None:
            return Made(self.epoch, plan, shown, made, line)
        for each in made.values():
            each.unlink()
        return self._aside(plan, line, shown, why)

    def _new_files(self, folder: Folder, suffix: str) -> dict[str, Path]:
        """New names of files, one for each place."""
        names = names_of(self.making.config.places)
        return {name: self.making.state.new_file(folder, suffix, name) for name in names}

    def slices(self, low: int = 0, high: int | None = None) -> list[Slice]:
        """What is shown, from a place up to another one, in slices that a job takes."""
        return self.showing.slices(self.making.limits.entries, low, high)

    def write_jobs(self, jobs: Mapping[str, Path], plan: Plan, slices: Sequence[Slice]) -> None:
        """Writes the jobs of all places. Of several slices each is cut for itself, and each place's are merged."""
        if self.making.config.places is None:
            self.write(jobs[WHOLE], plan, slices)
        elif len(slices) < 2:
            self._write_cut(jobs, plan, slices)
        else:
            head, *pieces = (self._new_files("work", ".job") for _ in range(len(slices) + 1))
            self._write_cut(head, plan, ())
            for piece, each in zip(pieces, slices):
                self._write_cut(piece, Plan({}, {}), (each,))
            for name, job in jobs.items():
                self.making.engine.merge(head[name], job, [piece[name] for piece in pieces])
            for path in (path for piece in (head, *pieces) for path in piece.values()):
                path.unlink()

    def _write_cut(self, jobs: Mapping[str, Path], plan: Plan, slices: Sequence[Slice]) -> None:
        """Writes a job, and cuts it into those of all places."""
        job = self.making.state.new_file("work", ".job")
        self.write(job, plan, slices)
        self._divide(job, jobs)

    def write(self, path: Path, plan: Plan, slices: Sequence[Slice]) -> None:
        """Writes a job of a plan, with the entries of slices."""
        keys = dict(self.making.db.execute("SELECT id, key FROM log"))
        issuers = dict(self.making.db.execute("SELECT id, key FROM issuer"))
        with open(path, "wb", buffering=1 << 20) as file, JobWriter(file) as job:
            job.header(self.epoch, self.making.moment)
            for number, (low, high) in sorted(plan.ranges.items(), key=lambda item: bytes(keys[item[0]])):
                job.range(keys[number], low, high)
            for issuer, crl in ((issuer, crl) for issuer, crls in plan.crls.items() for crl in crls):
                job.crl(issuers[issuer], crl.file.read_bytes())
            for low, high in slices:
                self.showing.copy(job, low, high)

    def run(self, jobs: Mapping[str, Path], folder: Folder) -> dict[str, Brought]:
        """Runs the program by the jobs of all places, behind the newest chain of each."""
        made: dict[str, Brought] = {}
        parts, ledgers = self._new_files(folder, ".part"), self._new_files(folder, ".ledger")
        for name, own in jobs.items():
            try:
                line = self._run_place(name, own, parts[name], ledgers[name])
            except (RefusedCrl, NoSeeds, PassedLimit) as fault:
                for each in made.values():
                    each.unlink()
                raise _Refusal(name, fault) from fault
            made[name] = Brought(own, parts[name], ledgers[name], line)
        return made

    def _run_place(self, name: str, job: Path, part: Path, ledger: Path) -> Published:
        """Runs the program behind the newest chain of a place."""
        engine, workers = self.making.engine, self.making.config.workers
        if self.newest is None:
            return engine.snapshot(job, part, ledger, workers)
        return engine.delta(job, self.newest.places[name].ledger, part, ledger, workers)

    def _divide(self, job: Path, jobs: Mapping[str, Path]) -> None:
        """Cuts a job into those of places, and removes it."""
        places, state = self.making.config.places, self.making.state
        assert places is not None
        large = {name: state.new_file("work", ".job") for name in places.again}
        try:
            divide(self.making.engine, places, job, {**jobs, **large})
        except Lost as fault:
            raise NoEpoch(str(fault), "the site stays as it is") from fault
        for path in (job, *large.values()):
            path.unlink()

    def _crls_at(self, plan: Plan, place: str) -> list[tuple[int, KeptCrl]]:
        """The CRLs of a place's job, in their order, with their issuers."""
        places = self.making.config.places
        keys = dict(self.making.db.execute("SELECT id, key FROM issuer"))
        here = [issuer for issuer in plan.crls if places is None or places.has_issuer(place, keys[issuer])]
        return [(issuer, crl) for issuer in here for crl in plan.crls[issuer]]

    def _without(self, plan: Plan, refusal: _Refusal) -> Plan:
        """The plan without the issuer of whom the program says why it publishes nothing."""
        making, fault, crls = self.making, refusal.fault, self._crls_at(plan, refusal.place)
        if isinstance(fault, RefusedCrl):
            issuer, crl = crls[fault.record]
            why = f"the program refuses its CRL {crl.url}: {fault.fault}"
        elif isinstance(fault, NoSeeds):
            issuer, why = making.state.issuer_id(fault.issuer), f"the program finds no filter for it: {fault.line}"
        elif fault.what == "serials" and crls:
            sizes = {number: 0 for number, _ in crls}
            for number, crl in crls:
                sizes[number] += crl.file.stat().st_size
            issuer = rules.heaviest(sizes)
            why = f"a job takes {fault.limit} serials, and its CRLs are the longest"
        else:
            raise fault
        making.alarms.add("issuer", f"{making.issuer_name(issuer)} is left out: {why}")
        return plan.leave(issuer, why)

    def _aside(self, plan: Plan, line: Published, shown: int, why: str) -> Plan:
        """The plan behind a line that differs: without issuers that the program doesn't enrol, and with the entries set
        aside that it counts otherwise."""
        if self.making.config.places is not None:
            sums.test_whole(line, _Tries(self, plan, False).whole())
        tries = _Tries(self, plan, line.late > 0)
        wrong = line.unread + line.uncovered + line.unenrolled + line.late
        if line.issuers != len(plan.crls):
            return self._not_enrolled(plan, tries, len(plan.crls) - line.issuers, why)
        if wrong + line.accepted != shown or not wrong:
            raise NoEpoch(f"the program's line isn't that of its job: {why}", _OTHER)
        found, left = halves(shown, wrong, tries.entries, MOST_RUNS)
        bounds = [(self.showing.at(low), self.showing.at(high - 1)) for low, high in found]
        for low, high in bounds:
            self.showing.put_aside(low, high)
        self._tell_aside()
        for issuer in self._issuers_of(left):
            reason = f"the program counts too many of its entries otherwise: {why}"
            self.making.alarms.add("count", f"{self.making.issuer_name(issuer)} is left out: {reason}")
            plan = plan.leave(issuer, reason)
        return plan

    def _not_enrolled(self, plan: Plan, tries: "_Tries", wrong: int, why: str) -> Plan:
        """The plan without the issuers that the program doesn't enrol by their CRLs."""
        issuers = list(plan.crls)
        found, _ = halves(len(issuers), wrong, tries.issuers, 2 * len(issuers))
        if not found:
            raise NoEpoch(f"the program's line isn't that of its job: {why}", _OTHER)
        for issuer in (issuers[place] for low, high in found for place in range(low, high)):
            reason = f"the program doesn't enrol it by its CRLs: {why}"
            self.making.alarms.add("issuer", f"{self.making.issuer_name(issuer)} is left out: {reason}")
            plan = plan.leave(issuer, reason)
        return plan

    def _tell_aside(self) -> None:
        """An alarm for each entry that is set aside in this epoch, up to some, and one for the others."""
        rows = self.making.db.execute(
            f"""SELECT l.name, e.place, hex(e.serial)
            FROM temp.aside a CROSS JOIN entry e ON e.id = a.id JOIN log l ON l.id = e.log
            ORDER BY a.id LIMIT {MOST_TOLD}"""
        ).fetchall()
        why = "set aside, since the program counts otherwise: what the store says of such a certificate is by chance"
        for name, place, serial in rows:
            self.making.alarms.add("count", f"log {name} index {place} serial {serial.lower()}: {why}")
        (count,) = self.making.db.execute("SELECT count(*) FROM temp.aside").fetchone()
        if count > len(rows):
            self.making.alarms.add("count", f"{count - len(rows)} more entries: {why}")

    def _issuers_of(self, places: list[tuple[int, int]]) -> list[int]:
        """The issuers of entries at places of what is shown."""
        bounds = [(self.showing.at(low), self.showing.at(high - 1)) for low, high in places]
        query = "SELECT DISTINCT issuer FROM temp.shown s JOIN entry e ON e.id = s.id WHERE s.id BETWEEN ? AND ?"
        return sorted({issuer for each in bounds for (issuer,) in self.making.db.execute(query, each)})


@dataclass
class _Tries:
    """Jobs of a part of the entries, or of the issuers, by which is found what the program counts otherwise. `late`:
    whether they go behind the ledger; else each is published as a snapshot, which costs less."""

    publishing: Publishing
    plan: Plan
    late: bool

    def whole(self) -> Published:
        """What the program says of the whole job."""
        return self._line(self.plan, self.publishing.slices())

    def entries(self, low: int, high: int) -> int:
        """How many entries between two places, of what is shown, the program doesn't accept."""
        line = self._line(self.plan, self.publishing.slices(low, high))
        return line.unread + line.uncovered + line.unenrolled + line.late

    def issuers(self, low: int, high: int) -> int:
        """How many issuers between two places of the plan the program doesn't enrol."""
        some = dict(list(self.plan.crls.items())[low:high])
        return high - low - self._line(Plan(self.plan.ranges, some), ()).issuers

    def _line(self, plan: Plan, slices: Sequence[Slice]) -> Published:
        """What the program says of a job that isn't published."""
        if not self.late:
            return sums.sliced([self._snapshot(plan, some) for some in [[each] for each in slices] or [[]]])
        publishing, made = self.publishing, dict[str, Brought]()
        jobs = publishing._new_files("work", ".job")
        try:
            publishing.write_jobs(jobs, plan, slices)
            made = publishing.run(jobs, "work")
            return sums.summed(publishing.making.config.places, {name: each.line for name, each in made.items()})
        except _Refusal as refusal:
            raise refusal.fault from refusal
        finally:
            for path in jobs.values():
                path.unlink(missing_ok=True)
            for each in made.values():
                each.unlink()

    def _snapshot(self, plan: Plan, slices: Sequence[Slice]) -> Published:
        """What the program says of a snapshot of slices that a job takes."""
        making = self.publishing.making
        job, part, ledger = (making.state.new_file("work", suffix) for suffix in (".job", ".part", ".ledger"))
        try:
            self.publishing.write(job, plan, slices)
            return making.engine.snapshot(job, part, ledger, making.config.workers)
        finally:
            for path in (job, part, ledger):
                path.unlink(missing_ok=True)


def halves(
    size: int, wrong: int, count: Callable[[int, int], int], tries: int
) -> tuple[list[tuple[int, int]], list[tuple[int, int]]]:
    """Which of `size` things are wrong, of whom it is known how many are (`wrong`), and `count` says how many between
    two places are. As pairs of places, the first one in and the last one out: those in which all are wrong, and those
    in which some are, once there were more than so many `tries`."""
    found, left, open_ones = [], [], [(0, size, wrong)]
    while open_ones:
        low, high, bad = open_ones.pop()
        if bad == high - low:
            found.append((low, high))
        elif bad and not tries:
            left.append((low, high))
        elif bad:
            middle = (low + high) // 2
            in_front, tries = count(low, middle), tries - 1
            open_ones += [(middle, high, bad - in_front), (low, middle, in_front)]
    return [pair for pair in found if pair[0] < pair[1]], left
