"""The tasks of the workflow. Each runs in the epoch's folder, and may be killed, or run twice, at any time.

    python3 -m fleet.tasks heads
    python3 -m fleet.tasks gather LOG PIECE
    python3 -m fleet.tasks merge PLACE
    python3 -m fleet.tasks base PLACE WORKERS
    python3 -m fleet.tasks part PLACE WORKERS
    python3 -m fleet.tasks audit PLACE
    python3 -m fleet.tasks publish
"""

import json
import shutil
import sys
from collections.abc import Callable, Mapping, Sequence
from dataclasses import asdict
from functools import partial
from pathlib import Path
from typing import Any

from clubcard.cutting import Lost, divide
from clubcard.engine import By, Engine, EngineError, Rebased
from clubcard.jobs import JobWriter
from clubcard.places import WHOLE, Places

from .bases import Held, held_of, read_ledger, write_base
from .chains import BASE, PUBLISHED, Rebase
from .made import Differs, File, Record, compared, made_in, own_name, put_made, put_text, record_of
from .plan import BARE, HEAD, HEADS, Plan, at_place, base_of, head_of, piece_of, read_plan

COUNTED = ("unread", "uncovered", "unenrolled", "late", "accepted")
"""Of these each entry is one."""
SUMS = (*COUNTED, "universe", "revoked")
"""Of these the whole has what all places have together."""


def heads(plan: Plan) -> None:
    """The job with the ranges and the CRLs, what each place has of it, and the job with nothing."""
    owns = {name: own_name(Path(name)) for name in (HEAD, BARE)}
    with open(owns[BARE], "wb") as file, JobWriter(file) as job:
        job.header(plan.epoch, plan.moment)
    with open(owns[HEAD], "wb") as file, JobWriter(file) as job:
        job.header(plan.epoch, plan.moment)
        for log in plan.logs:
            job.range(bytes.fromhex(log.log), log.low, log.high)
        for issuer, crl in plan.crls:
            job.crl(bytes.fromhex(issuer), Path(crl).read_bytes())
    if plan.places is not None:
        owns |= _divided(plan.program, plan.places, owns[HEAD], head_of)
    put_made(HEADS, owns, {}, {})


def _divided(program: str, places: Places, job: Path, path: Callable[[str], str]) -> dict[str, Path]:
    """The own names of what each place has of a job, by the paths of places."""
    owns = {name: own_name(Path(path(name))) for name in places.names()}
    # What is cut again lies in the first of its places' folders.
    owns |= {large: own_name(Path(path(f"{large}.0000"))) for large in places.again}
    divide(Engine(program), places, job, owns)
    for large in places.again:
        owns.pop(large).unlink()
    return {path(name): own for name, own in owns.items()}


def _size(path: Path) -> int:
    return path.stat().st_size


def gather(plan: Plan, log: str, number: str) -> None:
    """A piece: the entries of some pages of a log, by places."""
    piece, files = piece_of(log, number), record_of(HEADS).files
    of, own = compared([BARE], files), own_name(Path(piece, "job"))
    said = Engine(plan.program).gather(BARE, bytes.fromhex(log), own, plan.pages(log, number))
    if plan.places is None:
        owns = {at_place(piece, WHOLE): own}
    else:
        owns = _divided(plan.program, plan.places, own, partial(at_place, piece))
        own.unlink()
    put_made(piece, owns, asdict(said), of)


def merge(plan: Plan, place: str) -> None:
    """The job of a place: what it has of the head, and of the entries of all pieces."""
    path, head, pieces = f"{place}/job", head_of(place), [at_place(piece, place) for piece in plan.pieces()]
    files = made_in(map(record_of, (HEADS, *plan.pieces())))
    of, own = compared([head, *pieces], files), own_name(Path(path))
    if pieces:
        said = asdict(Engine(plan.program).merge(head, own, pieces))
    else:
        shutil.copyfile(head, own)
        said = {"pieces": 0, "entries": 0}
    wanted = files[head].size + sum(files[piece].size - files[BARE].size for piece in pieces)
    if _size(own) != wanted:
        raise Differs(f"{path}: it has {_size(own)} bytes, and its pieces have {wanted}")
    put_made(path, {path: own}, said, of)


def base(plan: Plan, place: str, workers: str) -> None:
    """With what a place's chain begins anew: the part and the ledger of a rebase or of splits, the store of that part,
    and the job that audits read, with which the program's line and the store must agree."""
    assert plan.before is not None and plan.rebase is not None
    old = plan.old_ledger(place)
    of = compared([old], plan.before.published())
    owns = {f"{place}/{name}": own_name(Path(place, name)) for name in BASE}
    job, part_file, ledger, store = owns.values()
    engine, found = Engine(plan.program), read_ledger(Path(old))
    said = _begun(engine, plan.rebase, place, Path(old), part_file, ledger, int(workers))
    here = write_base(found, plan.rebase.moment, plan.places, place, job)
    if here != Held(said.issuers, said.universe, said.revoked):
        raise Differs(f"{place}/base: by the ledger of before it has {here}, and the program says {said}")
    engine.start(part_file, store)
    engine.audit(store, [job])
    origin, held = plan.rebase.origins[place].place, asdict(held_of(found, plan.rebase.moment))
    put_made(base_of(place), owns, {"place": origin, "held": held, "here": asdict(here)}, of)


def _begun(
    engine: Engine, rebase: Rebase, place: str, old: Path, part_file: Path, ledger: Path, workers: int
) -> Rebased:
    """Begins a place's chain anew by the program; the last of its lines."""
    splits = rebase.origins[place].splits
    if not splits:
        return engine.rebase(old, rebase.moment, part_file, ledger, workers)
    middle = own_name(Path(place, "base.ledger"))
    for each in splits:
        new = ledger if each is splits[-1] else middle
        by = By[each.by.upper()]
        said = engine.split(old, rebase.moment, by, each.count, each.number, part_file, new, workers)
        old = new
    middle.unlink(missing_ok=True)
    return said


def _before(plan: Plan, place: str) -> Mapping[str, File]:
    """The files from which a place's chain goes on, and others."""
    if place in plan.anew():
        return record_of(base_of(place)).files
    return plan.before.published() if plan.before else {}


def part(plan: Plan, place: str, workers: str) -> None:
    """The part of the job, and the ledger behind it."""
    job, path, ledger = (f"{place}/{name}" for name in ("job", "part", "ledger"))
    of, owns = compared([job], record_of(job).files), {name: own_name(Path(name)) for name in (path, ledger)}
    engine, chain = Engine(plan.program), plan.chain(place)
    if chain is None:
        said = engine.snapshot(job, owns[path], owns[ledger], int(workers))
    else:
        of |= compared([chain.ledger], _before(plan, place))
        said = engine.delta(job, chain.ledger, owns[path], owns[ledger], int(workers))
    put_made(path, owns, asdict(said), of)


def audit(plan: Plan, place: str) -> None:
    """The store of a client who installed all parts, once it says the truth of all jobs."""
    job, part_file, path = (f"{place}/{name}" for name in ("job", "part", "store"))
    of = compared([job, part_file], made_in(map(record_of, (job, part_file))))
    own, engine, chain = own_name(Path(path)), Engine(plan.program), plan.chain(place)
    if chain is None:
        engine.start(part_file, own)
    else:
        of |= compared([chain.store, *chain.jobs], _before(plan, place))
        engine.install(chain.store, part_file, own)
    said = engine.audit(own, [*(chain.jobs if chain else ()), job])
    put_made(path, {path: own}, asdict(said), of)


def publish(plan: Plan) -> None:
    """Names what is published, once each file is the one of which the others were made, and no entry is lost."""
    records = {name: record_of(name) for name in plan.records()}
    files = made_in(records.values()) | (plan.before.published() if plan.before else {})
    for name, record in records.items():
        for other, sha256 in record.of.items():
            if files[other].sha256 != sha256:
                raise Differs(f"{name}: it was made of another {other}, of SHA-256 {sha256}")
    lines = {place: dict(records[f"{place}/part"].said) for place in plan.names()}
    sums = {count: sum(line[count] for line in lines.values()) for count in SUMS}
    _add_up(plan, records, lines, sums)
    bases = {place: records[base_of(place)].said for place in plan.anew()}
    _are_whole(bases)
    names = plan.published()
    compared(names, files)
    text = {
        "epoch": plan.epoch,
        "moment": plan.moment,
        "places": plan.places and asdict(plan.places),
        "files": {name: asdict(files[name]) for name in names},
        "said": lines,
        "sums": sums,
        "bases": bases,
    }
    put_text(json.dumps(text, indent=1, sort_keys=True) + "\n", Path(PUBLISHED))


def _add_up(
    plan: Plan, records: Mapping[str, Record], lines: Mapping[str, Mapping[str, int]], sums: Mapping[str, int]
) -> None:
    """Tests that each entry that was gathered is counted at one place."""
    for place in plan.names():
        merged, counted = records[f"{place}/job"].said["entries"], sum(lines[place][each] for each in COUNTED)
        if merged != counted:
            raise Differs(f"{place}/job: it has {merged} entries, and {counted} are counted")
    gathered = sum(records[piece].said["entries"] for piece in plan.pieces())
    counted = sum(sums[each] for each in COUNTED)
    if gathered != counted:
        raise Differs(f"{gathered} entries were gathered, and all places have {counted}")


def _are_whole(bases: Mapping[str, Mapping[str, Any]]) -> None:
    """Tests that the places of each old one have together what it held."""
    for said in bases.values():
        places = [other["here"] for other in bases.values() if other["place"] == said["place"]]
        for count in ("universe", "revoked"):
            have, held = sum(here[count] for here in places), said["held"][count]
            if have != held:
                raise Differs(f"{said['place']}: {count}: it held {held}, and the chains that begin anew hold {have}")


TASKS = {task.__name__: task for task in (heads, gather, merge, base, part, audit, publish)}


def main(words: Sequence[str]) -> None:
    try:
        TASKS[words[0]](read_plan(), *words[1:])  # type: ignore[operator]
    except (Differs, Lost, EngineError, OSError) as fault:
        sys.exit(f"fleet: {' '.join(words)}: {fault}")


if __name__ == "__main__":
    main(sys.argv[1:])
