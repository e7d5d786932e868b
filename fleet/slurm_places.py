#!/usr/bin/python3
"""A chain of five epochs at 16 places by issuer, one of them cut again by identity, over the Slurm of slurm_test.py:
two chains with a fault in each epoch, held against a third one without, on this machine alone. The fourth epoch rebases
all chains, the fifth splits those of the large place. Run it by hand, as root:

    fleet/slurm_places.py [CERTIFICATES [ASKED]]

So many (250,000) have 1.5 times as many entries, of 40 issuers (tests/sized_epochs.py). Behind the last epoch all
accepted entries of ASKED of them (all) are asked about at their places, and the answers must be the truth of the whole,
which is held against tools/reference.py's, of 250,000 at most. The status is 0 where all that is so.
"""

import json
import os
import subprocess
import sys
import tempfile
import time
from collections.abc import Callable, Sequence
from concurrent.futures import ProcessPoolExecutor
from functools import partial
from pathlib import Path
from resource import RUSAGE_CHILDREN, getrusage
from signal import SIGINT

HERE = Path(__file__).resolve().parent
sys.path[:0] = [str(HERE.parent), str(HERE.parent / "tools"), str(HERE.parent / "python")]

from clubcard.answers import Verdict  # noqa: E402
from clubcard.places import By, number_name  # noqa: E402
from clubcard.store import Store, place  # noqa: E402
from fleet import slurm_test as slurm  # noqa: E402
from fleet.chains import PUBLISHED  # noqa: E402
from fleet.tests.made_epochs import LOGS, MOST, World  # noqa: E402
from fleet.tests.sized_epochs import (  # noqa: E402
    AGAIN,
    COUNT,
    EPOCHS,
    ISSUERS,
    LARGE,
    History,
    Truth,
    again_of,
    is_referred,
    make_sized,
    write_epoch,
)

AT_ONCE = 50000
"""How many questions one call asks."""
REFERRED = 250000
"""Of how many certificates at most the truth is held against tools/reference.py."""


def task_fails(world: World) -> None:
    """The tasks of one place fail, those of all others go on, and the run is begun again."""
    world.order("fail", f"{LARGE}.0001/.job")
    assert slurm.begin(world).wait(MOST) == 1
    stores = {path.parent.name for path in world.folder.glob("0*/store.made")}
    assert len(stores) == COUNT + AGAIN - 2, "not all other places are made"
    (world.faults / "fail").unlink()
    assert slurm.begin(world).wait(MOST) == 0


def task_dies(world: World, command: str) -> None:
    """A task is killed half done."""
    world.order(f"kill-{command}")
    assert slurm.begin(world).wait(MOST) == 0
    assert not (world.faults / f"kill-{command}").exists(), "no task was killed"


Fault = tuple[str, Callable[[World], None]]
FAULTS: Sequence[Sequence[Fault]] = (
    (
        ("the host of a `snapshot` dies", partial(slurm.host_dies, command="snapshot")),
        ("slurmd dies, its `merge` goes on late", partial(slurm.daemon_dies, command="merge")),
        ("the host is cut off, its `gather` goes on late", slurm.host_is_cut_off),
        ("the host is cut off, its `rebase` goes on late", partial(slurm.host_is_cut_off, command="rebase")),
        ("a `split` is killed half done", partial(task_dies, command="split")),
    ),
    (
        ("the workflow is killed, and begun again at once", slurm.workflow_dies),
        ("the workflow is interrupted, and begun again", partial(slurm.workflow_dies, number=SIGINT)),
        ("all tasks of a place fail, and the run is begun again", task_fails),
        ("cut off in a `rebase`, and the workflow is killed and begun again", partial(slurm.both, command="rebase")),
        ("the host is cut off, its `split` goes on late", partial(slurm.host_is_cut_off, command="split")),
    ),
)


def alone(world: World) -> None:
    """A run on this machine, without faults."""
    start, before = time.monotonic(), spent()
    subprocess.run(world.words(), env=world.environment, check=True, capture_output=True)
    took, used = time.monotonic() - start, spent() - before
    print(f"| {world.epoch.parent.name}, here alone, {used:.0f} s of processors | {took:.0f} s | | |", flush=True)


def spent() -> float:
    """The seconds of processors that all commands so far took."""
    used = getrusage(RUSAGE_CHILDREN)
    return used.ru_utime + used.ru_stime


def chain(folder: Path, lines: Sequence[Sequence[str]]) -> list[World]:
    """The epochs of a chain."""
    worlds: list[World] = []
    for epoch in EPOCHS:
        worlds.append(make_sized(folder / f"epoch{epoch}", epoch, lines[epoch - 1], worlds))
    return worlds


def place_of(issuer: bytes, serial: bytes, kept: dict[bytes, str]) -> str:
    """The name of a certificate's place, by the proved function; those of issuers are kept."""
    if issuer not in kept:
        kept[issuer] = number_name(place(By.ISSUER, issuer, serial, COUNT))
    found = kept[issuer]
    again = again_of(EPOCHS[-1])
    return f"{found}.{number_name(place(By.IDENTITY, issuer, serial, again))}" if found == LARGE else found


def asked(truth: Truth, folder: Path) -> tuple[int, int, int]:
    """How many accepted entries there are, how many are revoked, and of how many the store of their place says another
    thing."""
    stores: dict[str, Store] = {}
    waiting: dict[str, list[tuple[bytes, bytes, bytes, int]]] = {}
    wanted: dict[str, list[Verdict]] = {}
    kept: dict[bytes, str] = {}
    counts = [0, 0, 0]

    def ask(name: str) -> None:
        if name not in stores:
            stores[name] = Store.from_file(folder / name / "store")
        said = stores[name].query_seen(waiting[name])
        counts[2] += sum(one is not other for one, other in zip(said, wanted[name], strict=True))
        del waiting[name], wanted[name]

    for found, shown, is_revoked in truth.accepted():
        issuer = ISSUERS[found.issuer]
        name = place_of(issuer, found.serial, kept)
        waiting.setdefault(name, []).append((issuer, found.serial, LOGS[shown.log], shown.time))
        wanted.setdefault(name, []).append(Verdict.REVOKED if is_revoked else Verdict.GOOD)
        counts[0] += 1
        counts[1] += is_revoked
        if len(waiting[name]) == AT_ONCE:
            ask(name)
    for name in list(waiting):
        ask(name)
    return counts[0], counts[1], counts[2]


def is_counted(truth: Truth, world: World) -> bool:
    """Whether an epoch's sums are those of the whole, and entries that can't be read count at the first place alone."""
    made = json.loads((world.folder / PUBLISHED).read_text())
    counts = truth.counts[made["epoch"] - 1]
    unread = {name: said["unread"] for name, said in made["said"].items() if said["unread"]}
    print(f"epoch {made['epoch']}: {sum(counts.values())} entries, {len(made['said'])} places, {made['sums']}")
    found = {kind: count for kind, count in made["sums"].items() if count and kind not in ("universe", "revoked")}
    return found == dict(counts) and unread == ({min(made["said"]): counts["unread"]} if counts["unread"] else {})


def is_true(history: History, worlds: Sequence[World], most: int) -> bool:
    """Whether what a chain says is the truth of the whole."""
    truth = Truth(history.sample(most))
    are_counted = all([is_counted(truth, world) for world in worlds]) if truth.history.step == 1 else True
    start = time.monotonic()
    entries, revoked, wrong = asked(truth, worlds[-1].folder)
    took = time.monotonic() - start
    print(f"{entries} accepted entries asked in {took:.0f} s, {revoked} revoked, {wrong} wrong", flush=True)
    referred = Truth(history.sample(REFERRED))
    refers = is_referred(referred)
    some = sum(counts["accepted"] for counts in referred.counts)
    print(f"tools/reference.py says {'the same' if refers else 'ANOTHER THING'} of {some}", flush=True)
    return are_counted and wrong == 0 and refers


def main() -> None:
    history = History(int(sys.argv[1]) if len(sys.argv) > 1 else 250000)
    most = int(sys.argv[2]) if len(sys.argv) > 2 else history.certificates
    top = Path(tempfile.mkdtemp(prefix="fleet-"))
    # munged wants everybody to see its socket.
    top.chmod(0o755)
    os.environ["CLUSTER"] = str(top / "cluster")
    print(top, flush=True)
    with ProcessPoolExecutor() as processes:
        folders = [top / f"input{epoch}" for epoch in EPOCHS]
        in_a_page = [max(10, history.certificates // 2500)] * len(EPOCHS)
        lines = list(processes.map(write_epoch, [history] * len(EPOCHS), EPOCHS, folders, in_a_page))
    here = chain(top / "here", lines)
    for world in here:
        alone(world)
    is_same = True
    try:
        slurm.cluster("start", "3")
        for number, faults in enumerate(FAULTS):
            worlds = chain(top / f"chain{number}", lines)
            for (what, fault), world, other in zip(faults, worlds, here, strict=True):
                is_same = slurm.tried(what, fault, world, slurm.bytes_of(other)) and is_same
    finally:
        slurm.cluster("stop")
    sys.exit(0 if is_true(history, worlds, most) and is_same else 1)


if __name__ == "__main__":
    main()
