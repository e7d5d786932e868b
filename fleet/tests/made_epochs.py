"""Epochs of a few thousand entries of two logs: their pages, CRLs and EPOCH, and the jobs by tools/reference.py."""

import base64
import json
import os
import subprocess
import sys
import time
from collections.abc import Callable, Sequence
from dataclasses import dataclass
from hashlib import sha256
from pathlib import Path
from typing import Any

from program import path_of_program
from reference import Crl, Entry, Job, T

PROJECT = Path(__file__).resolve().parents[2]
PROGRAM = os.environ.get("FLEET_PROGRAM") or path_of_program()
FAULTY = Path(__file__).with_name("faulty.py")
LOGS = [sha256(b"log %d" % each).digest() for each in range(2)]
ISSUERS = [sha256(b"issuer %d" % each).digest() for each in range(3)]
IN_A_PAGE, PAGES = 300, 5
"""How many entries a page has at most, and how many pages each log has."""
MOST = 1800
"""For how many seconds something is waited for."""


@dataclass(frozen=True)
class World:
    """An epoch: EPOCH, what is made of it, its job, and where faults are ordered (faulty.py)."""

    epoch: Path
    folder: Path
    job: Any
    faults: Path
    before: "World | None" = None

    @property
    def chain(self) -> "list[World]":
        """The epochs up to this one."""
        return [*(self.before.chain if self.before else ()), self]

    @property
    def environment(self) -> dict[str, str]:
        return {**os.environ, "CI": "true", "FAULTS": str(self.faults), "FAULTY_PROGRAM": PROGRAM}

    def words(self, *words: str, profile: str = "local") -> list[str]:
        """The command of a run."""
        run = [sys.executable, str(PROJECT / "fleet" / "run.py"), profile, str(self.epoch), str(self.folder)]
        return [*run, *(("--cores", "4") if profile == "local" else ()), *words]

    def run(self, *words: str) -> "subprocess.CompletedProcess[str]":
        """Runs the workflow to its end."""
        return subprocess.run(
            self.words(*words), env=self.environment, capture_output=True, text=True, timeout=300, check=False
        )

    def task(self, *words: str) -> "subprocess.Popen[str]":
        """Begins one task by hand, as one that was given up goes on."""
        environment = {**self.environment, "PYTHONPATH": f"{PROJECT}:{PROJECT / 'python'}"}
        command = [sys.executable, "-m", "fleet.tasks", *words]
        return subprocess.Popen(command, env=environment, cwd=self.folder, stderr=subprocess.PIPE, text=True)

    def order(self, fault: str, text: str = "") -> None:
        """Orders a fault."""
        (self.faults / fault).write_text(text)


def wait_until(what: str, holds: Callable[[], object]) -> None:
    """Waits until something holds."""
    for _ in range(MOST * 20):
        if holds():
            return
        time.sleep(0.05)
    raise AssertionError(f"{what}: not within {MOST} s")


def serial(place: int) -> bytes:
    return b"\1" + sha256(b"serial %d" % place).digest()[:15]


def program(*words: str | Path | int) -> str:
    """The line of the program."""
    return subprocess.run([PROGRAM, *map(str, words)], stdout=subprocess.PIPE, text=True, check=True).stdout


def entries_of(epoch: int, in_a_page: int) -> list[Any]:
    """The entries of an epoch, in the order in which they are merged. From the third on one shows some again of the
    first."""
    count = in_a_page * PAGES * len(LOGS)
    places = [count * epoch + each for each in range(count)]
    half = len(places) // 2
    logs = [(log, places[at * half : (at + 1) * half]) for at, log in enumerate(sorted(LOGS))]
    again = [count + each for each in range(0, count, 10)] if epoch > 2 else []
    return [entry_of(each, log) for log, of_log in logs for each in [*again, *of_log]]


def entry_of(place: int, log: bytes) -> Any:
    """An entry; one of a hundred can't be read, and one of seven has no date."""
    leaf = b"\0\7" if place % 100 == 7 else None
    return Entry(ISSUERS[place % 3], serial(place), log, T + place, leaf, until=until(place))


def until(place: int) -> int | None:
    """Until when a certificate is valid: a tenth of those with a date are so for a second."""
    return T // 1000 + place // 7 % 10 if place % 7 else None


def is_listed(place: int, epoch: int) -> bool:
    """Whether the CRLs of an epoch list a certificate. Half of those that are listed from the beginning are dropped by
    the third, and others come then."""
    return place % 40 == 0 or place % 40 == (20 if epoch < 3 else 10)


def job_of(epoch: int, in_a_page: int) -> Any:
    """The job of an epoch, from 1 on."""
    entries = entries_of(epoch, in_a_page)
    count = in_a_page * PAGES * len(LOGS) * (epoch + 1)
    ranges = [(log, T, T + count - 1) for log in sorted(LOGS)]
    crls = [
        (issuer, Crl([serial(each) for each in range(at, count, 3) if is_listed(each, epoch)]))
        for at, issuer in enumerate(ISSUERS)
    ]
    return Job(epoch, T, ranges, crls, entries)


def page_of(entries: Sequence[Any]) -> str:
    """A log's answer to get-entries."""
    spelt = [(base64.b64encode(each.leaf).decode(), base64.b64encode(each.extra).decode()) for each in entries]
    return json.dumps({"entries": [{"leaf_input": leaf, "extra_data": extra} for leaf, extra in spelt]})


def make_world(
    top: Path, epoch: int = 1, before: World | None = None, places: str = "", in_a_page: int = IN_A_PAGE
) -> World:
    """Writes the files of an epoch into a folder. The places are the lines of EPOCH on them, and on a rebase."""
    job, folder = job_of(epoch, in_a_page), top / f"epoch{epoch}"
    faults = folder / "faults"
    faults.mkdir(parents=True)
    lines = [f"epoch = {epoch}", f"moment = {T}", f'program = "{FAULTY}"', "workers = 2", "pages = 2", places]
    folders = ", ".join(f'"{world.folder}"' for world in before.chain) if before else ""
    lines += ["[before]", f"folders = [{folders}]"] if before else []
    for at, (issuer, crl) in enumerate(job.crls):
        (folder / f"{at}.crl").write_bytes(crl.bytes)
        lines += ["[[crl]]", f'issuer = "{issuer.hex()}"', f'file = "{at}.crl"']
    for log, low, high in job.ranges:
        pages = folder / log.hex()[:8]
        pages.mkdir()
        mine = [entry for entry in job.entries if entry.log == log]
        for at in range(0, len(mine), in_a_page):
            (pages / f"{at}.json").write_text(page_of(mine[at : at + in_a_page]))
        lines += ["[[log]]", f'log = "{log.hex()}"', f"from = {low}", f"to = {high}", f'pages = "{pages.name}"']
    (folder / "epoch.toml").write_text("\n".join(lines) + "\n")
    return World(folder / "epoch.toml", folder / "made", job, faults, before)
