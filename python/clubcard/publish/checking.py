"""Tests of the store that clients will have, before anything names it: does it say what is true?"""

import contextlib
import mmap
import sqlite3
from collections.abc import Mapping, Sequence
from pathlib import Path

from ..answers import Verdict
from ..engine import Engine, PassedLimit
from ..fleet import Fleet
from ..places import WHOLE, Places
from ..store import Store
from .making import NoEpoch

AT_ONCE = 20_000
"""How many questions are asked at once."""

# What is asked of an entry e of an identity k.
_ASKED = "SELECT l.key, e.time, i.key, e.serial, k.revoked IS NOT NULL"
_JOINED = "JOIN log l ON l.id = e.log JOIN issuer i ON i.id = e.issuer"


def of_epoch() -> str:
    """What is asked behind an epoch: the entries that it accepted, and the identities that it first lists (`epoch`)."""
    return f"""
        {_ASKED} FROM temp.shown s CROSS JOIN entry e ON e.id = s.id
            JOIN identity k ON k.issuer = e.issuer AND k.serial = e.serial {_JOINED}
        UNION ALL {_ASKED} FROM identity k JOIN entry e ON e.id = k.entry {_JOINED} WHERE k.revoked = :epoch"""


def of_rebase() -> str:
    """What is asked behind a rebase: the identities that are revoked, and those that the newest epoch (`epoch`) was the
    first to accept."""
    return f"""
        {_ASKED} FROM identity k JOIN entry e ON e.id = k.entry {_JOINED}
        WHERE k.revoked IS NOT NULL OR k.birth = :epoch"""


def of_split() -> str:
    """What is asked where each certificate has a new place: all identities."""
    return f"{_ASKED} FROM identity k JOIN entry e ON e.id = k.entry {_JOINED}"


def audited(engine: Engine, store: Path, jobs: Sequence[Path] | None) -> bool:
    """Tests by the program that a store says the truth of each entry of all of its jobs. False where it can't, since a
    rebase began the chain or the jobs are too many for one audit: then questions are asked (`ask`)."""
    if jobs is None:
        return False
    try:
        engine.audit(store, jobs)
    except PassedLimit:
        return False
    return True


def ask(db: sqlite3.Connection, places: Places | None, stores: Mapping[str, Path], asked: str, epoch: int) -> int:
    """Tests by the library that stores, by their places, say what the state says, of what a query asks: of each its
    log, time, issuer and serial, and whether it is revoked. How many these are; one that isn't as the state says is a
    NoEpoch."""
    count, rows = 0, db.execute(asked, {"epoch": epoch})
    with contextlib.ExitStack() as stack:
        octets = {name: _mapped(stack, store) for name, store in stores.items()}
        held: Store | Fleet = Store(octets[WHOLE]) if places is None else Fleet(places, octets)
        while some := rows.fetchmany(AT_ONCE):
            _compare(held, some)
            count += len(some)
    return count


def _mapped(stack: contextlib.ExitStack, store: Path) -> mmap.mmap:
    """The bytes of a store."""
    file = stack.enter_context(open(store, "rb"))
    return stack.enter_context(mmap.mmap(file.fileno(), 0, access=mmap.ACCESS_READ))


def _compare(store: Store | Fleet, rows: Sequence[tuple[bytes, int, bytes, bytes, int]]) -> None:
    """Asks about rows, and tests the answers."""
    answers = store.query_seen((issuer, serial, log, time) for log, time, issuer, serial, _ in rows)
    for answer, (log, time, issuer, serial, is_revoked) in zip(answers, rows):
        truth = Verdict.REVOKED if is_revoked else Verdict.GOOD
        if answer is not truth:
            identity = f"issuer {issuer.hex()} serial {serial.hex()}"
            seen = f"seen by log {log.hex()} at {time}"
            raise NoEpoch(
                f"the new store says {answer.name} of {identity}, {seen}, and the state {truth.name}",
                "report it with the state's folder; the site stays as it is",
            )
