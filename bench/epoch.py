#!/usr/bin/python3
"""Times one epoch of the publisher, from the spool to the site, beside the program's own calls in it.

    bench/epoch.py [--rebase] [ENTRIES [ISSUERS [BYTES]]]

A spool gets so many precertificate entries (1,000,000) of so many issuers (200), each with one CRL that lists one
certificate of a hundred; certificates are padded to so many bytes (1,000). In turn: a first epoch of all of them, and
another one behind it in which each CRL lists more; with --rebase a rebase follows each of them. Told are the seconds of
the epoch, of the site and of the program's calls, the first two together by the last, and the memory that this process
took at most: before the first epoch, and at the end. Wants minisign, and the packages of python/debian-packages.txt.
"""

import os
import resource
import subprocess
import sys
import tempfile
import time
from collections.abc import Callable
from hashlib import sha256
from io import StringIO
from pathlib import Path
from typing import Any

TOP = Path(__file__).resolve().parents[1]
sys.path[:0] = [str(TOP / "python"), str(TOP / "tools")]
os.environ.setdefault("CLUBCARD_LIBRARY", str(TOP / "release" / "libclubcard.so"))

from clubcard.engine import Engine  # noqa: E402
from clubcard.jobs import entry_record  # noqa: E402
from clubcard.progress import Silent  # noqa: E402
from clubcard.publish.alarms import Alarms  # noqa: E402
from clubcard.publish.config import Config, Issuer, Log  # noqa: E402
from clubcard.publish.epoch import make_epoch  # noqa: E402
from clubcard.publish.issuers import Enrolment  # noqa: E402
from clubcard.publish.kept import KeptCrl  # noqa: E402
from clubcard.publish.site import publish_site  # noqa: E402
from clubcard.publish.spool import named_log  # noqa: E402
from clubcard.publish.state import State  # noqa: E402
from reference import D, Crl, der, time_of, validity  # noqa: E402

T = 1_700_000_000_000
HOUR = 3_600_000
UNTIL = T // 1000 + 10**8
LOG = Log("a log", sha256(b"log").digest(), "rfc6962", "http://log/", b"", HOUR, 0, "log")
SEGMENT = 10_000
"""Entries in a segment."""


def key(issuer: int) -> bytes:
    return sha256(b"issuer %d" % issuer).digest()


def serial(place: int) -> bytes:
    return b"\1" + sha256(b"serial %d" % place).digest()[:15]


def record(place: int, issuers: int, padding: bytes) -> bytes:
    """The record of an entry. Its time is its place."""
    tbs = der(0x30, der(2, serial(place)) + validity(D, time_of(UNTIL)) + padding)
    moment = (T + place).to_bytes(8, "big")
    leaf = bytes(2) + moment + b"\0\1" + key(place % issuers) + len(tbs).to_bytes(3, "big") + tbs + bytes(2)
    return entry_record(LOG.id, leaf, b"")


def fill(state: State, count: int, issuers: int, padding: bytes) -> None:
    """Writes a spool, as fetching does: a segment at a time."""
    numbers = [state.issuer_id(key(issuer)) for issuer in range(issuers)]
    log = named_log(state, LOG).id
    for first in range(0, count, SEGMENT):
        places = range(first, min(first + SEGMENT, count))
        records = [record(place, issuers, padding) for place in places]
        path = state.new_file("spool", ".entries")
        path.write_bytes(b"".join(records))
        lengths = [len(each) for each in records]
        starts = [sum(lengths[:1]) * step for step in range(len(lengths))]
        assert len(set(lengths)) == 1
        with state.transaction() as db:
            words = (state.named(path), sum(lengths))
            segment = db.execute("INSERT INTO segment (file, length) VALUES (?, ?)", words).lastrowid
            rows = (
                (log, place, T + place, numbers[place % issuers], serial(place), UNTIL, segment, start, length)
                for place, start, length in zip(places, starts, lengths)
            )
            db.executemany(
                "INSERT INTO entry (log, place, time, issuer, serial, until, segment, start, length)"
                " VALUES (?, ?, ?, ?, ?, ?, ?, ?, ?)",
                rows,
            )
    words = (count, T + count + 2 * HOUR, count, T + count - 1)
    state.db.execute(
        "UPDATE log SET taken = ?, head_time = ?, head_size = ?, latest = ?, head_root = zeroblob(32), compact = NULL",
        words,
    )


def enrolment(state: State, count: int, issuers: int, every: int) -> Enrolment:
    """A CRL for each issuer, which lists one of so many certificates."""
    kept = {}
    for issuer in range(issuers):
        listed = [serial(place) for place in range(issuer, count, issuers) if place // issuers % every == 0]
        octets = Crl(listed).bytes
        path = state.new_file("crls", ".crl")
        path.write_bytes(octets)
        url = f"http://crl/{issuer}"
        kept[key(issuer)] = (KeptCrl(key(issuer), url, path, 1, T, None, sha256(octets).digest()),)
    return Enrolment(kept, {})


class Timed(Engine):
    """The program, with the seconds that its calls take."""

    def __init__(self, program: str) -> None:
        super().__init__(program)
        self.calls: dict[str, float] = {}

    def _run(self, read: Callable[[Any], Any], command: str, *words: Any) -> Any:
        begin = time.monotonic()
        try:
            return super()._run(read, command, *words)
        finally:
            self.calls[command] = self.calls.get(command, 0.0) + time.monotonic() - begin


def memory() -> float:
    """What this process took at most, in MB."""
    return resource.getrusage(resource.RUSAGE_SELF).ru_maxrss / 1000


def config_of(folder: Path, issuers: int, rebase_after: int) -> Config:
    named = tuple(Issuer(f"Issuer {n}", key(n), (), (f"http://crl/{n}",), {}) for n in range(issuers))
    secret, program = folder / "key", str(TOP / "release" / "clubcard-x86_64-linux")
    words = ["minisign", "-G", "-W", "-p", str(folder / "key.pub"), "-s", str(secret)]
    subprocess.run(words, check=True, stdout=subprocess.DEVNULL)
    day = 24 * HOUR
    paths = folder / "config.toml", "bench", folder / "state", folder / "site", secret, None, program
    return Config(*paths, 4, day, rebase_after, 8, 10 * day, 7 * day, 30 * day, named, (LOG,))


def epoch(config: Config, state: State, moment: int, enrolled: Enrolment) -> None:
    """Makes an epoch, publishes it, and tells what it took."""
    engine, begin = Timed(config.program), time.monotonic()
    made = make_epoch(config, state, engine, moment, enrolled, Alarms(StringIO()), Silent())
    middle = time.monotonic()
    publish_site(config, state)
    end, own = time.monotonic(), sum(engine.calls.values())
    calls = ", ".join(f"{name} {seconds:.2f}" for name, seconds in engine.calls.items())
    row = made.row
    print(f"epoch {row.epoch}: shown {row.shown}, revoked {row.revoked}, alarms {len(row.alarms)}, {row.length} bytes")
    print(f"  epoch {middle - begin:.2f} s and site {end - middle:.2f} s; the program's calls {own:.2f} s ({calls})")
    print(f"  by the program's: {(end - begin) / own:.2f}; memory at most {memory():.0f} MB", flush=True)


def main() -> None:
    words = [word for word in sys.argv[1:] if word != "--rebase"]
    count, issuers, size = (int(word) for word in [*words, *("1000000", "200", "1000")[len(words) :]])
    with tempfile.TemporaryDirectory(prefix="clubcard-bench-") as name:
        config = config_of(Path(name), issuers, 1 if "--rebase" in sys.argv else 40)
        state = State.open(config.state)
        begin = time.monotonic()
        fill(state, count, issuers, der(4, bytes(max(0, size - 60))))
        lists = [enrolment(state, count, issuers, every) for every in (100, 90)]
        segments = sum(path.stat().st_size for path in (config.state / "spool").iterdir())
        print(f"spool: {count} entries of {issuers} issuers, {segments / 1e6:.0f} MB, {time.monotonic() - begin:.1f} s")
        print(f"memory before: {memory():.0f} MB", flush=True)
        epoch(config, state, T + count + 3 * HOUR, lists[0])
        epoch(config, state, T + count + 4 * HOUR, lists[1])
        state.close()


if __name__ == "__main__":
    main()
