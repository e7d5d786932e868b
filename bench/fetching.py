#!/usr/bin/env python3
"""Times how `clubcard-publish` fetches from a log on loopback: entries a second, processor time, memory, and what each
step takes alone.

    /usr/bin/python3 bench/fetching.py [--entries COUNT] [--folder FOLDER] [rfc6962|static] ..

It makes a log of COUNT entries (100,000): one certificate of usual size with another serial in each entry, three of
four as precertificates, with a chain of two. nginx serves it as files, 512 entries an answer, or as tiles of 256. The
fetching process, with all its threads, has one processor, and nginx another one. COUNT entries take 8 KB each on the
disk (rfc6962), or 2 KB, and 2 KB in the state.
"""

import argparse
import hashlib
import multiprocessing
import os
import resource
import subprocess
import sys
import tempfile
import time
from collections.abc import Iterator
from concurrent.futures import ProcessPoolExecutor
from dataclasses import replace
from pathlib import Path

from made_log import PAGE, T, Made, made_log, write_rfc6962, write_static

from clubcard.http import Client
from clubcard.progress import Silent
from clubcard.publish.alarms import Alarms
from clubcard.publish.config import Config, Log, LogKind
from clubcard.publish.following import MOST_ENTRIES
from clubcard.publish.logs import fetch_logs, source_of
from clubcard.publish.merkle import CompactRange, leaf_hash
from clubcard.publish.spool import Batch, log_rows, named_log
from clubcard.publish.state import State
from clubcard.publish.tiles import WIDTH, tile_path

PORT = 18463
NGINX = """user root; worker_processes 1; daemon off; pid {folder}/nginx.pid; error_log stderr;
events {{ worker_connections 256; }}
http {{ access_log off; sendfile on; {temporary} server {{ listen 127.0.0.1:{port}; root {folder};
location = /ct/v1/get-sth {{ try_files /sth.json =404; }}
location = /ct/v1/get-entries {{ try_files /entries/$arg_start.json =404; }}
location = /ct/v1/get-sth-consistency {{ try_files /consistency/$arg_first.json =404; }} }} }}
"""
TEMPORARY = ("client_body", "proxy", "fastcgi", "uwsgi", "scgi")


def start_nginx(folder: Path, processor: int) -> "subprocess.Popen[bytes]":
    """nginx over a folder, on one processor."""
    temporary = " ".join(f"{name}_temp_path {folder}/{name};" for name in TEMPORARY)
    text = NGINX.format(folder=folder, port=PORT, temporary=temporary)
    (folder / "nginx.conf").write_text(text, encoding="ascii")
    words = ["taskset", "-c", str(processor), "nginx", "-p", str(folder), "-c", str(folder / "nginx.conf")]
    running = subprocess.Popen(words)
    with Client() as client:
        client.get(f"http://127.0.0.1:{PORT}/nginx.conf", 1 << 20)
    return running


def used() -> tuple[float, float]:
    """The time by the clock, and this process' processor time, in seconds."""
    spent = resource.getrusage(resource.RUSAGE_SELF)
    return time.perf_counter(), spent.ru_utime + spent.ru_stime


def memory() -> int:
    """The most memory that this process had, in MB."""
    lines = Path("/proc/self/status").read_text(encoding="ascii").splitlines()
    return next(int(line.split()[1]) for line in lines if line.startswith("VmHWM:")) >> 10


def config_of(log: Log) -> Config:
    """CONFIG with this log alone."""
    here = Path("unused")
    return Config(here, "bench", here, here, here, None, "", 1, 1, 1, 1, 1, 1, 1, (), (log,))


def measure(folder: Path, log: Log, count: int, processor: int) -> list[str]:
    """Fetches the whole log into a new state, on one processor, and then takes its steps alone; gives lines that say
    what each took."""
    os.sched_setaffinity(0, [processor])
    state, alarms = State.open(folder / "state"), Alarms()
    before, (clock, spent) = memory(), used()
    with Client() as client:
        found = fetch_logs(config_of(log), state, T + count, client, alarms, Silent())
    clock, spent = (now - then for now, then in zip(used(), (clock, spent)))
    assert found[log.id].followed and found[log.id].entries == count == log_rows(state)[0].taken
    state.close()
    rates = f"{count / spent:,.0f} a second of the processor, {count / clock:,.0f} by the clock"
    lines = [f"{log.kind}: {count:,} entries in {spent:.1f} s of the processor, {clock:.1f} s by the clock: {rates};"]
    lines.append(f"    {memory()} MB at most, {before} of them before it")
    laps = list(steps(folder, log, count))
    lines += [f"    {took / min(count, MOST_ENTRIES) * 1e6:7.1f} us an entry: {name}" for name, took in laps]
    return lines


def steps(folder: Path, log: Log, count: int) -> Iterator[tuple[str, float]]:
    """The processor time of each step alone, in seconds, over the first entries."""
    count = min(count, MOST_ENTRIES)
    state = State.open(folder / "alone")
    row = named_log(state, log)
    with Client() as client:
        source = source_of(log, client)
        size = source.head().size
        starts = range(0, count, PAGE if log.kind == "rfc6962" else WIDTH)
        began = used()[1]
        for start in starts:
            client.get(page_url(log, start, size), 64 << 20)
        asked = used()[1]
        yield "HTTP", asked - began
        pages = [source.entries(start, min(start + starts.step, count), size) for start in starts]
        yield "entries of an answer (JSON and Base64, or a tile)", used()[1] - asked - (asked - began)
    began = used()[1]
    leaves = [leaf_hash(entry.leaf) for page in pages for entry in page]
    yield "leaf hashes", used()[1] - began
    began, front = used()[1], CompactRange()
    front.extend(leaves)
    yield "the compact range", used()[1] - began
    began, batch = used()[1], Batch(state, row, T + size)
    for page in pages:
        batch.add(page)
    yield "reading entries, writing records", used()[1] - began
    began = used()[1]
    batch.commit(replace(row, taken=count, front=front))
    yield "rows", used()[1] - began
    state.close()


def page_url(log: Log, start: int, size: int) -> str:
    """Where a page lies."""
    if log.kind == "rfc6962":
        return f"{log.url}ct/v1/get-entries?start={start}&end={start + PAGE - 1}"
    return log.url + tile_path("data", start // WIDTH, min(WIDTH, size - start))


def run(kind: LogKind, made: Made, count: int, folder: Path) -> None:
    """Writes the log into a folder, serves it, and prints what fetching from it takes. A process of its own fetches."""
    origin, log_id = f"127.0.0.1:{PORT}", hashlib.sha256(made.spki).digest()
    if kind == "rfc6962":
        write_rfc6962(folder, made, count)
    else:
        write_static(folder, made, count, origin)
    log = Log("bench", log_id, kind, f"http://{origin}/", made.spki, 86_400_000, 0, origin)
    processors = sorted(os.sched_getaffinity(0))
    running = start_nginx(folder, processors[-1])
    try:
        with ProcessPoolExecutor(1, multiprocessing.get_context("spawn")) as other:
            print("\n".join(other.submit(measure, folder, log, count, processors[0]).result()), flush=True)
    finally:
        running.terminate()
        running.wait()


def main() -> int:
    words = argparse.ArgumentParser(description=__doc__, formatter_class=argparse.RawDescriptionHelpFormatter)
    words.add_argument("--entries", type=int, default=100_000)
    words.add_argument("--folder", type=Path)
    words.add_argument("kind", nargs="*", choices=["rfc6962", "static", []], default=[])
    given = words.parse_args()
    made = made_log(given.entries)
    kinds: list[LogKind] = given.kind or ["rfc6962", "static"]
    for kind in kinds:
        with tempfile.TemporaryDirectory(dir=given.folder) as name:
            run(kind, made, given.entries, Path(name))
    return 0


if __name__ == "__main__":
    sys.exit(main())
