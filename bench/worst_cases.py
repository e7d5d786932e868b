#!/usr/bin/env python3
"""Counts the instructions of `clubcard snapshot`, `delta`, `query` and `rehearse` on inputs that a hostile log, issuer
or publisher could make, each at n, 2n and 4n of what it has many of, and prints how they grow. It needs valgrind (its
callgrind counts) and prints which program it runs, the one that `./clubcard` runs. Run it at the top of the repository:

    python3 bench/worst_cases.py [INPUT..]

Without words it takes all inputs, some five minutes of a processor. Each input is a history of jobs, and queries behind
it: `snapshot` is of the first job, `delta` of the last one behind the ledger of those before it, `query` of the last
query over the store of their parts, and `rehearse` of all queries over all jobs, each with one worker. A cell has the
millions of instructions at 4n, and the ratios of 2n to n and of 4n to 2n; there is none for a command whose input
doesn't grow. As n doubles, what is linear grows by 2.0, what takes n log n steps by up to 2.2, and a square by 4; a
ratio above 2.25 is marked. Lines are checked: the entries are of the class that the input is made for.
"""

import os
import sys
import tempfile
from typing import Callable, NamedTuple

from instructions import instructions
from publishing import PROGRAM, best, write

sys.path.insert(0, os.path.join(os.path.dirname(os.path.abspath(__file__)), "../tools"))

from reference import T, Crl, Entry, Job, be, ident, queries_bytes, sha  # noqa: E402

COMMANDS = ["snapshot", "delta", "query", "rehearse"]
COVERED = 10**6
MARKED = 2.25


class History(NamedTuple):
    """Jobs, queries behind them, and what the last job's line and the last query's say."""

    jobs: list
    queries: list
    counted: str
    verdict: str


class Input(NamedTuple):
    name: str
    least: int
    commands: str
    history: Callable[[int], History]


def digests(name, count):
    """So many keys, ascending."""
    return sorted(sha(name.encode(), be(i, 4)) for i in range(count))


KEYS, LOGS = digests("worst issuer", 40000), digests("worst log", 1024)


def serial(i):
    return b"\1" + sha(b"worst serial", be(i, 4))[:15]


def alike(i, last):
    """A serial of 32 octets, of which the last five tell it from others."""
    return b"\1" + bytes(26) + be(i, 4) + bytes([last])


def job(epoch, logs=1, to=COVERED, crls=(), entries=()):
    """A job that covers so many logs from T to T + to."""
    return Job(epoch, T, [(log, T, T + to) for log in LOGS[:logs]], list(crls), list(entries))


def enrolling(count):
    """A CRL without serials for each of so many issuers."""
    crl = Crl([])
    return [(key, crl) for key in KEYS[:count]]


def query(key, octets, sightings):
    return ident(key, octets), sightings


def entry(i, key, time, log=LOGS[0]):
    return Entry(key, serial(i), log, T + time)


# ---------- the inputs ----------
def many_ranges(n):
    """Each of four parts covers n logs, and sightings are of the last one."""
    jobs = [job(epoch, n, crls=enrolling(1)) for epoch in range(1, 5)]
    jobs[-1].entries += [entry(i, KEYS[1], i, LOGS[n - 1]) for i in range(100)]
    return History(jobs, [query(KEYS[0], serial(0), [(LOGS[n - 1], T)])], "unenrolled 100", "good")


def many_issuers(n):
    """n issuers, each with two certificates, of which one is revoked."""
    crls = [(key, Crl([serial(2 * i)])) for i, key in enumerate(KEYS[:n])]
    entries = [entry(i, KEYS[i // 2], i) for i in range(2 * n)]
    jobs = [job(1, crls=crls, entries=entries), job(2, crls=crls)]
    return History(jobs, [query(KEYS[n - 1], serial(2 * n - 2), [(LOGS[0], T)])], f"universe {2 * n}", "revoked")


def many_parts(n):
    """n parts with 100 ranges and 500 issuers each, and 10,000 entries at last that no part before covers."""
    jobs = [job(epoch, 100, crls=enrolling(500)) for epoch in range(1, n + 1)]
    entries = [entry(i, KEYS[i % 500], COVERED + 1 + i, LOGS[i % 100]) for i in range(10000)]
    jobs[-1] = job(n, 100, 2 * COVERED, enrolling(500), entries)
    queries = [query(KEYS[i % 500], serial(i), [(LOGS[99], T)]) for i in range(100)]
    return History(jobs, queries, "accepted 10000", "good")


def crls_of_one_issuer(n):
    """n CRLs of one issuer, each with a serial of its own."""
    crls = [(KEYS[0], Crl([serial(i)])) for i in range(n)]
    entries = [entry(i, KEYS[0], i) for i in range(1000)]
    return History([job(1, crls=crls, entries=entries), job(2, crls=crls)], [], "universe 1000", "")


def equal_serials(n):
    """A CRL that lists one serial n times."""
    crls = [(KEYS[0], Crl([serial(500)] * n))]
    entries = [entry(i, KEYS[0], i) for i in range(1000)]
    return History([job(1, crls=crls, entries=entries), job(2, crls=crls)], [], "universe 1000", "")


def alike_serials(n):
    """n entries and n listed serials, none of them an entry's, that are alike in all but their last octets."""
    crls = [(KEYS[0], Crl([alike(i, 1) for i in range(n)]))]
    entries = [Entry(KEYS[0], alike(i * 7919 % n, 0), LOGS[0], T + i) for i in range(n)]
    return History([job(1, crls=crls, entries=entries), job(2, crls=crls, entries=entries)], [], "revoked 0", "")


def equal_entries(n):
    """n entries of one revoked certificate in each job, all of which the first part covers."""
    crls = [(KEYS[0], Crl([serial(0)]))]
    entries = [entry(0, KEYS[0], i) for i in range(n)]
    jobs = [job(epoch, crls=crls, entries=entries) for epoch in (1, 2)]
    return History(jobs, [], f"accepted {n}", "")


def sightings_of_a_query(n):
    """1,000 queries with n sightings each, none of which one of four parts covers that have 256 ranges each."""
    jobs = [job(epoch, 256, crls=enrolling(1)) for epoch in range(1, 5)]
    sightings = [(LOGS[256 + i], T) for i in range(n)]
    return History(jobs, [query(KEYS[0], serial(i), sightings) for i in range(1000)], "issuers 1", "not-covered")


def many_queries(n):
    """n queries about revoked certificates."""
    crls = [(KEYS[0], Crl([serial(i) for i in range(100)]))]
    entries = [entry(i, KEYS[0], i) for i in range(300)]
    queries = [query(KEYS[0], serial(i % 100), [(LOGS[0], T + i % 100)]) for i in range(n)]
    return History([job(1, crls=crls, entries=entries)], queries, "revoked 100", "revoked")


def late_entries(n):
    """n entries that the last of three parts covers, where each has 1,000 issuers and 100 ranges."""
    jobs = [job(epoch, 100, epoch * COVERED, enrolling(1000)) for epoch in range(1, 4)]
    entries = [entry(i, KEYS[i * 7919 % 1000], 2 * COVERED + 1 + i, LOGS[i % 100]) for i in range(n)]
    jobs.append(job(4, 100, 3 * COVERED, enrolling(1000), entries))
    return History(jobs, [], f"late {n}", "")


INPUTS = [
    Input("ranges", 256, "delta query rehearse", many_ranges),
    Input("issuers", 4000, "snapshot delta query rehearse", many_issuers),
    Input("parts", 16, "delta query rehearse", many_parts),
    Input("crls", 5000, "snapshot delta rehearse", crls_of_one_issuer),
    Input("equal-serials", 50000, "snapshot delta rehearse", equal_serials),
    Input("alike-serials", 10000, "snapshot delta rehearse", alike_serials),
    Input("equal-entries", 20000, "snapshot delta rehearse", equal_entries),
    Input("sightings", 16, "query rehearse", sightings_of_a_query),
    Input("queries", 4000, "rehearse", many_queries),
    Input("late-entries", 10000, "delta rehearse", late_entries),
]


# ---------- the runs ----------
def done(*words):
    """What the program prints; it must end with status 0."""
    line = best([PROGRAM, *words], 1)[1]
    if not line.startswith(("epoch", "store")):
        sys.exit(f"{' '.join(words)}: {line}")
    return line


def publish(at, history):
    """Publishes the jobs and installs their parts, and gives the words of each command that is counted."""
    jobs = [write(at(f"job {i}"), it.bytes()) for i, it in enumerate(history.jobs)]
    snapshot = ["snapshot", jobs[0], at("part"), at("ledger 0"), "1"]
    commands, line = {"snapshot": snapshot}, done(*snapshot)
    done("start", at("part"), at("store 0"))
    for i in range(1, len(jobs)):
        commands["delta"] = ["delta", jobs[i], at(f"ledger {i - 1}"), at("part"), at(f"ledger {i}"), "1"]
        line = done(*commands["delta"])
        done("install", at(f"store {i - 1}"), at("part"), at(f"store {i}"))
    if f" {history.counted} " not in f"{line} ":
        sys.exit(f"not {history.counted}: {line}")
    if history.queries:
        (key, _, octets), sightings = history.queries[-1]
        seen = [word for log, time in sightings for word in (log.hex(), str(time))]
        commands["query"] = ["query", at(f"store {len(jobs) - 1}"), key.hex(), octets.hex(), *seen]
    queries = write(at("queries"), queries_bytes(history.queries))
    commands["rehearse"] = ["rehearse", queries, "1", *jobs]
    return commands


def count(history, commands):
    """The instructions of each of these commands, in millions."""
    counts = []
    with tempfile.TemporaryDirectory() as folder:
        words = publish(lambda name: os.path.join(folder, name), history)
        for command in commands:
            counted, line = instructions([PROGRAM, *words[command]])
            if command == "query" and line != history.verdict:
                sys.exit(f"{line} in place of {history.verdict}")
            counts.append(counted / 1e6)
    return counts


def ratio(less, more):
    told = f"{more / less:.2f}"
    return f"**{told}**" if more / less > MARKED else told


def row(it):
    """Counts an input at its three sizes: of each command the millions at 4n, and both ratios."""
    sizes, commands = [it.least, 2 * it.least, 4 * it.least], it.commands.split()
    cells = {}
    for command, (one, two, four) in zip(commands, zip(*(count(it.history(n), commands) for n in sizes))):
        cells[command] = f"{four:.0f} ({ratio(one, two)}, {ratio(two, four)})"
    return " | ".join([it.name, f"{sizes[2]:,}", *(cells.get(command, "") for command in COMMANDS)])


def main():
    names = sys.argv[1:] or [it.name for it in INPUTS]
    if not set(names) <= {it.name for it in INPUTS}:
        sys.exit(__doc__)
    print(f"program {PROGRAM}", flush=True)
    print("| input | 4n | `" + "` | `".join(COMMANDS) + "` |\n" + 6 * "|---" + "|", flush=True)
    for it in INPUTS:
        if it.name in names:
            print(f"| {row(it)} |", flush=True)


if __name__ == "__main__":
    main()
