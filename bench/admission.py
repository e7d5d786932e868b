#!/usr/bin/env python3
"""Times `clubcard delta` on jobs that a hostile log or publisher could make, each beside the same job without what
could make it slow: processor time, the least of so many runs (3); or, beside other work, the millions of instructions
(valgrind's callgrind), which takes some minutes. It prints which program it runs, the one that `./clubcard` runs. Run
it at the top of the repository:

    python3 bench/admission.py [RUNS]
    python3 bench/admission.py counted

*Late entries*: 200,000 entries behind a ledger of four parts, each with 50,000 issuers, whose timestamps those parts
cover; beside them the same entries with timestamps that they don't cover. *Ranges*: 200,000 entries behind a ledger of
four parts, where each part and the job have 1,024 ranges; beside them one range each. The lines are checked: each
entry is late, or each is accepted.
"""

import hashlib
import os
import sys
import tempfile

from instructions import instructions
from publishing import PROGRAM, T, best, crl, entry, serial, write

ENTRIES = 200000
PARTS = 4
MANY_ISSUERS, FEW_ISSUERS = 50000, 4
MANY_RANGES = 1024
COVERED = 1000000


def digest(text):
    return hashlib.sha256(text.encode()).digest()


def issuers(count):
    return [digest(f"bench issuer {i}") for i in range(count)]


def logs(count):
    return sorted(digest(f"bench log {i}") for i in range(count))


def job(epoch, logs_covered, to, keys, sightings):
    """A job that covers each log from T to T + to and enrolls the keys; entry i has the sighting's log and time."""
    out = [b"CLUBJOB1", epoch.to_bytes(8, "big"), T.to_bytes(8, "big")]
    for log in logs_covered:
        out.append(b"\x01" + log + T.to_bytes(8, "big") + (T + to).to_bytes(8, "big"))
    held = crl([])
    for key in keys:
        out.append(b"\x02" + key + len(held).to_bytes(4, "big") + held)
    for i, (log, time) in enumerate(sightings):
        out.append(entry(log, keys[i * 7919 % len(keys)], serial(i), T + time))
    out.append(b"\0")
    return b"".join(out)


def chain(at, name, logs_covered, keys):
    """The ledger of so many parts without entries, each of which covers the logs and enrolls the keys."""
    ledger = None
    for part in range(PARTS):
        write(at("job"), job(part + 1, logs_covered, COVERED, keys, []))
        before, ledger = ledger, at(f"{name} {part}")
        words = ["snapshot", at("job")] if before is None else ["delta", at("job"), before]
        best([PROGRAM] + words + [at("part"), ledger, "1"], 1)
    return ledger


def delta(at, runs, ledger, data, word):
    """The time of a delta of this job, or with no runs its instructions; each entry is counted behind the word."""
    write(at("job"), data)
    command = [PROGRAM, "delta", at("job"), ledger, at("part"), at("ledger"), "1"]
    took, line = best(command, runs) if runs else instructions(command)
    if f" {word} {ENTRIES}" not in line:
        sys.exit(f"not each entry is {word}: {line}")
    return took


def shown(runs, took):
    return f"{took:.3f} s" if runs else f"{took / 1e6:.0f} million"


def late_entries(at, runs):
    keys, held = issuers(MANY_ISSUERS), logs(1)
    ledger = chain(at, "late", held, keys)
    took = {}
    for word, begin in (("late", 0), ("accepted", COVERED + 1)):
        sightings = [(held[0], begin + i) for i in range(ENTRIES)]
        took[word] = delta(at, runs, ledger, job(PARTS + 1, held, 2 * COVERED, keys, sightings), word)
    print(f"late entries: {shown(runs, took['late'])}, the same not late: {shown(runs, took['accepted'])},"
          f" {took['late'] / took['accepted']:.2f} of it", flush=True)


def ranges(at, runs):
    keys, took = issuers(FEW_ISSUERS), {}
    for count in (1, MANY_RANGES):
        held = logs(count)
        ledger = chain(at, f"ranges {count}", held, keys)
        sightings = [(held[i * 7919 % count], COVERED + 1 + i) for i in range(ENTRIES)]
        took[count] = delta(at, runs, ledger, job(PARTS + 1, held, 2 * COVERED, keys, sightings), "accepted")
    print(f"{MANY_RANGES} ranges a part: {shown(runs, took[MANY_RANGES])}, one range: {shown(runs, took[1])},"
          f" {took[MANY_RANGES] / took[1]:.2f} of it", flush=True)


def main():
    print(f"program {PROGRAM}", flush=True)
    word = sys.argv[1] if len(sys.argv) > 1 else "3"
    runs = 0 if word == "counted" else int(word)
    with tempfile.TemporaryDirectory() as folder:
        for part in (late_entries, ranges):
            part(lambda name: os.path.join(folder, name), runs)


if __name__ == "__main__":
    main()
