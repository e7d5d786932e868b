#!/usr/bin/env python3
"""Times `clubcard rebase` of the ledger of a job, beside `clubcard snapshot` of that job with one worker: processor
time, and the most memory that a run takes (by /usr/bin/time). Each entry of the job has a date, half of them before the
moment of the rebase, and one in a hundred is revoked. It prints which program it runs, the one that `./clubcard` runs,
or where a path is given, that one. Run it at the top of the repository:

    python3 bench/rebase.py [RUNS [COUNT [PROGRAM]]]

Each time is the least of so many runs (5), which take turns; COUNT is 1000000. Where RUNS is 0 both commands'
instructions are counted (by valgrind's callgrind), which bear other work on the machine.
"""

import hashlib
import os
import sys
import tempfile

from instructions import instructions
from workers import memory, timed

sys.path.insert(0, os.path.join(os.path.dirname(os.path.abspath(__file__)), "../tools"))

from program import path_of_program  # noqa: E402
from reference import Crl, T, der, time_of, validity  # noqa: E402

LOG = hashlib.sha256(b"bench log").digest()
ISSUERS = [hashlib.sha256(b"bench issuer %d" % j).digest() for j in range(4)]

# Two ends of certificates, a day apart, in seconds since 1970; the moment lies between them.
ENDS = [T // 1000, T // 1000 + 86400]
MOMENT = T + 43200000


def serial(i):
    return b"\x01" + hashlib.sha256(b"bench serial %d" % i).digest()[:15]


def entry(i):
    """The record of a precertificate entry that ends at one of the two times."""
    tbs = der(0x30, der(2, serial(i)) + validity(time_of(0), time_of(ENDS[i // 400 % 2])))
    leaf = b"\0\0" + (T + i).to_bytes(8, "big") + b"\0\1" + ISSUERS[i % 4] + len(tbs).to_bytes(3, "big") + tbs + b"\0\0"
    return b"\x03" + LOG + len(leaf).to_bytes(3, "big") + leaf + bytes(3)


def write_job(path, count):
    with open(path, "wb") as file:
        file.write(b"CLUBJOB1" + (1).to_bytes(8, "big") + T.to_bytes(8, "big"))
        file.write(b"\x01" + LOG + T.to_bytes(8, "big") + (T + count - 1).to_bytes(8, "big"))
        for j, issuer in enumerate(ISSUERS):
            held = Crl([serial(i) for i in range(j, count, 400)]).bytes
            file.write(b"\x02" + issuer + len(held).to_bytes(4, "big") + held)
        for i in range(count):
            file.write(entry(i))
        file.write(b"\0")


def main():
    runs = int(sys.argv[1]) if len(sys.argv) > 1 else 5
    count = int(sys.argv[2]) if len(sys.argv) > 2 else 1000000
    program = sys.argv[3] if len(sys.argv) > 3 else path_of_program()
    print(f"program {program}, load {os.getloadavg()[0]:.1f}", flush=True)
    with tempfile.TemporaryDirectory() as folder:
        job, part, ledger, anew, next_ledger = (os.path.join(folder, name) for name in ("job", "part", "ledger", "anew", "next"))
        write_job(job, count)
        snapshot = [program, "snapshot", job, part, ledger, "1"]
        rebase = [program, "rebase", ledger, str(MOMENT), anew, next_ledger, "1"]
        timed(snapshot)
        commands = {"snapshot": snapshot, "rebase": rebase}
        if runs == 0:
            spent = {name: instructions(command)[0] for name, command in commands.items()}
            print(f"rebase {spent['rebase']} instructions, snapshot {spent['snapshot']}", end="")
        else:
            taken = [(name, timed(command)) for _ in range(runs) for name, command in commands.items()]
            print(*sorted({said for _, (_, _, said) in taken}), sep="\n")
            spent = {name: min(of for other, (_, of, _) in taken if other == name) for name in commands}
            kib = {name: memory(command) for name, command in commands.items()}
            print(f"rebase {spent['rebase']:.3f} s, {kib['rebase']} KiB, snapshot {spent['snapshot']:.3f} s,"
                  f" {kib['snapshot']} KiB, {kib['rebase'] / kib['snapshot']:.2f} of the memory", end="")
        print(f", {spent['rebase'] / spent['snapshot']:.2f} of it")


if __name__ == "__main__":
    main()
