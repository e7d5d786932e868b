#!/usr/bin/env python3
"""Times `clubcard audit` of a store by the job of its one part, beside `clubcard snapshot` of that job with one worker:
processor time, and the most memory that a run takes (by /usr/bin/time). The job is `sample 7 COUNT`, and the store that
of its snapshot. It prints which program it runs, the one that `./clubcard` runs, or where a path is given, that one.
Run it at the top of the repository:

    python3 bench/audit.py [RUNS [COUNT [PROGRAM]]]

Each time is the least of so many runs (5), which take turns; COUNT is 1000000. Where RUNS is 0 both commands'
instructions are counted (by valgrind's callgrind), which bear other work on the machine.
"""

import os
import sys
import tempfile

from instructions import instructions
from workers import memory, timed

sys.path.insert(0, os.path.join(os.path.dirname(os.path.abspath(__file__)), "../tools"))

from program import path_of_program  # noqa: E402


def main():
    runs = int(sys.argv[1]) if len(sys.argv) > 1 else 5
    count = sys.argv[2] if len(sys.argv) > 2 else "1000000"
    program = sys.argv[3] if len(sys.argv) > 3 else path_of_program()
    print(f"program {program}, load {os.getloadavg()[0]:.1f}", flush=True)
    with tempfile.TemporaryDirectory() as folder:
        job, part, ledger, store = (os.path.join(folder, name) for name in ("job", "part", "ledger", "store"))
        snapshot, audit = [program, "snapshot", job, part, ledger, "1"], [program, "audit", store, job]
        timed([program, "sample", "7", count, job])
        timed(snapshot)
        timed([program, "start", part, store])
        commands = {"snapshot": snapshot, "audit": audit}
        if runs == 0:
            spent = {name: instructions(command)[0] for name, command in commands.items()}
            print(f"audit {spent['audit']} instructions, snapshot {spent['snapshot']}", end="")
        else:
            taken = [(name, timed(command)) for _ in range(runs) for name, command in commands.items()]
            print({said for name, (_, _, said) in taken if name == "audit"})
            spent = {name: min(of for other, (_, of, _) in taken if other == name) for name in commands}
            kib = {name: memory(command) for name, command in commands.items()}
            print(f"audit {spent['audit']:.3f} s, {kib['audit']} KiB, snapshot {spent['snapshot']:.3f} s,"
                  f" {kib['snapshot']} KiB, {kib['audit'] / kib['snapshot']:.2f} of the memory", end="")
        print(f", {spent['audit'] / spent['snapshot']:.2f} of it")


if __name__ == "__main__":
    main()
