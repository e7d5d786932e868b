#!/usr/bin/env python3
"""Says how much more this machine's processors do together than one of them: the time by the clock of 1, 2 and 4 runs
at once, each of `clubcard snapshot` with one worker over the same job, and each of one SHA-256 of a GiB (by Python's
hashlib), which needs no memory. No run waits for another, so that a program which shared all its work among as many
threads would be as many times as fast as one, and no more. It prints which program it runs, the one that `./clubcard`
runs, or where a path is given, that one. Run it at the top of the repository, on a machine that does nothing else:

    python3 bench/processors.py [RUNS [COUNT [PROGRAM]]]

Each time is the least of so many runs (5); the job is `sample 7 COUNT` (500000).
"""

import os
import subprocess
import sys
import tempfile
import time

from workers import timed

sys.path.insert(0, os.path.join(os.path.dirname(os.path.abspath(__file__)), "../tools"))

from program import path_of_program  # noqa: E402

TOGETHER = (1, 2, 4)
DIGEST = "import hashlib; block = bytes(1 << 20); it = hashlib.sha256(); [it.update(block) for _ in range(1024)]"


def at_once(commands):
    """The seconds by the clock of all commands, started together."""
    start = time.monotonic()
    running = [subprocess.Popen(command, stdout=subprocess.DEVNULL) for command in commands]
    if any([it.wait() for it in running]):
        sys.exit("a run failed")
    return time.monotonic() - start


def main():
    runs = int(sys.argv[1]) if len(sys.argv) > 1 else 5
    count = sys.argv[2] if len(sys.argv) > 2 else "500000"
    program = sys.argv[3] if len(sys.argv) > 3 else path_of_program()
    print(f"program {program}, {os.cpu_count()} processors, load {os.getloadavg()[0]:.1f}", flush=True)
    with tempfile.TemporaryDirectory() as folder:
        job = os.path.join(folder, "job")
        timed([program, "sample", "7", count, job])
        paths = lambda at: [os.path.join(folder, f"{name}{at}") for name in ("part", "ledger")]
        kinds = {
            "snapshot": lambda at: [program, "snapshot", job, *paths(at), "1"],
            "digest": lambda at: [sys.executable, "-c", DIGEST],
        }
        for kind, command in kinds.items():
            least = {n: min(at_once(list(map(command, range(n)))) for _ in range(runs)) for n in TOGETHER}
            said = [
                f"{n} at once {took:.3f} s ({n * least[1] / took:.2f} times one's work)"
                for n, took in least.items()
            ]
            print(f"{kind}: {', '.join(said)}", flush=True)


if __name__ == "__main__":
    main()
