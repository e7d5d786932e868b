#!/usr/bin/env python3
"""Times the builder whose workers draw the leaves from one counter beside the one that cuts them into shares before the
work, by the clock, in both formats, for groups of very different sizes and for equal ones. Run it at the top of the
repository once `rt run` in crates/benches has built the program, on a machine that does nothing else:

    python3 bench/claims.py [RUNS [ROUNDS [WORKERS]]]

Each time is the least of so many runs (9), in which both take turns, of a part that is built so many times over (3) by
so many workers (4), without the program's start and the admission of its job. Both must give the same part.
"""

import os
import subprocess
import sys
import time

PROGRAM = "crates/benches/out/benches"
SHARINGS = ("cut", "claimed")
FORMATS = ("plain", "sharded")

# The first group's identities, how many groups there are besides, and how many identities each of those has.
SIZES = {
    "one of 200,000, a hundred of 1,000": (200000, 100, 1000),
    "a hundred and one of 3,000": (3000, 100, 3000),
}


def run(sharing, cutting, workers, rounds, sizes):
    """The seconds of a run by the clock, and what it prints."""
    command = [PROGRAM, "building", sharing, cutting, *map(str, (workers, rounds, *sizes))]
    start = time.monotonic()
    done = subprocess.run(command, stdout=subprocess.PIPE, text=True, check=True)
    return time.monotonic() - start, done.stdout.strip()


def compare(name, cutting, sizes, runs, rounds, workers):
    """Both builders in turn, and the ratio of their least times."""
    least = {}
    said = set()
    for _ in range(runs):
        for sharing in SHARINGS:
            start, _ = run(sharing, cutting, workers, 0, sizes)
            took, line = run(sharing, cutting, workers, rounds, sizes)
            said.add(line)
            took = (took - start) / rounds
            least[sharing] = min(took, least.get(sharing, took))
    if len(said) > 1:
        sys.exit(f"{name}: two parts")
    cut, claimed = (least[sharing] for sharing in SHARINGS)
    print(f"{name}: shares {cut * 1000:.1f} ms, claimed {claimed * 1000:.1f} ms ({claimed / cut:.2f})", flush=True)


def main():
    if not os.access(PROGRAM, os.X_OK):
        sys.exit("build the program first: (cd crates/benches && rt run)")
    runs, rounds, workers = (list(map(int, sys.argv[1:])) + [9, 3, 4][len(sys.argv) - 1 :])[:3]
    for name, sizes in SIZES.items():
        for cutting in FORMATS:
            compare(f"{name}, {cutting}", cutting, sizes, runs, rounds, workers)


if __name__ == "__main__":
    main()
