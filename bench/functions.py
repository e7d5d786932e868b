#!/usr/bin/env python3
"""Counts the instructions of the functions of `clubcard snapshot` with one worker, over a job of the generator. It
needs valgrind (with callgrind_annotate), and prints which program it runs, the one that `./clubcard` runs. Run it at
the top of the repository:

    python3 bench/functions.py [COUNT [ROWS]]

The job is `sample 7 COUNT` (200000). The first table has so many (5) functions that execute most beside the compression
of SHA-256, each with what is inlined in it and without what it calls; the second one has three times as many, with what
they call. A function's instances for several types are taken together.
"""

import os
import sys
import tempfile

from instructions import callgrind, of_functions
from publishing import PROGRAM, best

HASHES = ("sha2::block256::compress", "lane_core::states::after_block")


def table(counts, rows, count, whole):
    """The greatest of the counts of named functions, for each entry and in hundredths of the whole."""
    named = [it for it in counts.items() if "::" in it[0] or it[0].startswith("__mem")]
    for name, held in sorted(named, key=lambda it: -it[1])[:rows]:
        print(f"| `{name}` | {held / count:.0f} | {held / whole:.1%} |")


def main():
    count = int(sys.argv[1]) if len(sys.argv) > 1 else 200000
    rows = int(sys.argv[2]) if len(sys.argv) > 2 else 5
    print(f"program {PROGRAM}", flush=True)
    with tempfile.TemporaryDirectory() as folder:
        job, part, ledger, profile = (os.path.join(folder, name) for name in ("job", "part", "ledger", "profile"))
        best([PROGRAM, "sample", "7", str(count), job], 1)
        print(callgrind([PROGRAM, "snapshot", job, part, ledger, "1"], profile)[0])
        alone, with_calls = of_functions(profile, False), of_functions(profile, True)
    whole = sum(alone.values())
    hashed = sum(alone.pop(name, 0) for name in HASHES)
    print(f"{whole} instructions, {hashed / whole:.1%} of them the compression of SHA-256")
    print("\n| function | an entry | of the rest |\n|---|---|---|")
    table(alone, rows, count, whole - hashed)
    print("\n| with what it calls | an entry | of all |\n|---|---|---|")
    table(with_calls, 3 * rows, count, whole)


if __name__ == "__main__":
    main()
