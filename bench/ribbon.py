#!/usr/bin/env python3
"""Times the solver beside the same loops in plain Rust: `benches ribbon` (build it with `rt run` in crates/benches) and
bench/ribbon_reference.rs (built here with rustc). Run it at the top of the repository:

    python3 bench/ribbon.py
"""

import os
import subprocess
import sys
import tempfile
import time

PROGRAM = "crates/benches/out/benches"


def best(command, runs):
    """The least time of a command in seconds, and its output."""
    least, output = None, b""
    for _ in range(runs):
        start = time.perf_counter()
        done = subprocess.run(command, stdout=subprocess.PIPE, check=True)
        took = time.perf_counter() - start
        output = done.stdout
        least = took if least is None else min(least, took)
    return least, output


def main():
    if not os.access(PROGRAM, os.X_OK):
        sys.exit("build the program first: cd crates/benches && rt run")
    with tempfile.TemporaryDirectory() as folder:
        reference = os.path.join(folder, "ribbon_reference")
        source = "bench/ribbon_reference.rs"
        subprocess.run(["rustc", "--edition", "2021", "-O", source, "-o", reference], check=True)
        print("systems      keys  planes        ribbon  plain Rust  ratio")
        for keys, rounds in ((1000000, 1), (16000, 100)):
            for planes in (1, 6, 16):
                words = [str(keys), str(planes), str(rounds)]
                ours, printed = best([PROGRAM, "ribbon"] + words, 9)
                theirs, expected = best([reference] + words, 9)
                if printed != expected:
                    sys.exit("the two programs print different counts")
                print(f"{rounds:7} {keys:9} {planes:7} {ours:11.3f} s {theirs:9.3f} s {ours / theirs:6.2f}")


main()
