#!/usr/bin/env python3
"""Times SHA-256 of several messages side by side (bench/lanes.rs, built here with rustc), for the processor that the
program is built for (x86-64-v2) and for later ones: nanoseconds of one block and one digest, over one lane, four and
eight. Run it at the top of the repository:

    python3 bench/lanes.py [RUNS]

Each figure is the least of so many runs (5), which take turns.
"""

import os
import re
import subprocess
import sys
import tempfile

PROCESSORS = ("x86-64-v2", "x86-64-v3")


def main():
    runs = int(sys.argv[1]) if len(sys.argv) > 1 else 5
    found = {name: [] for name in PROCESSORS}
    with tempfile.TemporaryDirectory() as folder:
        for name in PROCESSORS:
            build = ["rustc", "--edition", "2021", "-O", "-C", f"target-cpu={name}", "bench/lanes.rs"]
            # (lanes are of the unstable portable_simd)
            subprocess.run([*build, "-o", f"{folder}/{name}"], check=True, env={**os.environ, "RUSTC_BOOTSTRAP": "1"})
        for _ in range(runs):
            for name in PROCESSORS:
                said = subprocess.run([f"{folder}/{name}"], check=True, capture_output=True, text=True).stdout
                found[name].append([float(it) for it in re.findall(r"([0-9.]+) ns", said)])
    for name, times in found.items():
        one, four, eight = (min(it) for it in zip(*times))
        print(f"{name}: one {one:.0f} ns, four {four:.0f} ns ({four / one:.2f}), eight {eight:.0f} ns ({eight / one:.2f})")


main()
