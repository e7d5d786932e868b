#!/usr/bin/env python3
"""Times two builds of `clubcard` in turn, and beside them an optimized Rust program that writes the same bytes
(bench/publisher_reference.rs, built here with rustc): `snapshot` with one worker by processor time and with four by the
clock, `audit` and `rebase` of the same job by processor time, and `query` of its store by the clock. Run it at the top
of the repository:

    python3 bench/builds.py OTHER [RUNS [COUNT [PROGRAM]]]

OTHER is the program of another tree, as release/clubcard-x86_64-linux of an older one, and PROGRAM the one of this tree
(the one that `./clubcard` runs). Each time is the least of so many runs (5), which take turns, and each ratio is that of
the least times. The job is `sample 7 COUNT` (1000000). Parts, ledgers and lines must be the same. It says whether the
processor has SHA instructions, which neither build uses, and rustc's program as it is built here doesn't either.
"""

import os
import subprocess
import sys
import tempfile

from workers import digest, timed

sys.path.insert(0, os.path.join(os.path.dirname(os.path.abspath(__file__)), "../tools"))

from program import path_of_program  # noqa: E402

CLOCK, SPENT = 0, 1
MOMENT = "1700000000000"


def has_sha():
    """Whether the processor has SHA instructions."""
    with open("/proc/cpuinfo", encoding="ascii") as file:
        return any("sha_ni" in line.split() for line in file if line.startswith("flags"))


def least(commands, kind, runs):
    """The least time of each command, whose runs take turns; each must print the same."""
    found = {name: [] for name in commands}
    said = set()
    for _ in range(runs):
        for name, command in commands.items():
            answer = timed(command)
            found[name].append(answer[kind])
            said.add(answer[2])
    if len(said) > 1:
        sys.exit(f"the programs say different things: {said}")
    return {name: min(times) for name, times in found.items()}


def told(what, times):
    ours = times["this"]
    others = "; ".join(f"{name} {took:.3f} s, {ours / took:.2f}" for name, took in times.items() if name != "this")
    print(f"{what}: {ours:.3f} s; {others}", flush=True)


def main():
    if len(sys.argv) < 2:
        sys.exit(__doc__)
    runs = int(sys.argv[2]) if len(sys.argv) > 2 else 5
    count = sys.argv[3] if len(sys.argv) > 3 else "1000000"
    builds = {"this": sys.argv[4] if len(sys.argv) > 4 else path_of_program(), "other": sys.argv[1]}
    sha = "SHA instructions" if has_sha() else "no SHA instructions"
    print(f"{builds}, {os.cpu_count()} processors with {sha}, load {os.getloadavg()[0]:.1f}", flush=True)
    with tempfile.TemporaryDirectory() as folder:
        reference = os.path.join(folder, "publisher_reference")
        subprocess.run(["rustc", "--edition", "2021", "-O", "bench/publisher_reference.rs", "-o", reference], check=True)
        job, store = os.path.join(folder, "job"), os.path.join(folder, "store")
        timed([builds["this"], "sample", "7", count, job])
        programs = {**builds, "plain Rust": reference}
        files = {name: [os.path.join(folder, f"{kind}{place}") for kind in ("part", "ledger", "anew", "next")]
                 for place, name in enumerate(programs)}
        for workers, kind, how in (("1", SPENT, "one worker, of processors"), ("4", CLOCK, "four workers, by the clock")):
            commands = {name: [program, "snapshot", job, *files[name][:2], workers] for name, program in programs.items()}
            told(f"snapshot, {how}", least(commands, kind, runs))
            if len({(digest(of[0]), digest(of[1])) for of in files.values()}) > 1:
                sys.exit("the programs write different parts or ledgers")
        part, ledger = files["this"][:2]
        timed([builds["this"], "start", part, store])
        told("audit", least({name: [of, "audit", store, job] for name, of in builds.items()}, SPENT, runs))
        told("rebase", least({name: [of, "rebase", ledger, MOMENT, *files[name][2:], "1"] for name, of in builds.items()},
                             SPENT, runs))
        asked = ["query", store, "00" * 32, "05", "00" * 32, MOMENT]
        told("query", least({name: [of, *asked] for name, of in builds.items()}, CLOCK, 20 * runs))


main()
