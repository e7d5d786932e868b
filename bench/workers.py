#!/usr/bin/env python3
"""Times `clubcard snapshot` of a generated job with 1, 2, 4 and 8 workers beside an optimized Rust program that writes
the same bytes (bench/publisher_reference.rs, built here with rustc): by the clock, the processor time and the memory
that a run takes at most (by /usr/bin/time). It prints which program it runs, the one that `./clubcard` runs, or where a
path is given, that one. Run it at the top of the repository:

    python3 bench/workers.py [RUNS [COUNT [PROGRAM]]]

Each time is the least of so many runs (5), which take turns; each ratio is the median of those of the turns, since a
shared host is slower at some times than at others. The job is `sample 7 COUNT` (1000000). The part, the ledger and the
line must be the same with any number of workers, and those of both programs.
"""

import hashlib
import os
import resource
import statistics
import subprocess
import sys
import tempfile
import time

sys.path.insert(0, os.path.join(os.path.dirname(os.path.abspath(__file__)), "../tools"))

from program import path_of_program  # noqa: E402

WORKERS = (1, 2, 4, 8)


def processor_time():
    """The processor time of all commands so far, in seconds."""
    used = resource.getrusage(resource.RUSAGE_CHILDREN)
    return used.ru_utime + used.ru_stime


def timed(command):
    """The seconds of a command by the clock and of processors, and its line."""
    start, spent = time.monotonic(), processor_time()
    done = subprocess.run(command, stdout=subprocess.PIPE, check=False)
    took = time.monotonic() - start
    if done.returncode != 0:
        sys.exit(f"status {done.returncode}: {done.stdout.decode().strip()}")
    return took, processor_time() - spent, done.stdout.decode().strip()


def memory(command):
    """The most memory that a command takes, in KiB."""
    measured = ["/usr/bin/time", "-f", "%M"] + command
    done = subprocess.run(measured, stdout=subprocess.DEVNULL, stderr=subprocess.PIPE, check=False)
    return int(done.stderr.split()[-1])


def digest(path):
    with open(path, "rb") as file:
        return hashlib.file_digest(file, "sha256").hexdigest()


class Publisher:
    """A program that publishes, and the times of its runs by the number of workers: the least ones, and each turn's."""

    def __init__(self, program, files):
        self.command = [program, "snapshot", *files]
        self.files = files
        self.clock, self.spent = {}, {}
        self.turns = {}

    def run(self, workers):
        """Publishes, and gives what was said and written."""
        took, used, line = timed(self.command + [str(workers)])
        self.clock[workers] = min(took, self.clock.get(workers, took))
        self.spent[workers] = min(used, self.spent.get(workers, used))
        self.turns.setdefault(workers, []).append((took, used))
        return line, digest(self.files[1]), digest(self.files[2])


def compare(ours, theirs, runs):
    """Both programs in turn with each number of workers; the line of all of them."""
    said = set()
    for _ in range(runs):
        for workers in WORKERS:
            for publisher in (ours, theirs):
                said.add(publisher.run(workers))
                if len(said) > 1:
                    sys.exit(f"another answer with {workers} workers: {said}")
    return said.pop()[0]


def ratio(ones, others, kind):
    """The median of the turns' ratios, by the clock (0) or of processors (1)."""
    return statistics.median(one[kind] / other[kind] for one, other in zip(ones, others))


def told(what, publisher, workers):
    clock, spent = publisher.clock[workers], publisher.spent[workers]
    kib = memory(publisher.command + [str(workers)])
    times = ratio(publisher.turns[1], publisher.turns[workers], 0)
    return f"{what} {clock:6.3f} s ({times:.2f} times as fast as one), {spent:6.3f} s, {kib} KiB"


def main():
    runs = int(sys.argv[1]) if len(sys.argv) > 1 else 5
    count = int(sys.argv[2]) if len(sys.argv) > 2 else 1000000
    program = sys.argv[3] if len(sys.argv) > 3 else path_of_program()
    print(f"program {program}, {os.cpu_count()} processors, load {os.getloadavg()[0]:.1f}", flush=True)
    with tempfile.TemporaryDirectory() as folder:
        reference = os.path.join(folder, "publisher_reference")
        source = "bench/publisher_reference.rs"
        subprocess.run(["rustc", "--edition", "2021", "-O", source, "-o", reference], check=True)
        files = [os.path.join(folder, name) for name in ("job", "part", "ledger")]
        timed([program, "sample", "7", str(count), files[0]])
        ours, theirs = Publisher(program, files), Publisher(reference, files)
        line = compare(ours, theirs, runs)
        print("workers: by the clock, of processors, most memory")
        for workers in WORKERS:
            clock, spent = (ratio(ours.turns[workers], theirs.turns[workers], kind) for kind in (0, 1))
            print(f"{workers}: {told('clubcard', ours, workers)}; {told('plain Rust', theirs, workers)};"
                  f" {clock:.2f} by the clock, {spent:.2f} of processors", flush=True)
        print(line)


if __name__ == "__main__":
    main()
