#!/usr/bin/env python3
"""Times the solver beside RocksDB's ribbon filter (Standard128Ribbon) in one run: `benches ribbon` and `benches parity`
(build them with `rt run` in crates/benches) and bench/rocksdb_ribbon.cc, which is built here with g++ against Debian's
librocksdb-dev (apt-get install librocksdb-dev). Run it at the top of the repository:

    python3 bench/rocksdb.py

Both get keys from the same generator. Building: RocksDB hashes a key of 8 bytes (XXH3), collects the hashes and builds
the filter; ours makes a row from three numbers of the generator, adds it, and solves. So a row's making is counted on
both sides, and SHA-256, from which our rows come in earnest, on neither. The last column is RocksDB's building alone,
with no hashing of keys. A query makes the row and asks for it, on both sides. RocksDB is asked for a filter that lets
one in 64 through, which is 6 planes. Processor time of a key, the least of the runs.
"""

import os
import subprocess
import sys
import tempfile

PROGRAM = "crates/benches/out/benches"
PLANES = "6"
# NewRibbonFilterPolicy takes the bits a key of a Bloom filter with as few false positives: one in 64.
BITS = "8.87"
# keys, systems built in a process, rounds of queries in a process
SIZES = ((16000, 100, 40), (1000000, 1, 3))
RUNS = 9


def processor_time(command, output):
    """The processor time of a command in seconds."""
    redirected = [(os.POSIX_SPAWN_OPEN, 1, output, os.O_WRONLY | os.O_CREAT | os.O_TRUNC, 0o644)]
    child = os.posix_spawn(command[0], command, os.environ, file_actions=redirected)
    _, status, usage = os.wait4(child, 0)
    if status != 0:
        sys.exit(f"{command} ended with {status}")
    return usage.ru_utime + usage.ru_stime


def most_memory(command):
    """The most memory of a command in bytes."""
    redirected = [(os.POSIX_SPAWN_OPEN, 1, os.devnull, os.O_WRONLY, 0)]
    child = os.posix_spawn(command[0], command, os.environ, file_actions=redirected)
    return os.wait4(child, 0)[2].ru_maxrss * 1024


def build_reference(folder):
    """RocksDB's program, or the end where there is no RocksDB."""
    program = os.path.join(folder, "rocksdb_ribbon")
    source = "bench/rocksdb_ribbon.cc"
    done = subprocess.run(["g++", "-O2", "-std=c++17", source, "-lrocksdb", "-o", program], stderr=subprocess.PIPE)
    if done.returncode != 0:
        sys.stderr.buffer.write(done.stderr)
        sys.exit("RocksDB 7 isn't there: apt-get install librocksdb-dev")
    return program


def compare(reference, folder, keys, builds, rounds):
    """Nanoseconds a key: ours (building, a query), and RocksDB's (hashing, building, a present and an absent key)."""
    output = os.path.join(folder, "output")
    ours = {"ribbon": 1e9, 0: 1e9, rounds: 1e9}
    theirs = [1e9] * 4
    for _ in range(RUNS):
        took = processor_time([PROGRAM, "ribbon", str(keys), PLANES, str(builds)], output)
        ours["ribbon"] = min(ours["ribbon"], took / (keys * builds) * 1e9)
        for asked in (0, rounds):
            took = processor_time([PROGRAM, "parity", str(keys), PLANES, str(asked)], output)
            ours[asked] = min(ours[asked], took)
        words = [reference, BITS, str(keys), str(rounds), str(max(1, builds // 10))]
        printed = subprocess.run(words, stdout=subprocess.PIPE, check=True).stdout.split()
        theirs = [min(least, float(word)) for least, word in zip(theirs, printed)]
        if printed[5] != b"0":
            sys.exit("RocksDB's filter misses a key")
    return ours["ribbon"], (ours[rounds] - ours[0]) / (2 * keys * rounds) * 1e9, theirs, float(printed[6]) / keys


def main():
    if not os.access(PROGRAM, os.X_OK):
        sys.exit("build the program first: cd crates/benches && rt run")
    with tempfile.TemporaryDirectory() as folder:
        reference = build_reference(folder)
        for keys, builds, rounds in SIZES:
            build, query, theirs, passed = compare(reference, folder, keys, builds, rounds)
            hashing, building, present, absent = theirs
            print(f"{keys} keys, RocksDB's filter lets {passed:.4f} of absent keys through")
            print(f"  building {build:6.1f} ns, RocksDB {hashing + building:6.1f} ns: {build / (hashing + building):.2f}"
                  f" ({build / building:.2f} of {building:.1f} ns with no hashing there)")
            print(f"  a query  {query:6.1f} ns, RocksDB {present:6.1f} ns, absent {absent:.1f} ns:"
                  f" {query / present:.2f}, {query / absent:.2f}")
    few, many = (most_memory([PROGRAM, "ribbon", str(keys), "1", "1"]) for keys in (2000000, 4000000))
    columns = 2000000 * 9 // 8
    print(f"a system of one plane: {(many - few) / columns - 1 / 8:.2f} bytes a column beside the words")


main()
