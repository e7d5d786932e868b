#!/usr/bin/env python3
"""Times `clubcard sample` and `clubcard rehearse` beside an optimized Rust program of the same rules
(bench/publisher_reference.rs, built here with rustc): processor time, and the memory that a run takes at most (by
/usr/bin/time). It prints which program it runs, the one that `./clubcard` runs. Run it at the top of the repository:

    python3 bench/rehearsal.py [RUNS]

The programs run in turn, and each time is the least of so many runs (9). Their lines and jobs are compared byte for
byte, and the verdicts with what the queries were made for: of each eight, four are of revoked certificates, two of good
ones, one isn't covered and one isn't enrolled. The verdicts' time is that of a run with all queries less that of one
with none, over a small job, whose publication takes less time than they do.
"""

import hashlib
import os
import subprocess
import sys
import tempfile

from publishing import PROGRAM, T, memory, processor_time, write

NUMBER = 7
LARGE, SMALL = 1000000, 20000
QUERIES = 65536
SHARES = ["revoked", "good", "revoked", "not-covered", "revoked", "good", "revoked", "not-enrolled"]


def digest(*parts):
    return hashlib.sha256(b"".join(parts)).digest()


def is_listed(entry):
    return entry // 4 % 100 == 0


def query(verdict, entry, count):
    """A query that has the verdict over the job of `sample NUMBER count`, about this entry of it."""
    number = NUMBER.to_bytes(8, "big")
    issuer = 4 if verdict == "not-enrolled" else entry % 4
    time = T + count if verdict == "not-covered" else T + entry
    key = digest(b"CCISSUER", number, bytes([issuer]))
    serial = b"\x01" + digest(b"CCSAMPLE", number, entry.to_bytes(4, "big"))[:15]
    sighting = digest(b"CCLOG", number) + time.to_bytes(8, "big")
    return key + bytes([len(serial)]) + serial + bytes([1]) + sighting


def query_file(queries, count):
    """So many queries, and their verdicts. Their entries lie spread over the job, and come again when all have come."""
    listed = [entry for entry in range(count) if is_listed(entry)]
    others = [entry for entry in range(count) if not is_listed(entry)]
    out, verdicts = [b"CLUBQRY1", queries.to_bytes(4, "big")], []
    for place in range(queries):
        verdict = SHARES[place % len(SHARES)]
        entries = listed if verdict == "revoked" else others
        # Every other query is of a listed entry; by a prime, all of these are reached.
        out.append(query(verdict, entries[place // 2 * 7919 % len(entries)], count))
        verdicts.append(verdict)
    return b"".join(out), verdicts


def run(command):
    """The processor time of a command in seconds, and its output. It must end with status 0."""
    start = processor_time()
    done = subprocess.run(command, stdout=subprocess.PIPE, check=True)
    return processor_time() - start, done.stdout


def least_times(commands, runs):
    """The least processor time of each of these commands, run in turn, and what each prints."""
    times, printed = [[] for _ in commands], []
    for _ in range(runs):
        done = [run(command) for command in commands]
        for held, (took, _) in zip(times, done):
            held.append(took)
        printed = [output.decode() for _, output in done]
    return [min(held) for held in times], printed


def told(what, ours, theirs):
    print(f"{what:44} {ours:9.3f} s {theirs:9.3f} s {ours / theirs:6.2f}", flush=True)


def told_memory(what, ours, theirs):
    ours, theirs = memory(ours), memory(theirs)
    print(f"{what:44} {ours:7} KiB {theirs:7} KiB {ours / theirs:6.2f}", flush=True)


def samples(reference, at, runs):
    words = ["sample", str(NUMBER), str(LARGE)]
    ours, theirs = [PROGRAM, *words, at("job")], [reference, *words, at("reference job")]
    times, printed = least_times([ours, theirs], runs)
    jobs_differ = subprocess.run(["cmp", "-s", at("job"), at("reference job")], check=False).returncode
    if jobs_differ or printed[0] != printed[1]:
        sys.exit("the two programs make different jobs")
    told(" ".join(words), *times)
    told_memory("    most memory", ours, theirs)


def rehearsals(reference, at, runs, count):
    run([reference, "sample", str(NUMBER), str(count), at("job")])
    data, verdicts = query_file(QUERIES, count)
    all_queries, none = write(at("queries"), data), write(at("no queries"), query_file(0, count)[0])
    ours = [PROGRAM, "rehearse", all_queries, "1", at("job")]
    theirs = [reference, "rehearse", all_queries, at("job")]
    ours_of_none = [PROGRAM, "rehearse", none, "1", at("job")]
    theirs_of_none = [reference, "rehearse", none, at("job")]
    times, printed = least_times([ours, theirs, ours_of_none, theirs_of_none], runs)
    if printed[0] != printed[1] or printed[2] != printed[3]:
        sys.exit(f"the two programs print different lines, over {count} entries")
    if printed[0].split("\n")[1:-1] != verdicts:
        sys.exit(f"other verdicts than the queries are made for, over {count} entries")
    told(f"rehearse {QUERIES} queries over {count} entries", times[0], times[1])
    told(f"rehearse no query over {count} entries", times[2], times[3])
    if count == SMALL:
        told("    the verdicts", times[0] - times[2], times[1] - times[3])
    told_memory("    most memory", ours, theirs)


def main():
    print(f"program {PROGRAM}", flush=True)
    runs = int(sys.argv[1]) if len(sys.argv) > 1 else 9
    with tempfile.TemporaryDirectory() as folder:
        at = lambda name: os.path.join(folder, name)
        reference = at("publisher_reference")
        source = "bench/publisher_reference.rs"
        subprocess.run(["rustc", "--edition", "2021", "-O", source, "-o", reference], check=True)
        print(f"{'run':44} {'clubcard':>11} {'plain Rust':>11}  ratio")
        samples(reference, at, runs)
        for count in (LARGE, SMALL):
            rehearsals(reference, at, runs, count)


if __name__ == "__main__":
    main()
