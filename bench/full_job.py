#!/usr/bin/env python3
"""Times `clubcard snapshot` with one worker beside an optimized Rust program that writes the same bytes
(bench/publisher_reference.rs, built here with rustc): processor time, and the most memory (by /usr/bin/time), of a
million entries of the generator, and of a job with as many entries and serials as there may be. It prints which program
it runs, the one that `./clubcard` runs. Run it at the top of the repository, where the folder of temporary files has
room for 2 GB and the machine 2 GB of memory:

    python3 bench/full_job.py [RUNS [JOB..]]

Each time is the least of so many runs (5), which take turns; JOB is `million` or `full`, and without it both are
taken. `counted` is 50,000 entries of the generator, for which both programs' instructions are counted (by valgrind's
callgrind): they bear other work on the machine. The part, the ledger and the line of both programs must be the same.
The full job has 4,194,304 entries of 16 issuers, and a CRL of each with 1,048,576 serials, of which 2,621 are an
entry's, one in a hundred.
"""

import hashlib
import os
import subprocess
import sys
import tempfile

from instructions import instructions
from publishing import DATE, LOG, PROGRAM, T, crl_of, entry, memory
from workers import Publisher, timed

sys.path.insert(0, os.path.join(os.path.dirname(os.path.abspath(__file__)), "../tools"))

from reference import be, sha  # noqa: E402

ISSUERS, ENTRIES, SERIALS = 16, 4194304, 16777216
HELD, LISTED = ENTRIES // ISSUERS, SERIALS // ISSUERS


def serials(name, count):
    """So many serials of 16 octets."""
    octets = hashlib.shake_128(name.encode()).digest(15 * count)
    return [b"\1" + octets[at : at + 15] for at in range(0, len(octets), 15)]


def crl_listing(listed):
    """The CRL of serials of 16 octets, whose entries all have one form."""
    return crl_of(b"".join([b"\x30\x21\x02\x10" + octets + DATE for octets in listed]))


def write_full(path):
    """Writes the full job, whose entries come issuer after issuer in turn."""
    keys = [sha(b"full issuer", bytes([j])) for j in range(ISSUERS)]
    held = [serials(f"held by {j}", HELD) for j in range(ISSUERS)]
    with open(path, "wb") as file:
        file.write(b"CLUBJOB1" + be(1, 8) + be(T, 8) + b"\1" + LOG + be(T, 8) + be(T + ENTRIES, 8))
        for j, key in enumerate(keys):
            revoked = held[j][: HELD // 100]
            listed = crl_listing(revoked + serials(f"listed by {j}", LISTED - len(revoked)))
            file.write(b"\2" + key + be(len(listed), 4) + listed)
        for i in range(HELD):
            file.write(b"".join(entry(LOG, key, held[j][i], T + ISSUERS * i + j) for j, key in enumerate(keys)))
        file.write(b"\0")


def compare(name, programs, files, runs):
    """Both programs in turn over one job, with one worker."""
    ours, theirs = (Publisher(program, files) for program in programs)
    said = {publisher.run(1) for _ in range(runs) for publisher in (ours, theirs)}
    if len(said) > 1:
        sys.exit(f"two answers: {said}")
    print(f"{name}, {os.path.getsize(files[0])} bytes: {said.pop()[0]}")
    spent, kib = [it.spent[1] for it in (ours, theirs)], [memory([*it.command, "1"]) for it in (ours, theirs)]
    print(f"    clubcard {spent[0]:.3f} s, plain Rust {spent[1]:.3f} s, {spent[0] / spent[1]:.2f} of it;"
          f" {kib[0]} and {kib[1]} KiB, {kib[0] / kib[1]:.2f}", flush=True)


def count(programs, files):
    """The instructions of both programs over one job."""
    (ours, line), (theirs, other) = (instructions([program, "snapshot", *files, "1"]) for program in programs)
    if line != other:
        sys.exit(f"two answers: {line}, {other}")
    print(f"counted: {line}")
    print(f"    clubcard {ours} instructions, plain Rust {theirs}, {ours / theirs:.2f} of it", flush=True)


def main():
    runs = int(sys.argv[1]) if len(sys.argv) > 1 else 5
    names = sys.argv[2:] or ["million", "full"]
    print(f"program {PROGRAM}, load {os.getloadavg()[0]:.1f}", flush=True)
    sample = lambda count: lambda job: timed([PROGRAM, "sample", "7", str(count), job])
    writers = {"counted": sample(50000), "million": sample(1000000), "full": write_full}
    with tempfile.TemporaryDirectory() as folder:
        reference, *files = (os.path.join(folder, name) for name in ("publisher_reference", "job", "part", "ledger"))
        source = "bench/publisher_reference.rs"
        subprocess.run(["rustc", "--edition", "2021", "-O", source, "-o", reference], check=True)
        for name in names:
            writers[name](files[0])
            programs = [PROGRAM, reference]
            count(programs, files) if name == "counted" else compare(name, programs, files, runs)


if __name__ == "__main__":
    main()
