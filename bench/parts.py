#!/usr/bin/env python3
"""Times the scan of a part in pieces of 4,096 bytes, and its decoding, beside the SHA-256 of the same bytes by the same
sha2, in processor time for each round. Run it at the top of the repository once `rt run` in crates/benches has built
the program:

    python3 bench/parts.py
    python3 bench/parts.py instructions

The second counts the instructions of a round by valgrind's callgrind in place of its time.
"""

import hashlib
import os
import resource
import subprocess
import sys
import tempfile

from instructions import instructions

BENCHES = "crates/benches/out/benches"
T = 1700000000000


def front(ranges: int, issuers: int, version: int = 1) -> bytes:
    """The fields of a snapshot up to its blocks."""
    part = b"CLUBCARD" + bytes([version, 0]) + (1).to_bytes(8, "big") + bytes(32) + ranges.to_bytes(2, "big")
    for log in range(1, ranges + 1):
        part += log.to_bytes(32, "big") + T.to_bytes(8, "big") + (T + 1000).to_bytes(8, "big")
    return part + issuers.to_bytes(4, "big")


def issuers(count: int) -> list[bytes]:
    return sorted(hashlib.sha256(i.to_bytes(4, "big")).digest() for i in range(count))


def sealed(part: bytes) -> bytes:
    return part + hashlib.sha256(part).digest()


def plain(count: int) -> bytes:
    """The longest ranges, and blocks that say all."""
    return sealed(front(1024, count) + b"".join(key + b"\x01" for key in issuers(count)))


def mixed_leaf(starts: int) -> bytes:
    """The mode and the fields of a mixed leaf with six planes in its approximate stage."""
    plane = bytes(8 * ((starts + 127 + 63) // 64))
    stage = bytes(1) + starts.to_bytes(4, "big")
    return bytes([2, 6]) + stage + 6 * plane + stage + plane


def mixed(count: int, starts: int) -> bytes:
    """Blocks of one mixed leaf."""
    return sealed(front(1, count) + b"".join(key + mixed_leaf(starts) for key in issuers(count)))


def sharded(count: int, shift: int, starts: int) -> bytes:
    """Blocks that are cut into 2^shift shards, each a mixed leaf, in a part of version 2."""
    shards = 2**shift * mixed_leaf(starts)
    return sealed(front(1, count, version=2) + b"".join(key + bytes([3, shift]) + shards for key in issuers(count)))


def processor_time(what: str, path: str, rounds: int) -> float:
    before = resource.getrusage(resource.RUSAGE_CHILDREN)
    subprocess.run([BENCHES, "part", what, path, str(rounds)], stdout=subprocess.DEVNULL, check=True)
    after = resource.getrusage(resource.RUSAGE_CHILDREN)
    return after.ru_utime - before.ru_utime + after.ru_stime - before.ru_stime


def a_round(what: str, path: str, rounds: int) -> float:
    """The least time of a round in milliseconds, without the program's start."""
    runs = [processor_time(what, path, rounds + 1) - processor_time(what, path, 1) for _ in range(9)]
    return min(runs) / rounds * 1000


def instructions_of_a_round(what: str, path: str) -> float:
    """In millions, without the program's start."""
    once, twice = (instructions([BENCHES, "part", what, path, rounds])[0] for rounds in "12")
    return (twice - once) / 1e6


def main() -> None:
    if not os.access(BENCHES, os.X_OK):
        sys.exit("build the program first: (cd crates/benches && rt run)")
    counts = sys.argv[1:] == ["instructions"]
    unit = "million" if counts else "ms"
    parts = [("65,535 plain blocks", plain(65535)), ("400 mixed blocks, 1,200 starts", mixed(400, 1200))]
    parts += [("4 mixed blocks, 100,000 starts", mixed(4, 100000)), ("4,000 mixed blocks, 10 starts", mixed(4000, 10))]
    parts += [("4 blocks of 128 shards, 1,200 starts", sharded(4, 7, 1200))]
    with tempfile.TemporaryDirectory() as folder:
        for name, part in parts:
            path = os.path.join(folder, "part")
            with open(path, "wb") as file:
                file.write(part)
            whats = ("hash", "scan", "decode")
            costs = [instructions_of_a_round(what, path) if counts else a_round(what, path, 20) for what in whats]
            ratios = " ".join(f"{cost:7.3f} {unit} ({cost / costs[0]:.2f})" for cost in costs)
            print(f"{name:36} {len(part):8} {ratios}", flush=True)


if __name__ == "__main__":
    main()
