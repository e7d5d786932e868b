#!/usr/bin/env python3
"""Times `clubcard query` and `clubcard check`: a small store against a program that only prints a word, the longest
store of one part, and the longest part against its SHA-256 by the same sha2, with the memory that a run takes at most
(by /usr/bin/time). It prints which program it runs, the one that `./clubcard` runs. Run it at the top of the repository
once `rt run` in crates/benches has built the program for the digests:

    python3 bench/query.py
"""

import hashlib
import os
import subprocess
import sys
import tempfile
import time

sys.path.insert(0, os.path.join(os.path.dirname(os.path.abspath(__file__)), "../tools"))

from program import path_of_program  # noqa: E402

PROGRAM = path_of_program()
BENCHES = "crates/benches/out/benches"
T = 1700000000000
LOG = bytes([0xAA] * 32)


def store(ranges, issuers):
    """A store of one snapshot with a block of mode all for each issuer, and the last issuer."""
    part = b"CLUBCARD" + bytes([1, 0]) + (1).to_bytes(8, "big") + bytes(32)
    logs = sorted([i.to_bytes(32, "big") for i in range(1, ranges)] + [LOG])
    part += len(logs).to_bytes(2, "big")
    for log in logs:
        part += log + T.to_bytes(8, "big") + (T + 1000).to_bytes(8, "big")
    part += issuers.to_bytes(4, "big")
    keys = sorted(hashlib.sha256(i.to_bytes(4, "big")).digest() for i in range(issuers))
    part += b"".join(key + b"\x01" for key in keys)
    part += hashlib.sha256(part).digest()
    return b"CLUBSTOR" + bytes([1, 1]) + part, keys[-1]


def best(command, runs):
    """The least time of a command in milliseconds, and its output."""
    least, output = None, b""
    for _ in range(runs):
        start = time.perf_counter()
        done = subprocess.run(command, stdout=subprocess.PIPE, check=False)
        took = time.perf_counter() - start
        output = done.stdout
        least = took if least is None else min(least, took)
    return least * 1000, output


def memory(command):
    """The most memory that a command takes, in KiB."""
    timed = ["/usr/bin/time", "-f", "%M"] + command
    done = subprocess.run(timed, stdout=subprocess.DEVNULL, stderr=subprocess.PIPE, check=False)
    return int(done.stderr.split()[-1])


def main():
    if not os.access(BENCHES, os.X_OK):
        sys.exit("build the program for the digests first: (cd crates/benches && rt run)")
    print(f"program {PROGRAM}", flush=True)
    with tempfile.TemporaryDirectory() as folder:
        print("run         bytes      time   memory  output")
        echo, _ = best(["/bin/echo", "revoked"], 200)
        print(f"/bin/echo       -  {echo:5.2f} ms        -  revoked")
        for ranges, issuers in ((1, 1), (1024, 65535)):
            path = os.path.join(folder, "store")
            data, issuer = store(ranges, issuers)
            with open(path, "wb") as file:
                file.write(data)
            command = [PROGRAM, "query", path, issuer.hex(), "05", LOG.hex(), str(T)]
            took, output = best(command, 200 if issuers == 1 else 50)
            print(f"query     {len(data):7} {took:6.2f} ms {memory(command):4} KiB  {output.decode().strip()}")
        part = os.path.join(folder, "part")
        with open(part, "wb") as file:
            file.write(data[10:])
        command = [BENCHES, "digest", part]
        digest, output = best(command, 50)
        if output.decode().strip() != hashlib.sha256(data[10:]).hexdigest():
            sys.exit("the program for the digests prints another one")
        print(f"SHA-256   {len(data) - 10:7} {digest:6.2f} ms {memory(command):4} KiB")
        for word in ("check", "show"):
            command = [PROGRAM, word, part]
            took, output = best(command, 50)
            lines = output.count(b"\n")
            print(
                f"{word:8}  {len(data) - 10:7} {took:6.2f} ms {memory(command):4} KiB  {lines} lines, {took / digest:.2f} of SHA-256"
            )


main()
