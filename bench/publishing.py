#!/usr/bin/env python3
"""Times `clubcard snapshot`, `delta`, `install` and `query` on generated jobs of four issuers: processor time, and the
memory that each takes at most (by /usr/bin/time). It prints which program it runs, the one that `./clubcard` runs:

    python3 bench/publishing.py [RUNS]

Each time is the least of so many runs (3). The answers are held against what the jobs say: eight certificates a store.
"""

import hashlib
import os
import resource
import subprocess
import sys
import tempfile

sys.path.insert(0, os.path.join(os.path.dirname(os.path.abspath(__file__)), "../tools"))

from program import path_of_program  # noqa: E402
from reference import der  # noqa: E402

PROGRAM = path_of_program()
T = 1700000000000
LOG = hashlib.sha256(b"bench log").digest()
ISSUERS = [hashlib.sha256(b"bench issuer %d" % j).digest() for j in range(4)]
ALGORITHM = bytes.fromhex("300a06082a8648ce3d040302")
DATE = bytes.fromhex("170d3233313131343232313332305a")


def crl_of(entries):
    """A CRL that holds the entries (RFC 5280, 5.1), with no nextUpdate."""
    listed = der(0x30, entries) if entries else b""
    tbs = der(0x30, bytes.fromhex("020101") + ALGORITHM + der(0x30, b"") + DATE + listed)
    return der(0x30, tbs + ALGORITHM + bytes.fromhex("030100"))


def crl(serials):
    """A CRL that holds the serials."""
    return crl_of(b"".join(der(0x30, der(2, s) + DATE) for s in serials))


def entry(log, issuer, octets, time):
    """The record of a precertificate entry with this serial."""
    tbs = der(0x30, der(2, octets))
    leaf = b"\0\0" + time.to_bytes(8, "big") + b"\0\1" + issuer + len(tbs).to_bytes(3, "big") + tbs + b"\0\0"
    return b"\x03" + log + len(leaf).to_bytes(3, "big") + leaf + bytes(3)


def serial(i):
    return b"\x01" + hashlib.sha256(b"bench serial %d" % i).digest()[:15]


def one_in_a_hundred(i):
    return i // 4 % 100 == 0


def of_two_issuers(i):
    return i % 4 >= 2


def job(epoch, first, count, revoked):
    """A job of precertificate entries: the entries `first` up to `count`, entry i of issuer i mod 4. The log is covered
    up to `count`, and the CRLs hold each serial below `count` that is revoked."""
    out = [b"CLUBJOB1", epoch.to_bytes(8, "big"), T.to_bytes(8, "big")]
    out.append(b"\x01" + LOG + T.to_bytes(8, "big") + (T + count - 1).to_bytes(8, "big"))
    for j, issuer in enumerate(ISSUERS):
        held = crl([serial(i) for i in range(j, count, 4) if revoked(i)])
        out.append(b"\x02" + issuer + len(held).to_bytes(4, "big") + held)
    out += [entry(LOG, ISSUERS[i % 4], serial(i), T + i) for i in range(first, count)]
    out.append(b"\0")
    return b"".join(out)


def processor_time():
    """The processor time of all commands so far, in seconds."""
    used = resource.getrusage(resource.RUSAGE_CHILDREN)
    return used.ru_utime + used.ru_stime


def best(command, runs):
    """The least processor time of a command in seconds, and its line."""
    least, output = None, b""
    for _ in range(runs):
        start = processor_time()
        done = subprocess.run(command, stdout=subprocess.PIPE, check=False)
        took = processor_time() - start
        output = done.stdout
        least = took if least is None else min(least, took)
    return least, output.decode().strip()


def memory(command):
    """The most memory that a command takes, in KiB."""
    timed = ["/usr/bin/time", "-f", "%M"] + command
    done = subprocess.run(timed, stdout=subprocess.DEVNULL, stderr=subprocess.PIPE, check=False)
    return int(done.stderr.split()[-1])


def told(what, command, runs, each=0):
    """Times a command, and prints what it took: where `each` is given, for each of so many identities too."""
    took, line = best(command, runs)
    kib = memory(command)
    by = f" ({took / each * 1e6:.2f} us and {kib * 1024 / each:.0f} bytes an identity)" if each else ""
    print(f"{what}: {took:.3f} s, {kib} KiB{by}; {line}", flush=True)


def write(path, data):
    with open(path, "wb") as file:
        file.write(data)
    return path


def asked(store, i):
    return [PROGRAM, "query", store, ISSUERS[i % 4].hex(), serial(i).hex(), LOG.hex(), str(T + i)]


def answers(store, count, revoked):
    """Asks for eight certificates below `count`, and stops where an answer isn't what the CRLs say."""
    for i in [0, 1, 2, 3, 401, count - 1, count - 2, count // 2]:
        wanted = "revoked" if revoked(i) else "good"
        said = best(asked(store, i), 1)[1]
        if said != wanted:
            sys.exit(f"entry {i}: {said} in place of {wanted}")


def snapshots(at, runs):
    for name, revoked in (("one in a hundred revoked", one_in_a_hundred), ("none or all of an issuer's", of_two_issuers)):
        for count in (200000, 1000000):
            data = job(1, 0, count, revoked)
            command = [PROGRAM, "snapshot", write(at("job"), data), at("part"), at("ledger"), "1"]
            told(f"snapshot of {count} entries, {name}, job of {len(data)} bytes", command, runs, count)
            print(f"    part of {os.path.getsize(at('part'))} bytes, ledger of {os.path.getsize(at('ledger'))} bytes;",
                  best([PROGRAM, "start", at("part"), at("store")], 1)[1])
            answers(at("store"), count, revoked)


def deltas(at, runs):
    count, more = 1000000, 100000
    write(at("job"), job(1, 0, count, one_in_a_hundred))
    best([PROGRAM, "snapshot", at("job"), at("part"), at("ledger"), "1"], 1)
    best([PROGRAM, "start", at("part"), at("store")], 1)
    data = job(2, count, count + more, one_in_a_hundred)
    command = [PROGRAM, "delta", write(at("job"), data), at("ledger"), at("part 2"), at("ledger 2"), "1"]
    told(f"delta of {more} entries on a ledger of {count} identities, job of {len(data)} bytes", command, runs, count + more)
    told("install", [PROGRAM, "install", at("store"), at("part 2"), at("store 2")], runs)
    answers(at("store 2"), count + more, one_in_a_hundred)


def chains(at, runs):
    """A chain of 64 parts, the longest: 200,000 entries and 63 times 1,000 more."""
    count, more = 200000, 1000
    write(at("job"), job(1, 0, count, one_in_a_hundred))
    best([PROGRAM, "snapshot", at("job"), at("part"), at("ledger 1"), "1"], 1)
    best([PROGRAM, "start", at("part"), at("store 1")], 1)
    told("query of a store of one part", asked(at("store 1"), 5), runs)
    for k in range(2, 65):
        write(at("job"), job(k, count, count + more, one_in_a_hundred))
        count += more
        best([PROGRAM, "delta", at("job"), at(f"ledger {k - 1}"), at("part"), at(f"ledger {k}"), "1"], 1)
        command = [PROGRAM, "install", at(f"store {k - 1}"), at("part"), at(f"store {k}")]
        if k == 64:
            told(f"install into a store of 63 parts, {os.path.getsize(at('store 63'))} bytes", command, runs)
        else:
            best(command, 1)
    told(f"query of the store of 64 parts, {os.path.getsize(at('store 64'))} bytes", asked(at("store 64"), 5), runs)
    answers(at("store 64"), count, one_in_a_hundred)


def main():
    print(f"program {PROGRAM}", flush=True)
    runs = int(sys.argv[1]) if len(sys.argv) > 1 else 3
    with tempfile.TemporaryDirectory() as folder:
        for part in (snapshots, deltas, chains):
            part(lambda name: os.path.join(folder, name), runs)


if __name__ == "__main__":
    main()
