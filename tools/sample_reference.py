#!/usr/bin/env python3
"""The job of `sample NUMBER COUNT`, written from its rules alone: prints its length, how many entries its CRLs list,
and its SHA-256."""

import hashlib
import sys

MOMENT = 1_700_000_000_000
DATE = bytes.fromhex("170d") + b"231114221320Z"
ALGORITHM = bytes.fromhex("300a06082a8648ce3d040302")


def digest(*parts):
    return hashlib.sha256(b"".join(parts)).digest()


def sequence(contents):
    size = len(contents)
    if size < 128:
        length = bytes([size])
    else:
        octets = size.to_bytes((size.bit_length() + 7) // 8, "big")
        length = bytes([0x80 + len(octets)]) + octets
    return b"\x30" + length + contents


def crl(serials):
    entries = b"".join(sequence(b"\x02\x10" + serial + DATE) for serial in serials)
    revoked = sequence(entries) if serials else b""
    body = sequence(b"\x02\x01\x01" + ALGORITHM + b"\x30\x00" + DATE + revoked)
    return sequence(body + ALGORITHM + b"\x03\x01\x00")


def sample(number, count):
    n = number.to_bytes(8, "big")
    log = digest(b"CCLOG", n)
    issuers = [digest(b"CCISSUER", n, bytes([j])) for j in range(4)]
    listed = [[] for _ in issuers]
    entries = []
    for i in range(count):
        serial = b"\x01" + digest(b"CCSAMPLE", n, i.to_bytes(4, "big"))[:15]
        if i // 4 % 100 == 0:
            listed[i % 4].append(serial)
        tbs = sequence(b"\x02\x10" + serial)
        leaf = bytes(2) + (MOMENT + i).to_bytes(8, "big") + b"\x00\x01" + issuers[i % 4]
        leaf += len(tbs).to_bytes(3, "big") + tbs + bytes(2)
        entries.append(b"\x03" + log + len(leaf).to_bytes(3, "big") + leaf + bytes(3))
    job = [b"CLUBJOB1", (1).to_bytes(8, "big"), MOMENT.to_bytes(8, "big")]
    job.append(b"\x01" + log + MOMENT.to_bytes(8, "big") + (MOMENT + count - 1).to_bytes(8, "big"))
    for issuer, serials in zip(issuers, listed):
        text = crl(serials)
        job.append(b"\x02" + issuer + len(text).to_bytes(4, "big") + text)
    return b"".join(job + entries + [b"\x00"]), sum(map(len, listed))


def main():
    if len(sys.argv) != 3:
        sys.exit("usage: sample_reference.py NUMBER COUNT")
    job, revoked = sample(int(sys.argv[1]), int(sys.argv[2]))
    print(f"bytes {len(job)} revoked {revoked} sha256 {hashlib.sha256(job).hexdigest()}")


if __name__ == "__main__":
    main()
