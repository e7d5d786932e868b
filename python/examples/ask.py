#!/usr/bin/env python3
"""Asks a store about the first certificate of a PEM chain, by its timestamps and the certificate behind it.

    ask.py STORE CHAIN.pem

The status is 0 for good, and else the number of the answer (clubcard.h): 4 for revoked. With other words, where a file
can't be read, or where the second holds no two certificates, it is 1.
"""

import pathlib
import re
import ssl
import sys
from typing import List

from clubcard import Refused, Store, Verdict

PEM = re.compile("-----BEGIN CERTIFICATE-----.*?-----END CERTIFICATE-----", re.DOTALL)


def certificates_of(name: str) -> List[bytes]:
    """The certificates of a PEM file in DER. What else stands in it, in whatever encoding, is passed over."""
    text = pathlib.Path(name).read_text(encoding="ascii", errors="replace")
    return [ssl.PEM_cert_to_DER_cert(each) for each in PEM.findall(text)]


def main() -> int:
    if len(sys.argv) != 3:
        print("usage: ask.py STORE CHAIN.pem", file=sys.stderr)
        return 1
    try:
        store, certs = Store.from_file(sys.argv[1]), certificates_of(sys.argv[2])
    except (OSError, ValueError) as error:
        print(f"ask.py: {error}", file=sys.stderr)
        return 1
    if len(certs) < 2:
        print(f"{sys.argv[2]} holds no certificate and its issuer's", file=sys.stderr)
        return 1
    try:
        verdict = store.query_cert(certs[0], certs[1])
    except Refused as refused:
        print(refused)
        # A status has 8 bits, and no refusal is 0.
        return refused.number if 0 < refused.number < 256 else 1
    print(verdict.name.lower().replace("_", "-"))
    return 0 if verdict is Verdict.GOOD else int(verdict.value)


if __name__ == "__main__":
    sys.exit(main())
