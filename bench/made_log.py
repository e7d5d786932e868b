"""Makes a log for bench/fetching.py: one certificate of usual size with another serial in each entry, as the files that
a server hands out for RFC 6962, or as tiles (c2sp.org/static-ct-api)."""

import base64
import datetime
import hashlib
import json
import os
import sys
from dataclasses import dataclass
from pathlib import Path

ROOT = Path(__file__).resolve().parent.parent
sys.path.insert(0, str(ROOT / "python"))
os.environ.setdefault("CLUBCARD_LIBRARY", str(ROOT / "release/libclubcard.so"))

from cryptography import x509  # noqa: E402
from cryptography.hazmat.primitives import hashes, serialization  # noqa: E402
from cryptography.hazmat.primitives.asymmetric import ec, rsa  # noqa: E402
from cryptography.x509.oid import AuthorityInformationAccessOID, ExtendedKeyUsageOID, NameOID  # noqa: E402

from clubcard.publish.merkle import consistency_ranges, leaf_hash, node_hash  # noqa: E402
from clubcard.publish.tiles import WIDTH, tile_path  # noqa: E402

T = 1700000000000
PAGE = 512
HELD = b"\x01" + b"serial of entry"


def vector(octets: bytes, width: int) -> bytes:
    return len(octets).to_bytes(width, "big") + octets


def certificate(name: str, issuer: str, serial: int, key: rsa.RSAPublicKey, by: rsa.RSAPrivateKey) -> x509.Certificate:
    """A certificate of usual size."""
    url = "http://ca.example/some/longer/path/"
    made = x509.CertificateBuilder().serial_number(serial).public_key(key)
    made = made.subject_name(x509.Name([x509.NameAttribute(NameOID.COMMON_NAME, name)]))
    made = made.issuer_name(x509.Name([x509.NameAttribute(NameOID.COMMON_NAME, issuer)]))
    begin = datetime.datetime(2023, 11, 1)
    made = made.not_valid_before(begin).not_valid_after(begin + datetime.timedelta(397))
    point = x509.DistributionPoint([x509.UniformResourceIdentifier(url + "1.crl")], None, None, None)
    access = [
        x509.AccessDescription(oid, x509.UniformResourceIdentifier(url))
        for oid in (AuthorityInformationAccessOID.OCSP, AuthorityInformationAccessOID.CA_ISSUERS)
    ]
    for extension in (
        x509.AuthorityKeyIdentifier.from_issuer_public_key(by.public_key()),
        x509.SubjectKeyIdentifier.from_public_key(key),
        x509.SubjectAlternativeName([x509.DNSName(f"{host}.{name}") for host in ("www", "mail", "api")]),
        x509.ExtendedKeyUsage([ExtendedKeyUsageOID.SERVER_AUTH]),
        x509.CRLDistributionPoints([point]),
        x509.AuthorityInformationAccess(access),
        x509.UnrecognizedExtension(x509.ObjectIdentifier("1.3.6.1.4.1.11129.2.4.2"), bytes(242)),
    ):
        made = made.add_extension(extension, False)
    return made.sign(by, hashes.SHA256())


@dataclass
class Made:
    """A log: its key, its entries' templates, and its tree."""

    key: ec.EllipticCurvePrivateKey
    whole: bytes
    tbs: bytes
    chain: tuple[bytes, bytes]
    issuer: bytes
    levels: list[list[bytes]]

    @property
    def spki(self) -> bytes:
        """The DER of the log's SubjectPublicKeyInfo."""
        der, form = serialization.Encoding.DER, serialization.PublicFormat.SubjectPublicKeyInfo
        return self.key.public_key().public_bytes(der, form)

    def timestamped(self, index: int) -> bytes:
        """The TimestampedEntry at an index."""
        time = (T + index).to_bytes(8, "big")
        if index % 4 == 0:
            return time + b"\0\0" + vector(self.of(self.whole, index), 3) + b"\0\0"
        return time + b"\0\1" + self.issuer + vector(self.of(self.tbs, index), 3) + b"\0\0"

    def of(self, template: bytes, index: int) -> bytes:
        """A template with an entry's serial."""
        return template.replace(HELD, b"\x01" + hashlib.sha256(b"%d" % index).digest()[:15], 1)

    def item(self, index: int) -> str:
        """An entry as get-entries has it."""
        chain = vector(b"".join(vector(one, 3) for one in self.chain), 3)
        extra = chain if index % 4 == 0 else vector(self.of(self.whole, index), 3) + chain
        leaf = base64.b64encode(b"\0\0" + self.timestamped(index)).decode()
        return f'{{"leaf_input":"{leaf}","extra_data":"{base64.b64encode(extra).decode()}"}}'

    def tile_leaf(self, index: int) -> bytes:
        """An entry as a data tile has it."""
        before = b"" if index % 4 == 0 else vector(self.of(self.whole, index), 3)
        chain = b"".join(hashlib.sha256(one).digest() for one in self.chain)
        return self.timestamped(index) + before + vector(chain, 2)

    def node(self, low: int, high: int) -> bytes:
        """The hash over leaves."""
        size = high - low
        if size & (size - 1) == 0:
            level = size.bit_length() - 1
            return self.levels[level][low >> level]
        middle = low + (1 << (size.bit_length() - 1))
        return node_hash(self.node(low, middle), self.node(middle, high))

    def signed(self, time: int, size: int) -> bytes:
        """A tree head's signature."""
        octets = b"\0\1" + time.to_bytes(8, "big") + size.to_bytes(8, "big") + self.node(0, size)
        return b"\4\3" + vector(self.key.sign(octets, ec.ECDSA(hashes.SHA256())), 2)


def made_log(count: int) -> Made:
    """A log of so many entries."""
    keys = [rsa.generate_private_key(65537, 2048) for _ in range(3)]
    serial = int.from_bytes(HELD, "big")
    whole = certificate("host.example", "Example CA 1", serial, keys[0].public_key(), keys[1])
    chain = certificate("Example CA 1", "Example Root", 1, keys[1].public_key(), keys[2])
    root = certificate("Example Root", "Example Root", 2, keys[2].public_key(), keys[2])
    der, spki = serialization.Encoding.DER, serialization.PublicFormat.SubjectPublicKeyInfo
    ders = chain.public_bytes(der), root.public_bytes(der)
    issuer = hashlib.sha256(keys[1].public_key().public_bytes(der, spki)).digest()
    key = ec.generate_private_key(ec.SECP256R1())
    made = Made(key, whole.public_bytes(der), whole.tbs_certificate_bytes, ders, issuer, [])
    made.levels.append([leaf_hash(b"\0\0" + made.timestamped(index)) for index in range(count)])
    while len(made.levels[-1]) > 1:
        last = made.levels[-1]
        made.levels.append([node_hash(last[at], last[at + 1]) for at in range(0, len(last) - 1, 2)])
    return made


def write(path: Path, octets: bytes) -> None:
    path.parent.mkdir(parents=True, exist_ok=True)
    path.write_bytes(octets)


def write_rfc6962(folder: Path, log: Made, count: int) -> None:
    """The log's answers as files."""
    root, signature = log.node(0, count), log.signed(T + count, count)
    names = ("tree_size", "timestamp", "sha256_root_hash", "tree_head_signature")
    spelt = [base64.b64encode(octets).decode() for octets in (root, signature)]
    write(folder / "sth.json", json.dumps(dict(zip(names, (count, T + count, *spelt)))).encode())
    for low in range(0, count, PAGE):
        items = ",".join(log.item(index) for index in range(low, min(low + PAGE, count)))
        write(folder / f"entries/{low}.json", f'{{"entries":[{items}]}}'.encode())
        proof = [base64.b64encode(log.node(*ends)).decode() for ends in consistency_ranges(low, count)]
        write(folder / f"consistency/{low}.json", json.dumps({"consistency": proof}).encode())


def write_static(folder: Path, log: Made, count: int, origin: str) -> None:
    """The log's checkpoint, tiles and issuers."""
    time, log_id = T + count, hashlib.sha256(log.spki).digest()
    key_id = hashlib.sha256(origin.encode() + b"\n\5" + log_id).digest()[:4]
    line = base64.b64encode(key_id + time.to_bytes(8, "big") + log.signed(time, count)).decode()
    text = f"{origin}\n{count}\n{base64.b64encode(log.node(0, count)).decode()}\n\n\u2014 {origin} {line}\n"
    write(folder / "checkpoint", text.encode())
    for one in log.chain:
        write(folder / f"issuer/{hashlib.sha256(one).hexdigest()}", one)
    for low in range(0, count, WIDTH):
        width = min(WIDTH, count - low)
        tile = b"".join(log.tile_leaf(index) for index in range(low, low + width))
        write(folder / tile_path("data", low // WIDTH, width), tile)
    for level in range((len(log.levels) + 7) // 8):
        nodes = log.levels[8 * level]
        for low in range(0, len(nodes), WIDTH):
            part = nodes[low : low + WIDTH]
            write(folder / tile_path(str(level), low // WIDTH, len(part)), b"".join(part))
