"""Logs in the tests' own process: real keys, signatures and trees, and answers as a server would give them."""

import base64
import hashlib
import json
from collections.abc import Callable
from pathlib import Path
from urllib.parse import parse_qsl, urlsplit

from cryptography.hazmat.primitives import hashes, serialization
from cryptography.hazmat.primitives.asymmetric import ec, padding, rsa

from clubcard.http import FetchError, Response, TooLong
from clubcard.publish.config import Config, Issuer, Log, LogKind
from web.octets import be, der, vector
from web.tiles import tile_path
from web.tree import Tree, leaf_hash

PrivateKey = ec.EllipticCurvePrivateKey | rsa.RSAPrivateKey
MMD = 3_600_000
BEGIN = 1_700_000_000_000
"""The time of the first entry of a log; each later one is a second later."""
WIDTH = 256
ISSUER = der(0x30, der(0x30, der(2, b"\1"), *[der(0x30)] * 4, der(0x30, b"key of the issuer")))
"""As much of an issuer's certificate as is read."""
ISSUER_HASH = hashlib.sha256(der(0x30, b"key of the issuer")).digest()


def tbs_of(serial: bytes, points: bytes = b"") -> bytes:
    """As much of a TBS as is read: serial, validity until 2030-01-01 00:00:00 UTC, and the distribution points."""
    date = der(0x17, b"300101000000Z")
    value = der(0x30, der(6, bytes.fromhex("551d1f")), der(4, points))
    extensions = der(0xA3, der(0x30, value)) if points else b""
    return der(0x30, der(2, serial), der(0x30), der(0x30), der(0x30, date, date), der(0x30), der(0x30), extensions)


def points_of(*urls: str) -> bytes:
    """An extension of CRL distribution points, one for each URL."""
    named = [der(0x30, der(0xA0, der(0xA0, der(0x86, url.encode())))) for url in urls]
    return der(0x30, *named)


def made_entry(number: int, time: int, name: str = "", points: bytes = b"") -> tuple[bytes, bytes]:
    """A leaf and its extra data; each third one is a certificate, the others are precertificates."""
    serial = b"\1" + hashlib.sha256(f"{name} {number}".encode()).digest()[:15]
    tbs, chain = tbs_of(serial, points), vector(vector(ISSUER, 3), 3)
    head = b"\0\0" + be(time, 8)
    if number % 3 == 0:
        return head + b"\0\0" + vector(der(0x30, tbs), 3) + b"\0\0", chain
    return head + b"\0\1" + ISSUER_HASH + vector(tbs, 3) + b"\0\0", vector(b"precertificate", 3) + chain


def made_log(kind: LogKind = "rfc6962", size: int = 0, name: str = "one") -> "FakeLog":
    """A log with so many entries, whose tree head is an hour newer than these."""
    log = FakeLog(kind, ec.generate_private_key(ec.SECP256R1()), name)
    log.grow(size)
    return log


class FakeLog:
    """A log. `entries` are its leaves and extra data; `time`, `size` and `root` (None: the true one) are those of its
    tree head; `most` is how many entries it answers at once."""

    def __init__(self, kind: LogKind, key: PrivateKey, name: str) -> None:
        self.kind, self.key, self.name = kind, key, name
        self.entries: list[tuple[bytes, bytes]] = []
        self.time = self.size = 0
        self.most = 100
        self.root: bytes | None = None
        self.spki = key.public_key().public_bytes(
            serialization.Encoding.DER, serialization.PublicFormat.SubjectPublicKeyInfo
        )
        self.id = hashlib.sha256(self.spki).digest()
        self.origin = f"log.example/{name}"

    def grow(self, count: int, points: bytes = b"") -> None:
        """Merges so many new entries, and signs a new tree head over all."""
        begin = len(self.entries)
        new = [made_entry(number, BEGIN + 1000 * number, self.name, points) for number in range(begin, begin + count)]
        self.entries += new
        self.size = len(self.entries)
        self.time = BEGIN + 1000 * self.size + MMD

    @property
    def tree(self) -> Tree:
        return Tree([leaf for leaf, _ in self.entries])

    def conf(self, first: int = 0, mmd: int = MMD) -> Log:
        """The log in CONFIG."""
        return Log(self.name, self.id, self.kind, f"http://{self.name}/", self.spki, mmd, first, self.origin)

    def sign(self, time: int, size: int, root: bytes) -> bytes:
        """A tree head's signature (RFC 6962, 3.5)."""
        octets = b"\0\1" + be(time, 8) + be(size, 8) + root
        if isinstance(self.key, rsa.RSAPrivateKey):
            return b"\4\1" + vector(self.key.sign(octets, padding.PKCS1v15(), hashes.SHA256()), 2)
        return b"\4\3" + vector(self.key.sign(octets, ec.ECDSA(hashes.SHA256())), 2)

    def head(self) -> dict[str, object]:
        """The answer of get-sth."""
        root = self.root or self.tree.root(self.size)
        signature = spelt(self.sign(self.time, self.size, root))
        names = ("tree_size", "timestamp", "sha256_root_hash", "tree_head_signature")
        return dict(zip(names, (self.size, self.time, spelt(root), signature)))

    def checkpoint(self) -> bytes:
        """The tree head as a note."""
        root = self.root or self.tree.root(self.size)
        key_id = hashlib.sha256(f"{self.origin}\n\5".encode() + self.id).digest()[:4]
        signature = spelt(key_id + be(self.time, 8) + self.sign(self.time, self.size, root))
        return f"{self.origin}\n{self.size}\n{spelt(root)}\n\n\u2014 {self.origin} {signature}\n".encode()

    def answer(self, path: str, words: dict[str, str]) -> bytes:
        """The answer to a request below the log's URL; a KeyError where there is none."""
        if self.kind == "static":
            return self.static(path)
        if path == "ct/v1/get-sth":
            return json.dumps(self.head()).encode()
        if path == "ct/v1/get-entries":
            start, end = int(words["start"]), int(words["end"]) + 1
            page = [entry_json(*entry) for entry in self.entries[start : min(end, start + self.most)]]
            return json.dumps({"entries": page}).encode()
        if path == "ct/v1/get-sth-consistency":
            proof = self.tree.consistency(int(words["first"]), int(words["second"]))
            return json.dumps({"consistency": [spelt(one) for one in proof]}).encode()
        size = int(words["tree_size"])
        if path == "ct/v1/get-proof-by-hash":
            index = self.tree.hashes.index(base64.b64decode(words["hash"]))
        else:
            index = {"ct/v1/get-entry-and-proof": int(words.get("leaf_index", -1))}[path]
        proof = self.tree.inclusion(index, size)
        found = {**entry_json(*self.entries[index]), "leaf_index": index, "audit_path": [spelt(one) for one in proof]}
        return json.dumps(found).encode()

    def static(self, path: str) -> bytes:
        """A file of a log that is served as tiles."""
        if path == "checkpoint":
            return self.checkpoint()
        if path == f"issuer/{hashlib.sha256(ISSUER).hexdigest()}":
            return ISSUER
        return self.tiles()[path]

    def tiles(self) -> dict[str, bytes]:
        """All tiles of the tree head, by their paths."""
        found, level, tree = {}, 0, self.tree
        while self.size >> (8 * level):
            step, count = WIDTH**level, self.size >> (8 * level)
            nodes = [tree.range_hash(at * step, (at + 1) * step) for at in range(count)]
            for index in range((count + WIDTH - 1) // WIDTH):
                part = nodes[index * WIDTH : (index + 1) * WIDTH]
                found[f"tile/{level}/{tile_path(index, WIDTH, len(part))}"] = b"".join(part)
            level += 1
        for index in range((self.size + WIDTH - 1) // WIDTH):
            data = self.entries[index * WIDTH : min((index + 1) * WIDTH, self.size)]
            octets = b"".join(tile_leaf(leaf, extra) for leaf, extra in data)
            found[f"tile/data/{tile_path(index, WIDTH, len(data))}"] = octets
        return found


def spelt(octets: bytes) -> str:
    """Bytes as Base64."""
    return base64.b64encode(octets).decode()


def entry_json(leaf: bytes, extra: bytes) -> dict[str, object]:
    """An entry as get-entries has it."""
    return {"leaf_input": spelt(leaf), "extra_data": spelt(extra)}


def tile_leaf(leaf: bytes, extra: bytes) -> bytes:
    """An entry as a data tile has it, whose chain is ISSUER."""
    precertificate = vector(b"precertificate", 3) if leaf[10:12] == b"\0\1" else b""
    return leaf[2:] + precertificate + vector(hashlib.sha256(ISSUER).digest(), 2)


class FakeClient:
    """A client whose servers are logs. `changes` change answers: the first whose key stands in a URL; one that gives an
    Exception has it raised. `urls` are those that were asked."""

    def __init__(self, *logs: FakeLog) -> None:
        self.logs = {log.name: log for log in logs}
        self.changes: dict[str, Callable[[bytes], bytes | Exception]] = {}
        self.urls: list[str] = []

    def get(self, url: str, most_bytes: int, etag: str | None = None, modified: str | None = None) -> Response:
        self.urls.append(url)
        parts = urlsplit(url)
        body: bytes | Exception
        try:
            body = self.logs[parts.netloc].answer(parts.path[1:], dict(parse_qsl(parts.query)))
        except (KeyError, ValueError, IndexError):
            body = FetchError("status 404", 404)
        change = next((change for key, change in self.changes.items() if key in url), None)
        if change is not None:
            body = change(body if isinstance(body, bytes) else b"")
        if isinstance(body, Exception):
            raise body
        if len(body) > most_bytes:
            raise TooLong(f"the body is longer than {most_bytes} bytes")
        return Response(200, body, {}, None, None)


def config_of(*logs: Log, issuers: tuple[Issuer, ...] = ()) -> Config:
    """A CONFIG with these logs."""
    here = Path("unused")
    return Config(here, "test", here, here, here, None, "clubcard", 1, 1, 1, 1, 1, 1, 1, issuers, logs)


def front_root(log: FakeLog, size: int) -> bytes:
    """The root of the tree of a log's first entries."""
    return log.tree.root(size)


def hashes_of(log: FakeLog) -> list[bytes]:
    """The hashes of a log's leaves."""
    return [leaf_hash(leaf) for leaf, _ in log.entries]
