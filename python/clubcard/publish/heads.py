"""Tree heads of logs: signed ones (RFC 6962, 3.5) and checkpoints (c2sp.org/tlog-checkpoint and /static-ct-api)."""

import binascii
import struct
from dataclasses import dataclass
from hashlib import sha256

from cryptography.exceptions import InvalidSignature, UnsupportedAlgorithm
from cryptography.hazmat.primitives.asymmetric import ec, padding, rsa
from cryptography.hazmat.primitives.hashes import SHA256
from cryptography.hazmat.primitives.serialization import load_der_public_key

from .merkle import HASH

MOST = 2**63 - 1
"""The greatest time and size that are read: what SQLite keeps in an INTEGER."""
_NOTE_KIND = b"\x05"
"""The kind of a note's signature that is an RFC6962NoteSignature (c2sp.org/static-ct-api)."""
_DASH = "\N{EM DASH} "


class LogFault(Exception):
    """What a log answered isn't what it has to be. The text is one line that says what."""


@dataclass(frozen=True)
class TreeHead:
    """A tree head: its time in milliseconds since 1970, how many entries the tree has, and its root."""

    time: int
    size: int
    root: bytes


@dataclass(frozen=True)
class LogKey:
    """A log's public key: ECDSA over P-256, or RSA of at least 2048 bits (RFC 6962, 2.1.4)."""

    id: bytes
    """The log's id: the SHA-256 of the key's DER (RFC 6962, 3.2)."""
    public: ec.EllipticCurvePublicKey | rsa.RSAPublicKey

    @classmethod
    def read(cls, der: bytes) -> "LogKey":
        """The key of a DER SubjectPublicKeyInfo. Else a ValueError, whose text says what it is."""
        try:
            public = load_der_public_key(der)
        except (ValueError, UnsupportedAlgorithm):
            raise ValueError("no SubjectPublicKeyInfo in DER") from None
        is_ec = isinstance(public, ec.EllipticCurvePublicKey) and isinstance(public.curve, ec.SECP256R1)
        is_rsa = isinstance(public, rsa.RSAPublicKey) and public.key_size >= 2048
        if not (is_ec or is_rsa):
            raise ValueError("neither a key of ECDSA over P-256 nor one of RSA with at least 2048 bits")
        assert isinstance(public, (ec.EllipticCurvePublicKey, rsa.RSAPublicKey))
        return cls(sha256(der).digest(), public)

    def verify(self, head: TreeHead, signed: bytes) -> None:
        """Verifies a tree head's signature, a `DigitallySigned` (RFC 5246, 4.7). Else a LogFault."""
        is_ec = isinstance(self.public, ec.EllipticCurvePublicKey)
        algorithms = b"\4\3" if is_ec else b"\4\1"
        if len(signed) < 4 or signed[:2] != algorithms or int.from_bytes(signed[2:4], "big") != len(signed) - 4:
            raise LogFault("the tree head's signature isn't one of SHA-256 by the kind of the log's key")
        try:
            self._verify(signed[4:], signed_octets(head))
        except InvalidSignature:
            raise LogFault("the tree head's signature isn't one by the log's key") from None

    def _verify(self, signature: bytes, octets: bytes) -> None:
        if isinstance(self.public, rsa.RSAPublicKey):
            self.public.verify(signature, octets, padding.PKCS1v15(), SHA256())
        else:
            self.public.verify(signature, octets, ec.ECDSA(SHA256()))


def signed_octets(head: TreeHead) -> bytes:
    """What the signature of a tree head is over: a `TreeHeadSignature` (RFC 6962, 3.5)."""
    return struct.pack(">BBQQ", 0, 1, head.time, head.size) + head.root


def read_head(answer: object, key: LogKey) -> TreeHead:
    """The verified tree head of what get-sth answered, as JSON spells it (RFC 6962, 4.3). Else a LogFault."""
    if not isinstance(answer, dict):
        raise LogFault("get-sth didn't answer a JSON object")
    time, size = _number(answer.get("timestamp"), "timestamp"), _number(answer.get("tree_size"), "tree_size")
    head = TreeHead(time, size, read_hash(answer.get("sha256_root_hash"), "sha256_root_hash"))
    key.verify(head, read_base64(answer.get("tree_head_signature"), "tree_head_signature"))
    return head


def _number(given: object, name: str) -> int:
    if not isinstance(given, int) or isinstance(given, bool) or not 0 <= given <= MOST:
        raise LogFault(f"{name} isn't a number from 0 to {MOST}")
    return given


def read_base64(given: object, name: str) -> bytes:
    """The bytes that a member of JSON spells (RFC 4648, 4). Else a LogFault that names the member."""
    if not isinstance(given, str):
        raise LogFault(f"{name} isn't a string")
    try:
        return binascii.a2b_base64(given, strict_mode=True)
    except ValueError:
        raise LogFault(f"{name} isn't Base64") from None


def read_hash(given: object, name: str) -> bytes:
    """The hash that a member of JSON spells. Else a LogFault that names the member."""
    found = read_base64(given, name)
    if len(found) != HASH:
        raise LogFault(f"{name} has {len(found)} bytes, not {HASH}")
    return found


def read_checkpoint(octets: bytes, origin: str, key: LogKey) -> TreeHead:
    """The verified tree head of a checkpoint whose origin line is `origin` (c2sp.org/tlog-checkpoint): origin, size in
    decimal digits and root in Base64, without extensions, since the signature isn't over these; an empty line, and the
    signatures. One is of the log: its name is the origin, its key id the log's; it holds the time, and the signature of
    the tree head (c2sp.org/static-ct-api, RFC6962NoteSignature). Other signatures aren't read. Else a LogFault."""
    try:
        text, _, notes = octets.decode("utf-8").rpartition("\n\n")
    except UnicodeDecodeError:
        raise LogFault("the checkpoint isn't text in UTF-8") from None
    lines = text.split("\n")
    if len(lines) != 3 or not notes.endswith("\n"):
        raise LogFault("the checkpoint isn't an origin, a size and a root, an empty line and signatures")
    if lines[0] != origin:
        raise LogFault(f"the checkpoint's origin is {lines[0]!r}, not {origin!r}")
    if not (lines[1].isascii() and lines[1].isdecimal()) or len(lines[1]) > 19 or str(int(lines[1])) != lines[1]:
        raise LogFault("the checkpoint's size isn't a number")
    size, root = _number(int(lines[1]), "the checkpoint's size"), read_hash(lines[2], "the checkpoint's root")
    signature = _note_signature(notes, origin, key)
    head = TreeHead(_number(int.from_bytes(signature[:8], "big"), "the checkpoint's time"), size, root)
    key.verify(head, signature[8:])
    return head


def _note_signature(notes: str, origin: str, key: LogKey) -> bytes:
    """The RFC6962NoteSignature of the log among the signature lines of a note (c2sp.org/signed-note)."""
    wanted = sha256(origin.encode() + b"\n" + _NOTE_KIND + key.id).digest()[:4]
    for line in notes.split("\n")[:-1]:
        name, _, spelt = line.removeprefix(_DASH).partition(" ")
        if not line.startswith(_DASH) or not spelt:
            raise LogFault("a signature line of the checkpoint isn't a dash, a name and Base64")
        if name != origin:
            continue
        octets = read_base64(spelt, "a signature of the checkpoint")
        if octets[:4] == wanted and len(octets) > 12:
            return octets[4:]
    raise LogFault("the checkpoint has no signature by the log's key")
