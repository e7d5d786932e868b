"""Tree heads: signatures, and each thing that can be wrong in a signed tree head or a checkpoint."""

import base64
import json

import pytest
from cryptography.hazmat.primitives import serialization
from cryptography.hazmat.primitives.asymmetric import ec, ed25519, rsa
from hypothesis import given, strategies as st

from clubcard.publish.heads import LogFault, LogKey, TreeHead, read_checkpoint, read_head
from fake_log import FakeLog, PrivateKey, made_log, spelt

RSA = rsa.generate_private_key(65537, 2048)
LOG = made_log("static", 5)
KEY = LogKey.read(LOG.spki)
HEAD = TreeHead(LOG.time, 5, LOG.tree.root(5))


def der_of(key: PrivateKey | ed25519.Ed25519PrivateKey) -> bytes:
    return key.public_key().public_bytes(serialization.Encoding.DER, serialization.PublicFormat.SubjectPublicKeyInfo)


@pytest.mark.parametrize("key", [RSA, ec.generate_private_key(ec.SECP256R1())])
def test_both_kinds_of_keys(key: PrivateKey) -> None:
    log = FakeLog("static", key, "one")
    log.grow(3)
    public = LogKey.read(log.spki)
    wanted = TreeHead(log.time, 3, log.tree.root(3))
    assert public.id == log.id
    assert read_head(log.head(), public) == wanted == read_checkpoint(log.checkpoint(), log.origin, public)


def test_keys_that_no_log_has() -> None:
    small = rsa.generate_private_key(65537, 1024)
    larger, other = ec.generate_private_key(ec.SECP384R1()), ed25519.Ed25519PrivateKey.generate()
    for der in (der_of(small), der_of(larger), der_of(other)):
        with pytest.raises(ValueError, match="neither a key of ECDSA"):
            LogKey.read(der)
    for octets in (b"", b"key", LOG.spki[:-1]):
        with pytest.raises(ValueError, match="no SubjectPublicKeyInfo"):
            LogKey.read(octets)


def changed(**members: object) -> dict[str, object]:
    return {**LOG.head(), **members}


HEADS = [
    ([], "JSON object"),
    (changed(timestamp=LOG.time + 1), "by the log's key"),
    (changed(tree_size=6), "by the log's key"),
    (changed(sha256_root_hash=spelt(bytes(32))), "by the log's key"),
    (changed(timestamp=-1), "timestamp isn't"),
    (changed(timestamp=2**63), "timestamp isn't"),
    (changed(timestamp=True), "timestamp isn't"),
    (changed(tree_size="5"), "tree_size isn't"),
    (changed(tree_size=5.0), "tree_size isn't"),
    (changed(sha256_root_hash=spelt(bytes(31))), "31 bytes"),
    (changed(sha256_root_hash="?"), "Base64"),
    (changed(sha256_root_hash="\u00e9\u00e9\u00e9\u00e9"), "Base64"),
    (changed(tree_head_signature=None), "isn't a string"),
    (changed(tree_head_signature=spelt(b"\4\3\0\1")), "SHA-256"),
    (changed(tree_head_signature=spelt(b"\4\1\0\0")), "SHA-256"),
    (changed(tree_head_signature=spelt(b"\4\3\0\0")), "by the log's key"),
    (made_log("static", 5).head(), "by the log's key"),
    ({}, "timestamp"),
]


@pytest.mark.parametrize("answer, why", HEADS, ids=range(len(HEADS)))
def test_heads_that_are_refused(answer: object, why: str) -> None:
    assert read_head(LOG.head(), KEY) == HEAD
    with pytest.raises(LogFault, match=why):
        read_head(answer, KEY)


def test_a_checkpoint_with_other_signatures() -> None:
    octets = LOG.checkpoint()
    text, line = octets.decode().split("\n\n")
    other = f"\u2014 witness.example/w {spelt(bytes(40))}\n"
    same = f"\u2014 {LOG.origin} {spelt(bytes(40))}\n"
    for lines in (other + line, line + other, same + line):
        assert read_checkpoint(f"{text}\n\n{lines}".encode(), LOG.origin, KEY) == HEAD


def replaced(old: str, new: str) -> bytes:
    text = LOG.checkpoint().decode()
    assert old in text
    return text.replace(old, new).encode()


CHECKPOINTS = [
    (b"", "isn't an origin"),
    (b"<html>", "isn't an origin"),
    (b"\xff\n", "UTF-8"),
    (LOG.checkpoint()[:-1], "isn't an origin"),
    (replaced("\n5\n", "\n6\n"), "by the log's key"),
    (replaced("\n5\n", "\n05\n"), "size"),
    (replaced("\n5\n", "\n+5\n"), "size"),
    (replaced("\n5\n", "\n\u0665\n"), "size"),
    (replaced("\n5\n", "\n" + "9" * 19 + "\n"), "size"),
    (replaced("\n5\n", "\n" + "9" * 5000 + "\n"), "size"),
    (replaced("\n5\n", "\n\n"), "size"),
    (replaced("\n\n", "\nextension\n\n"), "isn't an origin"),
    (replaced(f"{LOG.origin}\n", "log.example/two\n"), "origin is 'log.example/two'"),
    (replaced("\u2014 ", "- "), "signature line"),
    (replaced(f"\u2014 {LOG.origin} ", "\u2014 other "), "no signature"),
    (replaced(f"\u2014 {LOG.origin} ", f"\u2014 {LOG.origin} ?"), "Base64"),
    (made_log("static", 5).checkpoint(), "no signature by the log's key"),
]


@pytest.mark.parametrize("octets, why", CHECKPOINTS, ids=range(len(CHECKPOINTS)))
def test_checkpoints_that_are_refused(octets: bytes, why: str) -> None:
    with pytest.raises(LogFault, match=why):
        read_checkpoint(octets, LOG.origin, KEY)


def test_a_checkpoint_whose_time_was_changed() -> None:
    text, _, line = LOG.checkpoint().decode().rpartition(" ")
    octets = base64.b64decode(line)
    for at in range(4, len(octets)):
        other = octets[:at] + bytes([octets[at] ^ 1]) + octets[at + 1 :]
        with pytest.raises(LogFault):
            read_checkpoint(f"{text} {spelt(other)}\n".encode(), LOG.origin, KEY)


@given(st.binary(max_size=300))
def test_garbage_is_refused(octets: bytes) -> None:
    with pytest.raises(LogFault):
        read_checkpoint(octets, LOG.origin, KEY)


WORDS = st.one_of(st.none(), st.integers(), st.text(), st.floats(), st.lists(st.integers()))


@given(st.dictionaries(st.sampled_from(sorted(LOG.head())), WORDS, min_size=1))
def test_other_members_are_refused(members: dict[str, object]) -> None:
    answer = json.loads(json.dumps({**LOG.head(), **members}))
    if answer != LOG.head():
        with pytest.raises(LogFault):
            read_head(answer, KEY)
