"""Tests of the small web itself: certificates, timestamps, proofs and CRLs, by other readers than its own."""

import hashlib
from pathlib import Path

import httpx
import pytest
from cryptography import x509
from cryptography.hazmat.primitives import hashes
from cryptography.hazmat.primitives.asymmetric import ec

from web.authority import key_of
from web.log import FIRST_KEY, LogServer
from web.network import Servers, Shown
from web.octets import be, vector
from web.oracle import Openssl
from web.tiles import tile_path
from web.tree import Tree, leaf_hash, node_hash
from web.world import HOUR, LONG, Cert, Entry, Issuer, Log, World, at, told


def small_world() -> World:
    """Two logs, five kinds of authorities, and certificates that are revoked, held and expired."""
    issuers = (
        Issuer(key="rsa", kind="intermediate"),
        Issuer(crls=4),
        Issuer(kind="crossed", points="named"),
        Issuer(points="none", valid=2 * HOUR),
        Issuer(old=3),
    )
    certs = []
    for place in range(30):
        stamps = (Entry(0, at(1) + place, at(1) + place), Entry(1, at(1.5) + place, at(2), whole=place % 5 == 1))
        revs = {0: ((at(2), None),), 1: ((at(2), at(5)),)}.get(place % 6, ())
        until = at(6) // 1000 if place % 7 == 0 else LONG
        issuer = place % 5
        certs.append(Cert(issuer, 0x80 + place, until, stamps, revs, crl=place // 5 % 4 if issuer == 1 else 0))
    return World((at(4), at(8)), (Log(), Log(kind="static")), issuers, tuple(certs))


WORLD = small_world()


@pytest.fixture(name="web", scope="module")
def made_web() -> Shown:
    return Shown(WORLD, "http://127.0.0.1:1/")


def test_openssl(web: Shown, tmp_path: Path) -> None:
    openssl = Openssl(tmp_path / "openssl", web.things)
    for epoch, moment in enumerate(WORLD.moments):
        for issuer, spec in enumerate(WORLD.issuers):
            crls = [web.things.crl(issuer, partition, epoch) or b"" for partition in range(spec.crls)]
            places = [one.place for one in web.things.issued if one.cert.issuer == issuer]
            listed = openssl.revoked(issuer, crls, places, moment)
            assert listed == {place for place in places if WORLD.certs[place].listed(moment)}
            # `cryptography` reads the same in them.
            read = {one.serial_number for crl in crls for one in x509.load_der_x509_crl(crl)}
            assert read == {WORLD.certs[place].serial for place in listed}


def test_certificates(web: Shown) -> None:
    for one in web.things.issued:
        certificate = x509.load_der_x509_certificate(one.der)
        timestamps = certificate.extensions.get_extension_for_class(
            x509.PrecertificateSignedCertificateTimestamps
        ).value
        assert [stamp.log_id for stamp in timestamps] == [log for log, _ in one.embedded]
        for stamp, entry in zip(timestamps, [entry for entry in one.cert.entries if not entry.whole]):
            log: LogServer = web.things.logs[entry.log]
            # RFC 6962, 3.2: what the log signed, with the TBS that `cryptography` makes of the certificate.
            body = one.issuer + vector(certificate.tbs_precertificate_bytes, 3)
            signed = b"\0\0" + be(entry.time, 8) + b"\0\1" + body + vector(stamp.extension_bytes, 2)
            key = key_of("ec", FIRST_KEY + log.place).public_key()
            assert isinstance(key, ec.EllipticCurvePublicKey)
            key.verify(stamp.signature, signed, ec.ECDSA(hashes.SHA256()))


@pytest.mark.parametrize("size", [1, 2, 3, 7, 8, 13])
def test_proofs(size: int) -> None:
    tree = Tree([bytes([k]) for k in range(size)])
    assert Tree([]).root(0) == hashlib.sha256().digest()
    for index in range(size):
        # RFC 9162, 2.1.3.2
        found, at_, last = leaf_hash(bytes([index])), index, size - 1
        for one in tree.inclusion(index, size):
            if at_ & 1 or at_ == last:
                found = node_hash(one, found)
                while not at_ & 1 and at_:
                    at_, last = at_ >> 1, last >> 1
            else:
                found = node_hash(found, one)
            at_, last = at_ >> 1, last >> 1
        assert found == tree.root(size)


def test_consistency_proofs() -> None:
    tree = Tree([bytes([k]) for k in range(20)])
    for second in range(1, 21):
        for first in range(1, second):
            assert goes_on(tree.consistency(first, second), first, second, tree.root(first), tree.root(second))


def goes_on(path: list[bytes], first: int, second: int, old: bytes, new: bytes) -> bool:
    """The verification of RFC 9162, 2.1.4.2."""
    if first & (first - 1) == 0:
        path = [old, *path]
    low, high = first - 1, second - 1
    while low & 1:
        low, high = low >> 1, high >> 1
    left = right = path[0]
    for one in path[1:]:
        if low & 1 or low == high:
            left, right = node_hash(one, left), node_hash(one, right)
            while not low & 1 and low:
                low, high = low >> 1, high >> 1
        else:
            right = node_hash(right, one)
        low, high = low >> 1, high >> 1
    return (left, right, high) == (old, new, 0)


def test_tile_paths() -> None:
    # The example of c2sp.org/tlog-tiles.
    assert tile_path(1234067, 256, 256) == "x001/x234/067"
    assert tile_path(5, 256, 7) == "005.p/7"


def test_servers(tmp_path: Path) -> None:
    with Servers(tmp_path / "nginx") as servers:
        web, nginx, logs = servers.show_all(WORLD), servers.nginx, servers.logs
        for epoch, moment in enumerate(WORLD.moments):
            web.show(epoch)
            nginx.show(web.pages, moment)
            for path, body in web.pages.items():
                assert nginx.get(path) == body
            assert nginx.get("token") is None
            head = httpx.get(f"{logs.base}log/0/ct/v1/get-sth", trust_env=False).json()
            assert (head["tree_size"], head["timestamp"]) == (30, moment)
        page = httpx.get(f"{logs.base}log/0/ct/v1/get-entries?start=0&end=99", trust_env=False).json()
        assert len(page["entries"]) == 30


def test_told() -> None:
    lines = told(WORLD)
    assert len([line for line in lines if "EPOCH" in line]) == 2 and len(lines) > 60
