"""Certificates, against openssl and cryptography."""

import random
import subprocess
from pathlib import Path
from typing import Any

import pytest
from cryptography import x509
from cryptography.hazmat.primitives import hashes, serialization
from cryptography.hazmat.primitives.asymmetric import ec, ed25519, rsa
from cryptography.x509.oid import NameOID

import made
from clubcard import Refusal, Refused, Store, names, pki, serial_from_int

STORE = made.TOP / "crates" / "clubcard" / "data" / "one_revoked.store"
TIMESTAMPS = x509.ObjectIdentifier("1.3.6.1.4.1.11129.2.4.2")


def openssl(*words: str | Path) -> subprocess.CompletedProcess[str]:
    """Runs openssl."""
    return subprocess.run(["openssl", *words], capture_output=True, text=True, stdin=subprocess.DEVNULL, check=False)


@pytest.fixture(name="elm", scope="module")
def fixture_elm() -> made.Authority:
    return made.Authority.of("elm")


def timestamp(log: bytes, time: int, version: int = 0, behind: bytes = b"") -> bytes:
    """A timestamp with its length before it (RFC 6962, 3.2)."""
    octets = bytes([version]) + log + time.to_bytes(8, "big") + bytes(2) + b"\x04\x03" + made.vector(b"sig", 2)
    return made.vector(octets + behind, 2)


def with_timestamps(authority: made.Authority, *stamps: bytes) -> bytes:
    """A certificate with these timestamps."""
    contents = made.vector(b"".join(stamps), 2)
    value: bytes = made.second_program("reference").der(0x04, contents)
    extension = x509.UnrecognizedExtension(TIMESTAMPS, value)
    return made.der_of(authority.issue(0x80, [(extension, False)]))


# ---- files


def test_files(tmp_path: Path, elm: made.Authority) -> None:
    site, other = elm.issue(0x80), elm.issue(0x81)
    (tmp_path / "der").write_bytes(made.der_of(site))
    (tmp_path / "chain").write_bytes(b"a server's chain\n" + made.pem_of(site) + b"\n" + made.pem_of(other))
    (tmp_path / "crlf").write_bytes(made.pem_of(site).replace(b"\n", b"\r\n"))
    assert pki.certificates_of(tmp_path / "der") == [made.der_of(site)]
    assert pki.certificates_of(str(tmp_path / "chain")) == [made.der_of(site), made.der_of(other)]
    assert pki.certificates_of(tmp_path / "crlf") == [made.der_of(site)]


def test_files_that_hold_none(tmp_path: Path, elm: made.Authority) -> None:
    key = elm.key.private_bytes(
        serialization.Encoding.PEM, serialization.PrivateFormat.PKCS8, serialization.NoEncryption()
    )
    crl = elm.crl([5])
    pem = made.pem_of(elm.certificate)
    for octets, text in (
        (key, "there is no certificate in it"),
        (made.pem_of(crl), "there is no certificate in it"),
        (made.der_of(crl), "there is no certificate in it"),
        (b"", "there is no certificate in it"),
        (elm.der[:-1], "there is no certificate in it"),
        (elm.der + b"\n", "there is no certificate in it"),
        (pem.replace(b"\nM", b"\n*"), "isn't Base64"),
    ):
        (tmp_path / "file").write_bytes(octets)
        with pytest.raises(pki.PkiError, match=text):
            pki.certificates_of(tmp_path / "file")
    names: tuple[Path | str, ...] = (tmp_path / "absent", tmp_path, "a\0b")
    for name in names:
        with pytest.raises(pki.PkiError, match="there is no such file|it can't be read"):
            pki.certificates_of(name)


# ---- identities


def test_identity(elm: made.Authority) -> None:
    key = elm.key.public_key().public_bytes(serialization.Encoding.DER, serialization.PublicFormat.SubjectPublicKeyInfo)
    digest = hashes.Hash(hashes.SHA256())
    digest.update(key)
    expected = digest.finalize()
    assert pki.issuer_hash(elm.der) == expected
    for serial in (1, 0x7F, 0x80, 0xD00A, (1 << 159) - 1):
        found = pki.identity(made.der_of(elm.issue(serial)), elm.der)
        assert found == pki.Identity(expected, serial_from_int(serial))


def test_serials_as_they_stand(elm: made.Authority) -> None:
    """Octets that aren't the fewest, and those of a number below 0, are kept."""
    certificate = made.der_of(elm.issue(0x11223344))
    for octets in (b"\x00\x00\x00\x05", b"\xff\xff\xff\x80"):
        other = certificate.replace(b"\x02\x04\x11\x22\x33\x44", b"\x02\x04" + octets)
        assert pki.identity(other, elm.der).serial == octets


# ---- timestamps


def test_timestamps(elm: made.Authority) -> None:
    logs = [bytes([number]) * 32 for number in range(3)]
    der = with_timestamps(elm, *(timestamp(log, made.MOMENT + at) for at, log in enumerate(logs)))
    theirs: Any = x509.load_der_x509_certificate(der).extensions.get_extension_for_oid(TIMESTAMPS).value
    assert [(seen.log, seen.time) for seen in pki.timestamps(der)] == [
        (each.log_id, made.MOMENT + at) for at, each in enumerate(theirs)
    ]


def refusal_of(der: bytes, issuer: bytes, store: Store) -> Refusal | None:
    """Why the library doesn't answer about a certificate."""
    try:
        store.query_cert(der, issuer)
    except Refused as refused:
        return refused.refusal
    return None


def test_timestamps_as_the_library_reads_them(elm: made.Authority) -> None:
    log = b"\x01" * 32
    store, one, other = Store.from_file(STORE), timestamp(log, 5), timestamp(log, 5, version=1)
    cases: list[tuple[list[bytes], Refusal | None]] = [
        ([one], None),
        ([one, other], None),
        ([one] * 64, None),
        ([other], Refusal.CERT_NO_SCTS),
        ([one] * 65, Refusal.CERT_TOO_MANY_SCTS),
        ([], Refusal.CERT_BAD_SCTS),
        ([timestamp(log, 5, behind=b"\0")], Refusal.CERT_BAD_SCTS),
        ([one, b"\0\0"], Refusal.CERT_BAD_SCTS),
        ([b"\0"], Refusal.CERT_BAD_SCTS),
        ([one, one[:-1]], Refusal.CERT_BAD_SCTS),
    ]
    for stamps, refusal in cases:
        der = with_timestamps(elm, *stamps)
        assert refusal_of(der, elm.der, store) is refusal
        if refusal in (None, Refusal.CERT_NO_SCTS):
            assert len(pki.timestamps(der)) == stamps.count(one)
        else:
            with pytest.raises(pki.PkiError):
                pki.timestamps(der)
    plain = made.der_of(elm.issue(5))
    assert refusal_of(plain, elm.der, store) is Refusal.CERT_NO_SCTS and pki.timestamps(plain) == []


# ---- who issued whom

KEYS: dict[str, Any] = {
    "rsa": lambda: rsa.generate_private_key(65537, 2048),
    "p256": lambda: ec.generate_private_key(ec.SECP256R1()),
    "p384": lambda: ec.generate_private_key(ec.SECP384R1()),
    "ed25519": ed25519.Ed25519PrivateKey.generate,
}


def openssl_agrees(folder: Path, der: bytes, issuer: bytes) -> bool:
    """Whether openssl says that the second issued the first."""
    for name, octets in (("cert", der), ("issuer", issuer)):
        (folder / name).write_bytes(octets)
    words = ["-partial_chain"] if der != issuer else []
    files: list[str | Path] = [
        "-no-CAfile",
        "-no-CApath",
        "-no-CAstore",
        "-trusted",
        folder / "issuer",
        folder / "cert",
    ]
    return openssl("verify", *words, "-no_check_time", "-check_ss_sig", *files).returncode == 0


@pytest.mark.parametrize("kind", KEYS)
def test_issued_by(kind: str, tmp_path: Path) -> None:
    mark: list[tuple[x509.ExtensionType, bool]] = [(x509.BasicConstraints(True, None), True)]
    elm, twin, oak = (made.Authority.of(name, KEYS[kind](), mark) for name in ("elm", "elm", "oak"))
    site = made.der_of(elm.issue(0x80))
    forged = site[:-1] + bytes([site[-1] ^ 1])
    changed = site.replace(b"site 128", b"site 129")
    for der, issuer, expected in (
        (site, elm.der, True),
        (elm.der, elm.der, True),
        (site, twin.der, False),
        (site, oak.der, False),
        (elm.der, site, False),
        (site, site, False),
        (forged, elm.der, False),
        (changed, elm.der, False),
    ):
        assert pki.issued_by(der, issuer) is expected
        assert openssl_agrees(tmp_path, der, issuer) is expected


def test_issued_by_pss_and_others(tmp_path: Path) -> None:
    """Signatures that cryptography 38 doesn't make: RSASSA-PSS with its parameters, and a key of that kind alone."""
    for number, words in enumerate(
        (
            ["-newkey", "rsa:2048", "-sigopt", "rsa_padding_mode:pss", "-sigopt", "rsa_pss_saltlen:32"],
            ["-newkey", "rsa:2048", "-sha384", "-sigopt", "rsa_padding_mode:pss", "-sigopt", "rsa_pss_saltlen:max"],
            ["-newkey", "rsa:2048", "-sha1"],
            ["-newkey", "ed448"],
        )
    ):
        file = tmp_path / f"{number}.pem"
        done = openssl("req", "-x509", *words, "-nodes", "-keyout", tmp_path / "key", "-subj", "/CN=elm", "-out", file)
        assert done.returncode == 0, done.stderr
        (der,) = pki.certificates_of(file)
        assert pki.why_not_issued(der, der) is None
        assert not pki.issued_by(der[:-1] + bytes([der[-1] ^ 1]), der)


def test_two_lists_of_timestamps(elm: made.Authority) -> None:
    """Behind the one list that there is nothing stands."""
    contents = made.vector(timestamp(b"\x01" * 32, 5), 2) * 2
    extension = x509.UnrecognizedExtension(TIMESTAMPS, made.second_program("reference").der(0x04, contents))
    der = made.der_of(elm.issue(0x80, [(extension, False)]))
    assert refusal_of(der, elm.der, Store.from_file(STORE)) is Refusal.CERT_BAD_SCTS
    with pytest.raises(pki.PkiError):
        pki.timestamps(der)


def test_unknown_algorithms(elm: made.Authority) -> None:
    """What can't be verified wasn't issued, and is said."""
    site = made.der_of(elm.issue(0x80))
    ecdsa, unknown = bytes.fromhex("2a8648ce3d040302"), bytes.fromhex("2a8648ce3d04037f")
    assert "isn't known" in (pki.why_not_issued(site.replace(ecdsa, unknown), elm.der) or "")
    other_key = elm.der.replace(bytes.fromhex("2a8648ce3d0201"), bytes.fromhex("2a8648ce3d0277"))
    assert "isn't of a known kind" in (pki.why_not_issued(site, other_key) or "")
    edward = made.Authority.of("elm", KEYS["ed25519"]())
    assert "isn't one of the issuer's key" in (pki.why_not_issued(site, edward.der) or "")


def test_may_sign() -> None:
    def usage(sign: bool) -> x509.KeyUsage:
        return x509.KeyUsage(True, False, False, False, False, sign, True, False, False)

    assert pki.may_sign(made.Authority.of("elm").der)
    assert pki.may_sign(made.Authority.of("elm", None, [(usage(True), True)]).der)
    assert not pki.may_sign(made.Authority.of("elm", None, [(usage(False), True)]).der)


def test_names() -> None:
    """Texts as cryptography has them; the same names are those whose texts are, but for blanks and case."""
    attributes = [
        (NameOID.COUNTRY_NAME, "DE"),
        (NameOID.ORGANIZATION_NAME, "Blue  Elm"),
        (NameOID.COMMON_NAME, "\u00e4"),
    ]
    name = x509.Name([x509.NameAttribute(oid, text) for oid, text in attributes])
    der = name.public_bytes()
    assert names.text_of(der) == ", ".join(each.rfc4514_string() for each in name)
    assert names.are_same(der, der) and names.are_same(b"what", b"what")
    for old, new, expected in (
        (b"\x0c\x09Blue  Elm", b"\x13\x09blue eLm ", True),
        (b"\x0c\x02\xc3\xa4", b"\x1e\x02\x00\xe4", True),
        (b"\x0c\x02\xc3\xa4", b"\x0c\x02\xc3\xb6", False),
        (b"\x0c\x02\xc3\xa4", b"\x0c\x02\xc3\xff", False),
        (b"\x13\x02DE", b"\x04\x02DE", False),
        (b"\x55\x04\x06", b"\x55\x04\x07", False),
        (b"\x30\x09\x06", b"\x30\x0a\x06", False),
    ):
        other = der.replace(old, new)
        assert other != der and names.are_same(der, other) is expected is names.are_same(other, der)
    assert names.text_of(b"\x30\x05") == "3005"


def test_names_in_other_encodings(elm: made.Authority) -> None:
    """A name is the same where its texts are: as a PrintableString in place of a UTF8String."""
    authority = elm.der.replace(b"\x0c\x03elm", b"\x13\x03Elm")
    assert authority != elm.der
    site = made.der_of(elm.issue(0x80))
    assert pki.issued_by(site, authority)
    assert "another name" in (pki.why_not_issued(site, elm.der.replace(b"\x0c\x03elm", b"\x13\x03oak")) or "")


# ---- damage


def damaged(chosen: random.Random, octets: bytes) -> bytes:
    """The bytes, of which some are others."""
    found = bytearray(octets)
    for _ in range(chosen.choice((0, 1, 1, 2, 3))):
        octet = chosen.choice((0, 1, 2, 3, 4, 0x17, 0x30, 0x7F, 0x80, 0x81, 0xA0, 0xA3, 0xFF, chosen.randrange(256)))
        found[chosen.randrange(len(found))] = octet
    return bytes(found)


def test_damage_as_the_library_reads_it(elm: made.Authority) -> None:
    """Timestamps, and the issuer's hash, are read exactly where the library reads them."""
    chosen, store = random.Random(3), Store.from_file(STORE)
    log = b"\x01" * 32
    kinds = [with_timestamps(elm, timestamp(log, 5)), with_timestamps(elm, timestamp(log, 5, 1), timestamp(log, 5))]
    kinds.append(made.der_of(elm.issue(5)))
    seen = set()
    for _ in range(8000):
        der, issuer = damaged(chosen, chosen.choice(kinds)), damaged(chosen, elm.der)
        refusal = refusal_of(der, elm.der, store)
        seen.add(refusal)
        try:
            assert bool(pki.timestamps(der)) is (refusal is None)
            assert refusal in (None, Refusal.CERT_NO_SCTS)
        except pki.PkiError:
            assert refusal in (Refusal.CERT_MALFORMED, Refusal.CERT_BAD_SCTS)
        try:
            pki.issuer_hash(issuer)
            assert refusal_of(kinds[0], issuer, store) is None
        except pki.PkiError:
            assert refusal_of(kinds[0], issuer, store) is Refusal.ISSUER_CERT_MALFORMED
    assert len(seen) == 4


def test_damage_has_a_reason(elm: made.Authority) -> None:
    """Whatever the bytes are, the answer is whether the one issued the other, or that one isn't read."""
    chosen, site, told = random.Random(4), made.der_of(elm.issue(0x80)), set()
    for _ in range(3000):
        try:
            told.add(pki.why_not_issued(damaged(chosen, site), damaged(chosen, elm.der)))
        except pki.PkiError:
            pass
    assert None in told and len(told) > 20
