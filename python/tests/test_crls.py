"""The vetting of CRLs, against openssl, cryptography, the second program of tools/ and the program itself."""

import random
import subprocess
from pathlib import Path
from typing import Any

import pytest
from cryptography import x509
from cryptography.hazmat.primitives.asymmetric import ec, ed25519, rsa

import made
from clubcard import crls, der, extensions, pki, serial_from_int
from clubcard.engine import Engine, RefusedCrl
from clubcard.jobs import JobWriter
from web.octets import der as tlv

READERS = made.second_program("scenario_readers")
URL = "http://crl.example/r1/1.crl"
OTHER = "http://crl.example/r1/2.crl"
Marked = list[tuple[x509.ExtensionType, bool]]


@pytest.fixture(name="elm", scope="module")
def fixture_elm() -> made.Authority:
    return made.Authority.of("elm")


def point(*urls: str, **flags: Any) -> tuple[x509.ExtensionType, bool]:
    """An issuing distribution point."""
    names = [x509.UniformResourceIdentifier(url) for url in urls] or None
    given: dict[str, Any] = {
        "only_contains_user_certs": False,
        "only_contains_ca_certs": False,
        "only_some_reasons": None,
        "indirect_crl": False,
        "only_contains_attribute_certs": False,
    }
    return x509.IssuingDistributionPoint(names, None, **{**given, **flags}), True


def status_by_program(folder: Path, octets: bytes) -> str:
    """What the program says of a job with this CRL: `accepted`, or its fault."""
    with open(folder / "job", "wb") as file, JobWriter(file) as job:
        job.header(1, made.MOMENT)
        job.crl(bytes(32), octets)
    try:
        Engine(made.PROGRAM).snapshot(folder / "job", folder / "part", folder / "ledger", 1)
    except RefusedCrl as refused:
        return refused.fault
    return "accepted"


def vetted(authority: made.Authority, octets: bytes, alone: bool = True) -> crls.Crl:
    return crls.vet(octets, [authority.der], URL, {}, alone)


# ---- what is accepted


@pytest.mark.parametrize("kind", ["rsa", "p256", "ed25519"])
def test_accepted(kind: str, tmp_path: Path) -> None:
    keys = {
        "rsa": lambda: rsa.generate_private_key(65537, 2048),
        "p256": lambda: ec.generate_private_key(ec.SECP256R1()),
        "ed25519": ed25519.Ed25519PrivateKey.generate,
    }
    oak = made.Authority.of("oak", keys[kind]())
    serials = [1, 0x7F, 0x80, 0xD00A, (1 << 159) - 1]
    number: Marked = [(x509.CRLNumber(1 << 70), False)]
    reasons: Marked = [
        (x509.CRLReason(x509.ReasonFlags.key_compromise), False),
        (x509.InvalidityDate(made.BEGIN), True),
    ]
    signed = oak.crl(serials, number, reasons)
    theirs = x509.load_der_x509_crl(made.der_of(signed))
    for octets in (made.der_of(signed), made.pem_of(signed)):
        crl = vetted(oak, octets)
        assert crl.der == made.der_of(signed)
        assert crl.number == 1 << 70
        assert crl.serials() == {serial_from_int(entry.serial_number) for entry in theirs}
        assert crl.this_update == 1000 * der.days(2023, 11, 1) * 86400
        assert crl.next_update == crl.this_update + 400 * 86400 * 1000
        assert crl.point == ()
    assert status_by_program(tmp_path, made.der_of(signed)) == "accepted"
    with pytest.raises(crls.CrlRefused, match="isn't signed by the issuer"):
        vetted(oak, made.der_of(signed)[:-1] + bytes([made.der_of(signed)[-1] ^ 1]))


def test_no_entries_and_no_extensions(elm: made.Authority) -> None:
    crl = vetted(elm, made.der_of(elm.crl([])))
    assert (crl.serials(), crl.number, crl.point) == (set(), None, ())


def test_long_numbers(elm: made.Authority) -> None:
    """A CRL number has 20 octets at most (RFC 5280, 5.2.3); one that no database would take is a fault of the CRL."""
    whole = made.der_of(elm.crl([5], [(x509.CRLNumber((1 << 255) - 1), False)]))
    assert vetted(elm, whole).number == (1 << 255) - 1
    for octets in (33, 2000):
        signed = made.der_of(elm.crl([5], [(x509.CRLNumber((1 << 8 * octets - 1) - 1), False)]))
        with pytest.raises(crls.CrlRefused, match=f"its CRL number has {octets} octets"):
            vetted(elm, signed)


@pytest.mark.parametrize("octets", [5, 9, 100])
def test_a_salt_of_any_length(octets: int) -> None:
    """Whoever sits on the way writes an algorithm without any key: a salt that no library takes is a refusal."""
    oak = made.Authority.of("oak", rsa.generate_private_key(65537, 2048))
    algorithm = tlv(0x30, tlv(6, bytes.fromhex("2a864886f70d01010a")), tlv(0x30, tlv(0xA2, tlv(2, b"\x7f" * octets))))
    fields = tlv(2, b"\1"), algorithm, pki.read_certificate(oak.der).subject, tlv(0x17, b"250101000000Z")
    with pytest.raises(crls.CrlRefused, match="isn't signed by the issuer: its salt"):
        vetted(oak, tlv(0x30, tlv(0x30, *fields), algorithm, tlv(3, bytes(257))))


def test_many_beginnings() -> None:
    """Blocks of PEM that don't end are looked at in one pass: a server can't hold up a run by 16 MiB of them."""
    with pytest.raises(crls.CrlRefused, match="neither DER nor one PEM block"):
        crls.read_crl(b"-----BEGIN X509 CRL-----\n" * 600_000)


def test_several_certificates_of_one_key(elm: made.Authority) -> None:
    """A CRL is that of one of the names that the issuer's certificates have."""
    renamed = made.Authority.of("elm of old", elm.key)
    octets = made.der_of(elm.crl([5]))
    assert crls.vet(octets, [renamed.der, elm.der], URL, {}, True).serials() == {b"\x05"}
    with pytest.raises(crls.CrlRefused, match="its issuer's name"):
        crls.vet(octets, [renamed.der], URL, {}, True)


# ---- distribution points

POINTS: list[tuple[Any, bool, dict[str, str], str | None]] = [
    (None, True, {}, None),
    (None, False, {}, "names no distribution point"),
    (point(URL), False, {}, None),
    (point(OTHER, URL), True, {}, None),
    (point(URL, only_contains_user_certs=True), False, {}, None),
    (point(only_contains_user_certs=True), True, {}, None),
    (point(only_contains_user_certs=True), False, {}, "names no distribution point"),
    (point(OTHER), False, {}, "is another point's"),
    (point(OTHER), True, {}, "is another point's"),
    (point(OTHER), False, {URL: OTHER}, None),
    (point(URL), False, {URL: OTHER}, "is another point's"),
    (point(URL, only_contains_ca_certs=True), True, {}, "onlyContainsCACerts"),
    (point(URL, only_contains_attribute_certs=True), True, {}, "onlyContainsAttributeCerts"),
    (point(URL, indirect_crl=True), True, {}, "indirect"),
    (point(URL, only_some_reasons=frozenset([x509.ReasonFlags.ca_compromise])), True, {}, "onlySomeReasons"),
]


@pytest.mark.parametrize("given, alone, names, refused", POINTS)
def test_points(elm: made.Authority, given: Any, alone: bool, names: dict[str, str], refused: str | None) -> None:
    octets = made.der_of(elm.crl([5], [given] if given else []))
    if refused is None:
        crl = crls.vet(octets, [elm.der], URL, names, alone)
        assert crl.point == tuple(name.value for name in (given[0].full_name or () if given else ()))
        return
    with pytest.raises(crls.CrlRefused, match=refused):
        crls.vet(octets, [elm.der], URL, names, alone)


def test_a_point_by_a_directory_name(elm: made.Authority) -> None:
    """It names another thing than a URL, so the CRL may be one of several."""
    flags = {"only_some_reasons": None, "indirect_crl": False, "only_contains_attribute_certs": False}
    name = [x509.DirectoryName(made.name_of("part 1"))]
    given = x509.IssuingDistributionPoint(
        name, None, only_contains_user_certs=False, only_contains_ca_certs=False, **flags  # type: ignore[arg-type]
    )
    with pytest.raises(crls.CrlRefused, match="names no URL, and not http"):
        vetted(elm, made.der_of(elm.crl([5], [(given, True)])))


# ---- what is refused

UNKNOWN = x509.UnrecognizedExtension(x509.ObjectIdentifier("1.2.3.4"), b"\x05\x00")
REFUSED: list[tuple[Marked, Marked, str, str]] = [
    ([(x509.DeltaCRLIndicator(4), True)], [], "delta", "delta"),
    ([(x509.DeltaCRLIndicator(4), False)], [], "delta", "delta"),
    ([(UNKNOWN, True)], [], "unknown critical extension", "critical"),
    ([], [(UNKNOWN, True)], "an entry with an unknown critical extension", "critical"),
    ([], [(x509.CertificateIssuer([x509.DirectoryName(made.name_of("oak"))]), True)], "indirect", "indirect"),
    ([point(URL, indirect_crl=True)], [], "indirect", "indirect"),
]


@pytest.mark.parametrize("outside, inside, text, fault", REFUSED)
def test_refused(elm: made.Authority, tmp_path: Path, outside: Marked, inside: Marked, text: str, fault: str) -> None:
    octets = made.der_of(elm.crl([5], outside, inside))
    with pytest.raises(crls.CrlRefused, match=text):
        vetted(elm, octets)
    assert status_by_program(tmp_path, octets) == fault


def test_unknown_and_not_critical(elm: made.Authority, tmp_path: Path) -> None:
    octets = made.der_of(elm.crl([5], [(UNKNOWN, False)], [(UNKNOWN, False)]))
    assert vetted(elm, octets).serials() == {b"\x05"}
    assert status_by_program(tmp_path, octets) == "accepted"


def test_of_another_key(elm: made.Authority) -> None:
    twin, oak = made.Authority.of("elm"), made.Authority.of("oak")
    for authority, text in ((twin, "isn't signed by the issuer"), (oak, "another issuer's")):
        with pytest.raises(crls.CrlRefused, match=text):
            vetted(elm, made.der_of(authority.crl([5])))


def test_no_crl(elm: made.Authority) -> None:
    octets = made.der_of(elm.crl([5]))
    pem = made.pem_of(elm.crl([5]))
    for given, text in (
        (b"", "neither DER nor one PEM block"),
        (b"<html>404</html>", "neither DER nor one PEM block"),
        (pem + pem, "it has 2"),
        (made.pem_of(elm.certificate), "it has 0"),
        (pem.replace(b"\nM", b"\n*"), "isn't Base64"),
        (octets[:-1], "isn't a CRL"),
        (octets[: len(octets) // 2], "isn't a CRL"),
        (octets + b"\n", "isn't a CRL"),
        (elm.der, "isn't a CRL"),
    ):
        with pytest.raises(crls.CrlRefused, match=text):
            vetted(elm, given)
    with pytest.raises(crls.CrlRefused, match="a certificate of its issuer isn't read"):
        crls.vet(octets, [b"\x30\x00"], URL, {}, True)


def test_a_point_twice() -> None:
    """A second distribution point would narrow the first, and nobody would see it."""
    whole = extensions.Extension(extensions.ISSUING_POINT, True, b"\x30\x00")
    some_reasons = extensions.Extension(extensions.ISSUING_POINT, True, b"\x30\x04\x83\x02\x05\x20")
    assert extensions.issuing_point(some_reasons.value).scope == {"reasons"}
    crls._test_extensions([whole])
    with pytest.raises(crls.CrlRefused, match="an extension twice"):
        crls._test_extensions([whole, some_reasons])


def test_algorithms_that_differ(elm: made.Authority) -> None:
    """The algorithm stands twice in a CRL; what isn't signed must be what is."""
    octets, ecdsa = made.der_of(elm.crl([5])), bytes.fromhex("06082a8648ce3d040302")
    place = octets.rindex(ecdsa)
    other = octets[:place] + bytes.fromhex("06082a8648ce3d040303") + octets[place + len(ecdsa) :]
    with pytest.raises(crls.CrlRefused, match="names one algorithm"):
        vetted(elm, other)


# ---- those of openssl


def test_of_openssl(tmp_path: Path) -> None:
    """A CRL of RSASSA-PSS, and one whose serials openssl prints."""
    (tmp_path / "index.txt").touch()
    (tmp_path / "serial").write_text("80\n")
    (tmp_path / "crlnumber").write_text("1000\n")
    text = (
        "[ca]\ndefault_ca=a\n[a]\ndatabase=index.txt\nserial=serial\ncrlnumber=crlnumber\nnew_certs_dir=.\n"
        "default_md=sha256\npolicy=p\ndefault_days=30\n[p]\ncommonName=supplied\n"
    )
    (tmp_path / "ca.cnf").write_text(text)
    make = "openssl req -x509 -newkey rsa:2048 -nodes -keyout ca.key -out ca.pem -subj /CN=elm"
    ask = "openssl req -newkey rsa:2048 -nodes -keyout site.key -out site.csr -subj /CN=site"
    ca = "openssl ca -config ca.cnf -cert ca.pem -keyfile ca.key -batch -notext"
    pss = "-sigopt rsa_padding_mode:pss -sigopt rsa_pss_saltlen:32"
    commands = [make, ask, f"{ca} -in site.csr -out site.pem", f"{ca} -revoke site.pem -crl_reason keyCompromise"]
    for command in [
        *commands,
        f"{ca} -gencrl -crldays 30 -out plain.crl",
        f"{ca} -gencrl -crldays 30 {pss} -out pss.crl",
    ]:
        subprocess.run(command.split(), cwd=tmp_path, check=True, capture_output=True)
    certificate = made.der_of(x509.load_pem_x509_certificate((tmp_path / "ca.pem").read_bytes()))
    for name, number in (("plain.crl", 0x1000), ("pss.crl", 0x1001)):
        crl = crls.vet((tmp_path / name).read_bytes(), [certificate], URL, {}, True)
        assert (crl.number, crl.serials()) == (number, {b"\x00\x80"})
        assert status_by_program(tmp_path, crl.der) == "accepted"


@pytest.mark.parametrize("length", [0, 1, 20, 32, 33, 200])
def test_lengths_of_serials(length: int, tmp_path: Path) -> None:
    """A serial that can't be asked about is passed over; one without octets is none."""
    octets = made.unsigned_crl([b"\x05", b"\x01" * length])
    status = status_by_program(tmp_path, octets)
    crl = crls.Crl(octets, None, 0, None, ())
    if length:
        assert status == "accepted"
        assert crl.serials() == {b"\x05"} | ({b"\x01" * length} if length <= 32 else set())
    else:
        assert status == "malformed"
        with pytest.raises(der.Malformed):
            crl.serials()


# ---- damage


def read_as(octets: bytes) -> tuple[list[bytes], int, int | None] | None:
    """What is read of a CRL whose signature isn't looked at, None where it is refused."""
    try:
        form = crls._read(octets)
        found = extensions.read_extensions(form.extensions)
        crls._test_extensions(found)
        serials = list(crls._serials(form.revoked))
        for extension in found:
            if extension.oid == extensions.ISSUING_POINT:
                crls._test_point(extensions.issuing_point(extension.value), URL, False)
    except (der.Malformed, crls.CrlRefused):
        return None
    return serials, form.this_update, None if form.next_update is None else 1000 * form.next_update


def test_damage_by_the_second_program(elm: made.Authority) -> None:
    """What is refused by the program is refused here; what is accepted here is read as the program reads it."""
    chosen = random.Random(5)
    whole: Marked = [(x509.CRLNumber(7), False), point(URL)]
    reasons: Marked = [(x509.CRLReason(x509.ReasonFlags.key_compromise), False)]
    kinds = [
        made.der_of(elm.crl([5, 0x80])),
        made.der_of(elm.crl([5, 6], whole, reasons)),
        made.unsigned_crl([b"\x05"]),
    ]
    refused = 0
    for _ in range(20000):
        octets = bytearray(chosen.choice(kinds))
        for _ in range(chosen.choice((0, 1, 1, 2))):
            octets[chosen.randrange(len(octets))] = chosen.choice((0, 1, 2, 4, 0x17, 0x18, 0x30, 0x84, 0xA0, 0xFF))
        theirs, ours = READERS.FoundCrl(bytes(octets)), read_as(bytes(octets))
        if theirs.fault:
            refused += 1
            assert ours is None
        elif ours is not None:
            assert ours == (theirs.serials, theirs.this, theirs.next_ms)
        else:
            # A field of the distribution point that the program doesn't read.
            assert b"\x55\x1d\x1c" in octets
    assert 2000 < refused < 18000
