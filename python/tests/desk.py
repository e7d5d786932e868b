"""A publisher's desk for tests of whole runs: one issuer, a folder, and a web of pages without a network."""

import datetime
from dataclasses import dataclass, field
from pathlib import Path
from typing import Any

from cryptography import x509
from cryptography.hazmat.primitives import hashes
from cryptography.hazmat.primitives.asymmetric import ec

from clubcard import der as elements
from clubcard import minisign
from clubcard.http import Client, FetchError, Response
from clubcard.publish.config import Config, load
from clubcard.publish.run import Outcome, run

from made import PROGRAM, Authority, der_of, pem_of

NOW = 1_700_000_000_000
HOUR = 3_600_000
URL = "http://crl.example/r1.crl"


def date(time: int) -> datetime.datetime:
    """A time in milliseconds, in whole seconds."""
    return datetime.datetime(1970, 1, 1) + datetime.timedelta(seconds=time // 1000)


def made_crl(
    by: Authority, number: int | None = 1, this: int = NOW - HOUR, until: int = NOW + HOUR, **more: Any
) -> bytes:
    """A CRL. more: `points` (URLs of its distribution point), `indirect`, `key`, `serials`, `extra` (an extension)."""
    builder = x509.CertificateRevocationListBuilder().issuer_name(by.name).last_update(date(this))
    builder = builder.next_update(date(until))
    if number is not None:
        builder = builder.add_extension(x509.CRLNumber(number), False)
    if more.get("points"):
        names: list[x509.GeneralName] = [x509.UniformResourceIdentifier(url) for url in more["points"]]
        point = x509.IssuingDistributionPoint(names, None, False, False, None, more.get("indirect", False), False)
        builder = builder.add_extension(point, True)
    if "extra" in more:
        builder = builder.add_extension(more["extra"], True)
    for serial in more.get("serials", ()):
        revoked = x509.RevokedCertificateBuilder().serial_number(serial).revocation_date(date(this)).build()
        builder = builder.add_revoked_certificate(revoked)
    return der_of(builder.sign(more.get("key", by.key), hashes.SHA256()))


class Web(Client):
    """What stands at URLs: bytes, with an ETag each, or why nothing comes."""

    def __init__(self) -> None:
        super().__init__()
        self.pages: dict[str, bytes | FetchError] = {}
        self.asked: dict[str, str | None] = {}

    def get(self, url: str, most_bytes: int, etag: str | None = None, modified: str | None = None) -> Response:
        """The page of a URL."""
        self.asked[url] = etag
        page = self.pages.get(url, FetchError("status 404", 404))
        if isinstance(page, FetchError):
            raise page
        own = f'"{hash(page)}"'
        return Response(304, b"", {}, own, None) if own == etag else Response(200, page, {}, own, None)


@dataclass
class Publisher:
    """A folder with CONFIG, a key and a certificate, and the web that is asked."""

    folder: Path
    web: Web = field(default_factory=Web)
    authority: Authority = field(default_factory=lambda: Authority.of("Example CA"))

    def __post_init__(self) -> None:
        self.folder.mkdir(exist_ok=True)
        minisign.new_key(self.folder / "publisher.key", self.folder / "publisher.pub")
        (self.folder / "r1.pem").write_bytes(pem_of(self.authority.certificate))
        self.web.pages[URL] = made_crl(self.authority, until=NOW + 1000 * HOUR, serials=[5, 7])
        self.write()

    @property
    def file(self) -> Path:
        """CONFIG."""
        return self.folder / "CONFIG.toml"

    def write(self, more: str = "", program: str = PROGRAM) -> None:
        """Writes CONFIG with something more."""
        issuer = f'[[issuer]]\nname = "Example CA"\ncertificate = ["r1.pem"]\ncrls = ["{URL}"]\n'
        self.file.write_text(f'name = "example"\nprogram = "{program}"\n{more}\n{issuer}', encoding="utf-8")

    def config(self) -> Config:
        """CONFIG as it stands."""
        return load(self.file)

    def run(self, moment: int = NOW) -> Outcome:
        """One run."""
        return run(self.config(), moment, client=self.web)

    def site(self) -> dict[str, bytes]:
        """Each file of the site."""
        site = self.folder / "site"
        return {str(path.relative_to(site)): path.read_bytes() for path in site.rglob("*") if path.is_file()}


def element(tag: int, contents: bytes) -> bytes:
    """An element of DER."""
    size = len(contents)
    octets = size.to_bytes((size.bit_length() + 7) // 8, "big")
    return bytes([tag]) + (bytes([size]) if size < 128 else bytes([0x80 | len(octets)]) + octets) + contents


def resigned(by: Authority, crl: bytes, old: bytes, new: bytes) -> bytes:
    """A CRL with `new` instead of `old` in what is signed, and signed anew by a key of ECDSA."""
    walk = elements.Walk(elements.only(crl, elements.SEQUENCE))
    signed, algorithm = walk.take().contents, walk.take().whole
    assert old in signed
    tbs = element(elements.SEQUENCE, signed.replace(old, new, 1))
    signature = element(elements.BIT_STRING, b"\0" + by.key.sign(tbs, ec.ECDSA(hashes.SHA256())))
    return element(elements.SEQUENCE, tbs + algorithm + signature)


def utc(time: int) -> bytes:
    """A time of whole seconds as a UTCTime."""
    return element(elements.UTC_TIME, date(time).strftime("%y%m%d%H%M%SZ").encode("ascii"))


def year(number: int) -> bytes:
    """The beginning of a year as a GeneralizedTime."""
    return element(elements.GENERALIZED_TIME, b"%04d0101000000Z" % number)
