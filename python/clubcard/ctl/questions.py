"""What is asked about: certificates in files and folders, those that hosts show, and serials."""

import os
import re
import stat
from collections.abc import Iterator, Sequence
from concurrent.futures import ThreadPoolExecutor
from dataclasses import dataclass
from pathlib import Path

from ..names import are_same, text_of
from ..pki import LONGEST_FILE, Certificate, PkiError, Sighting, certificates_of, is_authority, read_certificate
from . import notations
from .files import is_pair, why_no_pair
from .hosts import HostError, chain_of
from .verdicts import Answer, Identity, Status
from .words import NoCertificate, Wrong

# What tells of a certificate in a file that isn't read as one: the end of its name, or a line.
_DER_NAMES = (".der", ".crt", ".cer")
_PEM_LINE = re.compile(rb"-----BEGIN [A-Z0-9 ]*CERTIFICATE-----")
_MOST_SIGHTINGS = 64
# So many hosts are asked at once.
_MOST_HOSTS = 16
NO_CERTIFICATE = "no-certificate"
NO_ISSUER = "no-issuer"
NO_HOST = "no-host"


@dataclass(frozen=True)
class Placed:
    """A certificate, and where it stands."""

    certificate: Certificate
    place: str


@dataclass(frozen=True)
class Asked:
    """What has a certificate to ask about, and those behind it."""

    name: str
    certificate: Certificate
    chain: tuple[Placed, ...]


@dataclass(frozen=True)
class Words:
    """The words that say what is asked about."""

    certificates: Sequence[str] = ()
    hosts: Sequence[str] = ()
    issuers: Sequence[str] = ()
    """Files of issuers' certificates."""
    issuer: str | None = None
    serial: str | None = None
    logs: Sequence[str] = ()
    times: Sequence[str] = ()

    def by_serial(self) -> Identity | None:
        """What they say by a serial, if they do. Words that are wrong, or too few, raise `Wrong`."""
        if not (self.issuer or self.serial or self.logs or self.times):
            return None
        if self.issuer is None or self.serial is None or not self.logs:
            raise Wrong("a serial is asked about by all of --issuer, --serial, --log and --time")
        if len(self.logs) != len(self.times) or len(self.logs) > _MOST_SIGHTINGS:
            raise Wrong(f"--log and --time stand in pairs, 1 to {_MOST_SIGHTINGS} of them: each log's own time")
        logs = [notations.log_id(log) for log in self.logs]
        firsts, lasts = zip(*(notations.moment(time, "--time") for time in self.times))
        first, last = (tuple(map(Sighting, logs, times)) for times in (firsts, lasts))
        serial = notations.serial(self.serial)
        return Identity(notations.issuer(self.issuer), serial.octets, first, serial.other, last)


def _is_special(path: Path) -> bool:
    """Whether it is a pipe, a socket or a device, whose reading may not end."""
    try:
        return not stat.S_ISREG(path.stat().st_mode)
    except OSError:
        return False


def files_of(names: Sequence[str]) -> Iterator[tuple[str, bool]]:
    """The files of some names, in order: those that are named, and those of named folders and of the folders in
    them. With each whether it is named itself; so is a folder that can't be read."""
    for name in names:
        if not os.path.isdir(name):
            yield name, True
            continue
        unread: list[OSError] = []
        for place, folders, files in os.walk(name, onerror=unread.append):
            folders.sort()
            paths = (Path(place, file) for file in sorted(files))
            yield from ((str(path), False) for path in paths if not _is_special(path))
        yield from ((str(error.filename), True) for error in unread)


def _asked(name: str, ders: Sequence[bytes]) -> Asked:
    """The first of some certificates, and those behind it."""
    first, *chain = [read_certificate(each) for each in ders]
    return Asked(name, first, tuple(Placed(each, f"{name}, behind the first") for each in chain))


def _all_asked(name: str, ders: Sequence[bytes]) -> Iterator[Asked]:
    """The first of a file's certificates, and each later one that is no authority's and issued none of them."""
    first, *found = [read_certificate(each) for each in ders]
    yield _asked(name, ders)
    issuers = {each.issuer for each in (first, *found)}
    alone, behind = dict[Certificate, int](), [Placed(first, f"{name}, the first")]
    for place, each in enumerate(found, 2):
        is_named = any(are_same(each.subject, issuer) for issuer in issuers)
        if is_authority(each) or (is_named and any(is_pair(other, each) for other in (first, *found))):
            behind.append(Placed(each, f"{name}, behind the first"))
        elif each != first:
            alone.setdefault(each, place)
    for each, place in alone.items():
        yield Asked(f"{name} (certificate {place})", each, tuple(behind))


def given_issuers(names: Sequence[str]) -> list[Placed]:
    """The certificates in the files of issuers."""
    try:
        return [Placed(read_certificate(each), name) for name in names for each in certificates_of(name)]
    except PkiError as error:
        raise NoCertificate(str(error)) from error


def _may_hold_one(name: str) -> bool:
    """Whether a file that isn't read as one of certificates may hold one: also one that can't be read."""
    try:
        with open(name, "rb") as file:
            return name.lower().endswith(_DER_NAMES) or _PEM_LINE.search(file.read(LONGEST_FILE)) is not None
    except OSError:
        return True


def read_files(names: Sequence[str]) -> Iterator[Asked | Answer]:
    """What is asked about of some files and folders, or why there is nothing; `-` is standard input."""
    for name, is_named in files_of(names):
        try:
            yield from _all_asked(name, certificates_of("/dev/stdin" if name == "-" else name))
        except PkiError as error:
            # In a folder the files that hold none are passed over.
            status = Status.NO_CERTIFICATE if is_named or _may_hold_one(name) else None
            yield Answer(name, status, fault=NO_CERTIFICATE, why=str(error))


def _read_host(name: str) -> Asked | Answer:
    """What a TLS server shows, or why it shows nothing."""
    try:
        return _asked(name, chain_of(name))
    except HostError as error:
        return Answer(name, Status.NO_HOST, fault=NO_HOST, why=str(error))
    except PkiError as error:
        return Answer(name, Status.NO_CERTIFICATE, fault=NO_CERTIFICATE, why=f"{name}: {error}")


def read_hosts(names: Sequence[str]) -> Iterator[Asked | Answer]:
    """What TLS servers show, or why they show nothing, in the order of their names; some are asked at once."""
    with ThreadPoolExecutor(_MOST_HOSTS) as threads:
        yield from threads.map(_read_host, names)


def issuer_of(asked: Asked, given: Sequence[Placed], others: Sequence[Certificate]) -> Certificate:
    """The certificate that issued one that is asked about: one of its file, one given for it, or one of other files,
    but where some are near not itself. Else it raises `PkiError`."""
    near = [*asked.chain, *given]
    far = [each for each in others if not near or each != asked.certificate]
    for issuer in [*(each.certificate for each in near), *far]:
        if is_pair(asked.certificate, issuer):
            return issuer
    if len(near) == 1:
        raise PkiError(why_no_pair(asked.certificate, asked.name, near[0].certificate, near[0].place) or "")
    named = text_of(asked.certificate.issuer)
    raise PkiError(
        f"no certificate that is given issued the one in {asked.name}",
        f"give that of its issuer, {named}, by --issuer-certificate, or behind it in its file",
    )
