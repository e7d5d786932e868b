"""Names of issuers and logs, by manifests and certificates."""

from collections.abc import Iterator, Sequence
from pathlib import Path

from ..names import text_of
from ..pki import PkiError, certificates_of, read_certificate
from ..manifest import ManifestError, from_json
from .files import octets_of
from .words import Wrong

Names = dict[bytes, str]


def names_of(manifests: Sequence[str], certificates: Sequence[str]) -> Names:
    """The names of issuers and logs by their keys (32 bytes): those of manifests, and of no manifest's issuers those
    of certificates."""
    names: Names = {}
    for name in certificates:
        names.update(_of_certificates(name))
    for name in manifests:
        names.update(_of_manifest(name))
    return names


def printed(name: str) -> str:
    """A name as it is printed: what isn't printable is written in escapes."""
    return "".join(each if each.isprintable() else ascii(each)[1:-1] for each in name)


def _of_certificates(name: str) -> Iterator[tuple[bytes, str]]:
    """The subjects of the certificates in a file, or in the files of a folder that hold some, by their keys' hashes."""
    is_folder = Path(name).is_dir()
    files = sorted(path for path in Path(name).rglob("*") if path.is_file()) if is_folder else [Path(name)]
    for path in files:
        try:
            for each in map(read_certificate, certificates_of(path)):
                yield each.key_hash(), text_of(each.subject)
        except PkiError as error:
            if not is_folder:
                raise Wrong(str(error)) from error


def _of_manifest(name: str) -> Iterator[tuple[bytes, str]]:
    """The names that a manifest has of issuers, and of the logs that it covers. Its signature isn't looked at."""
    try:
        manifest = from_json(octets_of(name))
    except ManifestError as error:
        raise Wrong(f"{name}: {error}; give a site's manifest.json") from error
    yield from ((issuer.issuer, issuer.name) for issuer in manifest.issuers)
    yield from ((covered.log, covered.name) for covered in manifest.coverage)
