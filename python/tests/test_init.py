"""`init`: the example CONFIG and the key."""

import base64
import re
import shutil
import stat
import subprocess
import tomllib
from datetime import datetime
from pathlib import Path

import pytest
from cryptography import x509
from cryptography.hazmat.primitives import hashes, serialization
from cryptography.hazmat.primitives.asymmetric import ec
from cryptography.x509.oid import NameOID

from clubcard import minisign
from clubcard.publish import config, init

pytestmark = pytest.mark.skipif(
    shutil.which("minisign") is None, reason="minisign isn't installed (Debian's package minisign)"
)


def certificate() -> tuple[bytes, bytes]:
    """A certificate in PEM, and its key's SubjectPublicKeyInfo in DER."""
    key = ec.generate_private_key(ec.SECP256R1())
    name = x509.Name([x509.NameAttribute(NameOID.COMMON_NAME, "Example CA")])
    made = x509.CertificateBuilder(name, name, key.public_key(), 5, datetime(2026, 1, 1), datetime(2027, 1, 1))
    spki = key.public_key().public_bytes(serialization.Encoding.DER, serialization.PublicFormat.SubjectPublicKeyInfo)
    return made.sign(key, hashes.SHA256()).public_bytes(serialization.Encoding.PEM), spki


def test_written(tmp_path: Path) -> None:
    """CONFIG is taken as it stands, and the key pair signs without a password; only its owner may read it."""
    folder = tmp_path / "new" / "publisher"
    files = init.write_example(folder)
    assert [path.name for path in files] == ["publisher.toml", "publisher.key", "publisher.pub"]
    made = config.load(files[0])
    assert made.key == files[1] and made.issuers == () and len(config.hints(made)) == 2
    assert stat.S_IMODE(files[1].stat().st_mode) == 0o600
    assert re.fullmatch(r"RW[A-Za-z0-9+/]{54}", minisign.public_line(files[2]))
    signature = tmp_path / "signature"
    minisign.sign(files[0], signature, files[1], "generation 1 epoch 1")
    words = ["minisign", "-V", "-Q", "-p", str(files[2]), "-x", str(signature), "-m", str(files[0])]
    assert subprocess.run(words, capture_output=True, check=True).stdout == b"generation 1 epoch 1\n"


def test_same_signature(tmp_path: Path) -> None:
    """The same file, key and comment give the same signature."""
    _, key, public = init.write_example(tmp_path)
    for name in ("first", "second"):
        minisign.sign(public, tmp_path / name, key, "generation 1 epoch 1")
    assert (tmp_path / "first").read_bytes() == (tmp_path / "second").read_bytes()


def test_each_key(tmp_path: Path) -> None:
    """The whole example, with the issuer and the log, is taken; and it has each key that CONFIG may have."""
    init.write_example(tmp_path)
    minisign.new_key(tmp_path / "next.key", tmp_path / "next.pub")
    pem, spki = certificate()
    (tmp_path / "r1.pem").write_bytes(pem)
    line = base64.b64encode(spki).decode()
    text = re.sub(r"^##?(?=\S)", "", init.example(), flags=re.MULTILINE).replace('"BASE64"', f'"{line}"')
    path = tmp_path / "publisher.toml"
    path.write_text(text.replace('kind = "rfc6962"', 'kind = "static"'))
    made = config.load(path)
    said = tomllib.loads(text)
    assert set(said) == set(config._KEYS)
    assert set(said["issuer"][0]) == set(config._ISSUER_KEYS) and set(said["log"][0]) == set(config._LOG_KEYS)
    assert made.next_key == minisign.public_line(tmp_path / "next.pub")
    assert made.issuers[0].name == "Example CA" and made.logs[0].origin == "log.example/2026"


def test_defaults(tmp_path: Path) -> None:
    """What the example says of each key is what holds where CONFIG doesn't have it."""
    path = init.write_example(tmp_path)[0]
    written = config.load(path)
    path.write_text('name = "example"\n')
    assert config.load(path) == written


@pytest.mark.parametrize("name", ["publisher.toml", "publisher.key", "publisher.pub"])
def test_nothing_is_replaced(tmp_path: Path, name: str) -> None:
    """Where one of the files is there, none is written."""
    (tmp_path / name).write_text("mine")
    with pytest.raises(init.InitError, match="there already: name another folder"):
        init.write_example(tmp_path)
    assert [path.name for path in tmp_path.iterdir()] == [name] and (tmp_path / name).read_text() == "mine"


def test_no_folder(tmp_path: Path) -> None:
    """A name that can't be a folder is told."""
    (tmp_path / "file").write_text("")
    with pytest.raises(init.InitError, match="can't be written"):
        init.write_example(tmp_path / "file" / "below")


PROJECT = Path(__file__).resolve().parents[2]
UNITS = PROJECT / "python" / "clubcard" / "publish" / "systemd"


def test_from_the_tree(tmp_path: Path) -> None:
    """`./clubcard-publish` of the tree runs from another folder, also by a link to it, and its CONFIG is taken."""
    (tmp_path / "link").symlink_to(PROJECT / "clubcard-publish")
    words = [str(tmp_path / "link"), "init", "publisher"]
    done = subprocess.run(words, cwd=tmp_path, capture_output=True, text=True, check=True)
    assert done.stdout.splitlines() == [
        f"publisher/{name}" for name in ("publisher.toml", "publisher.key", "publisher.pub")
    ]
    words = [str(tmp_path / "link"), "check", "publisher/publisher.toml"]
    done = subprocess.run(words, cwd=tmp_path, capture_output=True, text=True, check=False)
    assert (done.returncode, done.stderr) == (0, "") and "program: clubcard: fine" in done.stdout


@pytest.mark.skipif(shutil.which("systemd-analyze") is None, reason="systemd-analyze isn't installed")
def test_units(tmp_path: Path) -> None:
    """systemd reads the unit and the timer and has nothing to say, and their words are the program's."""
    unit = (UNITS / "clubcard-publish.service").read_text(encoding="utf-8")
    assert "\nExecStart=clubcard-publish run /var/lib/clubcard/publisher.toml\n" in unit
    # Neither the program nor its manual page is installed here.
    plain = re.sub(r"(?m)^ExecStart=.*$", "ExecStart=/bin/true", re.sub(r"(?m)^Documentation=.*$", "", unit))
    (tmp_path / "clubcard-publish.service").write_text(plain)
    shutil.copy(UNITS / "clubcard-publish.timer", tmp_path)
    words = ["systemd-analyze", "verify", *sorted(str(path) for path in tmp_path.iterdir())]
    done = subprocess.run(words, capture_output=True, text=True, check=False)
    assert (done.returncode, done.stderr) == (0, "")
