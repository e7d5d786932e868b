"""`clubcardctl ask` of folders and of files that aren't as they should be: no revoked certificate is passed over."""

import json
import os
import shutil
from collections.abc import Iterator
from pathlib import Path
from typing import Any

import pytest
from cryptography import x509

import made
from asked import SERIALS, Small, answers, called, ctl, ends, stamped, timestamp
from clubcard.pki import LONGEST_FILE


@pytest.fixture(name="small", scope="module")
def fixture_small(tmp_path_factory: pytest.TempPathFactory) -> Small:
    return Small(tmp_path_factory.mktemp("ask"))


@pytest.fixture(name="folder")
def fixture_folder(small: Small, tmp_path: Path) -> Path:
    """A folder with the certificate that is good, and with files that hold none."""
    shutil.copy(small["elm-good.chain"], tmp_path / "good.pem")
    (tmp_path / "README").write_text("no certificate\n", encoding="utf-8")
    shutil.copy(small["elm.crl"], tmp_path / "elm.crl")
    assert ctl("ask", small.store, tmp_path).stdout == f"good {tmp_path / 'good.pem'}\n"
    return tmp_path


# ---- folders


@pytest.mark.parametrize("name", ["revoked.der", "REVOKED.CER", "revoked.Crt", "revoked", "in/a/revoked.der"])
def test_names_in_folders(small: Small, folder: Path, name: str) -> None:
    """A certificate in DER is asked about whatever its name is."""
    (folder / name).parent.mkdir(parents=True, exist_ok=True)
    shutil.copy(small["elm-revoked.der"], folder / name)
    ends(f"revoked {folder / name}\n", 1, "ask", "-i", small["elm.pem"], small.store, folder)


@pytest.mark.parametrize("name", ["elm-revoked.pem", "elm-revoked.der"])
def test_damaged_files_in_folders(small: Small, folder: Path, name: str) -> None:
    (folder / name).write_bytes(small[name].read_bytes()[:-40])
    assert f"{folder / name}: there is no certificate in it" in ends("good", 5, "ask", small.store, folder).stderr
    (folder / name).unlink()
    (folder / name).symlink_to("absent")
    assert f"{folder / name}: there is no such file" in ends("good", 5, "ask", small.store, folder).stderr


def test_folders_that_can_not_be_read(small: Small, folder: Path, monkeypatch: pytest.MonkeyPatch) -> None:
    """One in a folder that is named, and this itself."""
    (folder / "in").mkdir()
    scandir = os.scandir
    for unread in (folder / "in", folder):

        def refuse(name: Any, unread: Path = unread) -> Iterator[os.DirEntry[str]]:
            if Path(name) == unread:
                raise PermissionError(13, "Permission denied", name)
            return scandir(name)

        monkeypatch.setattr(os, "scandir", refuse)
        found = {each["name"]: each["status"] for each in answers(small.store, folder)}
        good = {} if unread == folder else {str(folder / "good.pem"): 0}
        assert found == {**good, str(unread): 5}
        monkeypatch.undo()


def test_special_files_in_folders(small: Small, folder: Path) -> None:
    """Pipes and devices are passed over, also by links."""
    os.mkfifo(folder / "pipe.der")
    (folder / "zero.pem").symlink_to("/dev/zero")
    done = called("ask", small.store, folder, timeout=30)
    assert (done.returncode, done.stdout.decode(), done.stderr) == (0, f"good {folder / 'good.pem'}\n", b"")


def test_files_that_are_too_long(small: Small, folder: Path) -> None:
    """One that is named is a fault, and so is one of a folder in which a certificate begins."""
    with open(folder / "long", "wb") as file:
        file.truncate(LONGEST_FILE + 1)
    ends("good", 0, "ask", small.store, folder)
    ends("it has more than 16777216 bytes; give its", 5, "ask", small.store, folder / "long")
    with open(folder / "long", "r+b") as file:
        file.write(small["elm-revoked.chain"].read_bytes())
    ends("it has more than 16777216 bytes", 5, "ask", small.store, folder)


# ---- several certificates in a file


def test_several_certificates(small: Small, folder: Path) -> None:
    """Each that is no issuer's is asked about, by an issuer in the file or given; one that stands twice once."""
    file, elm = folder / "good.pem", small["elm.pem"]

    def write(*names: str) -> None:
        file.write_bytes(b"".join(small[f"{name}.pem"].read_bytes() for name in names))

    every: list[tuple[list[str | Path], str]] = [(["-i", elm], "elm-good"), ([], "elm")]
    for more, last in every:
        write("elm-good", "elm-revoked", last, "elm-good", "elm-revoked")
        result = ctl("ask", *more, small.store, file)
        assert (result.exit_code, result.stdout) == (1, f"good {file}\nrevoked {file} (certificate 2)\n")
    write("elm", "elm-revoked")
    ends(f"revoked {file} (certificate 2)\n", 1, "ask", small.store, file)
    write("elm-good", "oak-good", "elm")
    ends("give that of its issuer, CN=oak", 5, "ask", small.store, file)


@pytest.mark.parametrize("is_authority", [True, False])
def test_authorities_behind_the_first(small: Small, folder: Path, is_authority: bool) -> None:
    """A certificate that issued none of the file is asked about unless its basic constraints say that it may."""
    extensions = [(x509.BasicConstraints(is_authority, None), True), stamped(timestamp(made.LOG, made.MOMENT))]
    with open(folder / "good.pem", "ab") as file:
        file.write(made.pem_of(small.elm.issue(SERIALS["revoked"], extensions)))
    result = ctl("ask", small.store, folder)
    assert (result.exit_code, result.stdout.count("\n")) == ((0, 1) if is_authority else (1, 2))


# ---- names


@pytest.mark.parametrize("command", ["ask", "explain"])
def test_names_that_are_not_printable(small: Small, folder: Path, command: str) -> None:
    """A name is in one line, also where it isn't text, and is no reason to lose a verdict behind it."""
    names = [folder / name for name in ("x\ngood y.der", os.fsdecode(b"x\xff.der"), "\u00e9.der")]
    for name in names:
        shutil.copy(small["elm-revoked.der"], name)
    words: list[str | Path] = [command, "-i", small["elm.pem"], small.store, *names, folder / "absent\ngood z.der"]
    more = {"variables": {"PYTHONIOENCODING": "utf-8:strict"}}
    done = called(*words, **more)
    lines = [line for line in done.stdout.decode().splitlines() if not line.startswith(" ")]
    shown = ("x\\ngood y", "x\\udcff", "\u00e9")
    assert (done.returncode, lines) == (1, [f"revoked {folder}/{name}.der" for name in shown])
    assert done.stderr.decode().count("\n") == 1
    found = json.loads(called(command, "--json", *words[1:], **more).stdout)
    assert [each["name"] for each in found[:3]] == [str(name) for name in names]
