"""`clubcardctl`, against openssl, the second program of tools/ and the program; and its installation."""

import base64
import calendar
import json
import os
import subprocess
import sys
from collections.abc import Iterator
from pathlib import Path

import pytest
from click.testing import CliRunner, Result
from cryptography import x509

import made
from clubcard import pki
from clubcard.ctl.cli import main
from clubcard.engine import Engine

READERS = made.second_program("scenario_readers")
TIMESTAMPS = x509.ObjectIdentifier("1.3.6.1.4.1.11129.2.4.2")
SEEN = str(made.MOMENT)
LOG = made.LOG.hex()


def ctl(*words: str | Path, lines: str = "") -> Result:
    """A call of clubcardctl."""
    return CliRunner(mix_stderr=False).invoke(main, [str(word) for word in words], input=lines, prog_name="clubcardctl")


def said(*words: str | Path, lines: str = "") -> str:
    """What a call prints, which is right."""
    result = ctl(*words, lines=lines)
    assert result.exit_code == 0, result.stderr
    return result.stdout


def wrong(text: str, *words: str | Path, lines: str = "") -> None:
    """A call with wrong words or files, of which this is said."""
    result = ctl(*words, lines=lines)
    assert (result.exit_code, result.stdout) == (2, "")
    assert text in result.stderr


def stamped(time: int) -> tuple[x509.ExtensionType, bool]:
    """The extension of one timestamp."""
    octets = b"\0" + made.LOG + time.to_bytes(8, "big") + bytes(2) + b"\x04\x03\x00\x00"
    contents = made.vector(made.vector(octets, 2), 2)
    return x509.UnrecognizedExtension(TIMESTAMPS, b"\x04" + made.vector(contents, 1)), False


@pytest.fixture(name="folder", scope="module")
def fixture_folder(tmp_path_factory: pytest.TempPathFactory) -> Iterator[Path]:
    """Two authorities with three certificates each, of which elm's second is revoked, and the store of elm's first two
    and of oak's first one. The third ones carry a time that isn't covered; oak isn't enrolled."""
    folder = tmp_path_factory.mktemp("ctl")
    before = os.getcwd()
    os.chdir(folder)
    for name in ("elm", "oak"):
        authority = made.Authority.of(name)
        Path(f"{name}.pem").write_bytes(made.pem_of(authority.certificate))
        Path(f"{name}.der").write_bytes(authority.der)
        Path(f"{name}.crl").write_bytes(made.pem_of(authority.crl([0x81])))
        for number, time in enumerate((0, 0, 9000)):
            certificate = authority.issue(0x80 + number, [stamped(made.MOMENT + time)])
            Path(f"{name}{number}.pem").write_bytes(made.pem_of(certificate))
            Path(f"{name}{number}.chain").write_bytes(made.pem_of(certificate) + made.pem_of(authority.certificate))
    Path("plain.pem").write_bytes(made.pem_of(made.Authority.of("ash").certificate))
    shown = [word for name in ("elm0", "elm1") for word in ("--certificate", f"{name}.pem", "elm.pem", LOG, SEEN)]
    words = ["--epoch", "1", "--moment", SEEN, "--range", LOG, SEEN, str(made.MOMENT + 1000), *shown]
    said("job", *words, "--crl", "elm.der", "elm.crl", "--certificate", "oak0.pem", "oak.pem", LOG, SEEN, "job")
    engine = Engine(made.PROGRAM)
    line = engine.snapshot("job", "part", "ledger", 1)
    assert (line.accepted, line.revoked, line.unenrolled) == (2, 1, 1)
    engine.start("part", "store")
    yield folder
    os.chdir(before)


# ---- jobs, pages, queries, identities


def test_job(folder: Path) -> None:
    job = READERS.read_job(Path("job").read_bytes())
    certificates = [
        x509.load_pem_x509_certificate(Path(f"{name}.pem").read_bytes()) for name in ("elm0", "elm1", "oak0")
    ]
    assert (job.epoch, job.moment) == (1, made.MOMENT)
    assert job.ranges == [(made.LOG, made.MOMENT, made.MOMENT + 1000)]
    assert [entry.id[2] for entry in job.entries] == [b"\x00\x80", b"\x00\x81", b"\x00\x80"]
    dates = [calendar.timegm(each.not_valid_after.timetuple()) for each in certificates]
    assert [entry.until for entry in job.entries] == dates
    ((issuer, crl),) = job.crls
    assert issuer == pki.issuer_hash(Path("elm.der").read_bytes()) and crl.serials == [b"\x00\x81"]
    assert not Path("job.draft").exists()


def test_job_by_words_in_files(folder: Path) -> None:
    """The same job by words in a file, which names another one; ranges are written in their order."""
    Path("words").write_text(f"--range {LOG} {SEEN} {SEEN} # a comment\n\n--crl elm.pem 'elm.crl'\n@more\n")
    Path("more").write_text(f"--range {'11' * 32} {SEEN} {SEEN}\n")
    line = said("job", "--epoch", "7", "--moment", SEEN, "@words", "other")
    size = Path("other").stat().st_size
    assert line == f"job other epoch 7 moment {SEEN} ranges 2 crls 1 entries 0 bytes {size}\n"
    job = READERS.read_job(Path("other").read_bytes())
    assert [log for log, _, _ in job.ranges] == [b"\x11" * 32, made.LOG]


def test_entries_as_they_stand(folder: Path) -> None:
    leaf, extra = made.precertificate_entry(b"\x30\x03\x02\x01\x05", bytes(32), made.MOMENT)
    Path("leaf").write_bytes(leaf)
    Path("extra").write_bytes(extra)
    said("job", "--epoch", "1", "--moment", SEEN, "--entry", LOG, "leaf", "extra", "entries")
    (entry,) = READERS.read_job(Path("entries").read_bytes()).entries
    assert (entry.log, entry.leaf, entry.extra) == (made.LOG, leaf, extra)


BEGUN = ["job", "--epoch", "1", "--moment", SEEN]
WRONG: list[tuple[str, list[str]]] = [
    ("if these are seconds, write 1700000000000", ["job", "--epoch", "1", "--moment", "1700000000"]),
    ("`date -d '2023-11-14' +%s000`", ["job", "--epoch", "1", "--moment", "2023-11-14"]),
    ("of 1 to 20 decimal digits", ["job", "--epoch", "1", "--moment", "1" * 21]),
    ("of 1 to 20 decimal digits", ["job", "--epoch", "one", "--moment", SEEN]),
    ("of 1 to 20 decimal digits", ["job", "--epoch", str(1 << 64), "--moment", SEEN]),
    ("13 digits; write a time as `date +%s000`", [*BEGUN, "--range", LOG, "0", SEEN]),
    ("a range ends before it starts", [*BEGUN, "--range", LOG, SEEN, str(made.MOMENT - 1)]),
    ("two ranges of one log", [*BEGUN, *["--range", LOG, SEEN, SEEN] * 2]),
    ("a log id has 64 hexadecimal digits", [*BEGUN, "--range", LOG[1:], SEEN, SEEN]),
    ("a log id has 64 hexadecimal digits", [*BEGUN, "--range", " " + LOG[1:], SEEN, SEEN]),
    ("1025 ranges, and a job has at most 1024", [*BEGUN, *["--range", LOG, SEEN, SEEN] * 1025]),
    ("its issuer's name isn't the subject of oak.pem", [*BEGUN, "--crl", "oak.pem", "elm.crl"]),
    ("neither DER nor one PEM block X509 CRL", [*BEGUN, "--crl", "elm.pem", "elm.pem"]),
    ("it can't be read", [*BEGUN, "--crl", "elm.pem", "absent"]),
    ("there is no such file", [*BEGUN, "--crl", "absent", "elm.crl"]),
    ("its issuer's name isn't the subject", [*BEGUN, "--certificate", "elm0.pem", "oak.pem", LOG, SEEN]),
    ("there is no certificate in it", [*BEGUN, "--certificate", "elm.crl", "oak.pem", LOG, SEEN]),
    ("the time of elm0.pem 1700000000", [*BEGUN, "--certificate", "elm0.pem", "elm.pem", LOG, "1700000000"]),
    ("@absent: No such file", [*BEGUN, "@absent"]),
    ("@itself: the file stands for itself", [*BEGUN, "@itself"]),
    ("@quoted: No closing quotation", [*BEGUN, "@quoted"]),
    ("requires 3 arguments", [*BEGUN, "--range", LOG]),
    ("No such option", [*BEGUN, "--ranges", LOG]),
    ("Missing option '--epoch'", ["job", "--moment", SEEN]),
    ("if these are seconds", ["page", "--certificate", "elm0.pem", "elm.pem", "1700000000"]),
]


@pytest.mark.parametrize("number", range(len(WRONG)))
def test_wrong_words(folder: Path, number: int) -> None:
    """Each is refused, and a file that is there stays as it is."""
    text, words = WRONG[number]
    Path("itself").write_text("@itself\n")
    Path("quoted").write_text("--crl 'a b\n")
    Path("kept").write_text("as before")
    wrong(text, *words, "kept")
    assert Path("kept").read_text() == "as before"
    assert not Path("kept.draft").exists()


def test_where_nothing_can_be_written(folder: Path) -> None:
    wrong("it can't be written", *BEGUN, "absent/job")
    wrong("it can't be written", "queries", "absent/queries")
    Path("taken").mkdir()
    wrong("it can't be written", *BEGUN, "taken")
    assert not Path("taken.draft").exists()


def test_page(folder: Path) -> None:
    words = [word for name in ("elm0", "elm1") for word in ("--certificate", f"{name}.pem", "elm.pem", SEEN)]
    assert said("page", *words, "page") == "page page entries 2\n"
    items = json.loads(Path("page").read_text())["entries"]
    entries = READERS.read_job(Path("job").read_bytes()).entries[:2]
    assert [(base64.b64decode(x["leaf_input"]), base64.b64decode(x["extra_data"])) for x in items] == [
        (entry.leaf, entry.extra) for entry in entries
    ]
    assert Engine(made.PROGRAM).gather("job", made.LOG, "gathered", ["page"]).entries == 2


def test_identity_and_queries(folder: Path) -> None:
    printed = said("identity", "elm1.chain", "elm.der")
    text = subprocess.run(
        "openssl x509 -in elm.pem -noout -pubkey | openssl pkey -pubin -outform DER | openssl dgst -sha256 -r",
        shell=True,
        capture_output=True,
        text=True,
        check=True,
    ).stdout
    assert printed == f"{text[:64]} 0081\n"
    lines = f"{printed.strip()} {LOG} {SEEN}\n\n{printed.strip()} {LOG} 5\n"
    assert said("queries", "asked", lines=lines) == "queries asked 2\n"
    answers = Engine(made.PROGRAM).rehearse("asked", 1, ["job"]).verdicts
    assert [answer.name for answer in answers] == ["REVOKED", "NOT_COVERED"]


def test_wrong_queries(folder: Path) -> None:
    key = "11" * 32
    for text, line in (
        ("line 2: a query is ISSUER SERIAL", f"{key} 05"),
        ("line 2: a query is ISSUER SERIAL", f"{key} 05 {LOG}"),
        ("line 2: a query is ISSUER SERIAL", f"{key} 05 " + f"{LOG} 5 " * 65),
        ("line 2: 05: an issuer has 64", f"05 05 {LOG} 5"),
        ("a serial has 2 to 64, two for each octet", f"{key} 5 {LOG} 5"),
        ("a serial has 2 to 64, two for each octet", f"{key} {'05' * 33} {LOG} 5"),
        ("not a number below 2^64", f"{key} 05 {LOG} {1 << 64}"),
    ):
        wrong(text, "queries", "kept", lines=f"\n{line}\n")


# ---- asking


def test_ask(folder: Path) -> None:
    for words, status, line in (
        (["elm0.chain"], 0, "good elm0.chain"),
        (["-i", "elm.pem", "elm1.pem"], 1, "revoked elm1.pem"),
        (["elm2.chain"], 3, "not-covered elm2.chain"),
        (["oak0.chain"], 4, "not-enrolled oak0.chain"),
    ):
        result = ctl("ask", "store", *words)
        assert (result.exit_code, result.stdout) == (status, f"{line}\n")


def test_ask_as_the_program_does(folder: Path) -> None:
    engine = Engine(made.PROGRAM)
    for name in (f"{authority}{number}" for authority in ("elm", "oak") for number in range(3)):
        Path("cert.der").write_bytes(pki.certificates_of(f"{name}.pem")[0])
        verdict = engine.query_cert("store", "cert.der", f"{name[:3]}.der")
        assert ctl("ask", "store", f"{name}.chain").stdout.split()[0] == verdict.name.lower().replace("_", "-")


def test_ask_of_several(folder: Path) -> None:
    """The status is the first that is there of revoked, a fault, not-enrolled, not-covered and good."""
    good, revoked, late, stranger, fault = "elm0.chain", "elm1.chain", "elm2.chain", "oak0.chain", "absent"
    for names, status in (
        ([good, good], 0),
        ([good, late], 3),
        ([late, stranger, good], 4),
        ([stranger, fault, late], 5),
        ([stranger, "plain.pem", late], 6),
        ([fault, revoked, "plain.pem"], 1),
    ):
        result = ctl("ask", "store", *names)
        assert result.exit_code == status
        assert len(result.stdout.splitlines()) + len(result.stderr.splitlines()) == len(names)


def test_ask_by_folders(folder: Path) -> None:
    """The issuer may stand in another file that is asked about; files without a certificate are passed over."""
    Path("folders/inner").mkdir(parents=True, exist_ok=True)
    for name in ("elm.pem", "elm0.pem", "elm.crl", "part"):
        Path("folders/inner", name).write_bytes(Path(name).read_bytes())
    result = ctl("ask", "store", "folders")
    assert (result.exit_code, result.stdout) == (6, "good folders/inner/elm0.pem\n")
    assert "folders/inner/elm.pem: it carries no timestamp" in result.stderr
    assert ctl("ask", "--count", "store", "folders").stdout == "cert-no-scts: 1\ngood: 1\nno-certificate: 2\n"
    Path("empty").mkdir()
    result = ctl("ask", "store", "empty")
    assert (result.exit_code, result.stdout) == (5, "") and "no file holds a certificate" in result.stderr


@pytest.mark.parametrize(
    "words, status, text",
    [
        (["store", "elm0.pem"], 5, "give that of its issuer, CN=elm"),
        (["-i", "oak.pem", "store", "elm0.pem"], 5, "the certificate in oak.pem didn't issue the one in elm0.pem"),
        (["-i", "elm0.pem", "store", "elm.pem"], 5, "the other way round"),
        (["-i", "absent", "store", "elm0.pem"], 5, "there is no such file"),
        (["store", "elm.crl"], 5, "there is no certificate in it"),
        (["store", "plain.pem"], 6, "it carries no timestamp"),
        (["part", "elm0.chain"], 7, "it isn't a store (LAYOUT_VALUE at 0); fetch it again"),
        (["absent", "elm0.chain"], 7, "the store can't be read"),
        (["store"], 2, "Missing argument"),
    ],
)
def test_faults_of_ask(folder: Path, words: list[str], status: int, text: str) -> None:
    result = ctl("ask", *words)
    assert (result.exit_code, result.stdout) == (status, "")
    assert text in result.stderr


def test_ask_without_the_library(folder: Path) -> None:
    words = [sys.executable, "-m", "clubcard.ctl", "ask", "store", "elm0.chain"]
    variables = {**os.environ, "PYTHONPATH": str(made.TOP / "python"), "CLUBCARD_LIBRARY": "absent.so"}
    done = subprocess.run(words, env=variables, capture_output=True, text=True, check=False)
    assert (done.returncode, done.stdout) == (7, "")
    assert "clubcardctl: store: it can't be asked: libclubcard.so isn't loaded" in done.stderr


# ---- the installation


def test_installed(folder: Path, tmp_path: Path) -> None:
    """The package stands beside program and library, and finds both without any variable."""
    if subprocess.run(
        ["sh", made.TOP / "tools" / "release.sh", "--check"], capture_output=True, check=False
    ).returncode:
        pytest.skip("release/ isn't of this tree")
    words: list[str | Path] = ["sh", made.TOP / "tools" / "install.sh", tmp_path / "a 'prefix'", "--publisher"]
    subprocess.run(words, check=True, capture_output=True)
    place = tmp_path / "a 'prefix'" / "bin"
    clean = {"PATH": f"{place}:/usr/bin:/bin", "HOME": str(tmp_path)}

    def run(*words: str) -> subprocess.CompletedProcess[str]:
        return subprocess.run(words, env=clean, cwd=folder, capture_output=True, text=True, check=False)

    version = (made.TOP / "VERSION").read_text().strip()
    for name in ("clubcardctl", "clubcard-publish", "clubcard-update"):
        assert run(name, "--version").stdout == f"{name}, version {version}\n"
    assert run("clubcardctl", "ask", "store", "elm1.chain").stdout == "revoked elm1.chain\n"
    assert run("clubcardctl", "inspect", "store").stdout.splitlines()[-1].startswith("whole: ")
    (packages,) = (place.parent / "lib").glob("python3.*/*-packages")
    source = {path.relative_to(made.TOP / "python") for path in (made.TOP / "python" / "clubcard").rglob("*")}
    for path in source:
        if path.suffix != ".pyc" and path.name != "__pycache__":
            assert (packages / path).exists(), path
    script = f"import sys; sys.path.insert(0, {str(packages)!r}); from clubcard.engine import Engine; "
    assert run(sys.executable, "-c", script + "print(Engine().check('part').kind)").stdout == "snapshot\n"
