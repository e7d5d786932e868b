"""`clubcardctl ask`: each kind of input, each status, and what is said of refusals."""

import hashlib
import json
import os
import time
from dataclasses import replace
from pathlib import Path
from typing import Any

import pytest
from cryptography import x509

import made
from asked import LATE, SERIALS, TIMESTAMPS, WORDS, Small, answers, called, ctl, ends, program, stamped, timestamp
from clubcard import Refusal, serial_from_int
from clubcard.answers import Refused
from clubcard.ctl import asking, stores
from clubcard.ctl.verdicts import ORDER, Status, status_of
from clubcard.engine import Engine
from clubcard import manifest as manifests
from clubcard.store import Store
from clubcard.times import DAY

EXPECTED = {"elm-good": 0, "elm-revoked": 1, "elm-late": 3, "oak-good": 4}


@pytest.fixture(name="small", scope="module")
def fixture_small(tmp_path_factory: pytest.TempPathFactory) -> Small:
    return Small(tmp_path_factory.mktemp("ask"))


@pytest.mark.parametrize("name", EXPECTED)
def test_kinds_of_files(small: Small, name: str) -> None:
    """PEM, DER, a chain in PEM, and the issuer in each place where it may stand."""
    status, authority = EXPECTED[name], name[:3]
    for file in ("pem", "der"):
        result = ctl("ask", "-i", small[f"{authority}.{file}"], small.store, small[f"{name}.{file}"])
        assert (result.exit_code, result.stdout) == (status, f"{WORDS[status]} {small[name]}.{file}\n")
    small["both.pem"].write_bytes(small["oak.pem"].read_bytes() + small["elm.pem"].read_bytes())
    ends(WORDS[status], status, "ask", "-i", small["both.pem"], small.store, small[f"{name}.pem"])
    # The one file has the issuer of both.
    ends(WORDS[status], status, "ask", small.store, small[f"{name}.pem"], small[f"{name}.chain"])


def test_standard_input(small: Small) -> None:
    with open(small["elm-revoked.chain"], "rb") as chain:
        done = called("ask", small.store, "-", stdin=chain)
    assert (done.returncode, done.stdout, done.stderr) == (1, b"revoked -\n", b"")


def test_several(small: Small) -> None:
    names = [small[f"{name}.chain"] for name in EXPECTED]
    result = ctl("ask", small.store, *names)
    lines = [f"{WORDS[status]} {small[name]}.chain\n" for name, status in EXPECTED.items()]
    assert (result.exit_code, result.stdout) == (1, "".join(lines))
    assert ctl("ask", "--count", small.store, *names).stdout == "good: 1\nnot-covered: 1\nnot-enrolled: 1\nrevoked: 1\n"
    counts = json.loads(ctl("ask", "--count", "--json", small.store, *names, names[0]).stdout)
    assert counts == {"good": 2, "not-covered": 1, "not-enrolled": 1, "revoked": 1}


def test_many(small: Small) -> None:
    """Of many a bar shows on a terminal how many are done; the lines are the same."""
    names = [str(small["elm-good.chain"])] * 210
    shown, terminal = os.openpty()
    done = called("ask", small.store, *names, stderr=terminal)
    os.close(terminal)
    assert (done.returncode, done.stdout.decode()) == (0, f"good {names[0]}\n" * 210)
    with open(shown, "rb", buffering=0) as bar:
        assert b"/210" in bar.read(1 << 16)


def test_the_status_of_several() -> None:
    """The first that is there of revoked, a fault, not-enrolled, not-covered and good."""
    assert [status_of(ORDER[place:]) for place in range(len(ORDER))] == list(ORDER)
    assert set(ORDER[1:-3]) == {Status.NO_STORE, Status.NO_CERTIFICATE, Status.NO_HOST, Status.UNREAD}
    assert (ORDER[0], *ORDER[-3:]) == (1, 4, 3, 0) and all(each >= 5 for each in ORDER[1:-3])
    assert status_of([]) == status_of([None]) == Status.NO_CERTIFICATE


def test_json(small: Small) -> None:
    found = answers(small.store, small["elm-good.chain"], small["absent"], *small.by_serial("revoked"))
    seen = [{"log": made.LOG.hex(), "time": made.MOMENT, "date": "2023-11-14T22:13:20.000Z"}]
    rest = {"fault": None, "why": None, "store": None, "issuer": small.key("elm"), "timestamps": seen}
    good, fault, serial = found
    assert good == {"name": str(small["elm-good.chain"]), "verdict": "good", "status": 0, "serial": "00d00a", **rest}
    assert serial == {"name": "serial 0081", "verdict": "revoked", "status": 1, "serial": "0081", **rest}
    assert (fault["verdict"], fault["fault"], fault["status"]) == (None, "no-certificate", 5)
    assert "there is no such file" in fault["why"] and ctl("ask", "--json", small.store, small["absent"]).stderr == ""


# ---- faults


def with_faults(small: Small) -> None:
    """Files that can't be asked about."""
    small["twin.pem"].write_bytes(made.pem_of(made.Authority.of("elm").certificate))
    small["wrong.chain"].write_bytes(small["elm-good.pem"].read_bytes() + small["oak.pem"].read_bytes())
    octets = small["elm-good.der"].read_bytes()
    small["forged.der"].write_bytes(octets[:-1] + bytes([octets[-1] ^ 1]))
    faults: dict[str, list[tuple[x509.ExtensionType, bool]]] = {
        "plain": [],
        "bad": [(x509.UnrecognizedExtension(TIMESTAMPS, b"\x04\x02\x00\x05"), False)],
        "many": [stamped(*[timestamp(made.LOG, made.MOMENT + number) for number in range(65)])],
    }
    for name, extensions in faults.items():
        chain = made.pem_of(small.elm.issue(9, extensions)) + made.pem_of(small.elm.certificate)
        small[f"{name}.chain"].write_bytes(chain)


@pytest.mark.parametrize(
    "words, status, text",
    [
        (["elm-good.pem"], 5, "give that of its issuer, CN=elm, by --issuer-certificate"),
        (["-i", "oak.pem", "elm-good.pem"], 5, "didn't issue the one in"),
        (["-i", "twin.pem", "elm-good.pem"], 5, "didn't issue the one in"),
        (["-i", "elm-good.pem", "elm.pem"], 5, "it is the other way round: give the issuer's certificate last"),
        (["wrong.chain"], 5, "give the certificate of its issuer, CN=elm"),
        (["-i", "elm.pem", "forged.der"], 5, "didn't issue the one in"),
        (["elm.crl"], 5, "there is no certificate in it"),
        (["plain.chain"], 6, "it carries no timestamp; ask by --issuer and --serial"),
        (["bad.chain"], 6, "its timestamps aren't of the form of RFC 6962"),
        (["many.chain"], 6, "it carries more than 64 timestamps"),
        ([], 2, "Missing argument"),
        (["--manifest", "elm.pem", "elm-good.chain"], 7, "this manifest isn't read"),
        (["--manifest", "absent", "elm-good.chain"], 7, "the manifest.json that clubcard-update keeps"),
        (["--max-away", "10", "elm-good.chain"], 2, "a duration is a number and s, m, h or d"),
    ],
)
def test_faults(small: Small, monkeypatch: pytest.MonkeyPatch, words: list[str], status: int, text: str) -> None:
    """Each is said with what to do."""
    with_faults(small)
    monkeypatch.chdir(small.folder)
    assert ends(text, status, "ask", "store", *words).stdout == ""


def test_faults_of_stores(small: Small) -> None:
    """No store is asked that isn't one."""
    octets = small.store.read_bytes()
    for name, broken, text in (
        ("cut", octets[:-1], "LAYOUT_SHORT"),
        ("flipped", octets[:-1] + bytes([octets[-1] ^ 1]), "LAYOUT_DIGEST"),
        ("other", b"?" + octets[1:], "LAYOUT_VALUE at 0); fetch it again, and keep the old one until then"),
        ("empty", b"", "LAYOUT_SHORT"),
    ):
        small[name].write_bytes(broken)
        result = ends(text, 7, "ask", small[name], small["elm-good.chain"])
        assert "it isn't a store" in result.stderr and not result.stdout
    ends("the store can't be read (No such file", 7, "ask", small["absent"], small["elm-good.chain"])
    ends("the stores can't be asked", 7, "ask", small.folder, small["elm-good.chain"])


@pytest.mark.parametrize("refusal", Refusal)
def test_each_refusal_has_a_remedy(small: Small, monkeypatch: pytest.MonkeyPatch, refusal: Refusal) -> None:
    """Whatever the library refuses, and whenever, there is no verdict, and what to do is said."""

    def refuse(*_: Any) -> Any:
        raise Refused(refusal)

    with_faults(small)
    assert len(stores.remedy_of(refusal).split()) > 4
    monkeypatch.setattr(Store, "query_cert", refuse)
    monkeypatch.setattr(Store, "query_each", lambda self, queries: [refusal for _ in queries])
    for name in ("elm-good.chain", "plain.chain"):
        result = ctl("ask", small.store, small[name])
        assert result.exit_code == (7 if refusal in (Refusal.NO_MEMORY, Refusal.UNKNOWN) else 6)
        assert stores.remedy_of(refusal) in result.stderr and not result.stdout
    for name in ("query_each", "examine"):
        monkeypatch.setattr(Store, name, refuse)
        assert ends(stores.remedy_of(refusal), 7, "ask", small.store, small["elm-good.chain"]).stdout == ""


def test_nothing_else_has_status_1(small: Small, monkeypatch: pytest.MonkeyPatch) -> None:
    """What nobody foresaw, a key that stops it, and an output that nobody reads aren't `revoked`."""
    for error, status in ((ValueError("never"), 70), (MemoryError(), 70), (KeyboardInterrupt(), 130), (OSError(), 70)):

        def fail(*_: Any, error: BaseException = error) -> Any:
            raise error

        monkeypatch.setattr(asking, "ask", fail)
        assert ctl("ask", small.store, small["elm-good.chain"]).exit_code == status
    every: list[list[str | Path]] = [["ask", small.store, small["elm-good.chain"]], ["inspect", small.store]]
    for words in every:
        read, write = os.pipe()
        os.close(read)
        done = called(*words, stdout=write)
        os.close(write)
        assert (done.returncode, done.stderr) == (70, b"")
        with open("/dev/full", "wb") as full:
            done = called(*words, stdout=full)
            assert done.returncode == 70 and b"No space left" in done.stderr
            # What a fault is told on can't be written either.
            assert called(words[0], small["absent"], small["absent"], stderr=full).returncode not in (0, 1)


@pytest.mark.parametrize("name", ["click", "cryptography"])
@pytest.mark.parametrize("fault", ["raise ImportError('no such file')", "raise SystemError('broken')", "raise OSError"])
def test_packages_that_are_not_loaded(small: Small, tmp_path: Path, name: str, fault: str) -> None:
    """Where one is missing or broken that isn't `revoked`."""
    (tmp_path / name).mkdir()
    (tmp_path / name / "__init__.py").write_text(fault, encoding="utf-8")
    variables = {"PYTHONPATH": f"{tmp_path}{os.pathsep}{made.TOP / 'python'}"}
    done = called("ask", small.store, small["elm-good.chain"], variables=variables)
    assert (done.returncode, done.stdout) == (7, b"")
    assert b"it can't be loaded" in done.stderr and b"install python3-click" in done.stderr


# ---- devices


def test_devices(small: Small) -> None:
    """Each verdict is what the program says of the device; with each of its slots."""
    device = small["device"]
    program("device-format", device, 65536, small.store)
    job = ["job", "--epoch", "2", "--moment", str(LATE), "--range", made.LOG.hex(), str(made.MOMENT), str(LATE)]
    ends("job", 0, *job, small["job2"])
    Engine(made.PROGRAM).delta(small["job2"], small["ledger"], small["part2"], small["ledger2"], 1)
    for late in ("not-covered", "not-enrolled"):
        for name in EXPECTED:
            seen, serial = LATE if name == "elm-late" else made.MOMENT, serial_from_int(SERIALS[name[4:]])
            told = program("device-query", device, small.key(name[:3]), serial.hex(), made.LOG.hex(), seen)
            assert ctl("ask", device, small[f"{name}.chain"]).stdout == f"{told} {small[name]}.chain\n"
        assert ctl("ask", device, small["elm-late.chain"]).stdout.split()[0] == late
        if late == "not-covered":
            program("device-install", device, small["part2"])


def test_damaged_devices(small: Small) -> None:
    device = small["damaged"]
    program("device-format", device, 65536, small.store)
    octets = device.read_bytes()
    for at, field in ((9, b"\2"), (10, bytes(8)), (10, b"\xff" * 8), (4096, b"\0" * 5 + b"\xff\xff\xff")):
        device.write_bytes(octets[:at] + field + octets[at + len(field) :])
        ends(f"field at {at} is wrong; format it again by", 7, "ask", device, small["elm-good.chain"])
    for length, at in ((4100, 4096), (4200, 4104), (12, 0)):
        device.write_bytes(octets[:length])
        ends(f"field at {at} is wrong; format it again by", 7, "ask", device, small["elm-good.chain"])
    # Of the gate the low bit alone counts.
    device.write_bytes(b"\xfe" + octets[1:])
    assert ctl("ask", device, small["elm-good.chain"]).exit_code == 0
    device.write_bytes(octets[:4104] + b"?" + octets[4105:])
    ends("it isn't a store (LAYOUT_VALUE at 0)", 7, "ask", device, small["elm-good.chain"])


# ---- issuers that are away


def manifest_of(small: Small, away: int, **more: Any) -> Path:
    """A manifest of the store, whose epoch came so much later than the last one that enrolled elm."""
    octets = small.store.read_bytes()
    elm = manifests.Issuer(bytes.fromhex(small.key("elm")), "Elm", not away, made.MOMENT, "no CRL" if away else None)
    kept = manifests.Manifest(
        name="example",
        generation=1,
        epoch=1,
        moment=made.MOMENT + away,
        valid_until=made.MOMENT + away,
        parts=(manifests.Part("snapshot", 1, 1, bytes(32)),),
        store_length=len(octets),
        store_sha256=hashlib.sha256(octets).digest(),
        coverage=(),
        issuers=(elm,),
        next_key=None,
    )
    small["manifest.json"].write_bytes(manifests.to_json(replace(kept, **more)))
    return small["manifest.json"]


@pytest.mark.parametrize(
    "away, words, is_away",
    [
        (0, ["--max-away", "0s"], False),
        (DAY, ["--max-away", "1d"], False),
        (DAY + 1, ["--max-away", "24h"], True),
        (10 * DAY, [], False),
        (10 * DAY + 1, [], True),
    ],
)
def test_away(small: Small, away: int, words: list[str], is_away: bool) -> None:
    """What the store says of an issuer that is away for too long reads not-enrolled, and is told beside that."""
    file, names = manifest_of(small, away), [small[f"{name}.chain"] for name in EXPECTED]
    found = answers("--manifest", file, *words, small.store, *names)
    verdicts = [(each["verdict"], each["store"]) for each in found]
    assert verdicts[2:] == [("not-covered", None), ("not-enrolled", None)]
    if is_away:
        assert verdicts[:2] == [("not-enrolled", "good"), ("not-enrolled", "revoked")]
    else:
        assert verdicts[:2] == [("good", None), ("revoked", None)]
    result = ctl("ask", "--manifest", file, *words, small.store, small["elm-good.chain"])
    assert result.exit_code == (4 if is_away else 0)
    text = "the store says good, but its issuer is away: Elm was last enrolled at 2023-11-14T22:13:20.000Z (no CRL)"
    assert (text in result.stderr) == is_away


def test_issuers_that_the_manifest_does_not_know(small: Small) -> None:
    never = manifests.Issuer(bytes.fromhex(small.key("elm")), "Elm", False, None, "no CRL")
    for issuers, text in (((), "the manifest has no such issuer any more"), ((never,), "no epoch ever enrolled it")):
        file = manifest_of(small, DAY, issuers=issuers)
        ends(text, 4, "ask", "--manifest", file, small.store, small["elm-revoked.chain"])


def test_manifests_of_other_stores(small: Small, monkeypatch: pytest.MonkeyPatch) -> None:
    """One says nothing of this store, unless it becomes this one's while it is waited for."""
    waited: list[float] = []
    monkeypatch.setattr(time, "sleep", waited.append)
    words: list[str | Path] = ["--manifest", manifest_of(small, 0, store_sha256=bytes(32)), small.store]
    words.append(small["elm-good.chain"])
    for command in ("ask", "explain"):
        assert ends("is of another store than", 7, command, *words).stdout == ""
    assert waited == [1, 1]
    monkeypatch.setattr(time, "sleep", lambda _: manifest_of(small, 0))
    assert ends("good", 0, "ask", *words).stderr == ""
