"""`clubcardctl inspect`: what it tells of files of each kind, against what went into them."""

import json
import os
import subprocess
import sys
import tracemalloc
from dataclasses import replace
from pathlib import Path
from typing import Any

import pytest
from click.testing import CliRunner, Result
from hypothesis import given, settings
from hypothesis import strategies as some

import inspected
import made
from clubcard import pki
from clubcard.ctl import inspecting
from clubcard.ctl.cli import main
from clubcard.ctl.telling import lines_of
from clubcard.engine import Engine
from clubcard.engine_lines import Block
from clubcard.jobs import JobWriter, entry_record
from clubcard.layout import kinds, part, sizes
from clubcard.layout.fields import Fields
from clubcard.layout.ledger import identities_in
from clubcard.manifest import Coverage, Issuer, to_json
from inspected import DATE, ELM, JOBS, OAK
from test_manifest import MANIFEST

REFERENCE = made.second_program("reference")
FILES = made.second_program("reference_files")


@pytest.fixture(name="files", scope="module")
def fixture_files(tmp_path_factory: pytest.TempPathFactory) -> inspected.Made:
    """Files of each kind."""
    return inspected.make(tmp_path_factory.mktemp("inspect"))


def ctl(*words: str | Path, program: str = made.PROGRAM) -> Result:
    """A call of inspect."""
    given_words = ["inspect", "--program", program, *map(str, words)]
    return CliRunner(mix_stderr=False).invoke(main, given_words, prog_name="clubcardctl")


def report(*words: str | Path, status: int = 0, program: str = made.PROGRAM) -> Any:
    """What a call tells as JSON, of which the lines of the same call are made."""
    told = ctl("--json", *words, program=program)
    assert told.exit_code == status, told.stdout + told.stderr
    (line,) = told.stdout.splitlines()
    found = json.loads(line)
    text = ctl(*words, program=program)
    assert (text.exit_code, text.stdout.splitlines()) == (status, list(lines_of(found)))
    assert found["whole"] is (status == 0)
    return found


def ranges_of(job: Any) -> list[tuple[str, int, int]]:
    """The ranges of a job of the second program."""
    return [(log.hex(), low, high) for log, low, high in job.ranges]


def told_ranges(facts: Any) -> list[tuple[str, int, int]]:
    """The ranges that are told."""
    return [(each["log"], each["from"], each["to"]) for each in facts["ranges"]]


# ---- each kind


def test_part(files: inspected.Made) -> None:
    for job, name in zip(JOBS, files.parts):
        found, shown = report(name), Engine(made.PROGRAM).show(name)
        facts = found["facts"]
        assert (found["kind"], found["bytes"], facts["bytes"]) == ("part", name.stat().st_size, name.stat().st_size)
        assert (facts["kind"], facts["version"], facts["epoch"]) == (shown.kind, shown.version, job.epoch)
        assert (facts["parent"], facts["trailer"]) == (shown.parent.hex(), shown.trailer.hex())
        assert told_ranges(facts) == ranges_of(job)
        assert [each["issuer"] for each in facts["issuers"]] == [block.issuer.hex() for block in shown.blocks]
    first = report(files.parts[0])["facts"]["issuers"][0]
    assert first["revoked"] == {"least": 1, "most": 1}
    assert first["identities"]["least"] <= 43 <= first["identities"]["most"]


def blocks_of(octets: bytes) -> tuple[part.PartFound, list[Block]]:
    """What is read of a part, and its blocks as the program shows them."""
    found, blocks = part.PartFound(), list[Block]()
    part.read_part(Fields(octets), found, blocks.append)
    return found, blocks


def test_part_as_the_program_shows_it(tmp_path: Path, files: inspected.Made) -> None:
    (tmp_path / "part").write_bytes(inspected.shard_part().bytes)
    for name in [tmp_path / "part", *files.parts]:
        found, blocks = blocks_of(name.read_bytes())
        shown = Engine(made.PROGRAM).show(name)
        assert tuple(blocks) == shown.blocks and tuple(found.ranges) == shown.ranges
        ends = [block.offset + block.length for block in found.blocks]
        assert [block.offset for block in found.blocks[1:]] == ends[:-1] and ends[-1] == found.offset + len(
            name.read_bytes()
        ) - 32


@settings(max_examples=60, deadline=None, database=None)
@given(some.integers(0, 40), some.integers(0, 200))
def test_what_sizes_tell(revoked: int, others: int) -> None:
    """The bounds hold what a filter was built of; where it has an approximate stage, the revoked ones are exact."""
    universe = [(ELM, 2, number.to_bytes(2, "big")) for number in range(revoked + others)]
    leaf = REFERENCE.build_leaf(ELM, universe, set(universe[:revoked]))
    found, blocks = blocks_of(REFERENCE.Part(0, 1, bytes(32), [], [(ELM, leaf)]).bytes)
    (block,) = found.blocks
    for bounds, count in ((block.revoked, revoked), (block.identities, revoked + others)):
        assert bounds.least <= count and (bounds.most is None or count <= bounds.most)
    if blocks[0].leaves[0].mode == "mixed":
        assert block.revoked.most is not None and block.identities.most is not None
        assert block.revoked.least == block.revoked.most or blocks[0].leaves[0].planes == 0


def test_starts() -> None:
    starts = {count + count // 8 + 1: count for count in range(1000)}
    assert all(sizes.equations_of(each) == starts.get(each) for each in range(1, 1000))


def test_store(files: inspected.Made) -> None:
    facts = report(files.store)["facts"]
    assert (facts["part_count"], facts["epoch"]) == (3, 9)
    assert told_ranges(facts) == ranges_of(JOBS[2])
    places = [(each["offset"], each["bytes"]) for each in facts["parts"]]
    octets = files.store.read_bytes()
    assert [octets[at : at + length] for at, length in places] == [name.read_bytes() for name in files.parts]
    for each, name in zip(facts["parts"], files.parts):
        alone = report(name)["facts"]
        assert each["issuers"] == [
            {**block, "offset": block["offset"] + each["offset"]} for block in alone["issuers"]
        ] and told_ranges(each) == told_ranges(alone)
    counts = [(each["issuer"], each["parts"], each["revoked"]["least"]) for each in facts["issuers"]]
    assert counts == [(ELM.hex(), 2, 2), (OAK.hex(), 2, 1)]


def test_ledger(files: inspected.Made) -> None:
    for name in files.ledgers:
        facts, ledger = report(name)["facts"], FILES.read_ledger(name.read_bytes())
        assert (facts["version"], facts["part_count"], facts["epoch"]) == (2, len(ledger.parts), ledger.parts[-1].epoch)
        assert facts["identities"] == facts["identity_count"] == identities_in(name) == len(ledger.items)
        assert facts["revoked"] == sum(item.last is not None for item in ledger.items)
        assert facts["dated"] == sum(item.until is not None for item in ledger.items)
        for place, (told, kept) in enumerate(zip(facts["parts"], ledger.parts)):
            assert (told["epoch"], told["trailer"], told["issuers"]) == (
                kept.epoch,
                kept.trailer.hex(),
                len(kept.issuers),
            )
            assert told_ranges(told) == [(log.hex(), low, high) for log, low, high in kept.ranges]
            assert told["born"] == sum(item.birth == place for item in ledger.items)
            assert told["last"] == sum(item.last == place for item in ledger.items)
        for each in facts["issuers"]:
            mine = [item for item in ledger.items if item.identity[0].hex() == each["issuer"]]
            assert each["identities"] == len(mine)
            assert each["revoked"] == sum(item.last is not None for item in mine)
            assert each["dated"] == sum(item.until is not None for item in mine)


def test_job(files: inspected.Made) -> None:
    for job, name in zip(JOBS, files.jobs):
        facts = report(name)["facts"]
        assert (facts["epoch"], facts["moment"], facts["moment_iso"]) == (
            job.epoch,
            made.MOMENT,
            "2023-11-14T22:13:20.000Z",
        )
        assert told_ranges(facts) == ranges_of(job)
        assert (facts["crls"], facts["entries"]) == (len(job.crls), len(job.entries))
        lists = {issuer.hex(): crl for issuer, crl in job.crls}
        assert [(each["issuer"], each["crls"], each["serials"], each["bytes"]) for each in facts["issuers"]] == [
            (issuer, 1, len(crl.serials), len(crl.bytes)) for issuer, crl in sorted(lists.items())
        ]
        for each in facts["logs"]:
            times = [entry.time for entry in job.entries if entry.log.hex() == each["log"]]
            assert (each["entries"], each["first"], each["last"]) == (len(times), min(times), max(times))


def test_queries(files: inspected.Made) -> None:
    facts = report(files.queries)["facts"]
    assert facts["query_count"] == 2
    assert [(each["issuer"], each["serial"]) for each in facts["questions"]] == [
        (issuer.hex(), serial.hex()) for (issuer, _, serial), _ in inspected.QUERIES
    ]
    assert [[(seen["log"], seen["time"]) for seen in each["sightings"]] for each in facts["questions"]] == [
        [(log.hex(), time) for log, time in seen] for _, seen in inspected.QUERIES
    ]
    assert facts["questions"][1]["sightings"][1]["iso"] is None
    assert [(each["issuer"], each["questions"]) for each in facts["issuers"]] == [(ELM.hex(), 1), (OAK.hex(), 1)]


def test_device(files: inspected.Made, tmp_path: Path) -> None:
    """The picked slot has the newest store; where an install stopped before the gate, the other one is ahead."""
    facts = report(files.device)["facts"]
    assert (facts["gate"], facts["picked"], facts["capacity"]) == (0, 0, 1 << 16)
    assert [(slot["picked"], slot["store"]["epoch"]) for slot in facts["slots"]] == [(True, 9), (False, 4)]
    store, slot = report(files.store)["facts"], facts["slots"][0]
    assert (slot["bytes"], slot["offset"], slot["fault"]) == (files.store.stat().st_size, 4104, None)
    assert slot["store"]["issuers"] == store["issuers"] and slot["store"]["ranges"] == store["ranges"]
    assert slot["store"]["parts"][0]["offset"] == 4104 + store["parts"][0]["offset"]
    older = b"\x01" + files.device.read_bytes()[1:]
    (tmp_path / "older").write_bytes(older)
    assert report(tmp_path / "older")["facts"]["picked"] == 1
    assert "newest epoch 9, of an install that wasn't ended" in ctl(tmp_path / "older").stdout
    end = slot["store"]["parts"][0]["offset"] + slot["store"]["parts"][0]["bytes"]
    (tmp_path / "torn").write_bytes(older[: end - 1] + bytes([older[end - 1] ^ 1]) + older[end:])
    assert report(tmp_path / "torn")["facts"]["slots"][0]["fault"]["field"] == "part.trailer"
    (tmp_path / "torn").write_bytes(b"\x00" + (tmp_path / "torn").read_bytes()[1:])
    fault = report(tmp_path / "torn", status=1)["fault"]
    assert (fault["offset"], fault["offset_in_store"]) == (end - 32, end - 32 - 4104)
    assert f"part.trailer at {end - 32} ({end - 32 - 4104} in its store), digest: " in ctl(tmp_path / "torn").stdout
    inspected.device_words("device-format", tmp_path / "new", 4096, files.store)
    assert report(tmp_path / "new")["facts"]["slots"][1]["fault"]["why"] == "short"
    assert "nothing is there" in ctl(tmp_path / "new").stdout


def test_shards_of_a_large_issuer(tmp_path: Path, monkeypatch: pytest.MonkeyPatch) -> None:
    """The program's own large parts; the files are mapped."""
    monkeypatch.setattr(inspecting, "_LARGE", 0)
    engine = Engine(made.PROGRAM)
    engine.sample(5, 132_000, tmp_path / "job")
    engine.snapshot(tmp_path / "job", tmp_path / "part", tmp_path / "ledger", 2)
    facts = report(tmp_path / "part")["facts"]
    assert [(each["mode"], each["shift"], each["leaves"]) for each in facts["issuers"]] == [
        ("sharded", 1, {"mixed": 2})
    ] * 4
    assert all(each["revoked"] == {"least": 330, "most": 330} for each in facts["issuers"])
    assert all(each["identities"]["least"] <= 33_000 <= each["identities"]["most"] for each in facts["issuers"])
    ledger, job = report(tmp_path / "ledger")["facts"], report(tmp_path / "job")["facts"]
    assert (ledger["identities"], ledger["revoked"]) == (job["entries"], 1320) == (132_000, 1320)
    assert sum(each["serials"] for each in job["issuers"]) == 1320


# ---- names


def test_names(files: inspected.Made, tmp_path: Path) -> None:
    authority = made.Authority.of("elm")
    (tmp_path / "certificates" / "inner").mkdir(parents=True)
    (tmp_path / "certificates" / "inner" / "elm.pem").write_bytes(made.pem_of(authority.certificate))
    (tmp_path / "certificates" / "other").write_bytes(b"no certificate")
    elm = pki.issuer_hash(authority.der)
    job = inspected.job_of(1, {made.LOG: 5}, {elm: [], OAK: [b"\x07"]}, [(elm, b"\x05", made.LOG, 1, DATE)])
    (tmp_path / "job").write_bytes(job.bytes())
    manifest = replace(
        MANIFEST,
        issuers=(Issuer(OAK, "Oak \x1b[31m CA", False, None, "no CRL in time"),),
        coverage=(Coverage(made.LOG, "Example log", 0, 5),),
    )
    (tmp_path / "manifest.json").write_bytes(to_json(manifest))
    words: list[str | Path] = ["--manifest", tmp_path / "manifest.json", "--certificates", tmp_path / "certificates"]
    facts = report(*words, tmp_path / "job")["facts"]
    assert {each["issuer"]: each["name"] for each in facts["issuers"]} == {
        elm.hex(): "CN=elm",
        OAK.hex(): "Oak \x1b[31m CA",
    }
    assert facts["ranges"][0]["name"] == facts["logs"][0]["name"] == "Example log"
    assert f"issuer: Oak \\x1b[31m CA ({OAK.hex()}): 1 CRL, 1 serial" in ctl(*words, tmp_path / "job").stdout


def test_wrong_files_of_names(files: inspected.Made, tmp_path: Path) -> None:
    for text, why in (("{", "the manifest isn't JSON in UTF-8"), ("{}", "manifest.format"), ("[]", "manifest")):
        (tmp_path / "manifest.json").write_text(text)
        result = ctl("--manifest", tmp_path / "manifest.json", files.store)
        assert (result.exit_code, result.stdout) == (2, "") and why in result.stderr
        assert "give a site's manifest.json" in result.stderr
    result = ctl("--certificates", files.store, files.store)
    assert (result.exit_code, result.stdout) == (2, "") and "there is no certificate in it" in result.stderr


# ---- what is wrong


def test_a_wrong_field(files: inspected.Made, tmp_path: Path) -> None:
    octets = files.store.read_bytes()
    (tmp_path / "store").write_bytes(octets[:11] + b"\x41" + octets[12:])
    found = report(tmp_path / "store", status=1)
    assert found["fault"] == {
        "field": "part.magic",
        "offset": 10,
        "why": "value",
        "width": 8,
        "bytes": "4341554243415244",
        "expected": "434c554243415244 (CLUBCARD)",
        "offset_in_store": None,
    }
    assert found["program"]["line"] == "layout 10 part.magic value" and found["program"]["remedy"]
    lines = ctl(tmp_path / "store").stdout.splitlines()
    assert lines[-2:] == [
        "wrong: part.magic at 10, value: 4341554243415244; expected 434c554243415244 (CLUBCARD)",
        "program: clubcard query: layout 10 part.magic value (status 3): the named file is damaged or of another kind: "
        "fetch it or make it again",
    ]


def test_a_broken_chain(files: inspected.Made, tmp_path: Path) -> None:
    """The field that doesn't go on is named."""
    first, second, third = (name.read_bytes() for name in files.parts)
    for parts, line, field in (
        ([second], "chain not-snapshot", "part.kind"),
        ([first, first], "chain not-delta", "part.kind"),
        ([first, third], "chain parent", "part.parent"),
    ):
        (tmp_path / "store").write_bytes(b"CLUBSTOR\x01" + bytes([len(parts)]) + b"".join(parts))
        found = report(tmp_path / "store", status=1)
        assert found["program"]["line"].startswith(line) and not found["differs"]
        assert (found["fault"]["field"], found["fault"]["why"]) == (field, "chain")


def test_an_unknown_file(tmp_path: Path, files: inspected.Made) -> None:
    (tmp_path / "file").write_bytes(b"CLUBCARE" + files.parts[0].read_bytes()[8:])
    found = report(tmp_path / "file", status=1)
    assert (found["kind"], found["facts"], found["program"]) == (None, None, None)
    assert found["fault"]["field"] == "magic" and "CLUBCARD (part)" in found["fault"]["expected"]
    found = report("--kind", "part", tmp_path / "file", status=1)
    assert (found["fault"]["field"], found["program"]["line"]) == ("part.magic", "layout 0 part.magic value")
    (tmp_path / "file").write_bytes(b"")
    assert report(tmp_path / "file", status=1)["fault"]["why"] == "short"


def job_file(name: Path, ranges: int, crls: int, crl: bytes) -> None:
    """A job with so many ranges and CRLs."""
    pieces = [b"CLUBJOB1", bytes(16)]
    pieces += [b"\x01" + number.to_bytes(32, "big") + bytes(16) for number in range(ranges)]
    pieces += [b"\x02" + ELM + len(crl).to_bytes(4, "big") + crl] * crls
    name.write_bytes(b"".join([*pieces, b"\0"]))


def test_what_no_layout_says(tmp_path: Path) -> None:
    """A CRL that isn't accepted is no fault of a job's layout; the program refuses the job."""
    job_file(tmp_path / "job", 1, 1, b"\x30")
    found = report(tmp_path / "job", status=1)
    assert found["fault"] is None and not found["differs"]
    assert found["program"]["line"] == "crl 0 malformed" and found["facts"]["issuers"][0]["serials"] is None


def test_limits_of_a_job(tmp_path: Path) -> None:
    for ranges, crls, line in ((1025, 0, "limit ranges 1024"), (0, 65536, "limit crls 65535")):
        job_file(tmp_path / "job", ranges, crls, b"")
        found = report(tmp_path / "job", status=1)
        assert found["program"]["line"] == line and not found["differs"]
        assert (found["fault"]["field"], found["fault"]["why"]) == ("record.kind", "limit")


def test_the_program_of_the_tree(files: inspected.Made) -> None:
    told = CliRunner().invoke(main, ["inspect", str(files.store)], prog_name="clubcardctl")
    assert (told.exit_code, told.stdout) == (0, ctl(files.store).stdout)


def test_without_the_program(files: inspected.Made, tmp_path: Path) -> None:
    found = report(files.store, status=3, program=str(tmp_path / "absent"))
    assert found["fault"] is None and found["program"]["accepts"] is None
    assert "install it on PATH" in found["program"]["remedy"]
    (tmp_path / "store").write_bytes(files.store.read_bytes()[:-1])
    assert report(tmp_path / "store", status=1, program=str(tmp_path / "absent"))["fault"]["field"] == "part.trailer"


def test_a_program_that_says_otherwise(files: inspected.Made, tmp_path: Path) -> None:
    program = tmp_path / "program"
    program.write_text("#!/bin/sh\necho good\n")
    program.chmod(0o755)
    (tmp_path / "store").write_bytes(files.store.read_bytes()[:-1])
    assert report(tmp_path / "store", status=1, program=str(program))["differs"]
    program.write_text(f"#!/bin/sh\necho layout 0 store.magic value {files.store}\nexit 3\n")
    assert report(files.store, status=1, program=str(program))["differs"]
    assert "else report it" in ctl(files.store, program=str(program)).stdout


def test_what_cant_be_read(tmp_path: Path) -> None:
    os.mkfifo(tmp_path / "pipe")
    for name, why in (
        ("absent", "No such file"),
        (".", "it can't be read"),
        ("pipe", "it is neither a file nor a block device"),
    ):
        result = ctl(tmp_path / name)
        assert (result.exit_code, result.stdout) == (2, "") and why in result.stderr, result.stderr


def test_standard_input(files: inspected.Made) -> None:
    """A file that stands for another one is the same one for the program."""
    words = [sys.executable, "-m", "clubcard.ctl", "inspect", "/dev/stdin"]
    variables = {**os.environ, "PYTHONPATH": str(made.TOP / "python")}
    with open(files.parts[0], "rb") as file:
        done = subprocess.run(words, stdin=file, env=variables, capture_output=True, text=True, check=False)
    assert (done.returncode, done.stdout.splitlines()) == (0, ctl(files.parts[0]).stdout.splitlines())


# ---- large files


def test_a_large_job_is_not_held(tmp_path: Path, monkeypatch: pytest.MonkeyPatch) -> None:
    """What is kept doesn't grow with the entries; who watches is told of the bytes."""
    monkeypatch.setattr(inspecting, "_LARGE", 1 << 20)
    record = entry_record(made.LOG, bytes(2) + made.MOMENT.to_bytes(8, "big") + bytes(990), bytes(1000))
    with open(tmp_path / "job", "wb") as file, JobWriter(file) as job:
        job.header(1, made.MOMENT)
        for _ in range(20):
            job.raw(record * 1000)
    told: list[int] = []
    with inspecting.opened(str(tmp_path / "job")) as data:
        assert not isinstance(data, bytes)
        tracemalloc.start()
        read = kinds.read(data, None, told.append)
        _, peak = tracemalloc.get_traced_memory()
        tracemalloc.stop()
    assert read.fault is None and peak < 1 << 20
    # Every 4,096 entries.
    assert sum(told) > (tmp_path / "job").stat().st_size - 4096 * len(record) and len(told) >= 4


def test_a_bar_on_a_terminal(files: inspected.Made, monkeypatch: pytest.MonkeyPatch) -> None:
    """A large file's reading is shown where there is a terminal."""
    shown: list[Any] = []

    class Bars:
        def __enter__(self) -> "Bars":
            return self

        def __exit__(self, *words: Any) -> None:
            shown.append("end")

        def task(self, name: str, total: int) -> "Bars":
            shown.append((name, total))
            return self

        def advance(self, count: int) -> None:
            shown.append(count)

    monkeypatch.setattr("clubcard.progress.shown", Bars)
    monkeypatch.setattr(inspecting, "_LARGE", 100)
    assert ctl(files.store).exit_code == 0
    assert shown[0] == ("bytes read", files.store.stat().st_size)
    assert shown[-1] == "end"
