"""What is read of the program's lines and statuses: over the transcript of crates/scenarios, which the second program
makes, and over runs of the program itself."""

import os
import pickle
import stat
from collections.abc import Callable, Iterator
from pathlib import Path
from typing import Any

import pytest

import made
from clubcard import Verdict, engine, engine_errors, engine_lines
from clubcard.engine import Engine, EngineError
from clubcard.jobs import JobWriter

TRANSCRIPT = (made.TOP / "crates" / "scenarios" / "stdout").read_text(encoding="utf-8")
SHIPPED = made.TOP / "crates" / "clubcard" / "data" / "one_revoked.store"
KEY = b"\x11" * 32
NUMBERS = engine_lines.numbers_of
BASE = "epoch # issuers # universe # revoked # pruned #"


def alone(read: Callable[[str], Any]) -> Callable[[list[str]], Any]:
    """What reads the only line."""

    def read_only(lines: list[str]) -> Any:
        (line,) = lines
        return read(line)

    return read_only


READ: dict[str, Callable[[list[str]], Any]] = {
    "snapshot": alone(engine_lines.published),
    "delta": alone(engine_lines.published),
    "rebase": alone(lambda line: engine_lines.rebased(line, "rebase")),
    "rebase-without": alone(lambda line: engine_lines.rebased(line, "rebase-without")),
    "split": alone(lambda line: NUMBERS(line, f"split # of # {BASE} left #")),
    "start": alone(engine._store_facts),
    "install": alone(engine._store_facts),
    "device-format": alone(engine._store_facts),
    "device-install": alone(engine._store_facts),
    "query": alone(engine_lines.verdict_of),
    "query-cert": alone(engine_lines.verdict_of),
    "device-query": alone(engine_lines.verdict_of),
    "check": alone(engine_lines.part_facts),
    "show": engine_lines.part_shown,
    "audit": alone(lambda line: NUMBERS(line, "audit jobs # entries # agree")),
    "gather": alone(lambda line: NUMBERS(line, "gather pages # entries # bytes #")),
    "merge": alone(lambda line: NUMBERS(line, "merge pieces # entries # bytes #")),
    "cut": alone(lambda line: NUMBERS(line, "cut pieces # entries # bytes #")),
    "sample": alone(lambda line: NUMBERS(line, "sample # entries # revoked # bytes #")),
    "place": alone(lambda line: NUMBERS(line, "place # of #")),
}


def blocks() -> Iterator[tuple[str, list[str], int]]:
    """The command, the lines and the status of each call of the transcript that has one line or more. A call may end
    in several ways, each behind a line in brackets, and each may be followed by another call."""
    called, command, lines = "", "", list[str]()
    for line in TRANSCRIPT.splitlines():
        if line.startswith("status ") and lines:
            yield command, lines, int(line[7:])
        if line.startswith("$"):
            called = command = f"{line} ".split(" ")[1]
        elif line.startswith(("[", "then ")):
            command = called if line.startswith("[") else line.split(" ")[1]
        lines = [] if line.startswith(("$", "[", "then ", "status ")) else [*lines, line]


def test_transcript() -> None:
    seen: dict[int, int] = {}
    commands: set[str] = set()
    for command, lines, status in blocks():
        if command in READ and status == 0:
            READ[command](lines)
            commands.add(command)
        elif status:
            error = engine_errors.error_of(command, status, "\n".join(lines), "")
            assert error.status == status and not isinstance(error, engine.UnknownAnswer), lines
            assert error.remedy and str(error).startswith(f"clubcard {command}: {lines[0]}")
        seen[status] = seen.get(status, 0) + 1
    assert set(seen) >= {0, 2, 3, 4, 5, 6, 8, 9, 12, 13, 14, 15, 16, 17}
    assert commands >= set(READ) - {"rebase-without"}


LINES: list[tuple[int, str, type[EngineError], dict[str, Any]]] = [
    (
        3,
        "layout 7 part.magic short a b",
        engine.WrongLayout,
        {"at": 7, "field": "part.magic", "why": "short", "name": "a b"},
    ),
    (4, "crl 3 delta a job", engine.RefusedCrl, {"record": 3, "fault": "delta", "name": "a job"}),
    (5, "chain full a", engine.BrokenChain, {"why": "full", "details": (), "name": "a"}),
    (5, "chain not-delta a", engine.BrokenChain, {"why": "not-delta", "details": (), "name": "a"}),
    (5, "chain epoch 7 6 a", engine.BrokenChain, {"why": "epoch", "details": ("7", "6"), "name": "a"}),
    (5, "chain parent aa bb c", engine.BrokenChain, {"why": "parent", "details": ("aa", "bb"), "name": "c"}),
    (5, "chain coverage aa c d", engine.BrokenChain, {"why": "coverage", "details": ("aa",), "name": "c d"}),
    (6, "limit issuers 65535 a", engine.PassedLimit, {"what": "issuers", "limit": 65535, "name": "a"}),
    (7, f"seeds {KEY.hex()} 2", engine.NoSeeds, {"issuer": KEY, "stage": 2}),
    (8, "read-fault a b", engine.ReadFailed, {"name": "a b"}),
    (9, "write-fault a", engine.WriteFailed, {"name": "a"}),
    (9, "epoch 1 pa", engine.WriteFailed, {"name": None}),
    (12, "cert no-scts a", engine.UnreadCertificate, {"fault": "no-scts", "name": "a"}),
    (13, "disk-fault a", engine.DiskFailed, {"name": "a"}),
    (14, "device 9 a", engine.DamagedDevice, {"at": 9, "name": "a"}),
    (15, "device-full 4096 a", engine.FullDevice, {"capacity": 4096, "name": "a"}),
    (16, "page 2 base64 a", engine.UnreadPage, {"index": 2, "why": "base64", "name": "a"}),
    (
        17,
        "audit job 0 entry 2 held good truth revoked",
        engine.Untrue,
        {"job": 0, "entry": 2, "held": "good", "truth": "revoked"},
    ),
    (70, "", engine.NoMemory, {}),
    (-9, "", engine.ProgramKilled, {"signal": 9}),
    (1, "no program", engine.UnknownAnswer, {}),
    (101, "", engine.UnknownAnswer, {}),
    (4, "crl 3 unheard-of a", engine.UnknownAnswer, {}),
]


@pytest.mark.parametrize("status, line, kind, fields", LINES)
def test_errors(status: int, line: str, kind: type[EngineError], fields: dict[str, Any]) -> None:
    error = engine_errors.error_of("delta", status, line, "")
    assert type(error) is kind
    assert {name: getattr(error, name) for name in fields} == fields
    again = pickle.loads(pickle.dumps(error))
    assert (type(again), str(again), vars(again)) == (kind, str(error), vars(error))


def test_lines_of_other_forms() -> None:
    for command, read in READ.items():
        for line in ("", "ok", "epoch 1", "part snapshot epoch -1 ranges 1 issuers 1 bytes 1"):
            with pytest.raises((ValueError, IndexError)):
                print(command, read([line]))
    base = "epoch 1 issuers 2 universe 3 revoked 4 pruned 5"
    for said in ("rebase-without", "split 0 of 3"):
        assert engine_lines.rebased(f"{said} {base} left 6", said) == engine.Rebased(1, 2, 3, 4, 5, 6)
        with pytest.raises(ValueError):
            engine_lines.rebased(f"{said} {base}", said)


# ---- the program


@pytest.fixture(name="program")
def fixture_program() -> Engine:
    return Engine(made.PROGRAM)


def test_a_chain(program: Engine, tmp_path: Path) -> None:
    """Each call, over a chain of two parts of the generator's job and a base."""
    at = {
        name: tmp_path / f"{name} of a test"
        for name in "job delta part next ledger later store newer base anew".split()
    }
    sampled = program.sample(3, 200000, at["job"])
    assert (sampled.number, sampled.entries, sampled.size) == (3, 200000, at["job"].stat().st_size)
    first = program.snapshot(at["job"], at["part"], at["ledger"], 2)
    assert (first.epoch, first.part, first.issuers, first.universe) == (1, 0, 4, 200000)
    assert first.revoked == sampled.revoked and first.accepted == 200000
    shown, facts = program.show(at["part"]), program.check(at["part"])
    assert (facts.kind, facts.epoch, facts.ranges, facts.issuers) == (shown.kind, 1, 1, 4)
    assert facts.size == at["part"].stat().st_size
    assert [(block.shift, len(block.leaves)) for block in shown.blocks] == [(1, 2)] * 4
    (covered,) = shown.ranges
    with open(at["delta"], "wb") as file, JobWriter(file) as job:
        job.header(2, made.MOMENT)
        job.range(covered.log, covered.low, covered.high + 5)
    second = program.delta(at["delta"], at["ledger"], at["next"], at["later"], 1)
    assert (second.epoch, second.part, second.issuers) == (2, 1, 0)
    assert program.start(at["part"], at["store"]) == engine.StoreFacts(1, 1)
    assert program.install(at["store"], at["next"], at["newer"]) == engine.StoreFacts(2, 2)
    assert program.audit(at["newer"], [at["job"], at["delta"]]) == engine.Audited(2, 200000)
    base = program.rebase(at["later"], 1, at["base"], at["anew"], 2)
    assert base == engine.Rebased(2, 4, 200000, sampled.revoked, 0, None)
    assert program.show(at["base"]).parent == bytes(32)
    split = program.split(at["later"], 1, engine.By.ISSUER, 1, 0, at["base"], at["anew"], 2)
    assert split == engine.Rebased(2, 4, 200000, sampled.revoked, 0, 0)
    with pytest.raises(engine.WrongWords):
        program.split(at["later"], 1, engine.By.ISSUER, 1, 1, at["base"], at["anew"], 2)
    with pytest.raises(engine.BrokenChain) as broken:
        program.install(at["newer"], at["next"], at["store"])
    assert broken.value.why == "parent" and broken.value.details[1] == shown.trailer.hex()


def test_places(program: Engine) -> None:
    assert program.place(engine.By.ISSUER, KEY, b"\x05", 65536) == 49925
    assert program.place(engine.By.IDENTITY, KEY, b"\x05", 65536) == 44354
    with pytest.raises(engine.WrongWords):
        program.place(engine.By.IDENTITY, KEY, b"\x05", 65537)


def test_asking(program: Engine) -> None:
    log = b"\xaa" * 32
    assert program.query(SHIPPED, KEY, b"\x05", [(log, made.MOMENT)]) is Verdict.REVOKED
    assert program.query(SHIPPED, KEY, b"\x05", [(log, 1), (log, 2)]) is Verdict.NOT_COVERED
    assert program.query(SHIPPED, b"\x22" * 32, b"\x05", [(log, made.MOMENT)]) is Verdict.NOT_ENROLLED
    with pytest.raises(engine.WrongWords):
        program.query(SHIPPED, KEY, b"", [(log, made.MOMENT)])


def test_a_device(program: Engine, tmp_path: Path) -> None:
    device, log = tmp_path / "a device", b"\xaa" * 32
    assert program.device_format(device, 4096, SHIPPED) == engine.StoreFacts(1, 1)
    assert program.device_query(device, KEY, b"\x05", [(log, made.MOMENT)]) is Verdict.REVOKED
    with pytest.raises(engine.BrokenChain) as broken:
        (tmp_path / "part").write_bytes(SHIPPED.read_bytes()[10:])
        program.device_install(device, tmp_path / "part")
    assert broken.value.why == "not-delta"
    with pytest.raises(engine.FullDevice):
        program.device_format(device, 9, SHIPPED)
    with pytest.raises(engine.DamagedDevice):
        program.device_query(SHIPPED, KEY, b"\x05", [(log, made.MOMENT)])


def test_a_lent_descriptor(tmp_path: Path) -> None:
    """The program has it under its number, and no other one."""
    with open(tmp_path / "lent", "wb") as lent, open(tmp_path / "own", "wb") as own:
        text = f"test -e /dev/fd/{lent.fileno()} && test ! -e /dev/fd/{own.fileno()} && exit 70"
        with pytest.raises(engine.NoMemory):
            Engine(script(tmp_path, text).program, [lent.fileno()]).check("part")


def test_certificates_and_pages(program: Engine, tmp_path: Path) -> None:
    elm = made.Authority.of("elm")
    (tmp_path / "cert").write_bytes(made.der_of(elm.issue(5)))
    with pytest.raises(engine.UnreadCertificate) as unread:
        program.query_cert(SHIPPED, tmp_path / "cert", tmp_path / "cert")
    assert (unread.value.fault, unread.value.name) == ("no-scts", str(tmp_path / "cert"))
    with open(tmp_path / "head", "wb") as file, JobWriter(file) as job:
        job.header(1, made.MOMENT)
    (tmp_path / "page").write_text('{"entries": []}')
    gathered = program.gather(tmp_path / "head", KEY, tmp_path / "job", [tmp_path / "page"] * 2)
    assert gathered == engine.Gathered(2, 0, (tmp_path / "job").stat().st_size)
    merged = program.merge(tmp_path / "head", tmp_path / "merged", [tmp_path / "job", tmp_path / "head"])
    assert merged == engine.Merged(2, 0, (tmp_path / "merged").stat().st_size)
    divided = program.cut("identity", tmp_path / "merged", [tmp_path / "one", tmp_path / "two"])
    assert divided == engine.Divided(2, 0, (tmp_path / "merged").stat().st_size)
    (tmp_path / "page").write_text('{"entries": [7]}')
    with pytest.raises(engine.UnreadPage):
        program.gather(tmp_path / "head", KEY, tmp_path / "job", [tmp_path / "page"])


def test_names(program: Engine, tmp_path: Path) -> None:
    """Whatever a name is, the answer is a fault that names it, or the words are none."""
    for name in ("absent", "-a", "with blanks", "ümläut", "x" * 300):
        with pytest.raises(engine.ReadFailed) as failed:
            program.check(tmp_path / name)
        assert failed.value.name == str(tmp_path / name)
    for name in ("", "a\nb", "a\0b", "a\udcffb"):
        with pytest.raises(engine.WrongWords):
            program.check(name)


def script(folder: Path, text: str) -> Engine:
    """Another program."""
    (folder / "other").write_text(f"#!/bin/sh\n{text}\n")
    (folder / "other").chmod(stat.S_IRWXU)
    return Engine(str(folder / "other"))


def test_other_programs(tmp_path: Path, monkeypatch: pytest.MonkeyPatch) -> None:
    monkeypatch.setenv("PATH", f"{tmp_path}:{os.environ['PATH']}")
    script(tmp_path, "echo part delta epoch 1 ranges 2 issuers 3 bytes 4")
    assert Engine("other").check("part") == engine.PartFacts("delta", 1, 2, 3, 4)
    for name in ("no-such-program", str(tmp_path / "absent"), str(tmp_path), str(SHIPPED)):
        with pytest.raises(engine.ProgramMissing, match="name the program by its path"):
            Engine(name).check("part")
    for text in ("", "echo", "echo ok", "echo part more epoch 1 ranges 2 issuers 3 bytes 4", "echo why >&2; exit 1"):
        with pytest.raises(engine.UnknownAnswer):
            script(tmp_path, text).check("part")
    with pytest.raises(engine.UnknownAnswer, match="why"):
        script(tmp_path, "echo why >&2; exit 1").check("part")
    with pytest.raises(engine.ProgramKilled) as killed:
        script(tmp_path, "kill -9 $$").check("part")
    assert killed.value.signal == 9
