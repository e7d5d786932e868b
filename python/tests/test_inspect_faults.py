"""Fields that are wrong: small files whose bytes are changed one by one, also with the digests behind them made again,
and cut at each length; against the second program of tools/ and the program itself."""

import hashlib
import re
from collections.abc import Callable
from pathlib import Path

import pytest
from hypothesis import HealthCheck, given, settings
from hypothesis import strategies as some

import inspected
import made
from clubcard.ctl.inspecting import report_of
from clubcard.layout import kinds
from clubcard.layout.store import parts_of
from test_inspect_scenarios import found_line, line_of

FORMATS = (made.TOP / "docs" / "FORMATS.md").read_text(encoding="utf-8")
KINDS: list[kinds.FileKind] = ["part", "store", "ledger", "job", "queries", "device"]
TITLES = {"part": "Part", "store": "Store", "ledger": "Ledger", "job": "Job", "queries": "Query file"}
ROW = re.compile(r"^\| (?:[^|`]*[:,] )?((?:`[a-z]+\.[a-z_]+`(?:, )?)+|`end`) \|([^|]*)\|([^|]*)\|$", re.MULTILINE)
DEVICE_FIELDS = {"device.magic", "device.version", "device.capacity", "device.slot0.length"}


@pytest.fixture(name="files", scope="module")
def fixture_files() -> dict[kinds.FileKind, list[bytes]]:
    """Small files of each kind, which have all fields together."""
    store = small_store()
    return {
        "part": [inspected.shard_part().bytes, store[10:179]],
        "store": [store],
        "ledger": [small_ledger(2), small_ledger(1)],
        "job": [small_job(False), small_job(True)],
        "queries": [inspected.reference.queries_bytes(inspected.QUERIES)],
        "device": [small_device(store, 1), small_device(store, 0)],
    }


def small_store() -> bytes:
    """A store of a snapshot and a delta."""
    reference = inspected.reference
    spans = [(made.LOG, 5, 9), (inspected.OTHER_LOG, 0, 0)]
    first = reference.Part(0, 1, bytes(32), spans[:1], [(inspected.ELM, "all")])
    octets: bytes = reference.store([first, reference.Part(1, 2, first.trailer, spans, [(inspected.OAK, "none")])])
    return octets


def small_job(cut: bool) -> bytes:
    """A job of two ranges, two CRLs of which the second one may be cut, and two entries."""
    reference = inspected.reference
    shown = reference.Entry(inspected.ELM, b"\x05", made.LOG, 7, until=9)
    unread = reference.Entry(None, None, made.LOG, 0, leaf=b"leaf", extra=b"extra")
    spans = [(made.LOG, 5, 9), (inspected.OTHER_LOG, 0, 0)]
    crls = [(inspected.ELM, reference.Crl([b"\x05"])), (inspected.OAK, reference.Crl([], cut=cut))]
    octets: bytes = reference.Job(7, made.MOMENT, spans, crls, [shown, unread]).bytes()
    return octets


def small_ledger(version: int) -> bytes:
    """A ledger of two parts, whose identities have dates in version 2."""
    reference = inspected.reference
    spans = [(made.LOG, 5, 9), (inspected.OTHER_LOG, 0, 0)]
    parts = [
        reference.LedgerPart(1, b"\x07" * 32, spans, [inspected.ELM]),
        reference.LedgerPart(3, b"\x08" * 32, [(made.LOG, 4, 9), spans[1]], [inspected.ELM, inspected.OAK]),
    ]
    dates = [5, None, -7, 5] if version == 2 else [None] * 4
    items = [
        reference.LedgerItem((inspected.ELM, 1, b"\x05"), 0, 1, dates[0]),
        reference.LedgerItem((inspected.ELM, 1, b"\x07"), 0, 0, dates[3]),
        reference.LedgerItem((inspected.ELM, 2, b"\x00\x80"), 1, None, dates[1]),
        reference.LedgerItem((inspected.OAK, 1, b"\x05"), 1, 1, dates[2]),
    ]
    octets: bytes = reference.Ledger(parts, items).written(version)
    return octets


def small_device(store: bytes, picked: int) -> bytes:
    """A device whose capacity is just that of a store, which is in this slot alone."""
    head = bytes([picked]) + b"CLUBSLOT\x01" + len(store).to_bytes(8, "big")
    slot = len(store).to_bytes(8, "big") + store
    return head.ljust(4096, b"\0") + (bytes(len(slot)) + slot if picked else slot)


def sha(octets: bytes) -> bytes:
    return hashlib.sha256(octets).digest()


def sealed(kind: kinds.FileKind, data: bytes, place: int, made_of: bytes) -> bytes:
    """A changed file, with the digest behind the change made again."""
    if kind in ("part", "ledger"):
        return data[:-32] + sha(data[:-32])
    start = {"store": 0, "device": made_of.find(b"CLUBSTOR")}.get(kind, -1)
    if start >= 0:
        for part in parts_of(made_of[start:]):
            first, end = start + part.offset, start + part.offset + part.length
            if first <= place < end - 32:
                return data[: end - 32] + sha(data[first : end - 32]) + data[end:]
    return data


def places_of(kind: kinds.FileKind, data: bytes) -> list[int]:
    """Where the bytes of a file are changed: all but those of a device that nothing reads."""
    if kind != "device":
        return list(range(len(data)))
    start = data.find(b"CLUBSTOR")
    return [*range(20), *range(start - 8, len(data), 1 if data[0] else 7)]


def with_byte(data: bytes, place: int, value: int) -> bytes:
    return data[:place] + bytes([value]) + data[place + 1 :]


def fields_of(kind: str, has_test: bool) -> set[str]:
    """The fields of a layout by docs/FORMATS.md: those with a test, or those that have bytes."""
    section = FORMATS.split(f"\n## {TITLES[kind]}\n")[1].split("\n## ")[0]
    found = {"end"} if has_test else set[str]()
    # A row of several fields says of all of them what is tested of some.
    untested = {"range.from"} if has_test else set[str]()
    for names, width, test in ROW.findall(section):
        told = "" if test.startswith(" milliseconds") or "two's complement" in test else test.strip()
        is_wanted = bool(told) if has_test else width.strip() not in ("", "0")
        found |= set(re.findall(r"`([a-z_.]+)`", names)) if is_wanted else set()
    return found - untested


def test_fields_of_the_docs() -> None:
    assert fields_of("store", True) == {"store.magic", "store.version", "store.count", "end"}
    assert {"range.log", "block.k", "exact.plane", "part.sharded", "part.trailer"} <= fields_of("part", True)
    assert "part.sharded" not in fields_of("part", False) and "approx.seed" in fields_of("part", False)


@pytest.mark.parametrize("kind", KINDS)
def test_each_byte_changed(kind: kinds.FileKind, files: dict[kinds.FileKind, list[bytes]]) -> None:
    """The field that the second program names is wrong, and no other. Each field with a test is so once."""
    seen = set()
    for data in files[kind]:
        for place in places_of(kind, data):
            for value in {data[place] ^ 1, data[place] ^ 0x80, 255, (data[place] + 1) % 256} - {data[place]}:
                changed = with_byte(data, place, value)
                for each in {changed, sealed(kind, changed, place, data)}:
                    assert found_line(kind, each) == line_of(kind, each), (place, value)
                    fault = kinds.read(each, kind).fault
                    seen |= {fault.field} if fault is not None else set()
        longer = data + b"\0"
        assert found_line(kind, longer) == line_of(kind, longer)
        seen |= {fault.field for fault in [kinds.read(longer, kind).fault] if fault is not None}
    wanted = DEVICE_FIELDS if kind == "device" else fields_of(kind, True)
    assert wanted <= seen, wanted - seen


@pytest.mark.parametrize("kind", KINDS)
def test_each_length(kind: kinds.FileKind, files: dict[kinds.FileKind, list[bytes]]) -> None:
    """Each cut is short at the field that is open, and each field is so once."""
    seen = set()
    for data in files[kind]:
        for length in range(len(data)):
            if kind == "device" and 24 < length < 4090:
                continue
            cut = data[:length]
            assert found_line(kind, cut) == line_of(kind, cut), length
            fault = kinds.read(cut, kind).fault
            assert fault is not None and cut[fault.at : fault.at + fault.width].startswith(fault.octets)
            seen |= {fault.field} if fault.why == "short" else set()
            if length < 8:
                assert kinds.read(cut).kind is None
    wanted = {"device.gate", *DEVICE_FIELDS} if kind == "device" else fields_of(kind, False)
    assert wanted <= seen, wanted - seen


def as_the_program(name: Path, kind: kinds.FileKind) -> None:
    """The program refuses a file just where a field is wrong, and for it; and else a job for a CRL."""
    report, why = report_of(str(name), kind, {}, made.PROGRAM), ""
    if kind == "job" and report["fault"] is None:
        why = line_of_crls(name.read_bytes())
    assert not report["differs"], report
    assert report["program"]["accepts"] is (report["fault"] is None and not why), report
    assert report["whole"] is report["program"]["accepts"]
    assert not why or report["program"]["line"] == why


@settings(
    max_examples=100,
    deadline=None,
    suppress_health_check=[HealthCheck.function_scoped_fixture, HealthCheck.too_slow],
    database=None,
)
@given(some.data())
def test_as_the_program(files: dict[kinds.FileKind, list[bytes]], tmp_path: Path, data: some.DataObject) -> None:
    """One byte is changed, or the file is cut; digests may be made again."""
    kind = data.draw(some.sampled_from(KINDS))
    whole = data.draw(some.sampled_from(files[kind]))
    place = data.draw(some.integers(0, len(whole) - 1) | some.integers(0, min(len(whole) - 1, 80)))
    changed = with_byte(whole, place, data.draw(some.integers(0, 255)))
    how: Callable[[], bytes] = data.draw(
        some.sampled_from(
            [lambda: changed, lambda: sealed(kind, changed, place, whole), lambda: whole[:place], lambda: whole + b"\0"]
        )
    )
    (tmp_path / "file").write_bytes(how())
    as_the_program(tmp_path / "file", kind)


def line_of_crls(job: bytes) -> str:
    """What the second program says of the first CRL that isn't accepted, of a job whose layout is right."""
    crls = made.second_program("scenario_readers").read_job(job).crls
    return next((f"crl {place} {crl.fault}" for place, (_, crl) in enumerate(crls) if crl.fault), "")
