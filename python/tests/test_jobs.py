"""Jobs, against those that the second program of tools/ makes."""

import io
from collections.abc import Callable
from pathlib import Path
from typing import Any

import pytest
from hypothesis import given, settings
from hypothesis import strategies as st

import made
from clubcard.jobs import MOST_RANGES, JobWriter, entry_record

REFERENCE = made.second_program("reference")
NUMBERS = st.integers(0, (1 << 64) - 1)
KEYS = st.binary(min_size=32, max_size=32)
RANGES = st.dictionaries(KEYS, st.tuples(NUMBERS, NUMBERS).map(lambda pair: sorted(pair)), max_size=4)
CRLS = st.lists(st.tuples(KEYS, st.binary(max_size=70000)), max_size=3)
ENTRIES = st.lists(st.tuples(KEYS, st.binary(max_size=300), st.binary(max_size=300)), max_size=4)


KEY, OTHER = b"\x01" * 32, b"\x03" * 32


class Bytes:
    """A CRL of the second program that is made of bytes alone."""

    def __init__(self, octets: bytes) -> None:
        self.bytes = octets


@settings(max_examples=100, deadline=None)
@given(NUMBERS, NUMBERS, RANGES, CRLS, ENTRIES)
def test_as_the_second_program_writes_it(
    epoch: int,
    moment: int,
    ranges: dict[bytes, list[int]],
    crls: list[tuple[bytes, bytes]],
    entries: list[tuple[bytes, bytes, bytes]],
) -> None:
    listed = [(log, low, high) for log, (low, high) in sorted(ranges.items())]
    shown = [REFERENCE.Entry(None, None, log, 0, leaf, extra) for log, leaf, extra in entries]
    expected = REFERENCE.Job(epoch, moment, listed, [(issuer, Bytes(octets)) for issuer, octets in crls], shown)
    file = io.BytesIO()
    with JobWriter(file) as job:
        job.header(epoch, moment)
        for log, low, high in listed:
            job.range(log, low, high)
        for issuer, octets in crls:
            job.crl(issuer, octets)
        for log, leaf, extra in entries[:2]:
            job.entry(log, leaf, extra)
        job.raw(b"".join(entry_record(*entry) for entry in entries[2:]))
    assert file.getvalue() == expected.bytes()
    assert job.size == len(file.getvalue())


@pytest.mark.parametrize("sizes", [[0], [5], [300], [70000, 10, 1 << 18], [1 << 21]])
def test_copied_records(tmp_path: Path, sizes: list[int]) -> None:
    """Records that are copied from a file stand among others as they would by `raw`."""
    records = b"".join(entry_record(KEY, bytes(size % (1 << 20)), b"x" * (size >> 1)) for size in sizes)
    (tmp_path / "segment").write_bytes(b"before" + records + b"behind")
    with open(tmp_path / "segment", "rb") as segment, open(tmp_path / "job", "wb") as file, JobWriter(file) as job:
        job.header(1, 2)
        job.entry(OTHER, b"first", b"")
        job.copy(segment.fileno(), 6, 6 + len(records))
        job.entry(OTHER, b"last", b"")
        with pytest.raises(EOFError):
            job.copy(segment.fileno(), 12 + len(records), 13 + len(records))
    expected = io.BytesIO()
    with JobWriter(expected) as job:
        job.header(1, 2)
        job.raw(entry_record(OTHER, b"first", b"") + records + entry_record(OTHER, b"last", b""))
    assert (tmp_path / "job").read_bytes() == expected.getvalue()


def begun() -> JobWriter:
    """A writer that has a header and a range."""
    job = JobWriter(io.BytesIO())
    job.header(1, 2)
    job.range(b"\x02" * 32, 5, 5)
    return job


Step = Callable[[JobWriter], Any]
# Steps behind a header and a range, of which the last is wrong.
WRONG: list[list[Step]] = [
    [lambda job: job.header(1, 2)],
    [lambda job: job.range(b"\x02" * 32, 5, 5)],
    [lambda job: job.range(KEY, 5, 5)],
    [lambda job: job.range(OTHER, 6, 5)],
    [lambda job: job.range(OTHER[1:], 5, 5)],
    [lambda job: job.range(OTHER, -1, 5)],
    [lambda job: job.range(OTHER, 5, 1 << 64)],
    [lambda job: job.crl(KEY + b"\x01", b"")],
    [lambda job: job.crl(KEY, bytes(67108865))],
    [lambda job: job.entry(b"", b"", b"")],
    [lambda job: job.entry(KEY, bytes(1 << 24), b"")],
    [lambda job: job.entry(KEY, b"", bytes(1 << 24))],
    [lambda job: job.entry(KEY, b"", b""), lambda job: job.crl(KEY, b"")],
    [lambda job: job.crl(KEY, b""), lambda job: job.range(OTHER, 5, 5)],
    [lambda job: job.end(), lambda job: job.entry(KEY, b"", b"")],
    [lambda job: job.end(), lambda job: job.end()],
]


@pytest.mark.parametrize("number", range(len(WRONG)))
def test_wrong_calls(number: int) -> None:
    job = begun()
    *before, last = WRONG[number]
    for step in before:
        step(job)
    with pytest.raises(ValueError):
        last(job)


def test_no_header() -> None:
    calls: list[Step] = [
        lambda job: job.end(),
        lambda job: job.raw(b""),
        lambda job: job.header(-1, 0),
    ]
    for call in calls:
        with pytest.raises(ValueError):
            call(JobWriter(io.BytesIO()))


def test_a_fault_leaves_the_job_without_an_end() -> None:
    file = io.BytesIO()
    with pytest.raises(KeyError):
        with JobWriter(file) as job:
            job.header(1, 2)
            raise KeyError
    assert len(file.getvalue()) == 24


def test_most_ranges() -> None:
    job = JobWriter(io.BytesIO())
    job.header(1, 2)
    for number in range(MOST_RANGES):
        job.range(number.to_bytes(32, "big") if number else bytes(31) + b"\0", 0, 0)
    with pytest.raises(ValueError):
        job.range(b"\xff" * 32, 0, 0)
