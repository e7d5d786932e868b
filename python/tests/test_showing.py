"""What an epoch shows: which entries are chosen, and that their records come into the job as they stand."""

import io
from collections.abc import Sequence
from pathlib import Path

import pytest
from hypothesis import given, settings
from hypothesis import strategies as some

from clubcard.jobs import JobWriter
from clubcard.publish.showing import Run, Showing
from clubcard.publish.state import StateError
from spooled import T, Seen, Spooled, at, key_of, log_of


def entries(count: int, log: int = 0, issuers: int = 2, hour: float = 0.0) -> list[Seen]:
    """So many entries of a log, of several issuers in turn."""
    return [Seen(log, at(hour) + place, place % issuers, bytes([1 + log, place])) for place in range(count)]


def showing_of(world: Spooled, low: int, high: int, issuers: Sequence[int]) -> Showing:
    """What is shown where each log is covered so, and these issuers are enrolled."""
    showing = Showing(world.state, 1, 0)
    showing.cover({number: (low, high) for (number,) in world.state.db.execute("SELECT id FROM log").fetchall()})
    showing.enrol([world.state.issuer_id(key_of(issuer)) for issuer in issuers])
    return showing


def shown_records(showing: Showing, file: Path, low: int = 0, high: int = 2**63 - 1) -> bytes:
    """The records that come into a job's file."""
    with open(file, "wb", buffering=100) as target, JobWriter(target) as job:
        job.header(1, T)
        showing.copy(job, low, high)
    octets = file.read_bytes()
    assert octets[-1:] == b"\0" and job.size == len(octets)
    return octets[24:-1]


def test_what_is_chosen(tmp_path: Path) -> None:
    """What is covered, waits and has an issuer that is enrolled; each once, in the order of the spool."""
    world = Spooled.of(tmp_path, (0, 1, 2), (0, 1))
    first, other = entries(9, 0, 3), entries(9, 1, 3)
    world.write(first)
    world.write(other)
    showing = showing_of(world, at(0) + 2, at(0) + 6, [0, 2])
    chosen = [each for each in first + other if 2 <= each.time - at(0) <= 6 and each.issuer != 1]
    assert showing.count() == showing.select() == len(chosen) == 8
    numbers = {each: world.state.issuer_id(key_of(each)) for each in range(3)}
    assert showing.sizes() == {numbers[0]: 4, numbers[2]: 4}
    assert showing.fresh(None) == {"whole": 8}
    assert shown_records(showing, tmp_path / "job") == b"".join(each.record for each in chosen)
    assert shown_records(showing, tmp_path / "part", showing.at(1), showing.at(3)) == b"".join(
        each.record for each in chosen[1:4]
    )


def test_what_is_put_aside_isnt_chosen(tmp_path: Path) -> None:
    world = Spooled.of(tmp_path)
    world.write(entries(6, issuers=1))
    showing = showing_of(world, 0, at(1), [0])
    assert showing.select() == 6
    showing.put_aside(showing.at(2), showing.at(3))
    assert showing.count() == showing.select() == 4
    assert shown_records(showing, tmp_path / "job") == b"".join(
        each.record for place, each in enumerate(entries(6, issuers=1)) if place not in (2, 3)
    )


def test_runs_are_as_long_as_they_can_be(tmp_path: Path) -> None:
    world = Spooled.of(tmp_path, (0, 1))
    some_entries = entries(10)
    world.write(some_entries[:6])
    world.write(some_entries[6:])
    both, one = showing_of(world, 0, at(1), [0, 1]), showing_of(world, 0, at(1), [0, 1])
    both.select()
    lengths = [len(each.record) for each in some_entries]
    assert list(both.runs(0, 99)) == [Run(1, 0, sum(lengths[:6])), Run(2, 0, sum(lengths[6:]))]
    one.enrol([world.state.issuer_id(key_of(1))])
    one.select()
    assert len(list(one.runs(0, 99))) == 5


def test_a_segment_that_is_cut(tmp_path: Path) -> None:
    world = Spooled.of(tmp_path)
    world.write(entries(6, issuers=1))
    (segment,) = (world.state.folder / "spool").iterdir()
    segment.write_bytes(segment.read_bytes()[:-1])
    showing = showing_of(world, 0, at(1), [0])
    showing.select()
    with pytest.raises(StateError, match="segment 1 of the spool is shorter than its entries say"):
        shown_records(showing, tmp_path / "job")


@settings(max_examples=30, deadline=None)
@given(some.lists(some.integers(0, 150_000), max_size=12), some.data())
def test_copying(tmp_path_factory: pytest.TempPathFactory, lengths: list[int], data: some.DataObject) -> None:
    """Whatever runs of a file are copied, by pieces or by the system, they come one behind another."""
    folder = tmp_path_factory.mktemp("copying")
    octets = bytes(place * 7 % 251 for place in range(sum(lengths)))
    (folder / "source").write_bytes(octets)
    taken = [data.draw(some.booleans()) for _ in lengths]
    wanted, at_ = [], 0
    with open(folder / "source", "rb") as source, open(folder / "job", "wb", buffering=1000) as file, JobWriter(
        file
    ) as job:
        job.header(1, T)
        for length, is_taken in zip(lengths, taken):
            if is_taken:
                job.copy(source.fileno(), at_, at_ + length)
                wanted.append(octets[at_ : at_ + length])
            at_ += length
    assert (folder / "job").read_bytes()[24:] == b"".join(wanted) + b"\0"


def test_copying_into_what_isnt_a_file(tmp_path: Path) -> None:
    """Where the system can't copy, pieces are written."""
    (tmp_path / "source").write_bytes(bytes(200_000))
    target = io.BytesIO()
    with open(tmp_path / "source", "rb") as source, JobWriter(target) as job:
        job.header(1, T)
        job.copy(source.fileno(), 1, 200_000)
        with pytest.raises(EOFError):
            job.copy(source.fileno(), 1, 200_001)
    assert target.getvalue()[24:] == bytes(2 * 199_999 + 1)


def test_what_expired_isnt_shown(tmp_path: Path) -> None:
    world = Spooled.of(tmp_path)
    world.write(
        [Seen(0, at(0), 0, bytes([serial]), until) for serial, until in ((1, T // 1000), (2, None), (3, T // 1000 - 1))]
    )
    showing = Showing(world.state, 1, T)
    showing.cover({1: (0, at(1))})
    showing.enrol([world.state.issuer_id(key_of(0))])
    assert showing.select() == 2
    assert log_of(0) in shown_records(showing, tmp_path / "job")
