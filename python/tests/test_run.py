"""Whole runs: the lock, the clock, disks that are full or can't be read, and what is said of each."""

import base64
import contextlib
import errno
import fcntl
import os
import sqlite3
import sys
from collections.abc import Callable, Iterator
from pathlib import Path
from typing import Any

import pytest
from cryptography.hazmat.primitives.asymmetric import ec
from cryptography.hazmat.primitives.serialization import Encoding, PublicFormat

from clubcard.engine import Engine, WriteFailed
from clubcard.http import FetchError
from clubcard.lock import locked
from clubcard.publish import run as running
from clubcard.publish import state as states
from clubcard.publish.alarms import Alarms
from clubcard.publish.run import Outcome, fetch, told
from clubcard.publish.site import publish_site
from clubcard.publish.state import State
from clubcard.publish.status import gather, lines, to_json

from desk import HOUR, NOW, URL, Publisher, made_crl, resigned, utc, year

LOG = """
[[log]]
name = "Silent log"
url = "http://log.example/"
key = "{}"
"""
FORM = PublicFormat.SubjectPublicKeyInfo
KEY = ec.generate_private_key(ec.SECP256R1()).public_key()


@pytest.fixture
def desk(tmp_path: Path, plain_charts: None) -> Publisher:
    """A publisher that has made nothing yet."""
    return Publisher(tmp_path)


def is_as_before(desk: Publisher, before: dict[str, bytes]) -> bool:
    """Whether clients see what they saw: the manifest, the signature under its digest, and the parts."""
    now = desk.site()
    seen = ("manifest.json", *(name for name in before if name.startswith(("manifest-", "parts"))))
    return all(now[name] == before[name] for name in seen)


def test_published(desk: Publisher) -> None:
    outcome = desk.run()
    assert (outcome.status, outcome.alarms, outcome.why) == (0, (), None)
    assert outcome.row is not None and (outcome.row.epoch, outcome.row.moment) == (1, NOW)
    assert {"manifest.json", "manifest.json.minisig", "index.html", "metrics.prom"} <= set(desk.site())


def test_same_moment_again(desk: Publisher) -> None:
    desk.run()
    before = desk.site()
    desk.web.asked.clear()
    outcome = desk.run()
    assert outcome.status == 0 and outcome.row is not None and outcome.row.epoch == 1
    assert desk.site() == before and not desk.web.asked


def test_same_moment_with_alarms(desk: Publisher) -> None:
    desk.web.pages.clear()
    first, again = desk.run(), desk.run()
    assert (first.status, again.status) == (10, 10)
    assert again.alarms == first.alarms


def test_site_is_made_again(desk: Publisher) -> None:
    desk.run()
    before = desk.site()
    for name in before:
        (desk.folder / "site" / name).unlink()
    assert desk.run().status == 0
    assert desk.site() == before


def test_clock_goes_back(desk: Publisher) -> None:
    desk.run()
    before = desk.site()
    desk.web.asked.clear()
    outcome = desk.run(NOW - 1)
    assert outcome.status == 3 and "before the newest epoch" in (outcome.why or "")
    assert desk.site() == before and not desk.web.asked


def test_left_out(desk: Publisher, capsys: pytest.CaptureFixture[str]) -> None:
    desk.web.pages[URL] = FetchError("status 404", 404)
    outcome = desk.run()
    assert outcome.status == 10
    (alarm,) = outcome.alarms
    assert alarm.kind == "issuer" and '"Example CA" is left out' in alarm.text and URL in alarm.text
    assert capsys.readouterr().err == f"{alarm}\n"


def test_log_is_silent(desk: Publisher) -> None:
    desk.file.write_text(
        desk.file.read_text() + LOG.format(base64.b64encode(KEY.public_bytes(Encoding.DER, FORM)).decode())
    )
    outcome = desk.run()
    assert outcome.status == 10
    assert [alarm.kind for alarm in outcome.alarms] == ["log"]


def test_lock(desk: Publisher) -> None:
    desk.run()
    before = desk.site()
    with open(desk.folder / "state" / "lock", "a", encoding="ascii") as file:
        fcntl.flock(file, fcntl.LOCK_EX)
        outcome = desk.run(NOW + HOUR)
        assert outcome.status == 4 and "another run holds the lock" in (outcome.why or "")
        assert fetch(desk.config(), NOW + HOUR, desk.web).status == 4
        assert desk.site() == before
    assert desk.run(NOW + HOUR).status == 0


def test_lock_is_held_by_a_run(desk: Publisher) -> None:
    with locked(desk.folder / "state"):
        assert desk.run().status == 4
    assert desk.run().status == 0


def test_what_a_killed_run_left(desk: Publisher) -> None:
    desk.run()
    state = desk.folder / "state"
    left = [state / folder / "left" for folder in ("spool", "crls", "chain", "work")]
    for path in left:
        path.write_bytes(b"half")
    (state / "work" / "folder").mkdir()
    assert desk.run().status == 0
    assert not any(path.exists() for path in [*left, state / "work" / "folder"])


def test_fetch_makes_no_epoch(desk: Publisher) -> None:
    outcome = fetch(desk.config(), NOW, desk.web)
    assert (outcome.status, outcome.row) == (0, None)
    assert len(list((desk.folder / "state" / "crls").iterdir())) == 1
    assert not desk.site()
    desk.web.pages.clear()
    assert desk.run().status == 0


def test_fetch_tells_who_would_be_left_out(desk: Publisher) -> None:
    desk.web.pages.clear()
    assert [alarm.kind for alarm in fetch(desk.config(), NOW, desk.web).alarms] == ["issuer"]


def test_program_is_missing(desk: Publisher) -> None:
    desk.write(program="./none")
    outcome = desk.run()
    assert outcome.status == 3 and "none" in (outcome.why or "")
    desk.web.pages.clear()
    desk.write()
    assert desk.run().status == 0


@pytest.mark.parametrize("call", ["snapshot", "start", "audit"])
def test_program_finds_a_full_disk(desk: Publisher, monkeypatch: pytest.MonkeyPatch, call: str) -> None:
    def full(*_: object) -> None:
        raise WriteFailed(call, "write-fault /state/work/x")

    with monkeypatch.context() as patch:
        patch.setattr(Engine, call, full)
        outcome = desk.run()
    assert outcome.status == 3 and "write-fault" in (outcome.why or "") and "room" in (outcome.why or "")
    assert not desk.site()
    assert desk.run().status == 0


class Faults:
    """Lets the nth call of a function fail as the system does."""

    def __init__(self, call: Callable[..., Any], number: int, code: int) -> None:
        self.call, self.left, self.code = call, number, code

    def __call__(self, *words: Any, **more: Any) -> Any:
        self.left -= 1
        if self.left == 0:
            raise OSError(self.code, os.strerror(self.code), "/the/file")
        return self.call(*words, **more)


FULL, FAULTY, FORBIDDEN = errno.ENOSPC, errno.EIO, errno.EACCES
PLACES = [(number, FULL) for number in (1, 4, 5, 6, 9, 13, 14, 16, 22, 23)]


@pytest.mark.parametrize(("number", "code"), [*PLACES, (4, FAULTY), (7, FORBIDDEN)])
def test_syncing_fails(desk: Publisher, monkeypatch: pytest.MonkeyPatch, number: int, code: int) -> None:
    """Wherever in an epoch the disk is full, clients see the epoch before, and the next run makes it good."""
    desk.run()
    before = desk.site()
    desk.web.pages[URL] = made_crl(desk.authority, number=2, until=NOW + 1000 * HOUR, serials=[5, 7, 9])
    with monkeypatch.context() as patch:
        faults = Faults(os.fsync, number, code)
        patch.setattr(os, "fsync", faults)
        outcome = desk.run(NOW + HOUR)
    assert faults.left <= 0
    assert outcome.status == 3 and "/the/file" in (outcome.why or "")
    assert is_as_before(desk, before)
    assert desk.run(NOW + HOUR).status == 0
    whole = desk.site()
    assert desk.run(NOW + HOUR).status == 0
    assert desk.site() == whole


def test_full_database(desk: Publisher, monkeypatch: pytest.MonkeyPatch) -> None:
    desk.run()
    before = desk.site()
    desk.web.pages[URL] = made_crl(desk.authority, number=2, until=NOW + 1000 * HOUR)
    opened = State.open

    def small(folder: Path) -> State:
        state = opened(folder)
        state.db.execute("VACUUM")
        (pages,) = state.db.execute("PRAGMA page_count").fetchone()
        state.db.execute(f"PRAGMA max_page_count = {pages}")
        return state

    with monkeypatch.context() as patch:
        patch.setattr(states.State, "open", small)
        outcomes = (desk.run(NOW + number * HOUR) for number in range(1, 100))
        failed = next(outcome for outcome in outcomes if outcome.status != 0)
    assert failed.status == 3
    assert "disk is full" in (failed.why or "") and "disk" in (failed.why or "")
    assert set(before) <= set(desk.site())
    assert desk.run(NOW + 100 * HOUR).status == 0


@pytest.mark.parametrize("suffix", [".ledger", ".store"])
def test_file_of_the_chain_is_gone(desk: Publisher, suffix: str) -> None:
    desk.run()
    before = desk.site()["manifest.json"]
    for path in (desk.folder / "state" / "chain").glob(f"*{suffix}"):
        path.rename(path.with_suffix(".away"))
    outcome = desk.run(NOW + HOUR)
    assert outcome.status == 3 and suffix in (outcome.why or "")
    assert desk.site()["manifest.json"] == before


def test_database_is_none(desk: Publisher) -> None:
    desk.run()
    before = desk.site()
    (desk.folder / "state" / "state.sqlite").write_bytes(b"no database" * 1000)
    for name in ("state.sqlite-wal", "state.sqlite-shm"):
        (desk.folder / "state" / name).unlink(missing_ok=True)
    outcome = desk.run(NOW + HOUR)
    assert outcome.status == 3 and "not a database" in (outcome.why or "")
    assert desk.site() == before


def test_state_of_another_format(desk: Publisher) -> None:
    desk.run()
    state = State.open(desk.folder / "state")
    state.set_meta("format", "99")
    state.close()
    outcome = desk.run(NOW + HOUR)
    assert outcome.status == 3 and "format 99" in (outcome.why or "")


@pytest.mark.parametrize("name", ["state", "site"])
def test_folder_is_a_file(desk: Publisher, name: str) -> None:
    (desk.folder / name).write_text("x")
    outcome = desk.run()
    assert outcome.status == 3 and name in (outcome.why or "")


def test_site_fails_behind_the_epoch(desk: Publisher, monkeypatch: pytest.MonkeyPatch) -> None:
    """The state is ahead of the site then, and the next run makes the site what the state says."""
    desk.run()
    before = desk.site()
    calls: Iterator[int] = iter(range(9))

    def second_fails(*words: Any) -> None:
        if next(calls):
            raise OSError(errno.ENOSPC, "No space left on device", "/site/x")
        publish_site(*words)

    with monkeypatch.context() as patch:
        patch.setattr(running, "publish_site", second_fails)
        outcome = desk.run(NOW + HOUR)
    assert outcome.status == 3 and "make room on this disk" in (outcome.why or "")
    assert desk.site() == before
    again: Outcome = desk.run(NOW + 2 * HOUR)
    assert again.row is not None and again.row.epoch == 3


@pytest.mark.parametrize(
    ("this", "following", "status"),
    [(0, None, 0), (None, 0, 10), (1, 9999, 0), (9999, None, 10), (0, 0, 10), (None, 9999, 0)],
)
def test_times_of_no_calendar(desk: Publisher, this: int | None, following: int | None, status: int) -> None:
    """A date that nobody would write stops no epoch, no report and no status."""
    octets = made_crl(desk.authority, until=NOW + 1000 * HOUR)
    if this is not None:
        octets = resigned(desk.authority, octets, utc(NOW - HOUR), year(this))
    if following is not None:
        octets = resigned(desk.authority, octets, utc(NOW + 1000 * HOUR), year(following))
    desk.web.pages[URL] = octets
    assert desk.run().status == status
    assert desk.run(NOW + HOUR).status == status
    with contextlib.closing(State.open(desk.folder / "state")) as state:
        found = gather(desk.config(), state, NOW)
    assert found.issuers[0].enrolled == (status == 0)
    assert "\n".join(lines(found)) and to_json(found)


def test_what_is_told() -> None:
    full = OSError(errno.ENOSPC, "No space left on device", "/a/b")
    assert told(full, Path("/s")) == "/a/b: No space left on device: make room on this disk; nothing is lost, run again"
    assert "/s: " in told(OSError(errno.EIO, "Input/output error"), Path("/s"))
    assert told(OSError("odd"), Path("/s")).startswith("/s: odd: look at")
    assert "close it" in told(sqlite3.OperationalError("database is locked"), Path("/s"))
    assert "damaged" in told(sqlite3.DatabaseError("database disk image is malformed"), Path("/s"))


def test_alarm_is_one_line(capsys: pytest.CaptureFixture[str]) -> None:
    alarms = Alarms()
    for _ in range(2):
        alarms.add("log", "a\nalarm log: b\x1b[0m\u2028ä" + "x" * 5000)
    told = capsys.readouterr().err
    assert told.startswith("alarm log: a\\nalarm log: b\\x1b[0m\\u2028ä") and len(told.splitlines()) == 1
    assert len(alarms.raised) == 1 and len(told) < 1100


def test_closed_standard_error_stops_nothing(desk: Publisher, monkeypatch: pytest.MonkeyPatch) -> None:
    desk.web.pages.clear()
    ours, theirs = os.pipe()
    os.close(ours)
    with open(theirs, "w", encoding="utf-8", buffering=1) as closed:
        monkeypatch.setattr(sys, "stderr", closed)
        assert desk.run().status == 10
        monkeypatch.undo()
        with contextlib.suppress(BrokenPipeError):
            closed.close()
