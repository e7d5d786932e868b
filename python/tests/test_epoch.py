"""Epochs over a spool that is written by hand, by the real program: what they accept, and what they say of the rest."""

from pathlib import Path

import pytest

from clubcard.engine import Engine, PassedLimit
from clubcard.progress import Silent
from clubcard.publish import chain
from clubcard.publish.epoch import NoEpoch, made_before
from clubcard.publish.issuers import Enrolment
from clubcard.publish.kept import KeptCrl
from clubcard.publish.spool import named_log
from spooled import HOUR, MMD, T, Seen, Spooled, at, config_log, config_of, dumped, key_of, log_of

ONE, TWO, THREE = b"\x01", b"\x02", b"\x03"


def waiting(world: Spooled) -> int:
    return sum(each.count for each in chain.waiting(world.state))


def named_files(world: Spooled) -> set[Path]:
    """The files that rows name, of the spool and of chains."""
    columns = ("file FROM segment", "file FROM part", "job FROM part", "ledger FROM chain", "store FROM chain")
    rows = [name for each in columns for (name,) in world.state.db.execute(f"SELECT {each}").fetchall() if name]
    return {world.state.path(name) for name in rows}


def files(world: Spooled) -> set[Path]:
    return {path for folder in ("spool", "chain", "work") for path in (world.state.folder / folder).iterdir()}


# ---------- an epoch ----------
def test_two_epochs(tmp_path: Path) -> None:
    world = Spooled.of(tmp_path, (0, 1), (0, 1))
    first = [Seen(0, at(1), 0, ONE), Seen(1, at(1), 0, ONE), Seen(0, at(2), 1, TWO), Seen(0, at(3.5), 0, THREE)]
    world.write(first)
    row = world.epoch(4, {0: [ONE, THREE], 1: []}).row
    assert (row.epoch, row.generation, row.kind, row.parts, row.shown, row.waiting) == (1, 1, "snapshot", 1, 3, 1)
    assert (row.universe, row.revoked, row.late, row.alarms, row.rebased) == (2, 1, 0, (), False)
    assert world.ask(first) == ["revoked", "revoked", "good", "not-covered"]
    row = world.epoch(8, {0: [], 1: [TWO]}).row
    assert (row.epoch, row.kind, row.parts, row.shown, row.waiting) == (2, "delta", 2, 1, 0)
    assert world.ask(first) == ["revoked", "revoked", "revoked", "good"]
    assert files(world) == named_files(world)


def test_what_the_site_reads(tmp_path: Path) -> None:
    """The row is as CONFIG was then, and says of each issuer whether and when it was enrolled."""
    world = Spooled.of(tmp_path, (0, 1), (0,), next_key="a key")
    world.write([Seen(0, at(1), 0, ONE), Seen(0, at(1), 1, TWO), Seen(0, at(2), 7, TWO)])
    world.epoch(4, {0: [ONE], 1: []})
    world.epoch(8, {1: [TWO]})
    world.configure(name="another", issuers=(), next_key=None)
    release = chain.release(world.state)
    assert release is not None
    row = release.row
    assert (row.name, row.next_key, row.valid_until) == ("a chain", "a key", at(8) + 24 * HOUR)
    away, here = row.issuers
    assert (away.issuer, away.name, away.enrolled) == (key_of(0), "Issuer 0", False)
    assert (away.enrolled_at, away.reason, away.universe, away.revoked) == (at(4), "away", 1, 1)
    assert (here.enrolled, here.enrolled_at, here.reason, here.universe, here.revoked) == (True, at(8), None, 1, 1)
    assert row.coverage == (chain.Coverage(log_of(0), "Log 0", 0, at(7)),)
    assert [part.file.stat().st_size for part in release.parts] == [part.length for part in release.parts]
    assert chain.waiting(world.state) == [chain.Waiting(log_of(0), key_of(7), 1, at(2))]
    assert [each.epoch for each in chain.history(world.state, 99)] == [1, 2] and not chain.former(world.state)


def test_nothing_at_all(tmp_path: Path) -> None:
    """An epoch without logs, issuers and entries is one."""
    world = Spooled.of(tmp_path, (), ())
    assert world.make(at(4), {}).row.shown == 0
    assert world.make(at(8), {}).row.parts == 2


def test_the_same_moment_again(tmp_path: Path) -> None:
    world = Spooled.of(tmp_path, (0,), (0, 1))
    world.write([Seen(0, at(1), 0, ONE)])
    world.epoch(4, {0: []})
    world.write([Seen(0, at(1), 0, TWO)])
    made, told = world.epoch(8, {0: []}), world.alarms.raised
    before = dumped(world)
    again = world.make(at(8), {0: [ONE]})
    assert (again.row, again.again, again.status, world.alarms.raised) == (made.row, True, 10, told)
    words = (world.config, world.state, world.engine)
    assert made_before(*words, at(9), world.alarms, Silent()) is None
    with pytest.raises(NoEpoch, match="before the newest epoch's moment"):
        world.make(at(7), {0: []})
    assert dumped(world) == before


# ---------- what waits ----------
def test_an_issuer_that_is_away(tmp_path: Path) -> None:
    """What was covered meanwhile is shown once it is back; what it revoked before stays so."""
    world = Spooled.of(tmp_path, (0, 1), (0,))
    entries = [Seen(0, at(1), 0, ONE), Seen(0, at(5), 0, TWO), Seen(0, at(5), 1, TWO)]
    world.write(entries)
    world.epoch(4, {0: [ONE], 1: []})
    world.epoch(8, {1: []})
    assert waiting(world) == 1 and world.ask(entries) == ["revoked", "not-enrolled", "good"]
    world.epoch(12, {0: [TWO], 1: []})
    assert waiting(world) == 0 and world.ask(entries) == ["revoked", "revoked", "good"]


def test_an_issuer_that_config_names_later(tmp_path: Path) -> None:
    world = Spooled.of(tmp_path, (0,), (0,))
    entry = Seen(0, at(1), 1, ONE)
    world.write([entry])
    world.epoch(4, {0: []})
    world.config = config_of(tmp_path, (0, 1), (0,))
    world.epoch(8, {0: [], 1: [ONE]})
    assert world.ask([entry]) == ["revoked"]


def test_a_log_that_config_drops(tmp_path: Path) -> None:
    """Its range stands, and its entries that wait are shown in it."""
    world = Spooled.of(tmp_path, (0, 1), (0, 1))
    entries = [Seen(1, at(1), 0, ONE), Seen(1, at(2), 1, TWO)]
    world.write(entries)
    world.epoch(4, {0: []})
    world.config = config_of(tmp_path, (0, 1), (0,))
    world.head(1, at(8))
    row = world.epoch(8, {0: [], 1: [TWO]}).row
    assert {each.log: each.high for each in row.coverage} == {log_of(0): at(7), log_of(1): at(3)}
    assert row.shown == 1 and world.ask(entries) == ["good", "revoked"]


def test_each_timestamp_of_a_certificate(tmp_path: Path) -> None:
    """An entry of another log is shown, though its identity is there: a client may carry this timestamp alone."""
    world = Spooled.of(tmp_path, (0,), (0, 1))
    entries = [Seen(0, at(1), 0, ONE), Seen(1, at(1), 0, ONE)]
    world.write(entries[:1])
    world.head(0, at(4))
    world.make(at(4), {0: [ONE]})
    world.write(entries[1:])
    assert world.epoch(8, {0: []}).row.shown == 1
    assert world.ask(entries) == ["revoked", "revoked"]


def test_what_expired_is_forgotten(tmp_path: Path) -> None:
    """At the same moment at which a rebase prunes: a clock that is far ahead of the logs forgets nothing that lives."""
    world = Spooled.of(tmp_path, (0, 1), (0,), grace=2 * HOUR)
    over, lives = T // 1000 + 5 * 3600, T // 1000 + 20 * 3600
    world.write([Seen(0, at(1), 1, ONE, over), Seen(0, at(1), 1, TWO, lives), Seen(0, at(1), 1, THREE, None)])
    world.epoch(7, {0: []})
    assert waiting(world) == 3
    world.heads(at(7))
    assert world.make(at(1000), {0: []}).row.waiting == 3
    world.heads(at(7) + 1)
    assert world.make(at(1004), {0: []}).row.waiting == 2


def test_segments_go_when_nothing_needs_them(tmp_path: Path) -> None:
    world = Spooled.of(tmp_path, (0, 1), (0,))
    world.write([Seen(0, at(1), 1, bytes([place]), T // 1000 + 3600 * place) for place in range(1, 9)])
    world.write([Seen(0, at(1), 1, b"\x20", None)])
    world.epoch(8, {0: []})
    assert len(list((world.state.folder / "spool").iterdir())) == 2
    world.epoch(12, {0: []})
    assert len(list((world.state.folder / "spool").iterdir())) == 1
    assert files(world) == named_files(world)


def test_a_log_that_joins(tmp_path: Path) -> None:
    """It is covered from the beginning on."""
    world = Spooled.of(tmp_path, (0,), (0,))
    world.epoch(4, {0: []})
    world.config = config_of(tmp_path, (0,), (0, 1))
    named_log(world.state, config_log(1))
    entry = Seen(1, at(1), 0, ONE)
    world.write([entry])
    row = world.epoch(8, {0: [ONE]}).row
    assert [(each.low, each.high) for each in row.coverage] == [(0, at(8) - MMD)] * 2
    assert world.ask([entry]) == ["revoked"]


# ---------- faults ----------
@pytest.mark.parametrize("word", ["snapshot", "start", "audit"])
def test_a_program_that_fails(tmp_path: Path, monkeypatch: pytest.MonkeyPatch, word: str) -> None:
    """The state is as before, and the next run sweeps away what was written."""
    world = Spooled.of(tmp_path)
    world.write([Seen(0, at(1), 0, ONE)])
    before = dumped(world)
    with monkeypatch.context() as patched:
        patched.setattr(Engine, word, lambda *words: passed_limit() if word != "audit" else missing())
        with pytest.raises(NoEpoch):
            world.make(at(4), {0: []})
    assert dumped(world) == before
    world.state.sweep()
    assert files(world) == named_files(world)
    assert world.epoch(4, {0: []}).row.shown == 1


def missing() -> None:
    raise OSError(28, "No space left on device")


def test_a_crl_that_is_gone(tmp_path: Path) -> None:
    world = Spooled.of(tmp_path)
    kept: KeptCrl = world.crl(0, [])
    kept.file.unlink()
    with pytest.raises(NoEpoch, match="No such file"):
        world.made(at(4), Enrolment({key_of(0): (kept,)}, {}))


def passed_limit() -> None:
    raise PassedLimit("audit", "limit entries 4194304 job")
