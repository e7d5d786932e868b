"""What fits into a job and into the ledger: whom an epoch leaves out, and where it is cut."""

from pathlib import Path

import pytest

from clubcard.engine import Engine, PassedLimit
from clubcard.publish import chain
from clubcard.publish.epoch import Limits
from clubcard.publish.issuers import Enrolment
from clubcard.publish.kept import KeptCrl
from clubcard.publish.spool import named_log
from spooled import LONG, T, Seen, Spooled, at, config_log, config_of, key_of, log_of

ONE, TWO = b"\x01", b"\x02"


def test_what_was_covered_doesnt_fit(tmp_path: Path) -> None:
    """An issuer that was away, and of whom more waits than a job takes, is left out; all others go on."""
    world = Spooled.of(tmp_path, (0, 1), (0,))
    world.limits = Limits(entries=4)
    world.write([Seen(0, at(1), 1, bytes([1, place])) for place in range(5)])
    world.epoch(4, {0: []})
    entry = Seen(0, at(5), 0, ONE)
    world.write([entry])
    row = world.epoch(8, {0: [], 1: []}).row
    (alarm,) = row.alarms
    assert alarm.kind == "room" and "5 of its entries wait in what is covered, and a job takes 4" in alarm.text
    assert (row.shown, row.issuers[1].enrolled, world.ask([entry])) == (1, False, ["good"])


def test_what_is_newly_covered_is_cut(tmp_path: Path) -> None:
    """One time for all logs; the next epochs go on from there."""
    world = Spooled.of(tmp_path, (0, 1), (0, 1))
    world.limits = Limits(entries=3)
    entries = [Seen(place % 2, at(1) + place, 0, bytes([1, place])) for place in range(8)]
    world.write(entries)
    rows = [world.epoch(4 + hour, {0: [b"\x01\x07"], 1: []}).row for hour in range(3)]
    assert [row.shown for row in rows] == [3, 3, 2]
    assert [each.high for each in rows[0].coverage] == [at(1) + 2] * 2
    assert [each.high for each in rows[1].coverage] == [at(1) + 5] * 2
    assert [[alarm.kind for alarm in row.alarms] for row in rows] == [["room"], ["room"], []]
    assert world.ask(entries) == ["good"] * 7 + ["revoked"]


def test_entries_of_one_time_that_dont_fit(tmp_path: Path) -> None:
    """They can't be parted: nothing is covered from that time on, and the rest stays as it is."""
    world = Spooled.of(tmp_path)
    world.limits = Limits(entries=2)
    world.write([Seen(0, at(1), 0, bytes([1, place])) for place in range(3)])
    row = world.epoch(4, {0: []}).row
    assert (row.shown, row.coverage[0].high) == (0, at(1) - 1) and world.kinds() == {"room"}


def test_more_serials_than_fit(tmp_path: Path) -> None:
    world = Spooled.of(tmp_path, (0, 1, 2), (0,))
    world.limits = Limits(serials=5)
    lists = {0: [bytes([1, place]) for place in range(3)], 1: [bytes([1, place]) for place in range(4)], 2: [ONE]}
    row = world.epoch(4, lists).row
    (alarm,) = row.alarms
    assert alarm.kind == "room" and "it has 4 serials in its CRLs, and a job takes 5" in alarm.text
    assert [each.enrolled for each in row.issuers] == [True, False, True]


def test_serials_that_the_program_counts(tmp_path: Path, monkeypatch: pytest.MonkeyPatch) -> None:
    """Where it counts more than the publisher, the longest CRLs are left out."""
    snapshot = Engine.snapshot
    full = iter([PassedLimit("snapshot", "limit serials 5 job")])

    def limited(*words: object) -> object:
        for fault in full:
            raise fault
        return snapshot(*words)  # type: ignore[arg-type]

    monkeypatch.setattr(Engine, "snapshot", limited)
    world = Spooled.of(tmp_path, (0, 1), (0,))
    row = world.epoch(4, {0: [ONE], 1: [ONE, TWO]}).row
    assert [each.enrolled for each in row.issuers] == [True, False] and world.kinds() == {"issuer"}


def test_a_full_ledger(tmp_path: Path) -> None:
    """Coverage goes on only as far as identities fit, and what is published is right; the alarm has the remedy."""
    world = Spooled.of(tmp_path)
    world.limits = Limits(identities=3)
    entries = [Seen(0, at(1) + place, 0, bytes([1, place])) for place in range(5)]
    world.write(entries)
    row = world.epoch(4, {0: [b"\x01\x02"]}).row
    (alarm,) = row.alarms
    assert row.shown == 3 and alarm.kind == "room" and "run `clubcard-publish split " in alarm.text
    row = world.epoch(8, {0: [b"\x01\x00"]}).row
    assert row.shown == 0 and world.kinds() == {"room"}
    assert world.ask(entries) == ["revoked", "good", "revoked", "not-covered", "not-covered"]


@pytest.mark.parametrize("held", [6, 7])
def test_a_chain_that_is_to_be_split(tmp_path: Path, held: int) -> None:
    """It is told once it holds more than two thirds of what it takes, by the same words in each epoch."""
    world = Spooled.of(tmp_path)
    world.limits = Limits(identities=9)
    world.write([Seen(0, at(1), 0, bytes([1, place])) for place in range(held)])
    assert world.epoch(4, {0: []}).row.alarms == ()
    rows = [world.epoch(hours, {0: []}).row for hours in (8, 12)]
    assert rows[0].alarms == rows[1].alarms and [alarm.kind for alarm in rows[0].alarms] == ["room"] * (held - 6)
    for alarm in rows[0].alarms:
        assert alarm.text.startswith("the ledger holds more than two thirds of the 9 identities that it takes")
        assert alarm.text.endswith(f"run `clubcard-publish split {world.config.path}`")


def test_a_full_ledger_begins_anew(tmp_path: Path) -> None:
    """Where that prunes enough, before the epoch."""
    world = Spooled.of(tmp_path)
    world.limits = Limits(identities=3)
    short = T // 1000 + 5 * 3600
    world.write([Seen(0, at(1) + place, 0, bytes([1, place]), short if place < 2 else LONG) for place in range(3)])
    world.epoch(4, {0: [b"\x01\x02"]})
    later = [Seen(0, at(6), 0, bytes([2, place])) for place in range(2)]
    world.write(later)
    row = world.epoch(8, {0: []}).row
    assert (row.generation, row.parts, row.kind, row.shown, row.universe, row.alarms) == (2, 2, "delta", 2, 3, ())
    before, _ = chain.history(world.state, 99)
    assert (before.generation, before.rebased, before.kind, before.universe) == (2, True, "snapshot", 1)
    assert world.ask([Seen(0, at(1) + 2, 0, b"\x01\x02"), *later]) == ["revoked", "good", "good"]


@pytest.mark.parametrize(("over", "rebased"), [(1, False), (2, True)])
def test_a_full_ledger_begins_anew_where_that_is_worth_it(tmp_path: Path, over: int, rebased: bool) -> None:
    """Where it prunes a sixteenth of what a ledger takes; what doesn't fit all the same is told."""
    world = Spooled.of(tmp_path)
    world.limits = Limits(identities=32)
    short = T // 1000 + 5 * 3600
    world.write([Seen(0, at(1), 0, bytes([1, place]), short if place < over else LONG) for place in range(32)])
    world.epoch(4, {0: []})
    world.write([Seen(0, at(6) + place, 0, bytes([2, place])) for place in range(5)])
    row = world.epoch(8, {0: []}).row
    assert (row.generation == 2, row.shown) == (rebased, over if rebased else 0) and world.kinds() == {"room"}


def test_more_crls_than_fit(tmp_path: Path) -> None:
    world = Spooled.of(tmp_path, (0, 1, 2), (0,))
    world.limits = Limits(crls=3)
    crls: dict[bytes, tuple[KeptCrl, ...]] = {key_of(issuer): (world.crl(issuer, []),) for issuer in (0, 2)}
    crls[key_of(1)] = (world.crl(1, []), world.crl(1, [ONE], 1))
    row = world.made(at(4), Enrolment(crls, {})).row
    assert [each.enrolled for each in row.issuers] == [True, False, True] and world.kinds() == {"room"}
    assert row.issuers[1].reason == "it has 2 CRLs, and a job takes 3"


def test_more_logs_than_fit(tmp_path: Path) -> None:
    """Also those that CONFIG named once: what is covered stays so."""
    world = Spooled.of(tmp_path, (0,), (0, 1))
    world.limits = Limits(ranges=2)
    world.epoch(4, {0: []})
    world.config = config_of(tmp_path, (0,), (1, 2))
    named_log(world.state, config_log(2))
    entries = [Seen(1, at(5), 0, ONE), Seen(2, at(5), 0, TWO)]
    world.write(entries)
    row = world.epoch(8, {0: [ONE]}).row
    assert [each.log for each in row.coverage] == [log_of(1), log_of(0)] and world.kinds() == {"room"}
    assert (row.shown, world.ask(entries)) == (1, ["revoked", "not-covered"])
