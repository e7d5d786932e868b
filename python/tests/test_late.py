"""Logs that break their word: entries that were merged behind the maximum merge delay, and those below a range."""

from pathlib import Path

from clubcard.publish import epoch
from spooled import Seen, Spooled, at

ONE, TWO = b"\x01", b"\x02"


def test_an_entry_that_its_log_merged_too_late(tmp_path: Path) -> None:
    """It isn't shown, is told once by itself, and counts in each epoch."""
    world = Spooled.of(tmp_path, (0,), (0,))
    entries = [Seen(0, at(1), 0, ONE), Seen(0, at(1), 0, TWO)]
    world.write(entries[:1])
    world.epoch(4, {0: [ONE]})
    world.write(entries[1:])
    row = world.epoch(8, {0: [ONE]}).row
    assert (row.shown, row.waiting, row.late) == (0, 1, 1)
    (alarm,) = row.alarms
    assert alarm.kind == "late" and alarm.text.startswith("log Log 0 index 1 serial 02 of Issuer 0 (")
    (alarm,) = world.epoch(12, {0: [ONE]}).row.alarms
    assert str(alarm) == "alarm late: 1 entries that an earlier epoch told are late still"


def test_a_late_entry_of_an_identity_that_is_known(tmp_path: Path) -> None:
    """Before its birth a part covers the timestamp: so it is late, also though another log's entry was accepted."""
    world = Spooled.of(tmp_path, (0,), (0, 1))
    entries = [Seen(0, at(5), 0, ONE), Seen(1, at(1), 0, ONE), Seen(0, at(1), 0, TWO), Seen(1, at(5), 0, TWO)]
    world.write(entries[2:3])
    world.epoch(4, {0: []})
    world.write(entries[:2] + entries[3:])
    row = world.epoch(8, {0: [ONE]}).row
    assert (row.shown, row.late) == (2, 1)
    assert world.ask(entries[:1] + entries[3:]) == ["revoked", "good"]
    row = world.epoch(12, {0: []}).row
    assert (row.shown, row.late) == (0, 1) and world.kinds() == {"late"}


def test_a_late_entry_that_isnt_late(tmp_path: Path) -> None:
    """No part with its issuer covers it yet: it is as good as any other."""
    world = Spooled.of(tmp_path, (0,), (0,))
    entries = [Seen(0, at(1), 0, ONE), Seen(0, at(1), 0, TWO)]
    world.write(entries[:1])
    world.epoch(4, {})
    world.write(entries[1:])
    row = world.epoch(8, {0: [ONE]}).row
    assert (row.shown, row.late, world.ask(entries)) == (2, 0, ["revoked", "good"])


def test_many_late_entries(tmp_path: Path) -> None:
    world = Spooled.of(tmp_path, (0,), (0,))
    world.epoch(4, {0: []})
    world.write([Seen(0, at(1), 0, bytes([1, place])) for place in range(epoch.MOST_TOLD + 5)])
    row = world.epoch(8, {0: []}).row
    assert len(row.alarms) == epoch.MOST_TOLD + 1 and row.alarms[-1].text.startswith("5 more entries")


def test_an_entry_below_the_range(tmp_path: Path) -> None:
    """A log of which the first entries aren't taken: what lies below waits for nothing, and is in nobody's way."""
    world = Spooled.of(tmp_path, (0,), (0,))
    world.state.db.execute("UPDATE log SET first = 1, bound = ?", (at(2),))
    entries = [Seen(0, at(1), 0, ONE), Seen(0, at(3), 0, TWO)]
    world.write(entries)
    row = world.epoch(8, {0: [TWO]}).row
    assert (row.coverage[0].low, row.shown, row.late) == (at(2) + 1, 1, 0)
    assert world.ask(entries) == ["not-covered", "revoked"]


def test_a_range_that_would_leave_a_gap(tmp_path: Path) -> None:
    """The standing one stays as it is, and each epoch says so."""
    world = Spooled.of(tmp_path, (0,), (0,))
    world.epoch(4, {0: []})
    world.state.db.execute("UPDATE log SET first = 1, bound = ?", (at(5),))
    for hour in (8, 12):
        row = world.epoch(hour, {0: []}).row
        assert (row.coverage[0].low, row.coverage[0].high) == (0, at(3))
        assert [str(alarm)[:55] for alarm in row.alarms] == ["alarm log: log Log 0: its coverage stands still, since "]
