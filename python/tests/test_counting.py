"""What the program counts otherwise: entries that are set aside, and issuers that are left out."""

from dataclasses import replace
from pathlib import Path

import pytest

from clubcard.engine import Engine
from clubcard.publish import chain, rules
from clubcard.publish.epoch import NoEpoch
from clubcard.publish.issuers import Enrolment
from clubcard.publish.kept import KeptCrl
from clubcard.publish.publishing import MOST_TOLD
from spooled import Seen, Spooled, at, key_of, reference

ONE, TWO = b"\x01", b"\x02"


def garbled(world: Spooled, serials: list[bytes]) -> None:
    """Makes records unreadable, of entries that the state takes for read."""
    for serial in serials:
        query = "SELECT s.file, e.start, e.length FROM entry e JOIN segment s ON s.id = e.segment WHERE e.serial = ?"
        name, start, length = world.state.db.execute(query, (serial,)).fetchone()
        octets = bytearray(world.state.path(name).read_bytes())
        place = octets.index(b"\x02" + bytes([len(serial)]) + serial, start, start + length)
        octets[place] = 0x04
        world.state.path(name).write_bytes(octets)


@pytest.mark.parametrize("places", [[0], [49], [7, 8, 30], list(range(50))])
def test_entries_that_the_program_doesnt_read(tmp_path: Path, places: list[int]) -> None:
    world = Spooled.of(tmp_path, (0,), (0,))
    entries = [Seen(0, at(1) + place, 0, bytes([1, place])) for place in range(50)]
    world.write(entries)
    garbled(world, [bytes([1, place]) for place in places])
    row = world.epoch(4, {0: [bytes([1, 5])]}).row
    assert row.shown == 50 - len(places) and row.waiting == 0
    told = [f"log Log 0 index {place} serial 01{place:02x}" for place in places][:MOST_TOLD]
    told += [f"{len(places) - MOST_TOLD} more entries"] if len(places) > MOST_TOLD else []
    assert [alarm.text.split(":")[0] for alarm in row.alarms] == told and world.kinds() == {"count"}
    good = [entry for place, entry in enumerate(entries) if place not in places]
    assert world.ask(good) == ["revoked" if entry.serial[1] == 5 else "good" for entry in good]
    assert not world.epoch(8, {0: []}).row.alarms


def test_entries_whose_time_is_read_otherwise(tmp_path: Path) -> None:
    """Behind a chain, also those that the program takes for late and those that it takes for uncovered."""
    world = Spooled.of(tmp_path, (0, 1), (0,))
    world.epoch(4, {0: [], 1: []})
    entries = [Seen(0, at(5) + place, place % 2, bytes([1, place])) for place in range(9)]
    world.write([replace(entry, time=at(9) if entry.serial[1] == 3 else at(1)) for entry in entries[3:5]] + entries[5:])
    world.state.db.execute("UPDATE entry SET time = ?", (at(6),))
    row = world.epoch(8, {0: [], 1: []}).row
    assert row.shown == 4 and [alarm.text[:36] for alarm in row.alarms] == [
        "log Log 0 index 0 serial 0103: set a",
        "log Log 0 index 1 serial 0104: set a",
    ]
    assert world.ask(entries[5:]) == ["good"] * 4


def test_too_many_entries_that_the_program_counts_otherwise(tmp_path: Path, monkeypatch: pytest.MonkeyPatch) -> None:
    """Their issuers are left out of the epoch, and nobody else."""
    monkeypatch.setattr("clubcard.publish.publishing.MOST_RUNS", 3)
    world = Spooled.of(tmp_path, (0, 1), (0,))
    entries = [Seen(0, at(1) + place, place // 20, bytes([1, place])) for place in range(40)]
    world.write(entries)
    garbled(world, [bytes([1, place]) for place in range(0, 20, 2)])
    row = world.epoch(4, {0: [], 1: [bytes([1, 25])]}).row
    assert "Issuer 0" in row.alarms[-1].text and row.alarms[-1].kind == "count"
    assert [each.enrolled for each in row.issuers] == [False, True] and row.shown == 20
    assert world.ask(entries)[:20] == ["not-enrolled"] * 20 and world.ask(entries)[25] == "revoked"


def test_a_crl_that_the_program_refuses(tmp_path: Path) -> None:
    """Its issuer is left out, and the job written again."""
    world = Spooled.of(tmp_path, (0, 1, 2), (0,))
    entries = [Seen(0, at(1), issuer, ONE) for issuer in (0, 1, 2)]
    world.write(entries)
    whole = reference.Crl([ONE]).bytes
    crls: dict[bytes, tuple[KeptCrl, ...]] = {key_of(issuer): (world.crl(issuer, [ONE]),) for issuer in (0, 2)}
    crls[key_of(1)] = (world.crl(1, []), world.crl(1, [], 1, whole[:-1]))
    world.heads(at(4))
    row = world.made(at(4), Enrolment(dict(sorted(crls.items())), {})).row
    (alarm,) = row.alarms
    assert alarm.kind == "issuer" and "the program refuses its CRL http://crl/1/1: malformed" in alarm.text
    assert [each.enrolled for each in row.issuers] == [True, False, True]
    assert row.issuers[1].reason == "the program refuses its CRL http://crl/1/1: malformed"
    assert world.ask(entries) == ["revoked", "not-enrolled", "revoked"] and row.waiting == 1


@pytest.mark.parametrize("gone", [{0}, {3}, {1, 2}, {0, 1, 2, 3}])
def test_issuers_that_the_program_doesnt_enrol(tmp_path: Path, gone: set[int]) -> None:
    """CRLs that are out of date for it alone."""
    world = Spooled.of(tmp_path, (0, 1, 2, 3), (0,))
    entries = [Seen(0, at(1), issuer, ONE) for issuer in range(4)]
    world.write(entries)
    stale = reference.Crl([ONE], "before").bytes
    crls: dict[bytes, tuple[KeptCrl, ...]] = {}
    crls |= {key_of(each): (world.crl(each, [ONE], 0, stale if each in gone else None),) for each in range(4)}
    world.heads(at(4))
    row = world.made(at(4), Enrolment(crls, {})).row
    assert [not each.enrolled for each in row.issuers] == [each in gone for each in range(4)]
    assert len(row.alarms) == len(gone) and world.kinds() == {"issuer"} and row.waiting == len(gone)


def test_a_program_that_counts_at_random(tmp_path: Path) -> None:
    class Wrong(Engine):
        def snapshot(self, *words: object) -> object:  # type: ignore[override]
            return replace(super().snapshot(*words), accepted=7)  # type: ignore[arg-type]

    world = Spooled.of(tmp_path)
    world.engine = Wrong(world.engine.program)
    with pytest.raises(NoEpoch, match="the program's line isn't that of its job: accepted 7 of 0"):
        world.epoch(4, {0: []})
    assert not chain.history(world.state, 99)


def test_a_rule_that_is_left_out_is_seen(tmp_path: Path, monkeypatch: pytest.MonkeyPatch) -> None:
    """Entries that aren't covered are shown: the program's line tells them, and they are set aside."""
    monkeypatch.setattr(rules, "candidates", lambda: "SELECT e.id AS id, e.issuer AS issuer FROM entry e")
    world = Spooled.of(tmp_path)
    world.write([Seen(0, at(1), 0, ONE), Seen(0, at(6), 0, TWO)])
    row = world.epoch(4, {0: []}).row
    assert row.shown == 1 and world.kinds() == {"count"}
